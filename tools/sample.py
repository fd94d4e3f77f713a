#!/usr/bin/env python3
"""Writes samples/heating.manifest: a small plant that is accepted.

    python3 tools/sample.py

A heating loop: a mode switch, a PID controller with eight words of state and a delay with four before the valve. Two
inputs come from outside, the measured temperature and the set point; the valve's position goes out.
"""
import os

from manifests import *

ROOT = os.path.dirname(os.path.dirname(os.path.abspath(__file__)))


def heating():
    mode, pid, delay = block_key(b"mode"), block_key(b"pid"), block_key(b"delay")
    ins = {name: connector_key(key, IN, i) for name, key, i in
           (("set", mode, 0), ("target", pid, 0), ("measured", pid, 1), ("position", delay, 0))}
    outs = {name: connector_key(key, OUT, 0) for name, key in (("target", mode), ("position", pid), ("valve", delay))}
    real, states = value_type(REAL), value_type(ENUM, b"Plant.Mode")
    every = list(ins.values()) + list(outs.values())
    low, high = value(REAL, 0x4014 << 48), value(REAL, 0x403E << 48)  # 5 and 30
    return manifest(
        s2=[enum_class(b"Plant.Mode", [b"off", b"eco", b"comfort"])],
        s3=[
            block(mode, b"CDL.Reals.Switch", params=[(b"start", value(ENUM, b"Plant.Mode", 3))], inputs=[ins["set"]],
                  outputs=[outs["target"]]),
            block(pid, b"CDL.Reals.PID", (2, 8), [(b"Ti", value(REAL, 0x408C << 48)), (b"k", value(REAL, 0x3FE0 << 48))],
                  [ins["target"], ins["measured"]], [outs["position"]]),
            block(delay, b"CDL.Discrete.UnitDelay", (1, 4), inputs=[ins["position"]], outputs=[outs["valve"]]),
        ],
        s4=[connector(ins["set"], b"hall.set", real, 0, b"degC"), connector(ins["target"], b"pid.target", real, 1),
            connector(ins["measured"], b"hall.temperature", real, 2, b"degC", b"ThermodynamicTemperature"),
            connector(ins["position"], b"delay.in", real, 3), connector(outs["target"], b"mode.out", real, 4),
            connector(outs["position"], b"pid.out", real, 5), connector(outs["valve"], b"valve", real, 6)],
        s5=[pair(outs["target"], ins["target"]), pair(outs["position"], ins["position"])],
        s6=[(mode, []), (pid, []), (delay, [])],
        s7=[(k, []) for k in every],
        s8=[(ins["set"], ins["set"]), (ins["target"], outs["target"]), (ins["measured"], ins["measured"]),
            (ins["position"], outs["position"])] + [(k, k) for k in outs.values()],
        s9=[slot(pid, 0, 8), slot(delay, 8, 4)],
        s10=[(ins["set"], []), (ins["measured"], [])],
        s11=[(string(b"valve"), outs["valve"])],
        s12=[definition(b"hall.set", real, low, high), definition(b"hall.temperature", real)],
    )


if __name__ == "__main__":
    path = os.path.join(ROOT, "samples", "heating.manifest")
    os.makedirs(os.path.dirname(path), exist_ok=True)
    with open(path, "wb") as f:
        f.write(encode(heating()))
