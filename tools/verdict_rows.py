#!/usr/bin/env python3
"""Prints the rows of crates/verdict/proofs/Cases.antt: pairs of accepted manifests, and where they first differ.

    ORACLE=.. python3 tools/verdict_rows.py

ORACLE is the program built from the published Rust; tools/manifest_vectors.py tells of its record 'v'. The run fails
where the Rust answers otherwise than the row says.
"""
import os
import struct
import subprocess

from manifests import *
from question_rows import *

MINUS_ZERO, NAN, OTHER_NAN = (value(REAL, bits) for bits in (1 << 63, 0x7FF8 << 48, 0x7FF8 << 48 | 1))
LONG = b"x" * 256
LATER = connector(IN1, b"p", REALS)


def named(*names):
    """A block with parameters of these names, all 0."""
    return one(params=[(name, ZERO) for name in names])


def valued(*values):
    """A block with parameters "a", "b" .. of these values."""
    return one(params=[(bytes([97 + i]), v) for i, v in enumerate(values)])


def keyed(key):
    return manifest(s3=[block(key, b"")], s6=[(key, [])])


def lengths(*own):
    """Blocks "" and "b" of these state lengths, with their slots."""
    return two((0, own[0]), (own[0], own[1]))


# -- The rows: where, what differs, and the two manifests ------------------------------------------------------------

ROWS = [
    ((), "a NaN against itself", valued(NAN), valued(NAN)),
    ((1, 0, 0, 0), "another arch", *(one(name=BOUND_CLASS, bound=(a, b"o")) for a in (b"a", b"b"))),
    ((2, 0, 0, 0), "a member more", one([E], s2=listed(b"E")), one([E], s2=[enum_class(b"E", [b"", b"m", b"n"])])),
    ((2, 0, 1, 0), "a member of the second class", one([E, F], s2=EF), one([E, F], s2=[EF[0], enum_class(b"F", [b"m"])])),
    ((2, 13, 1, 0), "a class more", one([E], s2=listed(b"E")), one([E, F], s2=EF)),
    ((3, 1, 0, 0), "another key", keyed(KEY), keyed(OTHER)),
    ((3, 1, 0, 0), "a key of length 256, and one of length 1", keyed(block_key(LONG)), keyed(OTHER)),
    ((3, 2, 0, 0), "another class", one(), one(name=b"c")),
    ((3, 3, 0, 0), "another kind", one(state=(1, 1)), one()),
    ((3, 4, 0, 0), "another revision", one(state=(1, 1)), one(state=(256, 1))),
    ((3, 5, 0, 0), "another state length", one(state=(1, 1)), one(state=(1, 256))),
    ((3, 5, 1, 0), "another state length of the second block", lengths(1, 2), lengths(1, 3)),
    ((3, 6, 0, 0), "another parameter name", named(b"a"), named(b"b")),
    ((3, 6, 0, 1), "another name of the second parameter", named(b"a", b"b"), named(b"a", b"c")),
    ((3, 7, 0, 0), "0 and −0", valued(ZERO), valued(MINUS_ZERO)),
    ((3, 7, 0, 0), "two NaNs", valued(NAN), valued(OTHER_NAN)),
    ((3, 7, 0, 1), "another type of the second parameter", valued(ZERO, ZERO), valued(ZERO, value(INTEGER, 0))),
    ((3, 7, 0, 0), "another value, and a parameter more", valued(ZERO), valued(ONE, ZERO)),
    ((3, 8, 0, 1), "a parameter more", valued(ZERO), valued(ZERO, ZERO)),
    ((3, 8, 0, 0), "no parameter", valued(ZERO), one()),
    ((3, 10, 0, 1), "an input more", one([REALS]), one([REALS] * 2)),
    ((3, 12, 0, 0), "an output more", one([REALS]), one([REALS], [REALS])),
    ((3, 13, 1, 0), "a block more", one(state=(1, 1)), lengths(1, 1)),
    ((4, 0, 0, 0), "another value type", one([REALS]), one([INTEGERS])),
    ((4, 0, 1, 0), "another path of the second", *(one([REALS] * 2, s4=[connector(IN0, b"", REALS), c]) for c in (LATER, connector(IN1, b"q", REALS)))),
    ((5, 0, 0, 0), "a connection more", one([REALS], [REALS]), one([REALS], [REALS], s5=[pair(OUT0, IN0)])),
    ((6, 0, 0, 0), "another schedule", *(manifest(s3=[block(k, b"") for k in (KEY, OTHER)], s6=[(k, []) for k in ks]) for ks in ((KEY, OTHER), (OTHER, KEY)))),
    ((7, 0, 0, 0), "another connector order", one([REALS] * 2), one([REALS] * 2, s7=[(IN1, []), (IN0, [])])),
    ((8, 0, 0, 0), "another driver", one([REALS], [REALS]), one([REALS], [REALS], s8=[(IN0, IN0), (OUT0, IN0)])),
    ((9, 0, 0, 0), "slots the other way round", two((0, 1), (1, 2)), two((2, 1), (0, 2))),
    ((10, 0, 0, 0), "another external input", *(one([REALS] * 2, s10=[(k, [])], s12=[definition(b"", REALS)]) for k in (IN0, IN1))),
    ((11, 0, 0, 0), "a boundary output more", one([], [REALS]), one([], [REALS], s11=[NAMED])),
    ((12, 0, 0, 0), "another minimum", bounds(REALS, ZERO), bounds(REALS, MINUS_ZERO)),
    ((12, 0, 0, 0), "a maximum more", bounds(REALS, ZERO), bounds(REALS, ZERO, ZERO)),
]

# -- Printing -------------------------------------------------------------------------------------------------------


def told(a, b):
    """The oracle's words on a pair."""
    sides = [struct.pack("<QII", 0, 2, len(encode(m))) + encode(m) for m in (a, b)]
    run = subprocess.run([os.environ["ORACLE"]], input=b"v" + b"".join(sides), stdout=subprocess.PIPE, check=True)
    return run.stdout.decode().split()


def pair_row(where, what, a, b):
    expected = ["differs", *map(str, where)] if where else ["compatible"]
    assert told(a, b) == expected, (what, told(a, b))
    verdict = "(differs %d %d %d %d)" % where if where else "compatible"
    return '    -- %s\n    ∷ pair_of "%s" "%s" %s\n' % (what, printed(a), printed(b), verdict)


if __name__ == "__main__":
    print("abbrev pub pair_rows : List Pair\npair_rows =\n%s    ∷ []" % "".join(pair_row(*r) for r in ROWS).replace("∷ ", "", 1))
