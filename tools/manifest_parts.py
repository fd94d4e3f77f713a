"""Manifests taken apart, so that an edit can change any part, and put together again with their keys in order.

`opened` takes a manifest of tools/manifests.py apart; the result is fresh, so that edits may change it in place:

    target        None, or [arch, os]              schedule     [block key]
    classes       [[path, [member]]]               order        [connector key]
    blocks        [Block]                          drivers      [[connector key, connector key]]
    connectors    [Connector]                      slots        [[block key, offset, length]]
    connections   [[connector key, connector key]] externals    [connector key]
    definitions   [[path, type, low, high]]        boundaries   [[name, connector key]]

Names and paths are bytes; keys, types and values are lists of fields; a bound that is not there is None.
"""
from types import SimpleNamespace

from manifests import *


class Nothing(Exception):
    """An edit found nothing that it could change."""


def pick(dice, items):
    if not items:
        raise Nothing
    return dice.choice(items)


def pick_two(dice, items):
    if len(items) < 2:
        raise Nothing
    return dice.sample(items, 2)


def first_and_last(items):
    if len(items) < 2:
        raise Nothing
    return items[0], items[-1]


# -- Taking apart -----------------------------------------------------------------------------------------------


class Fields:
    """The fields of an entry, taken from the front."""

    def __init__(self, fields):
        self.fields, self.at = fields, 0

    def take(self, n):
        self.at += n
        return self.fields[self.at - n : self.at]

    def number(self):
        return int.from_bytes(self.take(1)[0][1], "little")

    def text(self):
        return self.take(2)[1][1]

    def key(self):
        """A block key: a tag and one or two strings."""
        return self.take(3 + 2 * self.fields[self.at][1][0])

    def port(self):
        return self.key() + self.take(2)

    def type(self):
        return self.take(3 if self.fields[self.at][1][0] == ENUM else 1)

    def value(self):
        return self.take((2, 2, 2, 3, 4)[self.fields[self.at][1][0]])

    def bound(self):
        return self.value() if self.number() else None

    def list(self, take):
        return [take() for _ in range(self.number())]


def opened_block(entry):
    f = Fields(entry[0] + entry[1])
    return SimpleNamespace(
        key=f.key(), name=f.text(), kind=f.number(), revision=f.number(), length=f.number(),
        params=f.list(lambda: [f.text(), f.value()]), inputs=f.list(f.port), outputs=f.list(f.port),
    )


def opened_connector(entry):
    f = Fields(entry[0] + entry[1])
    return SimpleNamespace(key=f.port(), path=f.text(), order=f.number(), type=f.type(), texts=f.fields[f.at :])


def opened(m):
    f = {s: [Fields(key + rest) for key, rest in m[s]] for s in SECTIONS}
    first = Fields(m[0])
    pairs = lambda s: [[e.port(), e.port()] for e in f[s]]
    return SimpleNamespace(
        target=[first.text(), first.text()] if first.number() else None,
        classes=[[e.text(), e.list(e.text)] for e in f[2]],
        blocks=[opened_block(e) for e in m[3]],
        connectors=[opened_connector(e) for e in m[4]],
        connections=pairs(5),
        schedule=[e.key() for e in f[6]],
        order=[e.port() for e in f[7]],
        drivers=pairs(8),
        slots=[[e.key(), e.number(), e.number()] for e in f[9]],
        externals=[e.port() for e in f[10]],
        boundaries=[[e.text(), e.port()] for e in f[11]],
        definitions=[[e.text(), e.type(), e.bound(), e.bound()] for e in f[12]],
    )


# -- Putting together -------------------------------------------------------------------------------------------


def once(entries, key):
    """The entries whose key is not that of an earlier one."""
    return list({key(e): e for e in reversed(entries)}.values())


def closed_block(b):
    params = sorted(once(b.params, lambda p: p[0]))
    return block(b.key, b.name, (b.revision, b.length % 2**64), params, b.inputs, b.outputs, kind=b.kind)


def closed(p):
    """The manifest, with its ascending sections in order; of entries with one key the first."""
    sections = {
        "s2": [enum_class(path, members) for path, members in p.classes],
        "s3": [closed_block(b) for b in p.blocks],
        "s4": [(c.key, string(c.path) + number(c.order) + c.type + c.texts) for c in p.connectors],
        "s5": [pair(a, b) for a, b in p.connections],
        "s6": [(k, []) for k in p.schedule],
        "s7": [(k, []) for k in p.order],
        "s8": [(k, source) for k, source in p.drivers],
        "s9": [slot(k, offset % 2**64, length % 2**64) for k, offset, length in p.slots],
        "s10": [(k, []) for k in p.externals],
        "s11": [(string(name), source) for name, source in p.boundaries],
        "s12": [definition(path, *rest) for path, *rest in p.definitions],
    }
    for s in ASCENDING:
        sections["s%d" % s] = once(sections["s%d" % s], sort_key(s))
    return manifest(p.target, **sections)


# -- What is not in a manifest ----------------------------------------------------------------------------------


def unknown(dice, t):
    """A text that `plant` makes for nothing, but for one byte like another: no text of it has a question mark."""
    ascii = [i for i, c in enumerate(t) if c < 128]
    if ascii and dice.random() < 0.7:
        i = dice.choice(ascii)
        return t[:i] + b"?" + t[i + 1 :]
    return dice.choice((t + b"?", b"?" + t))


def stranger(dice, key):
    """A key of a block, or of a connector, that is not there."""
    i = dice.choice([i for i, f in enumerate(key) if f[0] == "text"])
    return key[: i - 1] + string(unknown(dice, key[i][1])) + key[i + 1 :]


def port_index(key):
    return int.from_bytes(key[-1][1], "little")


def far(dice, key):
    """The key of a connector with an index that is not there, or of an owner that is not."""
    if dice.random() < 0.4:
        return stranger(dice, key)
    return key[:-1] + number((port_index(key) + dice.choice((7, 256, 65536, 1 << 24))) % 2**32)


def turned(key):
    """The key of a connector with the other direction."""
    return key[:-2] + tag(1 - key[-2][1][0]) + key[-1:]


def owner(key):
    return key[:-2]


def direction(key):
    return key[-2][1][0]


def keys_of(p, way):
    return [c.key for c in p.connectors if direction(c.key) == way]
