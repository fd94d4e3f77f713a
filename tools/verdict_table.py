"""The table of edits that leave a manifest accepted: verdict_blocks.py and verdict_lists.py fill it.

An edit takes dice and one manifest taken apart twice (tools/manifest_parts.py), and changes the second in place, or
both; where there is nothing for it to change it raises Nothing. Its row in the table has the section and part in which
the two differ then.
"""
from collections import namedtuple

from manifest_parts import *

Edit = namedtuple("Edit", "place name change")
EDITS = []


def differs(section, part, *words):
    """A row for the edit; one that is made in several ways has several, with further arguments."""

    def fill(change):
        name = " ".join([change.__name__.replace("_", " ")] + ["(%s)" % ", ".join(words)] * bool(words))
        EDITS.append(Edit((section, part), name, lambda dice, p, q: change(dice, p, q, *words)))
        return change

    return fill


def renames(section, part):
    """Two rows: one text for another, and a text of 256 bytes for one of 1."""
    return lambda change: differs(section, part, "near")(differs(section, part, "long")(change))


def two_texts(dice, t, how):
    """The text, and one that stands nowhere else in the manifest; or two that do not."""
    return (t, unknown(dice, t)) if how == "near" else (b"?", b"?" * 256)


# -- What an edit picks -----------------------------------------------------------------------------------------


def require(fact):
    if not fact:
        raise Nothing


def both(dice, left, right, suits=lambda entry: True):
    """An entry that suits, as it stands in either list."""
    return pick(dice, [(a, b) for a, b in zip(left, right) if suits(a)])


def swap(dice, items):
    i, j = pick_two(dice, range(len(items)))
    items[i], items[j] = items[j], items[i]


def by_offset(p):
    return sorted(p.slots, key=lambda row: row[1])


def rejoin(p, slots):
    """The slots join in this order."""
    at = 0
    for row in slots:
        row[1], at = at, at + row[2]
    p.slots = slots


# -- Values -----------------------------------------------------------------------------------------------------

NAN, ONE = 0x7FF8 << 48, 0x3FF0 << 48
REALS = {
    "zeros": (value(REAL, 0), value(REAL, 1 << 63)),
    "NaNs": (value(REAL, NAN), value(REAL, NAN + 1)),
    "NaNs of two signs": (value(REAL, NAN), value(REAL, NAN | 1 << 63)),
    "NaN and 1": (value(REAL, NAN), value(REAL, ONE)),
}
INTEGERS = {"Integers": (value(INTEGER, 1), value(INTEGER, 256))}


def kind_of(v):
    """The tag of a value or a type."""
    return v[0][1][0]


def other_ordinal(dice, p, v):
    """A value of an enum class, with another ordinal."""
    path, now = v[2][1], int.from_bytes(v[3][1], "little")
    members = len(dict(p.classes).get(path, ()))  # none where an earlier edit renamed the class
    return value(ENUM, path, pick(dice, [i + 1 for i in range(members) if i + 1 != now]))
