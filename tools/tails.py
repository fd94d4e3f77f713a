"""Tails of snapshots for tests: tails that fit a manifest, and edits that break them.

A tail taken apart, so that an edit can change any part in place:

    values   [[connector key, value]]     count        None, or what stands there for the number of values
    words    [number]                     word_count   None, or what stands there for the number of words
    flags    a number                     more         bytes behind the flags

Its fields are those of tools/manifests.py; document 01, "The wire", has the layout. An edit takes dice, a manifest that
was taken apart (tools/manifest_parts.py) and a tail that fits it, and changes the tail; where there is nothing for it
to change it raises Nothing. EDITS has the question that it is for, and its name.
"""
from collections import namedtuple

from manifest_parts import *

FLAGS = (1, 256, 2**31, 2**32 - 1)
Edit = namedtuple("Edit", "question name change")
EDITS = []


def asks(question, *words):
    """A row for the edit; one that is made in several ways has several, with further arguments."""

    def fill(change):
        name = " ".join([change.__name__.replace("_", " ")] + ["(%s)" % ", ".join(map(str, words))] * bool(words))
        EDITS.append(Edit(question, name, lambda dice, p, t: change(dice, p, t, *words)))
        return change

    return fill


# -- Tails ------------------------------------------------------------------------------------------------------


def tail(values=(), words=(), flags=0):
    return SimpleNamespace(
        values=[list(v) for v in values], words=list(words), flags=flags, count=None, word_count=None, more=b"",
    )


def fields(t):
    values = counted(12, [(key, v) for key, v in t.values])
    if t.count is not None:
        values[0] = ("count", t.count.to_bytes(4, "little"), 12)
    n = len(t.words) if t.word_count is None else t.word_count
    words = [("count", n.to_bytes(8, "little"), 8)] + [f for w in t.words for f in number(w, 8)]
    return values + words + number(t.flags)


def tail_bytes(t):
    return wire(fields(t)) + t.more


def placed(t):
    """All fields, each with its position."""
    out, at = [], 0
    for field in fields(t):
        out.append((at, field))
        at += len(field[1])
    return out


def word_total(p):
    """Of a manifest that was taken apart."""
    return max((offset + length for _, offset, length in p.slots), default=0)


def by_key(values):
    return sorted(values, key=lambda v: wire(v[0]))


def fitting(dice, p):
    """A tail that the Rust accepts; the words are too few where the manifest has more than a few."""
    classes = dict(p.classes)
    values = [(c.key, some_value(dice, c.type, classes)) for c in p.connectors]
    return tail(by_key(values), [dice.choice((0, 1, dice.getrandbits(64))) for _ in range(min(word_total(p), 400))])


# -- 33, 34: as many values as connectors, their keys known ------------------------------------------------------


def known(p):
    return {wire(c.key) for c in p.connectors}


def strange(dice, p):
    """The key of a connector that is not there, near one that is."""
    key = dice.choice([c.key for c in p.connectors]) if p.connectors else port(b"", dice.randrange(2))
    return pick(dice, [k for k in (far(dice, key), turned(key), stranger(dice, key)) if wire(k) not in known(p)])


@asks(33, "first")
@asks(33, "last")
@asks(33, "any")
def value_dropped(dice, p, t, which):
    del t.values[{"first": 0, "last": -1}.get(which, pick(dice, range(len(t.values))))]


@asks(33)
def values_dropped(dice, p, t):
    t.values = pick(dice, [[]] * bool(t.values))


@asks(33)
def value_added(dice, p, t):
    t.values = by_key(t.values + [[strange(dice, p), dice.choice(VALUES)]])


@asks(34)
def key_unknown(dice, p, t):
    pick(dice, t.values)[0] = strange(dice, p)
    t.values = by_key(t.values)


@asks(34, "first")
@asks(34, "last")
def key_unknown_at(dice, p, t, where):
    """All keys but one are known: they stand before it, or behind it."""
    values = by_key([[strange(dice, p), dice.choice(VALUES)] for _ in range(9)])
    t.values = by_key(values[:1] + t.values[1:] if where == "first" else t.values[:-1] + values[-1:])
    i = 0 if where == "first" else -1
    pick(dice, [t.values] * (bool(p.connectors) and wire(t.values[i][0]) not in known(p)))


# -- 35, 36: types and ordinals ---------------------------------------------------------------------------------


@asks(35)
def value_of_another_type(dice, p, t):
    v = pick(dice, t.values)
    v[1] = dice.choice([x for x in VALUES[:6] if x[0] != v[1][0]])


@asks(35)
def value_of_an_enum(dice, p, t):
    v, (path, _) = pick(dice, [v for v in t.values if v[1][0][1][0] != ENUM]), pick(dice, p.classes)
    v[1] = value(ENUM, path)


def enum_values(t):
    return [v for v in t.values if v[1][0][1][0] == ENUM]


@asks(35)
def value_of_another_class(dice, p, t):
    v = pick(dice, enum_values(t))
    v[1] = value(ENUM, pick(dice, [path for path, _ in p.classes if path != v[1][2][1]]), dice.choice((1, 1, 0)))


@asks(35)
def value_of_a_class_that_is_not_there(dice, p, t):
    v = pick(dice, enum_values(t))
    v[1] = value(ENUM, unknown(dice, v[1][2][1]))


@asks(36, "none")
@asks(36, "one above")
@asks(36, "high")
def ordinal_out_of_range(dice, p, t, which):
    v = pick(dice, enum_values(t))
    path = v[1][2][1]
    members = len(dict(p.classes).get(path, ()))  # none where an earlier edit took another class
    v[1] = value(ENUM, path, {"none": 0, "one above": members + 1}.get(which, dice.choice((256 + members, 2**32 - 1))))


# -- 37, 38, 10: words, flags, the end --------------------------------------------------------------------------


@asks(37)
def word_dropped(dice, p, t):
    del t.words[pick(dice, range(len(t.words)))]


@asks(37)
def words_dropped(dice, p, t):
    t.words = pick(dice, [[]] * bool(t.words))


@asks(37)
def words_added(dice, p, t):
    t.words += [dice.getrandbits(64) for _ in range(dice.choice((1, 1, 2, 8)))]


@asks(38)
def flags_set(dice, p, t):
    t.flags = dice.choice(FLAGS)


@asks(10)
def bytes_added(dice, p, t):
    t.more = dice.choice((b"\0", b"\xff", bytes(dice.randrange(1, 9))))


# -- 9: the order of the values ---------------------------------------------------------------------------------


@asks(9)
def neighbours_swapped(dice, p, t):
    i = pick(dice, range(len(t.values) - 1))
    t.values[i : i + 2] = t.values[i + 1], t.values[i]


@asks(9)
def value_doubled(dice, p, t):
    i = pick(dice, range(len(t.values)))
    t.values.insert(i, list(t.values[i]))


@asks(9)
def key_doubled(dice, p, t):
    """As many values as before: one has another's key."""
    i = pick(dice, range(len(t.values) - 1))
    t.values[i + 1][0] = t.values[i][0]


# -- 7: counts --------------------------------------------------------------------------------------------------


@asks(7)
def values_counted_too_high(dice, p, t):
    left = len(tail_bytes(t)) - 4
    t.count = dice.choice((left // 12 + 1, left // 12 + 1, 2**31, 2**32 - 1))


@asks(7)
def words_counted_too_high(dice, p, t):
    """Also such that eight times the count, as a number of 64 bits, is within what is left."""
    least = (4 + len(t.more)) // 8 + len(t.words) + 1
    t.word_count = dice.choice((least, least, 2**61, 2**61 + len(t.words), 2**63, 2**64 - 1))


@asks(7)
def words_missing(dice, p, t):
    """The count is right, and one word or more is not there."""
    t.word_count = len(t.words)
    del t.words[pick(dice, range(len(t.words))) :]


# -- 3 to 6: fields ---------------------------------------------------------------------------------------------


def put(b, at, new):
    return b[:at] + new + b[at + len(new) :]


def bad_tags(b, at, field):
    return [put(b, at, bytes([n])) for n in (field[2], 255)]


def bad_lengths(b, at, field):
    return [put(b, at, n.to_bytes(4, "little")) for n in (67108865, 2**32 - 1)]


def lengths_beyond(b, at, field):
    """Question 3, at the text."""
    return [put(b, at, n.to_bytes(4, "little")) for n in (len(b) - at - 3, 67108864)]


def bad_texts(b, at, field):
    n = len(field[1])
    return [put(b, at + i, c) for i, c in ((n // 2, b"\xff"), (n - 1, b"\xc3"), (0, b"\x80"))] if n else []


# by question and kind of field
BROKEN = {(3, "length"): lengths_beyond, (4, "length"): bad_lengths, (5, "text"): bad_texts, (6, "tag"): bad_tags}


def broken(t, question):
    """The bytes of the tail with a field written over, for one of the questions 3 to 6: all ways."""
    b = tail_bytes(t)
    return [
        new
        for at, field in placed(t)
        for (asked, kind), edit in BROKEN.items()
        if asked == question and kind == field[0]
        for new in edit(b, at, field)
    ]
