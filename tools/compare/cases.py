"""Manifests, pairs of them and manifests with tails for tools/compare/compare.py, made by the dice.

The manifests are accepted ones (`plant` of tools/manifests.py), then one edit or two of their structure
(tools/*_edits.py), fields written over, entries out of order, bytes changed, left out, put in, cut off or added, or as
many state words as the units allow, and more. Base, revision and the length of the index vary. The pairs are those of
tools/verdict_cases.py, and others: a manifest with up to three of the edits that leave it accepted, against itself
before them, either one written over as above, or not. The tails fit their manifest, and then: one of the edits of
tools/tails.py or two, a field written over, bytes changed, left out, put in, cut off or added, another manifest's tail,
or none of it; one manifest in ten is written over as above.
"""
import os
import sys
from collections import namedtuple

sys.path.insert(0, os.path.dirname(os.path.dirname(os.path.abspath(__file__))))
from manifest_cases import other_edits, refused_edits
from verdict_cases import BREAKING, EDITS, Pair, Side, edited, verdict_pairs
from manifest_parts import *
from verdict_table import by_offset, rejoin
import tails as on_tails

FROM_ONE = 12  # cases that are made of one manifest

# -- Manifests --------------------------------------------------------------------------------------------------


def some_plant(dice):
    """Mostly small; one in a hundred has many blocks, so that look-ups are by hints, one long texts."""
    rare = dice.randrange(100)
    blocks = dice.choice((20, 20, 60, 200)) if rare == 0 else dice.choice((0, 1, 1, 1, 2, 2, 2, 3, 3, 4, 6))
    longest = 300 if rare == 1 else dice.choice((0, 1, 2, 5, 20))
    return plant(dice, blocks, dice.choice((0, 1, 1, 2, 3)), longest, dice.random() < 0.2)


def some_edit(dice):
    """All questions alike, however many edits there are for each."""
    question = dice.randrange(11, 33)
    return dice.choice([edit for edit in BREAKING if edit.question == question])


def structure(dice, m):
    """One edit that leaves all fields readable, or two; the manifest itself where those drawn change nothing."""
    for _ in range(8):
        out = edited(dice, [some_edit(dice) for _ in range(dice.choice((1, 1, 1, 2)))], m)
        if out:
            return encode(out)
    return encode(m)


def fields(dice, m):
    b = encode(m)
    for _ in range(dice.choice((1, 1, 1, 2, 3))):
        _, at, field = dice.choice(flat(m))
        b = dice.choice((refused_edits(b, at, field) + other_edits(b, at, field)) or [b])
    return b


def entries(dice, m):
    """An entry at another place, or twice, and sometimes a list of members with one twice."""
    s = dice.choice(SECTIONS)
    out = {**m, s: list(m[s])}
    if out[s]:
        entry = dice.choice(out[s])
        if dice.random() < 0.5:
            out[s].remove(entry)
        out[s].insert(dice.randrange(len(out[s]) + 1), entry)
    if dice.random() < 0.3:
        member = some_text(dice, 2)
        out[2] = out[2] + [enum_class(b"\x7f\x7f", dice.choice(([member, b"-", member], [member], [])))]
    return encode(out)


def some_bytes(dice, m):
    return scattered(dice, encode(m))


def scattered(dice, b):
    b = bytearray(b)
    for _ in range(dice.choice((1, 1, 2, 5))):
        at = dice.randrange(len(b) + 1)
        new = dice.choice((b"", b"\0", b"\1", b"\2", b"\x80", b"\xff", bytes([dice.getrandbits(8)])))
        b[at : at + dice.randrange(3)] = new
    return bytes(b)


def cut(dice, m):
    b = encode(m)
    return b[: dice.randrange(len(b) + 1)]


def trailing(dice, m):
    return encode(m) + dice.choice((b"\0", b"\xff", bytes(dice.randrange(1, 9))))


def noise(dice, m):
    return bytes(dice.choice((0, 0, 0, 1, 2, dice.getrandbits(8))) for _ in range(dice.randrange(120)))


def many_words(dice, m):
    """A slot lengthened, so that the units are just at, below or above the highest number, or the words are."""
    p = opened(m)
    if p.slots:
        most = (HIGHEST - len(p.connectors)) // 4  # the most words whose units fit
        total = dice.choice((most, most, most - 1, most + 1, most + 1, 2**62, dice.randrange(2**64), HIGHEST))
        row = dice.choice(p.slots)
        row[2] += total - sum(length for _, _, length in p.slots)
        next(b for b in p.blocks if b.key == row[0]).length = row[2]
        rejoin(p, by_offset(p))
    return encode(closed(p))


def intact(dice, m):
    return encode(m)


KINDS = [structure] * 10 + [fields] * 3 + [entries] * 2 + [some_bytes, some_bytes, cut, trailing, noise, many_words]
KINDS += [intact] * 2

# -- Cases ------------------------------------------------------------------------------------------------------


def dressed(dice, b, more=0):
    """With a base, also for so many bytes behind it, a revision and an index."""
    least = needed(b)
    revision = dice.choice((2,) * 8 + (0, 1, 3, dice.getrandbits(32)))
    longer, shorter = (least + 1, least + dice.randrange(300)), (least - 1, dice.randrange(least))
    words = dice.choice((least,) * 8 + longer * 2 + shorter)
    return Side(some_base(dice, len(b) + more), revision, words, b)


def cases(dice, n):
    made = []
    while len(made) < n:
        m = some_plant(dice)
        made += [dressed(dice, dice.choice(KINDS)(dice, m)) for _ in range(FROM_ONE)]
    return made[:n]


# -- Pairs ------------------------------------------------------------------------------------------------------


def changed(dice, m):
    """The manifest, and with up to three edits that leave both accepted; some of them change both."""
    p, q = opened(m), opened(m)
    for edit in dice.sample(EDITS, dice.randrange(4)):
        try:
            edit.change(dice, p, q)
        except Nothing:
            pass
    return closed(p), closed(q)


def other_pair(dice, m):
    """Mostly both intact; a field that is written over may leave the manifest accepted."""
    kinds = [intact] * 16 + [fields] * 3 + [dice.choice(KINDS)] * 2
    sides = [dressed(dice, dice.choice(kinds)(dice, x)) for x in dice.sample(changed(dice, m), 2)]
    return Pair(*sides, None)


def pairs(dice, n):
    made = verdict_pairs(dice)
    while len(made) < n:
        m = some_plant(dice)
        if m[3]:  # the edits are for manifests with blocks
            made += [other_pair(dice, m) for _ in range(FROM_ONE)]
    return dice.sample(made, n)


# -- Tails ------------------------------------------------------------------------------------------------------

Tailed = namedtuple("Tailed", "manifest tail")  # a side, and bytes


def fitting(dice, m):
    return on_tails.tail_bytes(on_tails.fitting(dice, opened(m)))


def tail_edits(dice, m):
    """One edit, or two; all questions alike, however many edits there are for each."""
    p = opened(m)
    t = on_tails.fitting(dice, p)
    for _ in range(dice.choice((1, 1, 2))):
        question = dice.choice(sorted({edit.question for edit in on_tails.EDITS}))
        edit = dice.choice([edit for edit in on_tails.EDITS if edit.question == question])
        try:
            edit.change(dice, p, t)
        except Nothing:
            pass
    return on_tails.tail_bytes(t)


def tail_fields(dice, m):
    t = on_tails.fitting(dice, opened(m))
    return dice.choice(on_tails.broken(t, dice.choice((3, 4, 5, 6))) or [on_tails.tail_bytes(t)])


def tail_bytes_changed(dice, m):
    return scattered(dice, fitting(dice, m))


def tail_cut(dice, m):
    b = fitting(dice, m)
    return b[: dice.randrange(len(b) + 1)]


def tail_of_another(dice, m):
    return fitting(dice, some_plant(dice))


TAIL_KINDS = [tail_edits] * 12 + [tail_fields] * 2 + [tail_bytes_changed] * 2 + [tail_cut, tail_of_another, noise]
TAIL_KINDS += [fitting] * 3


def tailed(dice, m):
    t = dice.choice(TAIL_KINDS)(dice, m)
    return Tailed(dressed(dice, dice.choice([intact] * 9 + [dice.choice(KINDS)])(dice, m), len(t)), t)


def tails(dice, n):
    made = []
    while len(made) < n:
        m = some_plant(dice)
        made += [tailed(dice, m) for _ in range(FROM_ONE)]
    return made[:n]
