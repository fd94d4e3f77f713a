"""Pairs of manifests for the verdict: the snapshot's and the target's, each with its base, revision and index words.

Most are one accepted manifest twice, with one edit or two that leave both accepted (tools/verdict_table.py). One edit:
where the two differ is known, and `show_pairs` counts it. Others are equal, not akin, refused, or lack index words.
"""
from collections import Counter, namedtuple

from manifest_cases import refused_edits
from manifest_parts import *
from question_cases import EDITS as BREAKING  # before the others, so that its table is filled in its own order
from question_cases import edited, small_plant
from input_edits import BOUND
from verdict_table import EDITS, NAN
import verdict_blocks
import verdict_lists

MOST = 600  # bytes of a manifest
EACH, ALL = 5, 14  # the least pairs for a kind of edit, and what is made for a section and part
REFUSED, EQUAL = 10, 20  # the least pairs with a refused snapshot, a refused target, both; and of equal manifests

Side = namedtuple("Side", "base revision words bytes")
Pair = namedtuple("Pair", "snapshot target edit")

# The parts of each section in which accepted manifests can differ; those with an entry place; with an inner place.
ARISE = {s: (0,) for s in (1, *SECTIONS)}
ARISE[2], ARISE[3] = (0, 13), (1, 2, 3, 4, 5, 6, 7, 8, 10, 12, 13)
PLACES = {(s, part) for s in ARISE for part in ARISE[s]}
ENTRY = {(s, part) for s, part in PLACES if s in (2, 3, 4, 12)}
INNER = {(3, part) for part in (6, 7, 8, 10, 12)}

# -- Sides ------------------------------------------------------------------------------------------------------


def side(dice, b, revisions=(1, 2, 3)):
    return Side(some_base(dice, len(b)), dice.choice(revisions), needed(b) + dice.choice((0, 0, 0, 1, 100)), b)


def accepted_side(dice, p):
    """Revision 2 takes a target exactly if some block's class is bound to one."""
    fits = any(b.name in BOUND for b in p.blocks) == (p.target is not None)
    return side(dice, encode(closed(p)), (1, 2, 2, 3) if fits else (1, 3))


def sound(dice, more=0):
    """An accepted manifest with room for so many bytes more, taken apart."""
    while True:
        m = small_plant(dice)
        if len(encode(m)) + more <= MOST:
            return opened(m)


def refused_side(dice):
    """An accepted manifest with an edit for a question, or with a field written over."""
    while True:
        m, edit = small_plant(dice), dice.choice(BREAKING)
        if dice.random() < 0.5:
            _, at, field = dice.choice(flat(m))
            made = [(b, (1, 2, 3)) for b in refused_edits(encode(m), at, field) if field[0] != "number"]
        else:
            broken = edited(dice, [edit], m)
            made = [(encode(broken), (edit.revision,))] if broken else []
        if made and len(made[0][0]) <= MOST:
            return side(dice, *dice.choice(made))


def short(dice, x):
    """With too few index words."""
    return x._replace(words=dice.choice((0, 1, needed(x.bytes) // 2, needed(x.bytes) - 1)))


# -- Pairs ------------------------------------------------------------------------------------------------------


def changed(dice, edits):
    """A manifest before and after the edits, taken apart; None where one of them finds nothing to change."""
    m = plant(dice, 1, 0, 0) if dice.random() < 0.1 else small_plant(dice)  # one block alone has room for a long key
    p, q = opened(m), opened(m)
    try:
        for edit in edits:
            edit.change(dice, p, q)
    except Nothing:
        return None
    return p, q


def size(two):
    return max(len(encode(closed(p))) for p in two)


def found(dice, edits, tries=3000):
    """A pair with the edits, of some drawn the smallest or any, or None; either side may be the edited one."""
    some = []
    for i in range(tries):
        two = changed(dice, edits)
        some += [two] if two and size(two) <= MOST else []
        if some and i >= 12:
            two = min(some, key=size) if dice.random() < 0.25 else dice.choice(some)
            sides = [accepted_side(dice, p) for p in dice.sample(two, 2)]
            return Pair(*sides, edits[0] if len(edits) == 1 else None)


def found_with_two(dice):
    """A pair with two edits that go together."""
    while True:
        pair = found(dice, dice.sample(EDITS, 2), tries=40)
        if pair:
            return pair


def document_01():
    """Its entry, 45 zero bytes against P, and the same manifests otherwise; base 0, revision 2, the least index."""
    key = block_key(b"")
    zeros, p = manifest(), manifest(s3=[block(key, b"", (1, 1))], s6=[(key, [])], s9=[slot(key, 0, 1)])
    for a, b in ((zeros, p), (p, p), (p, zeros), (zeros, zeros)):
        yield Pair(*[Side(0, 2, needed(encode(m)), encode(m)) for m in (a, b)], None)


def equal(dice):
    """A manifest against itself; about every second one with a NaN."""
    p, more = sound(dice, 14), [b"?", value(REAL, NAN + dice.getrandbits(9))]
    dice.choice(p.blocks).params += [more] * dice.randrange(2)
    return Pair(accepted_side(dice, p), accepted_side(dice, p), None)


def strangers(dice, refused):
    """Two manifests that are not akin, of which the named ones are refused."""
    names = ("snapshot", "target")
    return Pair(*[refused_side(dice) if name in refused else accepted_side(dice, sound(dice)) for name in names], None)


def short_pairs(dice, pair):
    """Too few words on either side, and on both."""
    a, b = short(dice, pair.snapshot), short(dice, pair.target)
    return [pair._replace(snapshot=a), pair._replace(target=b), pair._replace(snapshot=a, target=b)]


def edited_pairs(dice, times):
    kinds = Counter(edit.place for edit in EDITS)
    for edit in EDITS * times:
        for _ in range(max(EACH, -(-ALL // kinds[edit.place]))):
            pair = found(dice, [edit])
            assert pair, "no pair for %s" % edit.name
            yield pair


def verdict_pairs(dice, times=1):
    """Pairs of all kinds, or so many times as many."""
    other = 20 * times
    out = [*document_01(), *edited_pairs(dice, times)]
    out += [found_with_two(dice) for _ in range(2 * other)]
    out += [equal(dice) for _ in range(2 * other)]
    for refused in ("snapshot", "target", "snapshot target", ""):
        out += [strangers(dice, refused) for _ in range(other)]
    return out + [x for pair in dice.sample(out, other // 2) for x in short_pairs(dice, pair)]


# -- Counts -----------------------------------------------------------------------------------------------------


def difference(said):
    """Section and part, entry place, inner place; None and 0 where nothing differs."""
    words = said.split()
    if words[0] != "differs":
        return None, 0, 0
    return (int(words[1]), int(words[2])), int(words[3]), int(words[4])


def refusals(sides, answers):
    """Prints how many pairs were refused, and gives what was met too seldom."""
    kinds = Counter(said.split()[0] for said in answers)
    words = Counter(" ".join(said.split()[:2]) for said in answers)
    refused = sum(a.startswith("refused") and b.startswith("refused") for a, b in sides)
    print("%d pairs, both refused %d:" % (len(answers), refused), ", ".join("%s %d" % x for x in kinds.items()))
    print("too few words: snapshot %d, target %d" % (words["snapshot 2"], words["target 2"]))
    missing = [name for name in ("snapshot", "target") if kinds[name] < REFUSED or words[name + " 2"] < EACH]
    return missing + ["both"] * (refused < REFUSED) + ["compatible"] * (kinds["compatible"] < EQUAL)


def show_pairs(asked, sides, answers):
    """Prints how often each answer was met, and asserts enough of it; sides are the answers to each manifest alone."""
    missing = refusals(sides, answers)
    met = [difference(said) for said in answers]
    where = Counter(place for place, _, _ in met)
    by = Counter(x.edit for x, (place, _, _) in zip(asked, met) if x.edit and x.edit.place == place)
    print("section, part: pairs, of which at an entry and at an inner place above 0")
    for place in sorted(PLACES):
        above = [sum(x[i] > 0 for x in met if x[0] == place) for i in (1, 2)]
        print("%7d %4d: %5d %5d %5d" % (*place, where[place], *above))
        placed = [n for n, places in zip(above, (ENTRY, INNER)) if place in places]
        missing += [(place, above)] * (where[place] < EACH or not all(0 < n < where[place] for n in placed))
    missing += [edit.name for edit in EDITS if by[edit] < EACH]
    assert not missing, "met too seldom: %s" % missing
    assert set(where) <= PLACES | {None}, "a difference where none can arise"
