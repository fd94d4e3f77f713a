"""Manifests for questions 11 to 32: accepted ones with one edit or two that leave every field readable, keys in order.

The edits are those of the files *_edits.py. One edit: what it asks for is known, and a run of
tools/manifest_vectors.py counts it. Two: which question comes first is the Rust's to say.
"""
from collections import Counter, namedtuple

import declaration_edits
import input_edits
import reference_edits
from edits_table import EDITS
from manifest_parts import *

EACH, ALL = 5, 22  # the least cases for a kind of edit, and for a question
PAIRS = 200
SIZES = (250, 330, 430, 600)  # bytes of a case: the first at which one is found

Case = namedtuple("Case", "bytes revision edit")


def small_plant(dice):
    return plant(dice, dice.choice((1, 1, 2, 2, 3)), dice.choice((1, 2)), dice.choice((1, 1, 2)), dice.random() < 0.15)


def edited(dice, edits, m):
    """The manifest with the edits, or None where one of them finds nothing to change."""
    parts = opened(m)
    try:
        for edit in edits:
            edit.change(dice, parts)
    except Nothing:
        return None
    return closed(parts)


def found(dice, edits, done):
    """Bytes of an edited manifest that is small, and not among those that are done."""
    for most in SIZES:
        for _ in range(150):
            m = edited(dice, edits, small_plant(dice))
            if m and len(encode(m)) <= most and encode(m) not in done:
                return encode(m)
    raise AssertionError("no case for %s" % [edit.name for edit in edits])


def revision_for(dice, edit):
    """Questions up to 30 are asked under every revision, 31 under 2 only."""
    if edit.question <= 30:
        return dice.choice((2, 2, 2, 0, 1, 3))
    return 2 if edit.revision == 2 else dice.choice((0, 1, 3))


def bound_classes():
    """Each of the fifteen classes alone: portable, which is question 31 under revision 2, and with a target."""
    for name in input_edits.BOUND:
        key = block_key(b"")
        for target in (None, (b"a", b"o")):
            yield encode(manifest(target, s3=[block(key, name)], s6=[(key, [])]))


def question_cases(dice):
    done = {}
    kinds = Counter(edit.question for edit in EDITS)
    for edit in EDITS:
        for _ in range(max(EACH, -(-ALL // kinds[edit.question]))):
            b = found(dice, [edit], done)
            done[b] = Case(b, revision_for(dice, edit), edit)
    for b in bound_classes():
        done.setdefault(b, Case(b, 2, None))
    for _ in range(PAIRS):
        two = sorted(dice.sample(EDITS, 2), key=lambda edit: -edit.question)
        b = found(dice, two, done)
        done[b] = Case(b, 2, None)
    return list(done.values())
