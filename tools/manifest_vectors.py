#!/usr/bin/env python3
"""Writes the lines of crates/replay/stdin that begin with a digit, and their answers in stdout.

    python3 tools/manifest_vectors.py ORACLE        or ORACLE=.. python3 tools/manifest_vectors.py

ORACLE is the program built from the published Rust; its record 'm' (base, revision, a manifest) runs decode_manifest
and gives `refused QUESTION OFFSET | ..` or `accepted WORDS CONNECTORS s1 .. s12 ..`, the section starts. Its record 'v'
(two of these) runs compare_manifests and gives `compatible`, `differs SECTION PART ENTRY INNER`, or the refusal after
`snapshot` or `target`. Its record 't' (the same as 'm', and a tail) runs decode_snapshot on them in a valid frame, and
answers as 'm'; where the Rust's budget alone refuses it makes the frame longer. Its answers are taken as they are.
Questions 1 and 2 are not the Rust's: the answers of lines with too few index words are from document 01's rule, and
question 1, which needs more than 64 MiB, is tested by tools/bench/decoding.rs. crates/replay/src/manifests.rt has
the meaning of the lines. Fixed seeds: a second run writes the same files.

The inputs are those of tools/manifest_cases.py, for questions 3 to 10, of tools/question_cases.py, for 11 to 32, of
tools/verdict_cases.py, pairs, and of tools/tail_cases.py, tails; a tail that the Rust refuses for its budget is left
out. The run fails unless each of the questions 2 to 32 was met at least 20 times, each from 3 to 9 in every section in
which it can arise, and each from 11 to 32 by every kind of edit that is made for it; of the pairs each section and part
in which accepted manifests can differ, and every kind of edit, at least 5 times; and of the tails each question that
can arise there, and every kind of edit, at least 5 times, each by those that are made for it.
"""
import collections
import os
import random
import struct
import subprocess
import sys

import replay_lines
from manifest_cases import all_cases
from manifests import *
from question_cases import EACH, EDITS, question_cases
from tail_cases import show_tails, tail_cases
from verdict_cases import show_pairs, verdict_pairs

DICE = random.Random(1132)
MOST = 512  # index words that the program has

# The questions that can fail in each section. Question 10 stands behind the last one.
ARISE = {s: {3, 4, 5, 6, 7} | ({9} if s in ASCENDING else set()) for s in SECTIONS}
ARISE[1], ARISE[2] = {3, 4, 5, 6}, {3, 4, 5, 7, 8, 9}

# One line: what is asked; the manifest that the bytes were before an edit of bytes, or the edit, where there is one.
Line = collections.namedtuple("Line", "base revision words bytes intact edit")


def lines():
    for b, intact in all_cases().items():
        yield Line(some_base(DICE, len(b)), DICE.choice((2,) * 7 + (0, 1, 3)), needed(b), b, intact, None)
    for b, revision, edit in question_cases(DICE):
        yield Line(some_base(DICE, len(b)), revision, needed(b), b, None, edit)


def other_indexes(line):
    """Longer indexes change nothing; shorter ones are question 2, before any byte is read."""
    least = line.words
    for n in {0, 1, 12, least // 2, least - 1, least + 1, MOST}:
        yield line._replace(words=n)


def all_lines():
    once = list(lines())
    return once + [other for line in once[::250] for other in other_indexes(line)]


def told(records):
    """The oracle's words on records, without details."""
    program = sys.argv[1] if len(sys.argv) > 1 else os.environ.get("ORACLE")
    if not program:
        sys.exit(__doc__)
    run = subprocess.run([program], input=b"".join(records), stdout=subprocess.PIPE, check=True)
    answers = run.stdout.decode().split("\n")[:-1]
    assert len(answers) == len(records)
    return [said.split(" | ")[0].split() for said in answers]


def call(x):
    return struct.pack("<QII", x.base, x.revision, len(x.bytes)) + x.bytes


def ask(asked):
    """What the lines answer: the oracle's words, but for question 2."""
    return [answer(x, words) for x, words in zip(asked, told([b"m" + call(x) for x in asked]))]


def answer(line, words):
    if line.words < needed(line.bytes):
        return "refused 2 0"
    if words[0] == "accepted":
        return "accepted " + " ".join(words[3:15])
    assert words[0] == "refused" and words[1].isdigit(), words
    return " ".join(words[:3])


def ask_pairs(asked):
    """What the manifests of each pair answer alone, and what the pairs answer."""
    sides = list(zip(ask([x.snapshot for x in asked]), ask([x.target for x in asked])))
    verdicts = told([b"v" + call(x.snapshot) + call(x.target) for x in asked])
    return sides, [verdict(*two, words) for two, words in zip(sides, verdicts)]


def verdict(snapshot, target, words):
    """The first refusal, or the oracle's words; and the starts of what is accepted."""
    names = ("snapshot", "target")
    for i, said in enumerate((snapshot, target)):
        if said.startswith("refused"):
            assert said == "refused 2 0" or [names[i], *said.split()] == words, (said, words)
            return said.replace("refused", names[i]) + snapshot.replace("accepted", " starts") * i
    assert words[0] in ("compatible", "differs"), words
    return " ".join([*words, snapshot, target]).replace("accepted", "starts")


def with_tail(x):
    return call(x) + struct.pack("<I", len(x.tail)) + x.tail


def ask_tails(made):
    """The manifests with tails that the Rust has room for, what the manifests answer alone, and what both answer."""
    words = told([b"t" + with_tail(x) for x in made])
    kept = [(x, said) for x, said in zip(made, words) if said[1] != "budget"]
    print("%d tails left out, for the Rust's budget" % (len(made) - len(kept)))
    asked = [x for x, _ in kept]
    return asked, ask(asked), [answer(*x) for x in kept]


def question(said):
    return int(said.split()[1]) if said.startswith("refused") else 0


def section(line, said):
    """Where a question up to 9 fails, if that is known: 6 to 9 stand after the byte or entry, the others at it."""
    offset = int(said.split()[2])
    if line.intact and 2 < question(said) < 10 and offset < HIGHEST:
        return section_at(line.intact, offset - line.base - (question(said) in (6, 7, 8, 9)))


def show(asked, answers):
    """Prints how often each question was answered no: in all, by section, by kind of edit; and asserts enough of it."""
    met = collections.Counter(question(said) for said in answers)
    where = collections.Counter((section(x, said), question(said)) for x, said in zip(asked, answers) if question(said))
    by = collections.Counter(x.edit for x, said in zip(asked, answers) if x.edit and x.edit.question == question(said))
    print("%d lines, %d accepted;" % (len(asked), met[0]), ", ".join("%d: %d" % (q, met[q]) for q in range(2, 33)))
    print("section " + " ".join("%5d" % q for q in range(3, 10)))
    for s in sorted(ARISE):
        print("%7d " % s + " ".join("%5s" % (where[s, q] or "-") for q in range(3, 10)))
    for edit in sorted(EDITS, key=lambda edit: edit.question):
        print("%7d %5d %s" % (edit.question, by[edit], edit.name))
    missing = [q for q in range(2, 33) if met[q] < 20] + [edit.name for edit in EDITS if by[edit] < EACH]
    missing += [(s, q) for s in ARISE for q in ARISE[s] if not where[s, q]]
    assert not missing, "met too seldom (questions, kinds of edits, (section, question)): %s" % missing
    assert all(q in ARISE[s] for s, q in where if s), "a question where none can arise"


def row(x):
    return "%d %d %d %s" % (x.base, x.revision, x.words, x.bytes.hex() or "-")


def main():
    asked, pairs = all_lines(), verdict_pairs(random.Random(2417))
    answers, (sides, verdicts) = ask(asked), ask_pairs(pairs)
    tails, alone, snapshots = ask_tails(tail_cases(random.Random(3301)))
    show(asked, answers)
    show_pairs(pairs, sides, verdicts)
    show_tails(tails, alone, snapshots)
    rows = [row(x) for x in asked] + [row(x.snapshot) + " " + row(x.target) for x in pairs]
    rows += [row(x) + " " + (x.tail.hex() or "-") for x in tails]
    replay_lines.put(rows, answers + verdicts + snapshots)


if __name__ == "__main__":
    main()
