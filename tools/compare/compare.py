"""Feeds manifests, pairs and tails to the published Rust and to the C interface, and compares what they answer.

    python3 tools/compare/compare.py ORACLE DRIVER [CASES [SEED]]        (tools/compare/run builds DRIVER)

CASES manifests, each for handover_decode_manifest and for handover_units, half as many pairs for
handover_compare_manifests, and half as many manifests with a tail for handover_decode_tail; tools/compare/cases.py
makes them. The driver tells the result, the whole answer, and what the indexes hold after the call. What is expected of
them is the Rust's, but for document 01's additions: question 2, where an index is too short, the units, and question
39. A tail that the Rust refuses for its budget is counted apart.
"""
import collections
import multiprocessing
import os
import random
import struct
import subprocess
import sys

from cases import HIGHEST, cases, needed, pairs, tails

BATCH = 5000  # manifests at a time
SHOWN = 5  # differences that are shown in full
SIDES = ("snapshot", "target")

# What the Rust says of one manifest: question 0 and what follows, or the question and offset.
Said = collections.namedtuple("Said", "question offset words connectors starts")

# -- Records and lines ------------------------------------------------------------------------------------------


def lines(program, records):
    run = subprocess.run([program], input=b"".join(records), stdout=subprocess.PIPE, check=True)
    out = run.stdout.decode().split("\n")[:-1]
    assert len(out) == len(records), "%s: %d lines for %d records" % (program, len(out), len(records))
    return out


def rust_side(x):
    return struct.pack("<QII", x.base, x.revision, len(x.bytes)) + x.bytes


def our_side(x):
    return struct.pack("<QIII", x.base, x.revision, x.words, len(x.bytes)) + x.bytes


def both_sides(pair, side):
    return side(pair.snapshot) + side(pair.target)


def with_tail(x, side):
    return side(x.manifest) + struct.pack("<I", len(x.tail)) + x.tail


# -- What is expected -------------------------------------------------------------------------------------------


def said(side, line):
    """From the Rust's line on a manifest, or from document 01 where the index is too short."""
    words = line.split(" | ")[0].split()
    if side.words < needed(side.bytes):
        return Said(2, 0, 0, 0, [])
    if words[0] == "accepted":
        return Said(0, 0, int(words[1]), int(words[2]), words[3:15])
    return Said(int(words[1]), int(words[2]), 0, 0, [])


def left(result, words, *indexes):
    """What the driver prints of a call: the result, the first words of the answer, what the indexes hold."""
    return " ".join(str(w) for w in [result, *words, *[0] * (16 - len(words)), *indexes])


def index(one):
    """After a manifest was judged."""
    if one.question:
        return "lent" if one.question == 2 else "zeros"
    return " ".join(["starts", *one.starts])


def decoded(one):
    return left(one.question, [one.offset] if one.question else one.starts, index(one))


def counted(one):
    units = 4 * one.words + one.connectors
    if one.question:
        return decoded(one)
    return left(0, [one.words, units], index(one)) if units <= HIGHEST else left(39, [], "zeros")


def compared(snapshot, target, line):
    """From what was said of both, and the Rust's line on the pair, which must say the same of a refusal."""
    words = line.split(" | ")[0].split()
    for i, one in enumerate((snapshot, target)):
        if one.question:
            assert one.question == 2 or words == [SIDES[i], "refused", str(one.question), str(one.offset)], line
            return left(one.question, [one.offset, i], index(snapshot), index(target) if i else "lent")
    assert words[0] in ("compatible", "differs"), line
    return left(0, words[1:], index(snapshot), index(target))


# -- Comparison -------------------------------------------------------------------------------------------------


def asked(oracle, sides):
    told = lines(oracle, [b"m" + rust_side(x) for x in sides])
    return [said(*x) for x in zip(sides, told)]


def of_manifests(oracle, driver, made):
    """For each call: its name, the record, what is expected, what was answered."""
    ours = [line.split("\t") for line in lines(driver, [b"m" + our_side(x) for x in made])]
    for x, one, (first, second) in zip(made, asked(oracle, made), ours):
        yield "decode_manifest", our_side(x), decoded(one), first
        yield "units", our_side(x), counted(one), second


def of_pairs(oracle, driver, made):
    ours = lines(driver, [b"v" + both_sides(x, our_side) for x in made])
    told = lines(oracle, [b"v" + both_sides(x, rust_side) for x in made])
    sides = [asked(oracle, [x[i] for x in made]) for i in (0, 1)]
    for x, snapshot, target, line, answer in zip(made, *sides, told, ours):
        yield "compare_manifests", both_sides(x, our_side), compared(snapshot, target, line), answer


def of_tails(oracle, driver, made):
    ours = lines(driver, [b"t" + with_tail(x, our_side) for x in made])
    told = lines(oracle, [b"t" + with_tail(x, rust_side) for x in made])
    for x, line, answer in zip(made, told, ours):
        if line.startswith("refused budget"):
            yield "decode_tail, refused for the Rust's budget", with_tail(x, our_side), answer, answer
        else:
            yield "decode_tail", with_tail(x, our_side), decoded(said(x.manifest, line)), answer


def label(name, answer):
    """What an answer is counted as: the call, and the question (0: accepted) or section and part (0, 0: compatible)."""
    result, first, second = (int(w) for w in answer.split()[:3])
    if name != "compare_manifests":
        return name, (result,)
    return (name + ", %s refused" % SIDES[second], (result,)) if result else (name, (first, second))


def batch(job):
    """The answers that agree, counted, and the differences."""
    oracle, driver, seed, n = job
    dice = random.Random(seed)
    agreed, differ = collections.Counter(), []
    every = [of_manifests(oracle, driver, cases(dice, n)), of_pairs(oracle, driver, pairs(dice, n // 2))]
    every.append(of_tails(oracle, driver, tails(dice, n // 2)))
    for name, record, expected, answer in (x for some in every for x in some):
        if answer != expected:
            differ.append((name, record, expected, answer))
        else:
            agreed[label(name, answer)] += 1
    return agreed, differ


def show(agreed, differ):
    for title in sorted({title for title, _ in agreed}):
        row = sorted((key, n) for (other, key), n in agreed.items() if other == title)
        text = ", ".join("%s: %d" % (".".join(map(str, key)), n) for key, n in row)
        print("%s, %d agreed: %s" % (title, sum(n for _, n in row), text))
    print("%d differences" % len(differ))
    for name, record, expected, answer in differ[:SHOWN]:
        print("%s, record %s\n    expected: %s\n    answered: %s" % (name, record.hex(), expected, answer))


def main():
    oracle, driver = sys.argv[1:3]
    count = int(sys.argv[3]) if len(sys.argv) > 3 else 200000
    seed = sys.argv[4] if len(sys.argv) > 4 else str(random.SystemRandom().getrandbits(32))
    print("seed", seed, flush=True)
    sizes = [min(BATCH, count - at) for at in range(0, count, BATCH)]
    jobs = [(oracle, driver, "%s %d" % (seed, i), n) for i, n in enumerate(sizes)]
    agreed, differ = collections.Counter(), []
    with multiprocessing.Pool(min(4, os.cpu_count())) as pool:
        for some, others in pool.imap(batch, jobs):
            agreed += some
            differ += others
    show(agreed, differ)
    sys.exit(1 if differ else 0)


if __name__ == "__main__":
    main()
