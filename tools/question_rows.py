#!/usr/bin/env python3
"""Prints the rows of crates/questions/proofs/Cases.antt: manifests for questions 11 to 32, and one for each target-bound class.

    ORACLE=.. python3 tools/question_rows.py

ORACLE is the program built from the published Rust; tools/manifest_vectors.py tells of its record 'm'. Each manifest is
refused by the question that it stands under, at its end, or accepted: the run fails where the Rust answers otherwise.
"""
import os
import struct
import subprocess

from input_edits import BOUND
from manifests import *

KEY, OTHER = block_key(b""), block_key(b"b")
IN0, IN1, OUT0, OUT1 = (connector_key(KEY, d, i) for d in (IN, OUT) for i in (0, 1))
REALS, INTEGERS, BOOLEANS, STRINGS = (value_type(k) for k in (REAL, INTEGER, BOOLEAN, STRING))
E, F = value_type(ENUM, b"E"), value_type(ENUM, b"F")
ZERO, ONE = value(REAL, 0), value(INTEGER, 1)
TOP = 2**64 - 1
FIRST, BOTH = [(IN0, [])], [(IN0, []), (IN1, [])]  # of the inputs: external, or ordered
NAMED = (string(b""), OUT0)  # a boundary output

# -- Manifests that are accepted unless something is given otherwise ---------------------------------------------


def listed(*paths):
    """Classes with two members each."""
    return [enum_class(p, [b"", b"m"]) for p in paths]


EF = listed(b"E", b"F")


def one(ins=(), outs=(), state=(0, 0), params=(), name=b"", bound=None, **sections):
    """One block with an empty key; its ports have these types and empty paths, and drive themselves."""
    mine = [[connector_key(KEY, d, i) for i in range(len(ts))] for d, ts in ((IN, ins), (OUT, outs))]
    every = mine[IN] + mine[OUT]
    made = {
        "s3": [block(KEY, name, state, params, *mine)],
        "s4": [connector(k, b"", t) for k, t in zip(every, [*ins, *outs])],
        "s6": [(KEY, [])],
        "s7": [(k, []) for k in every],
        "s8": [(k, k) for k in every],
        "s9": [slot(KEY, 0, state[1])] if state[1] else [],
    }
    return manifest(bound, **{**made, **sections})


def two(first, second, lengths=None):
    """Two blocks with slots of these offsets and lengths; their own lengths are those of the slots."""
    own = lengths or (first[1], second[1])
    s3 = [block(k, b"", (1, n)) for k, n in zip((KEY, OTHER), own)]
    return manifest(s3=s3, s6=[(KEY, []), (OTHER, [])], s9=[slot(KEY, *first), slot(OTHER, *second)])


def algebraic(revision, length):
    """A block of this kind with a state."""
    key, rest = block(KEY, b"", (revision, length))
    return one(s3=[(key, rest[:2] + tag(0) + rest[3:])])


def ports(ins, outs, *more, params=()):
    """A block with these ports, and more blocks."""
    return one(s3=[block(KEY, b"", (0, 0), params, ins, outs), *more])


def chosen(path, ordinal):
    """A block with one enum parameter, and class E."""
    return one(params=[(b"", value(ENUM, path, ordinal))], s2=listed(b"E"))


def entering(kind, *definitions, **more):
    """One external input of a type, and input definitions."""
    return one([kind], s10=FIRST, s12=[definition(*d) for d in definitions], **more)


def bounds(kind, low, high=None, **more):
    """One external input, and its definition with bounds."""
    return entering(kind, (b"", kind, low, high), s2=listed(b"E") if kind == E else [], **more)


def paths(a, b, s10):
    """Two inputs of paths and types, and a definition of the first."""
    s4 = [connector(IN0, *a), connector(IN1, *b)]
    return one([REALS] * 2, s4=s4, s10=[(k, []) for k in s10], s12=[definition(*a)])


def apart(*definitions):
    """Two external inputs, a real of path "" and an integer of path "p", and definitions."""
    s4 = [connector(IN0, b"", REALS), connector(IN1, b"p", INTEGERS)]
    return one([REALS] * 2, s4=s4, s10=BOTH, s12=[definition(*d) for d in definitions])


def among_enums(low):
    """An input of enum class E beside class F, with a minimum."""
    return one([E, F], s2=EF, s10=FIRST, s12=[definition(b"", E, low)])


# -- The rows: what the manifest is, and the manifest; a revision other than 2 --------------------------------------

ROWS = {
    0: [  # accepted
        ("ordinal just the number of members", chosen(b"E", 2)),
        ("an output connected to an input", one([REALS], [REALS], s5=[pair(OUT0, IN0)])),
        ("a connector driven by an input", one([REALS], [REALS], s8=[(IN0, IN0), (OUT0, IN0)])),
        ("the first block's slot after the second's", two((2, 1), (0, 2))),
        ("an external input", entering(REALS, (b"", REALS))),
        ("a boundary output", one([], [REALS], s11=[NAMED])),
        ("one path and type, two external inputs", paths((b"", REALS), (b"", REALS), (IN0, IN1))),
        ("two paths and two types, both external", apart((b"", REALS), (b"p", INTEGERS))),
        ("one path and two types, one of them external", paths((b"", REALS), (b"", INTEGERS), (IN0,))),
        ("bounds of a real, the minimum above the maximum", bounds(REALS, value(REAL, 1), ZERO)),
        ("bounds of an enum", bounds(E, value(ENUM, b"E", 1), value(ENUM, b"E", 2))),
        ("a target-bound class, arch and os", one(name=BOUND_CLASS, bound=(b"a", b"o"))),
        ("under revision 1: a target-bound class and tag 0", one(name=BOUND_CLASS), 1),
        ("under revision 1: no such class and tag 1", one(bound=(b"a", b"o")), 1),
    ],
    11: [
        ("a class without member, named by a connector", one([E], s2=[enum_class(b"E", [])])),
        ("a class without member; 12 would refuse too", one(state=(1, 0), s2=[enum_class(b"E", [])])),
    ],
    12: [
        ("algebraic with a revision", algebraic(1, 0)),
        ("algebraic with a length", algebraic(0, 1)),
        ("stateful without revision", one(state=(0, 1))),
        ("stateful without length", one(state=(1, 0))),
        ("stateful without length; 13 would refuse too", one(state=(1, 0), params=[(b"", value(ENUM, b"F", 1))])),
    ],
    13: [
        ("ordinal 0", chosen(b"E", 0)),
        ("ordinal one above the members", chosen(b"E", 3)),
        ("an unlisted class", chosen(b"F", 1)),
        ("an unlisted class; 14 would refuse too", ports([OUT0], [], params=[(b"", value(ENUM, b"F", 1))])),
    ],
    14: [
        ("an input of another owner", ports([connector_key(OTHER, IN, 0)], [])),
        ("an input of direction out", ports([OUT0], [])),
        ("an input with index 1 at place 0", ports([IN1], [])),
        ("an output of another owner", ports([], [connector_key(OTHER, OUT, 0)])),
        ("an output of direction in", ports([], [IN0])),
        ("an output with index 0 at place 1", ports([], [OUT0, OUT0])),
        ("an input of direction out; 12 would refuse the next block", ports([OUT0], [], block(OTHER, b"", (1, 0)))),
    ],
    15: [
        ("a connector without port", one(s4=[connector(IN0, b"", REALS)])),
        ("a port without connector", one([REALS], s4=[])),
        ("a port without connector; 16 would refuse too", one([E], s2=listed(b"E"), s4=[])),
    ],
    16: [
        ("a class that nothing names", one(s2=listed(b"E"))),
        ("a connector of an unlisted class", one([E])),
        ("a class that nothing names; 17 would refuse too", one(s2=listed(b"E"), s5=[pair(OUT0, IN0)])),
    ],
    17: [
        ("a connection from an input", one([REALS], s5=[pair(IN0, IN0)])),
        ("a connection to an output", one([], [REALS], s5=[pair(OUT0, OUT0)])),
        ("a connection from an unknown output", one([REALS], s5=[pair(OUT0, IN0)])),
        ("a connection to an unknown input", one([], [REALS], s5=[pair(OUT0, IN0)])),
        ("a connection between unknown ports; 18 would refuse too", one(s5=[pair(OUT0, IN0)], s6=[])),
    ],
    18: [
        ("a block scheduled twice", one(s6=[(KEY, [])] * 2)),
        ("a block not scheduled", one(s6=[])),
        ("an unknown block scheduled too", one(s6=[(KEY, []), (OTHER, [])])),
        ("a block not scheduled; 19 would refuse too", one([REALS], s6=[], s7=[])),
    ],
    19: [
        ("a connector ordered twice", one([REALS], s7=FIRST * 2)),
        ("a connector not ordered", one([REALS], s7=[])),
        ("an unknown connector ordered too", one([REALS], s7=BOTH)),
        ("a connector not ordered; 20 would refuse too", one([REALS], s7=[], s8=[])),
    ],
    20: [
        ("no driver for a connector", one([REALS], s8=[])),
        ("a driver too many", one([REALS], s8=[(IN0, IN0), (IN1, IN0)])),
        ("an unknown driver", one([REALS], s8=[(IN0, OUT0)])),
        ("an unknown connector driven", one([REALS], s8=[(OUT0, IN0)])),
        ("no driver for a connector; 21 would refuse too", one([REALS], state=(1, 1), s8=[], s9=[])),
    ],
    21: [
        ("a slot for an algebraic block", one(s9=[slot(KEY, 0, 0)])),
        ("a stateful block without slot", one(state=(1, 1), s9=[])),
        ("a slot too many, for an unknown block", one(state=(1, 1), s9=[slot(KEY, 0, 1), slot(OTHER, 1, 1)])),
        ("a slot too many; 22 would refuse too", one(state=(1, 1), s9=[slot(KEY, 0, 2), slot(OTHER, 2, 1)])),
    ],
    22: [
        ("a slot shorter than its block's state", one(state=(1, 2), s9=[slot(KEY, 0, 1)])),
        ("a slot longer than its block's state; 23 would refuse too", one(state=(1, 1), s9=[slot(KEY, TOP, 2)])),
    ],
    23: [
        ("a slot at 2^64 - 1 of length 1", one(state=(1, 1), s9=[slot(KEY, TOP, 1)])),
        ("a slot at 2^64 - 1 of length 1; 22 would refuse the next slot", two((TOP, 1), (0, 2), lengths=(1, 1))),
    ],
    24: [
        ("a slot that starts at 1", one(state=(1, 1), s9=[slot(KEY, 1, 1)])),
        ("a slot that ends at 2^64 - 1", one(state=(1, 1), s9=[slot(KEY, TOP - 1, 1)])),
        ("slots with a gap", two((0, 1), (2, 1))),
        ("slots that overlap", two((0, 2), (1, 1))),
        ("slots at one place", two((0, 1), (0, 1))),
        ("a slot that starts at 1; 25 would refuse too", one(state=(1, 1), s9=[slot(KEY, 1, 1)], s10=FIRST)),
    ],
    25: [
        ("an external input twice", one([REALS], s10=FIRST * 2)),
        ("an unknown external input", one([REALS], s10=[(IN1, [])])),
        ("an output as external input", one([], [REALS], s10=[(OUT0, [])])),
        ("an unknown external input; 26 would refuse too", one(s10=FIRST, s11=[NAMED])),
    ],
    26: [
        ("an input as boundary source", one([REALS], s11=[(string(b""), IN0)])),
        ("an unknown boundary source", one([], [REALS], s11=[(string(b""), OUT1)])),
        ("two boundary outputs of one name", one([], [REALS], s11=[NAMED] * 2)),
        ("an input as boundary source; 28 would refuse too", one([REALS], s10=FIRST, s11=[(string(b""), IN0)])),
    ],
    27: [
        ("two external inputs of one path, real and integer", paths((b"", REALS), (b"", INTEGERS), (IN0, IN1))),
        ("two external inputs of one path, of two classes", one([E, F], s2=EF, s10=BOTH, s12=[definition(b"", E)])),
        ("two external inputs of one path, real and integer; 28 would refuse too", one([REALS, INTEGERS], s10=BOTH)),
    ],
    28: [
        ("a definition too few", entering(REALS)),
        ("a definition too many", entering(REALS, (b"", REALS), (b"p", REALS))),
        ("a definition of an unknown path", entering(REALS, (b"p", REALS))),
        ("a definition of another type", entering(REALS, (b"", INTEGERS))),
        ("a definition of another type; 29 would refuse too", entering(REALS, (b"", INTEGERS, ZERO))),
        ("a definition of another enum class", one([E, F], s2=EF, s10=FIRST, s12=[definition(b"", F)])),
    ],
    29: [
        ("a Boolean with a minimum", bounds(BOOLEANS, value(BOOLEAN, 0))),
        ("a string with a maximum", bounds(STRINGS, None, value(STRING, b""))),
        ("a minimum of another type", bounds(REALS, ONE)),
        ("a maximum of another type", bounds(REALS, ZERO, ONE)),
        ("a minimum of another enum class", among_enums(value(ENUM, b"F", 1))),
        ("a minimum of another enum class; 30 would refuse it too", among_enums(value(ENUM, b"F", 0))),
        ("a minimum of another type; 30 would refuse the maximum", bounds(E, ZERO, value(ENUM, b"E", 0))),
        ("a minimum of another type; 28 would refuse the next definition", apart((b"", REALS, ONE), (b"q", REALS))),
    ],
    30: [
        ("a minimum with ordinal 0", bounds(E, value(ENUM, b"E", 0))),
        ("a maximum with ordinal one above the members", bounds(E, None, value(ENUM, b"E", 3))),
        ("a minimum with an ordinal too high; 29 would refuse the maximum", bounds(E, value(ENUM, b"E", 3), ZERO)),
        ("a minimum with ordinal 0; 31 would refuse too", bounds(E, value(ENUM, b"E", 0), bound=(b"a", b"o"))),
    ],
    31: [
        ("a target-bound class and tag 0", one(name=BOUND_CLASS)),
        ("no target-bound class and tag 1", one(bound=(b"a", b"o"))),
        ("a class that a target-bound one begins with, and tag 1", one(name=BOUND_CLASS[:-1], bound=(b"a", b"o"))),
    ],
    32: [
        ("empty arch", one(name=BOUND_CLASS, bound=(b"", b"o"))),
        ("empty os", one(name=BOUND_CLASS, bound=(b"a", b""))),
        ("under revision 1: empty os without such a class", one(bound=(b"a", b"")), 1),
    ],
}

# the lists that they are printed as, with their questions
GROUPS = {
    "accepted": [0],
    "declaration": range(11, 17),
    "reference": range(17, 21),
    "slot": range(21, 25),
    "boundary": range(25, 27),
    "input": range(27, 31),
    "portability": range(31, 33),
}

# -- Printing -------------------------------------------------------------------------------------------------------


def dotted(fields):
    """Hexadecimal digits; a dot is four zero bytes of a number, a length or a count."""
    zero = lambda kind, b: kind != "text" and len(b) > 1 and not any(b)
    return "".join("." * (len(b) // 4) if zero(kind, b) else b.hex() for kind, b, _ in fields)


def printed(m):
    return " ".join(dotted(m[0] if s == 0 else counted(LEAST[s], m[s])) for s in m)


def ask(m, revision):
    """The oracle's words on a manifest."""
    record = b"m" + struct.pack("<QII", 0, revision, len(encode(m))) + encode(m)
    run = subprocess.run([os.environ["ORACLE"]], input=record, stdout=subprocess.PIPE, check=True)
    return run.stdout.decode().split(" | ")[0].split()


def row(question, what, m, revision=2):
    """Its lines, with the Rust's answer."""
    told = ["refused", str(question), str(len(encode(m)))] if question else ["accepted"]
    answer = ask(m, revision)
    assert answer[: len(told)] == told, (question, what, answer)
    line = '%s "%s"' % ("refused_by %d" % question if question else "accepted", printed(m))
    return "    -- %s\n    ∷ %s\n" % (what, line if revision == 2 else "revision1 (%s)" % line)


def listed_as(name, rows):
    print("\nabbrev pub %s_rows : List Row\n%s_rows =\n%s    ∷ []" % (name, name, rows))


def main():
    for name, questions in GROUPS.items():
        rows = "".join(row(q, *r) for q in questions for r in ROWS[q]).replace("∷ ", "", 1)
        listed_as(name, rows)
    for name in BOUND:
        assert ask(one(name=name, bound=(b"a", b"o")), 2)[0] == "accepted", name
    listed_as("bound", "".join('    ∷ bound_by "%s"\n' % name.decode() for name in BOUND).replace("∷ ", "", 1))


if __name__ == "__main__":
    main()
