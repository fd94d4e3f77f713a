#!/usr/bin/env python3
"""Prints the rows of crates/tail/proofs/Cases.antt: manifests with their tails, and what they are answered.

    ORACLE=.. python3 tools/tail_rows.py

ORACLE is the program built from the published Rust; tools/manifest_vectors.py tells of its record 't'. Each row stands
under the question that it is refused by, or 0: the run fails where the Rust answers otherwise. The offsets are its own.
"""
import os
import struct
import subprocess

from question_rows import *
from tail_cases import EMPTY, P, SLOTS, WIDE, blocks_of, reals, with_
from tails import *

ONES, TWO = one([REALS]), one([REALS] * 2)
CHOICES, TEXT = one([E, F], s2=EF), one([STRINGS])
FAR, HIGH_PORT = connector_key(OTHER, IN, 0), connector_key(KEY, IN, 256)
BRANCHES = [block_key(b"b"), block_key(b"aa")]  # in the order of their bytes
LEADING = [connector_key(k, IN, 0) for k in BRANCHES]
INTEGER_0 = value(INTEGER, 0)
PORTS = [connector_key(KEY, IN, i) for i in range(4)]
PLAIN = [value(REAL, 1 << 63), value(INTEGER, TOP), value(BOOLEAN, 1), value(STRING, "ä".encode())]
LONG = [("length", (67108865).to_bytes(4, "little"), None)]


def of(*values):
    """A tail of these pairs of a key and a value, without words."""
    return tail(values)


def kinds(e, f):
    """Values of the classes E and F, for CHOICES."""
    return of((IN0, value(ENUM, *e)), (IN1, value(ENUM, *f)))


def a_text(t):
    return of((IN0, value(STRING, t)))


def valued(fields):
    return of((IN0, fields))


# -- The rows: what the tail is, its manifest and the tail; how many bytes are cut off, a revision other than 2 ------

ACCEPTED = [
    (0, "no value, no word", EMPTY, tail()),
    (0, "a value of each type but enums", one([REALS, INTEGERS, BOOLEANS, STRINGS]), of(*zip(PORTS, PLAIN))),
    (0, "the last ordinal and the first", CHOICES, kinds((b"E", 2), (b"F", 1))),
    (0, "an owner of length 1 before one of length 2", blocks_of(*BRANCHES), reals(*LEADING)),
    (0, "the first block's slot after the second's", SLOTS, tail(words=(1, 2, 3))),
    (0, "under revision 1: a target-bound class and tag 0", one([REALS], name=BOUND_CLASS), reals(IN0), 0, 1),
]
OF_VALUES = [
    (33, "a value fewer", TWO, reals(IN0)),
    (33, "a value more, of an unknown key; 34 would refuse too", ONES, reals(IN0, FAR)),
    (33, "a value fewer; 3 would refuse the word count", TWO, reals(IN0), 12),
    (34, "an unknown key in the first place: port 256", TWO, reals(HIGH_PORT, IN1)),
    (34, "an unknown key in the last place: another owner", TWO, reals(IN0, FAR)),
    (34, "an unknown key; 35 would refuse the next value", TWO, of((HIGH_PORT, ZERO), (IN1, INTEGER_0))),
    (35, "an integer for a real", ONES, valued(INTEGER_0)),
    (35, "another class, which is listed", CHOICES, kinds((b"E", 1), (b"E", 1))),
    (35, "another class; 36 would refuse the ordinal", CHOICES, kinds((b"F", 0), (b"F", 1))),
    (35, "another type; 34 would refuse the next value", TWO, of((IN0, INTEGER_0), (FAR, ZERO))),
    (35, "another type; 7 would refuse the word count", ONES, with_(valued(INTEGER_0), word_count=1)),
    (36, "ordinal 0", CHOICES, kinds((b"E", 1), (b"F", 0))),
    (36, "an ordinal one above the members", CHOICES, kinds((b"E", 3), (b"F", 1))),
    (36, "an ordinal too high; 35 would refuse the next value", CHOICES, kinds((b"E", 3), (b"E", 1))),
    (36, "an ordinal too high; 3 would refuse the word count", CHOICES, kinds((b"E", 1), (b"F", 3)), 5),
]
OF_WORDS = [
    (37, "a word fewer", SLOTS, tail(words=(1, 2))),
    (37, "a word more", P, tail(words=(1, 2))),
    (37, "a word fewer; 3 would refuse the flags", P, tail(), 4),
    (37, "a word more; 38 would refuse too", P, tail(words=(1, 2), flags=1)),
    (7, "a word that is missing; 37 would refuse too", SLOTS, with_(tail(words=(1,)), word_count=2)),
    (7, "2^61 words, as many as the slots have but one", WIDE, with_(tail(words=(1,)), word_count=2**61)),
    (3, "flags of three bytes", P, tail(words=(1,)), 1),
    (38, "flags 1", P, tail(words=(1,), flags=1)),
    (38, "flags 2^31; 10 would refuse too", EMPTY, with_(tail(flags=2**31), more=b"\0")),
    (10, "a byte left", EMPTY, with_(tail(), more=b"\0")),
]
OF_FIELDS = [
    (3, "nothing", EMPTY, tail(), 16),
    (7, "a value with eleven bytes left", ONES, reals(IN0), 20),
    (4, "a string of 67,108,865 bytes", TEXT, valued(tag(STRING, 5) + LONG)),
    (5, "a string that is no text", TEXT, a_text(b"a\xff")),
    (6, "a key of tag 2", ONES, of((tag(2) + string(b"") + tag(IN) + number(0), ZERO))),
    (6, "direction 2", ONES, reals(connector_key(KEY, 2, 0))),
    (6, "a Boolean that is 2", one([BOOLEANS]), valued(value(BOOLEAN, 2))),
    (9, "a value twice", TWO, reals(IN0, IN0)),
    (9, "port 256 behind port 1", TWO, reals(IN1, HIGH_PORT)),
    (9, "an owner of length 2 before one of length 1; 33 would refuse too", EMPTY, reals(*LEADING[::-1])),
]
OF_MANIFESTS = [
    (10, "a byte left in the manifest, and no tail", (P, b"\0"), tail(), 16),
    (24, "a slot that starts at 1, and two words", one(state=(1, 1), s9=[slot(KEY, 1, 1)]), tail(words=(1, 2))),
    (31, "a target-bound class and tag 0", one([REALS], name=BOUND_CLASS), reals(IN0)),
]

# the lists that they are printed as
GROUPS = {"accepted": ACCEPTED, "value": OF_VALUES, "word": OF_WORDS, "field": OF_FIELDS, "manifest": OF_MANIFESTS}

# -- Printing -------------------------------------------------------------------------------------------------------


def until(every, n):
    """The fields of the first n bytes; a field that is cut is printed as a text is."""
    out = []
    for kind, b, extra in every:
        out.append((kind if len(b) <= n else "text", b[:n], extra))
        n = max(n - len(b), 0)
    return out


def printed_tail(t, n):
    """Its first n bytes: the number of values, each value, the words with their number, and the flags, apart."""
    every, ends = until(fields(t) + [("text", t.more, None)], n), [1]
    for key, v in t.values:
        ends.append(ends[-1] + len(key) + len(v))
    ends += [len(every) - 2, len(every)]
    return " ".join(filter(None, [dotted(every[a:b]) for a, b in zip([0] + ends, ends)]))


def spelled(digits):
    """The bytes that are printed so."""
    return bytes.fromhex(digits.replace(".", "00000000"))


def ask(b, t, revision):
    """The oracle's words on a manifest and a tail."""
    record = b"t" + struct.pack("<QII", 0, revision, len(b)) + b + struct.pack("<I", len(t)) + t
    run = subprocess.run([os.environ["ORACLE"]], input=record, stdout=subprocess.PIPE, check=True)
    return run.stdout.decode().split(" | ")[0].split()


def tail_row(question, what, m, t, cut=0, revision=2):
    """Its lines, with the Rust's answer."""
    m, more = m if isinstance(m, tuple) else (m, b"")
    b, u = encode(m) + more, tail_bytes(t)[: len(tail_bytes(t)) - cut]
    digits = printed(m) + more.hex(), printed_tail(t, len(u))
    assert tuple(map(spelled, digits)) == (b, u), what
    told = ask(b, u, revision)
    assert told[:1] == ["accepted"] if question == 0 else told[:2] == ["refused", str(question)], (what, told)
    answer = "(refuses %s %s)" % (told[1], told[2]) if question else "accepts"
    line = 'row "%s" "%s" %s' % (*digits, answer)
    return "    -- %s\n    ∷ %s\n" % (what, line if revision == 2 else "revision1 (%s)" % line)


def main():
    for name, rows in GROUPS.items():
        text = "".join(tail_row(*r) for r in rows).replace("∷ ", "", 1)
        print("\nabbrev pub %s_rows : List Row\n%s_rows =\n%s    ∷ []" % (name, name, text))


if __name__ == "__main__":
    main()
