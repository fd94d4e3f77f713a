#!/usr/bin/env python3
"""Writes the lines of crates/replay/stdin that begin with a letter, and their answers in stdout.

    python3 tools/vectors.py ORACLE        or ORACLE=.. python3 tools/vectors.py

ORACLE is the program built from the published Rust: it reads binary records and writes a line for each. Two of its
records are used: 'm' (base, revision, a manifest) runs decode_manifest and says `refused QUESTION OFFSET | ..` or
`accepted ..`, and 'k' (two connector keys) says how the Rust's Ord compares them. crates/replay/src/keys.rt has
the meaning of the lines. Nothing here is random beyond a fixed seed: a second run writes the same files.

Where the expected answers come from (none comes from our own code):
  t  from the Rust: the text as the string `arch` of a manifest, whose refusal 5 stands where the valid prefix ends
  s  from the Rust, in the same way; only what a limit other than 67108864 adds (question 4, at the length) and
     positions past the end (question 3) are from document 01's rules, in Python
  b, k  from the Rust: a key's end or its refusal from a manifest that holds the key, the order from the 'k' record (for
     b with one and the same direction and port behind both keys); the number of agreeing bytes, in Python
  x  the bytes that s says the text occupies
  f, n, c, g, o  from document 01's rules, in Python
"""
import os
import random
import struct
import subprocess
import sys

import replay_lines

LIMIT = 67108864
MOST = 2**64 - 1
DICE = random.Random(3629)
BEHIND = (0, 1, 7, 8, 15, 16, 17, 63, 64, 65)
OUT = {}  # the lines of stdin, with their answers


def u32(n):
    return struct.pack("<I", n)


def lent(b):
    return u32(len(b)) + b


def shown(b):
    return b.hex() or "-"


def say(answer, *words):
    assert all(len(w) <= 1024 for w in words if isinstance(w, bytes))  # SIZE of the program
    line = " ".join(shown(w) if isinstance(w, bytes) else str(w) for w in words)
    assert OUT.setdefault(line, answer) == answer


# -- The Rust ---------------------------------------------------------------------------------------------------


def ask(records):
    """The oracle's lines, a record each."""
    program = sys.argv[1] if len(sys.argv) > 1 else os.environ.get("ORACLE")
    if not program:
        sys.exit(__doc__)
    run = subprocess.run([program], input=b"".join(records), stdout=subprocess.PIPE, check=True)
    lines = run.stdout.decode().split("\n")[:-1]
    assert len(lines) == len(records)
    return lines


def refusals(manifests):
    """Question and offset of each manifest's refusal; each of these manifests is refused."""
    lines = ask([b"m" + struct.pack("<QI", 0, 2) + lent(m) for m in manifests])
    heads = [line.split(" | ")[0].split() for line in lines]
    assert all(h[0] == "refused" and h[1].isdigit() for h in heads), heads
    return [(int(h[1]), int(h[2])) for h in heads]


def strings(cases):
    """For each list of bytes: ('next', end) or ('refused', question, position) of the string at its start.

    The string stands as `arch` after the manifest's tag 1, and `os` follows. With FF FF FF FF behind the bytes, a
    whole string is followed by a length that is too large, so that the refusal is 4 at its end: a 4 further on than
    the string's own length can mean nothing else. (What a case has behind its string is FF for the same reason.)
    Where the string is not whole, the bytes alone give its refusal.
    """
    marked = refusals([b"\1" + c + b"\xff" * 4 for c in cases])
    alone = refusals([b"\1" + c for c in cases])
    return [
        ("next", offset - 1) if question == 4 and offset > 1 else ("refused", q, p - 1)
        for (question, offset), (q, p) in zip(marked, alone)
    ]


def valid_prefixes(texts):
    """How many bytes of each text are valid UTF-8: up to where refusal 5 stands, without the four length bytes."""
    reads = strings([lent(t) for t in texts])
    assert all(r[0] == "next" or r[1] == 5 for r in reads)
    return [len(t) if r[0] == "next" else r[2] - 4 for t, r in zip(texts, reads)]


FIRST = b"\0" + lent(b"z" * 20) + b"\1" + u32(0)
SMALL = b"\0" + lent(b"") + b"\0" + u32(0)


def connector_reads(cases):
    """As `strings`, for connector keys.

    A portable manifest with no classes, blocks and connectors, and two connections: the first is a pair of large keys,
    the second a small key and the case. A key that is read whole ends a connection that is out of order: 9, at its end.
    """
    front = b"\0" + u32(0) * 3 + u32(2) + FIRST + FIRST + SMALL
    reads = refusals([front + c for c in cases])
    return [("next", p - len(front)) if q == 9 else ("refused", q, p - len(front)) for q, p in reads]


def block_reads(cases):
    """As `strings`, for block keys.

    The same manifest, in which the block key is the owner of the case's connector key. With 02 behind the bytes, a
    whole block key is followed by a direction that is unknown: 6, just after it, and further on than the 6 of a bad
    tag, which stands at 1. (What a case has behind its key is 02 or above for the same reason.)
    """
    marked = connector_reads([c + b"\2" for c in cases])
    alone = connector_reads(cases)
    return [("next", m[2] - 1) if m[0] == "refused" and m[1] == 6 and m[2] > 1 else a for m, a in zip(marked, alone)]


def agreeing(a, b):
    return next((i for i, (x, y) in enumerate(zip(a, b)) if x != y), min(len(a), len(b)))


def compare_keys(kind, pairs):
    """Lines of the kind b or k: each pair of keys read and compared. A refused key on the left comes first."""
    read = block_reads if kind == "b" else connector_reads
    behind = b"\0" + u32(0) if kind == "b" else b""
    lefts, rights = read([a for a, _ in pairs]), read([b for _, b in pairs])
    whole = [(a[: l[1]], b[: r[1]]) for (a, b), l, r in zip(pairs, lefts, rights) if l[0] == r[0] == "next"]
    orders = ask([b"k" + lent(a + behind) + lent(b + behind) for a, b in whole])
    assert set(orders) <= {"less", "equal", "greater"}
    orders = iter(orders)
    for (a, b), l, r in zip(pairs, lefts, rights):
        if l[0] == "refused":
            answer = "left refused %d %d" % l[1:]
        elif r[0] == "refused":
            answer = "right refused %d %d" % r[1:]
        else:
            answer = "%s %d" % (next(orders), agreeing(a[: l[1]], b[: r[1]]))
        say(answer, kind, a, b)


# -- Text and strings -------------------------------------------------------------------------------------------


def hexes(text):
    return [bytes.fromhex(word) for word in text.split()]


# RFC 3629: the examples of section 7, the sequences that sections 3 and 10 name
RFC = hexes(
    "41e289a2ce912e ed959ceab5adec96b4 e697a5e69cace8aa9e efbbbff0a38eb4"
    " c080 eda18cedbeb4 f0a38eb4 2f2e2e2f 2fc0ae2e2f"
)
# One sequence for each way to break the rules: too long a form, surrogates, past 10FFFF, no lead byte at all, ..
BROKEN = hexes(
    "c080 c1bf e08080 e09fbf eda080 edbfbf f0808080 f08fbfbf f4908080 f4bfbfbf f5808080 f7bfbfbf f888808080"
    " fc8480808080 fe ff 80 bf"
)
# .. a character cut off after 1, 2 and 3 bytes, ..
SHORT = hexes("c2 e0 e1 ed f0 f1 f4 e0a0 e180 ed9f f090 f180 f48f f09080 f18080 f48fbf")
# .. and another byte where a continuation is due
MISSING = hexes("c241 c2c280 e14180 e18041 e0a0c3 edc080 f1418080 f1804180 f1808041 f090c080 f48fbfc0 f1ff8080")
EDGES = (0, 0x7F, 0x80, 0x7FF, 0x800, 0xFFF, 0x1000, 0xCFFF, 0xD000, 0xD7FF, 0xE000, 0xFFFD, 0xFFFF, 0x10000)
EDGES += (0x3FFFF, 0x40000, 0xFFFFF, 0x100000, 0x10FFFF)


def ascii_text(n):
    return bytes(33 + (7 * i) % 90 for i in range(n))


def some_text(length):
    """Valid text of about so many bytes, of characters of every length."""
    text = ""
    while len(text.encode()) < length:
        top = DICE.choice((0x7F, 0x7FF, 0xD7FF, 0x10FFFF))
        point = DICE.randrange(top + 1)
        if not 0xD800 <= point < 0xE000:
            text += chr(point)
    return text.encode()


def texts():
    more = " und weiter: \u00e4\u2264\U00010000".encode()
    yield from RFC
    for bad in BROKEN + SHORT + MISSING:
        for n in BEHIND:
            yield ascii_text(n) + bad
        for n in (0, 17):
            yield ascii_text(n) + bad + more
        yield more + bad + b"." * 20
    for lead in range(256):
        yield bytes([lead])
        yield bytes([lead]) + b"\x80\x80\x80"
    for point in EDGES:
        character = chr(point).encode()
        yield character
        yield character * 2 + b"a"
        yield ascii_text(15) + character + ascii_text(16)
    yield b""
    for n in (2, 8, 15, 16, 17, 31, 32, 33, 500):
        yield ascii_text(n)
    for n in range(0, 60, 2):
        good = some_text(n)
        yield good
        broken = bytearray(good + b"?")
        broken[DICE.randrange(len(broken))] ^= 1 << DICE.randrange(8)
        yield bytes(broken)


def text_lines():
    cases = list(texts())
    for case, n in zip(cases, valid_prefixes(cases)):
        say(str(n), "t", case)


def string_cases():
    """(limit, position, bytes); the string begins at the position."""
    for n in (LIMIT - 1, LIMIT, LIMIT + 1, 2**32 - 1):
        for behind in (b"", b"abc"):
            yield LIMIT, 0, u32(n) + behind
        for limit in (0, 512, 2**32 - 1, MOST):
            yield limit, 3, b"???" + u32(n)
    for n in range(4):
        yield LIMIT, 0, b"\1\0\0\0"[:n]
        yield LIMIT, 2, b"??\1\0\0\0"[: 2 + n]
    good = [b"", b"a", b"ab", b"abcde", ascii_text(64), ascii_text(257)]
    for text in good + RFC + BROKEN[::2] + SHORT[::4] + MISSING[::4]:
        yield LIMIT, 0, lent(text)
        yield LIMIT, 0, lent(text) + b"\xff"
        yield LIMIT, 7, b"\0\1\2\3\4\5\6" + lent(text) + b"\xff"
        yield LIMIT, 0, u32(len(text) + 1) + text
    for limit in (0, 1, 5, 512):
        for n in sorted({0, 1, max(limit - 1, 0), limit, limit + 1, limit + 9}):
            yield limit, 0, lent(ascii_text(n))
            yield limit, 1, b"?" + u32(n) + ascii_text(n)[1:]
            yield limit, 2, b"??" + lent(b"\xc3" * n)
    for at in (4, 5, 8, 9, 2**32, 2**63, MOST - 4, MOST - 3, MOST):
        for limit in (0, LIMIT):
            yield limit, at, lent(b"")
            yield limit, at, b"\0\0\0\0" * 2


def string_answer(limit, at, b, read):
    if at <= len(b) - 4 and (length := int.from_bytes(b[at : at + 4], "little")) > min(limit, LIMIT):
        # above the limit: 4; within a limit above the Rust's: no case has so many bytes
        return "refused 4 %d" % at if length > limit else "refused 3 %d" % (at + 4)
    if at > len(b):
        return "refused 3 %d" % at
    return "next %d" % (at + read[1]) if read[0] == "next" else "refused %d %d" % (read[1], at + read[2])


def string_lines():
    cases = list(string_cases())
    for case, read in zip(cases, strings([b[at:] for _, at, b in cases])):
        answer = string_answer(*case, read)
        say(answer, "s", *case)
        _, at, b = case
        say(shown(b[at + 4 : int(answer[5:])] if answer.startswith("next") else b""), "x", *case)


def offset_lines():
    for base in (0, 1, 2**32, 2**63, MOST - 45, MOST - 1, MOST):
        for at in (0, 1, 44, 45, 46, 2**63, MOST):
            say(str(min(base + at, MOST)), "f", base, at)


# -- Numbers, counts, tags, plain order: the rules in Python -----------------------------------------------------


def number_lines():
    cases = hexes("ff 0102030405060708 ffffffffffffffff 0000008000000080 fffefdfcfbfaf9f8f7")
    for b in [b""] + cases:
        for width in (1, 4, 8):
            last = max(len(b) - width, 0)
            for at in sorted({0, 1, last, last + 1, len(b), len(b) + 1, MOST - width, MOST}):
                value = int.from_bytes(b[at : at + width], "little")
                whole = at + width <= len(b)
                say("value %d %d" % (value, at + width) if whole else "refused 3 %d" % at, "n", width, at, b)


def count_lines():
    for least in (0, 1, 4, 19, 34):
        for size, at in ((0, 0), (40, 6), (40, 40), (40, 41), (68, 0), (68, MOST)):
            left = max(size - at, 0)
            fits = left // max(least, 1)
            counts = {0, 1, fits, fits + 1, 2**32, 2**32 - 1, MOST}
            if least > 1:  # products that pass 2^64
                counts |= {2**64 // least + 1, 2**63}
            for count in sorted(counts):
                answer = "value %d %d" % (count, at) if count * least <= left else "refused 7 %d" % at
                say(answer, "c", count, least, at, ascii_text(size))


def tag_lines():
    for known in (0, 1, 2, 5, 128, 255):
        for tag in sorted({0, 1, 2, 3, max(known - 1, 0), known, min(known + 1, 255), 127, 128, 254, 255}):
            say("value %d 1" % tag if tag < known else "refused 6 1", "g", known, 0, bytes([tag]))
        say("value 1 4" if known > 1 else "refused 6 4", "g", known, 3, b"\xff\xff\xff\1\xff")
        for at in (1, 2, MOST):
            say("refused 3 %d" % at, "g", known, at, b"\0")


def order_pairs():
    places = (0, 1, 7, 8, 9, 15, 16, 17, 63, 64, 65, 127, 128)
    for n in places:
        text = ascii_text(n)
        yield text, text
        yield text, text + b"\0"
        yield text + b"\0", text
        yield text, text + b"\xff" * 9
        for low, high in (b"\x00\x01", b"\x7f\x80", b"\x80\xff", b"\x00\xff"):
            yield text + bytes([low]), text + bytes([high])
            yield text + bytes([high]) + b"\0" * 3, text + bytes([low]) + b"\xff" * 17
    for n in (16, 64, 128):
        for at in (0, 7, 8, n // 2, n - 9, n - 8, n - 1):  # the last byte differs the other way round
            a, b = bytearray(ascii_text(n)), bytearray(ascii_text(n))
            a[-1], b[-1] = 9, 3
            a[at], b[at] = 1, 2
            yield bytes(a), bytes(b)


def order_lines():
    for a, b in order_pairs():
        say("%s %d" % ("less" if a < b else "greater" if b < a else "equal", agreeing(a, b)), "o", a, b)


# -- Keys -------------------------------------------------------------------------------------------------------


def authored(text):
    return b"\0" + lent(text)


def through(source, target):
    return b"\1" + lent(source) + lent(target)


def port(direction, index):
    return bytes([direction]) + u32(index)


# Block keys that are refused: unknown tags, lengths past the limit, text that is none
BAD_BLOCKS = [b"\2", b"\2" + u32(7), b"\xff" + lent(b"a"), authored(b"\xc0\x80"), through(b"ab\xed\xa0\x80", b"c")]
BAD_BLOCKS += [through(b"c", b"\xf0\x9f\x98"), b"\0" + u32(LIMIT + 1) + b"a", b"\1" + lent(b"") + u32(LIMIT + 1)]
BAD_BLOCKS += [b"\0" + u32(LIMIT), b"\1" + lent(b"a") + u32(2) + b"b"]
ROOMS = [authored(b"room"), through(b"in", b"out"), authored(b"")]


def every(keys):
    return [(a, b) for a in keys for b in keys]


def refused_pairs(bad, good):
    """Each bad key on the left, on the right, and some against another bad one, where the left is named."""
    for key in bad:
        yield key, good
        yield good, key
    yield from zip(bad[::3], bad[1::3])


def cuts(keys):
    return [key[:n] for key in keys for n in range(len(key))]


def block_lines():
    lengths = [authored(ascii_text(n)) for n in (0, 1, 2, 255, 256, 257)]
    texts = [authored(t) for t in (b"a", b"b", b"\x7f", "\u0080".encode(), b"aa", b"ab", "\uffff".encode())]
    pairs = every(lengths) + every(texts)
    for at in (2, 3, 10, 11, 58, 59, 63):  # where the key's byte is 7, 8, 15, 16, 63, 64 and its last
        other = bytearray(ascii_text(64))
        other[at] += 1
        pairs += [(authored(ascii_text(64)), authored(bytes(other)))]
    pairs += every([through(a, b) for a, b in ((b"", b""), (b"", b"a"), (b"a", b""), (b"a", b"b"), (b"b", b"a"))])
    pairs += every([through(b"k", ascii_text(n)) for n in (0, 1, 256)] + [through(ascii_text(256), b"k")])
    pairs += [p for a in lengths[:4] for p in ((a, through(b"", b"")), (through(b"a", ascii_text(20)), a))]
    pairs += [(a + b"\2tail", b + b"\xfftale") for a, b in every(ROOMS)]
    pairs += refused_pairs(BAD_BLOCKS + cuts([authored(b"abc"), through(b"a", b"\xc3\xa4b")]), authored(b"abc"))
    compare_keys("b", pairs)


def connector_lines():
    room = authored(b"room")
    ports = (0, 1, 255, 256, 257, 65536, 2**32 - 1)
    pairs = every([room + port(0, n) for n in ports])
    pairs += every([a + port(d, n) for a in ROOMS for d, n in ((0, 0), (1, 0), (0, 256))])
    pairs += every([authored(ascii_text(n)) + port(1, 1) for n in (1, 255, 256)])
    pairs += [(a + port(0, 7) + b"tail", b + port(0, 7) + b"\0") for a, b in every(ROOMS)]
    bad = [room + port(d, 0) for d in (2, 3, 255)] + [key + port(0, 0) for key in BAD_BLOCKS]
    bad += cuts([authored(b"ab") + port(1, 2), through(b"a", b"b") + port(0, 1)])
    compare_keys("k", pairs + list(refused_pairs(bad, room + port(1, 256))))


def main():
    """Makes all lines, then puts them into the two files."""
    fields = (text_lines, string_lines, offset_lines, number_lines, count_lines, tag_lines)
    for kind in fields + (order_lines, block_lines, connector_lines):
        kind()
    replay_lines.put(OUT.keys(), OUT.values())
    kinds = [line[0] for line in OUT]
    print(", ".join("%s %d" % (k, kinds.count(k)) for k in dict.fromkeys(kinds)), "- %d lines" % len(OUT))


if __name__ == "__main__":
    main()
