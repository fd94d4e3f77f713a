"""The manifests that tools/manifest_vectors.py asks the Rust about: whole ones of every shape, and broken ones.

`all_cases` gives {bytes: m}, where m is the manifest that the bytes are, or were before a field was written over or
the end cut off: up to the refusal it has the same fields at the same places. Where that is not so, m is None.
"""
import random

from manifests import *

LIMIT = 67108864
DICE = random.Random(1049)
LENGTHS = (0, 1, 15, 16, 17, 63, 64, 65, 255, 256, 257)
HIGH = (LIMIT, LIMIT + 1, 2**32 - 1, LIMIT + 1)
CASES = {}


def case(b, intact=None):
    assert len(b) <= 1000  # for SIZE and LINE of the program
    CASES.setdefault(b, intact)


def whole(m):
    case(encode(m), m)


# -- The parts of manifests -------------------------------------------------------------------------------------


def text_places(t):
    """Manifests with the text in each place where one can stand."""
    key, real = block_key(b"k"), value_type(REAL)
    yield manifest(portability=(t, b"o"))
    yield manifest(portability=(b"a", t))
    yield from (alone(s, entry(s, t)) for s in SECTIONS)
    yield alone(2, enum_class(b"E", [t]))
    yield alone(2, enum_class(b"E", [b"-", t, t + b"."]))
    yield alone(3, block(key, t))
    yield alone(3, block(block_key(t, b"k"), b""))
    yield alone(6, (block_key(b"k", t), []))
    for v in (value(STRING, t), value(ENUM, t)):
        yield alone(3, block(key, b"", (0, 0), [(b"p", v)]))
        yield alone(12, definition(b"p", real, v, None))
    yield alone(3, block(key, b"", (0, 0), [(t, VALUES[0])]))
    yield alone(3, block(key, b"", (0, 0), (), [port(t)], [port(b"y", OUT)]))
    yield alone(4, connector(port(b"k"), t, value_type(ENUM, b"E")))
    yield alone(4, connector(port(b"k"), b"p", value_type(ENUM, t)))
    yield alone(4, connector(port(b"k"), b"p", real, 0, t, None))
    yield alone(4, connector(port(b"k"), b"p", real, 0, None, t))
    yield alone(12, definition(b"p", value_type(ENUM, t)))


def samples(name):
    """A manifest or two for each section, with every kind of field."""
    yield manifest(portability=(b"x86_64", b"linux"))
    yield alone(2, enum_class(name, [b"on", b"off"]), enum_class(b"b", []))
    values = [(bytes([97 + i]), v) for i, v in enumerate(VALUES)]
    yield alone(3, block(block_key(name), b"Add", (1, 2), values[:3], [port(b"")], [port(b"", OUT)]))
    yield alone(3, block(block_key(b"a", b"b"), b"Pid", (0, 0), values[4:7]), entry(3, b"c"))
    yield alone(4, connector(port(name), b"p", TYPES[4], 9, b"K", b"T"), entry(4, b"b" * 60))
    yield alone(5, pair(port(name), port(b"b")))
    yield alone(5, entry(5, b"a"), entry(5, b"b"))
    yield alone(6, (block_key(name, b"b"), []), (block_key(b"a"), []))
    yield alone(7, (port(name), []), (port(b"b", OUT, 256), []))
    yield alone(8, (port(b"a"), port(name, OUT)), (port(b"b"), port(b"c")))
    yield alone(9, slot(block_key(b"a", name), 1, 2), slot(block_key(b"c", name), 0, 1))
    yield alone(10, (port(name), []), (port(b"b", OUT), []))
    yield alone(11, (string(name), port(b"a", OUT)), (string(b""), port(b"b")))
    yield alone(12, definition(b"a", TYPES[4], VALUES[6], VALUES[0]), definition(name, TYPES[1], None, VALUES[2]))
    yield manifest()


def rich():
    """All twelve sections with entries, as small as that can be."""
    key, a, b = block_key(b"k"), port(b"k"), port(b"k", OUT)
    return manifest(
        s2=[enum_class(b"E", [b"m", "ä".encode()])],
        s3=[block(key, b"C", (1, 2), [(b"p", value(ENUM, b"E"))], [a], [b])],
        s4=[connector(a, b"i", TYPES[4], 0, b"K"), connector(b, b"", TYPES[0])],
        s5=[pair(b, a)], s6=[(key, [])], s7=[(a, []), (b, [])], s8=[(a, b), (b, b)], s9=[slot(key, 0, 2)],
        s10=[(a, [])], s11=[(string(b"y"), b)], s12=[definition(b"i", TYPES[4], VALUES[6])],
    )


# -- Whole manifests --------------------------------------------------------------------------------------------


def document_01():
    """The entries that document 01 lists, with base 0 and revision 2."""
    for n in (0, 44, 45, 46):
        case(bytes(n))
    case(b"\2")
    for zeros in (7, 8, 48):
        case(b"\0\1\0\0\0" + bytes(zeros))
    case(b"\1" + bytes(52))
    key = block_key(b"")
    for at in (0, 1):
        p = manifest(s3=[block(key, b"", (1, 1))], s6=[(key, [])], s9=[slot(key, at, 1)])
        whole(p)
        case(put(encode(p), 18, b"\0"), p)  # the kind


def shapes():
    for n in LENGTHS:
        text = some_text(DICE, n) if n % 2 else bytes(33 + (7 * i) % 90 for i in range(n))
        for i, m in enumerate(text_places(text)):
            if n < 100 or i % 3 == n % 3:  # each place has one of the three longest
                whole(m)
    for v in VALUES:
        whole(alone(3, block(block_key(b""), b"", (0, 0), [(b"", v)])))
        whole(alone(12, definition(b"", TYPES[0], v, v)))
    for t in TYPES:
        whole(alone(4, connector(port(b""), b"", t, 1, b"", b"")))
        whole(alone(12, definition(b"", t)))
    for s in SECTIONS:  # several entries
        whole(alone(s, *[entry(s, b"%c" % (97 + i)) for i in range(5)]))


def plants():
    room = {1: 120, 2: 25, 3: 5}
    while any(room.values()):
        blocks = DICE.choice([n for n in room if room[n]])
        m = plant(DICE, blocks, DICE.choice((0, 1, 2)), DICE.choice((1, 2, 4)), DICE.random() < 0.1)
        if len(encode(m)) <= {1: 280, 2: 360, 3: 600}[blocks] and encode(m) not in CASES:
            whole(m)
            room[blocks] -= 1


# -- Broken manifests -------------------------------------------------------------------------------------------


def put(b, at, new):
    return b[:at] + new + b[at + len(new) :]


def refused_edits(b, at, field):
    """The bytes with one field written over by what is refused there, or by another number."""
    kind, old, extra = field
    left = len(b) - at - 4
    if kind == "tag":
        return [put(b, at, bytes([t])) for t in (extra, 255)]
    if kind == "length":
        return [put(b, at, n.to_bytes(4, "little")) for n in (HIGH[at % 4], left + 1)]
    if kind == "count":
        return [put(b, at, n.to_bytes(4, "little")) for n in ([left // extra + 1, 2**32 - 1][: at % 3 + 1])]
    if kind == "text" and old:
        return [put(b, at + len(old) // 2, b"\xff"), put(b, at + len(old) - 1, b"\xc3")]
    return [put(b, at, b"\xff" * len(old))] if kind == "number" else []


def other_edits(b, at, field):
    """The bytes with one field written over such that what follows is read as something else."""
    kind, old, extra = field
    left, now = len(b) - at - 4, int.from_bytes(old, "little")
    if kind == "tag":
        return [put(b, at, bytes([(now + 1) % extra]))]
    if kind in ("length", "count"):
        most = left if kind == "length" else left // extra
        return [put(b, at, n.to_bytes(4, "little")) for n in (most, now + 1)]
    return []


def edited_fields():
    for m in samples(b"n"):
        b = encode(m)
        for section, at, field in flat(m):
            if len(b) == 45 or field[0] != "count" or m.get(section):
                for new in refused_edits(b, at, field):
                    case(new, m)
                for new in other_edits(b, at, field):
                    case(new)


def cut_fields():
    """Ends at and inside fields, with a name so long that the count test passes."""
    for m in samples(b"longer than the least of any entry"):
        for section, at, field in flat(m):
            for cut in {at, at + len(field[1]) - 1} if m.get(section) or section == 1 else ():
                case(encode(m)[:cut], m)


def cuts():
    b = encode(rich())
    whole(rich())
    for n in range(len(b)):
        case(b[:n], rich())


def trailing():
    for m in [rich(), manifest()] + [alone(s, entry(s, b"t")) for s in SECTIONS]:
        for more in (b"\0", b"\xff\xff", bytes(4)):
            case(encode(m) + more, m)


def connectors_left():
    """The count test of section 4 goes by 19 bytes, though an entry has at least 21."""
    for count in (1, 2, 3):
        for left in sorted({k * count + d for k in (19, 20, 21) for d in (-1, 0, 1)}):
            m = alone(4, *[entry(4, b"") for _ in range(count)])
            case((encode(m)[: 13 + left] + bytes(60))[: 13 + left], m)


def member_lists():
    names = [b"", b"a", b"b", b"aa", b"ab", b"a\0", "ä".encode(), b"a" * 16, b"a" * 15 + b"b", b"a" * 17]
    for n in range(2, 7):
        for _ in range(8):
            members = DICE.sample(names, n)
            whole(alone(2, enum_class(b"E", members)))
            members[DICE.randrange(1, n)] = members[0]
            if DICE.random() < 0.5:
                DICE.shuffle(members)
            whole(alone(2, enum_class(b"E", members), enum_class(b"F", [b"a"])))
            whole(alone(2, enum_class(b"A", [b"a"]), enum_class(b"E", members)))
    repeated = enum_class(b"E", [b"a", b"a"])
    whole(alone(2, enum_class(b"F", []), repeated))  # both 8 and 9: the members come first
    whole(alone(2, repeated, repeated))
    long = [b"%d" % (7 * i % 41) for i in range(41)]
    for members in (long, sorted(long), sorted(long, reverse=True), long + [b"13"], [b"0"] + long, [b""] * 40):
        whole(alone(2, enum_class(b"many", members)))


ORDERED = [b"", b"b", b"aa", b"\x7f", "\u0080".encode(), b"a" * 17]


def orders():
    """Two entries in every order, in each section: question 9 where the section ascends."""
    for s in SECTIONS:
        for a in ORDERED if s in ASCENDING else ORDERED[:3]:
            for b in ORDERED if s in ASCENDING else ORDERED[:3]:
                whole(alone(s, entry(s, a), entry(s, b)))
    for a in ORDERED:
        for b in ORDERED:
            whole(alone(3, block(block_key(b""), b"", (0, 0), [(a, VALUES[2]), (b, VALUES[4])])))
    for s in (2, 3, 4, 12):  # lengths as written: 256 before 1, but not where texts are compared
        for a, b in ((b"a" * 256, b"b"), (b"b", b"a" * 256)):
            whole(alone(s, entry(s, a), entry(s, b)))


def key_orders():
    keys = [block_key(*t) for t in ((b"",), (b"a",), (b"", b""), (b"", b"a"), (b"a", b""), (b"b", b""))]
    for a in keys:
        for b in keys:
            whole(alone(9, slot(a, 0, 1), slot(b, 0, 1)))
    ports = [port(b"", d, n) for d in (IN, OUT) for n in (0, 1, 255, 256, 65536, 2**32 - 1)]
    for a, b in [(a, b) for a in ports for b in ports if a != b][::3]:
        whole(alone(4, connector(a, b"", TYPES[0]), connector(b, b"", TYPES[1])))
    ends = [port(b"a"), port(b"b", OUT), port(b"b", OUT, 256)]
    for a, b, c, d in [(a, b, c, d) for a in ends for b in ends for c in ends for d in ends][::2]:
        whole(alone(5, pair(a, b), pair(c, d)))
        whole(alone(8, (a, b), (c, d)))


def swaps():
    """Neighbours changed in manifests of several entries."""
    for s in ASCENDING:
        for i in range(4):
            m = alone(s, *[entry(s, b"%c" % (97 + k)) for k in range(5)])
            intact = dict(m)
            m[s] = m[s][:i] + [m[s][i + 1], m[s][i]] + m[s][i + 2 :]
            case(encode(m), intact)
            m[s] = intact[s][: i + 1] + intact[s][i:]
            case(encode(m), m)


def two_faults():
    """A key out of order and a fault behind it: section 12 asks for the order first, the others at the entry's end."""
    for s in ASCENDING:
        m = alone(s, entry(s, b"b"), entry(s, b"a"))
        b, fields = encode(m), [f for f in flat(m) if f[0] == s]
        for _, at, field in fields[len(fields) // 2 :]:
            for new in refused_edits(b, at, field)[-2:]:
                case(new)
        for n in range(fields[len(fields) // 2][1], len(b), 5):
            case(b[:n])


def random_edits(accepted):
    """One to three fields of accepted manifests written over, and single bytes."""
    for m in DICE.choices([m for m in accepted if len(encode(m)) < 250], k=200):
        b = encode(m)
        for _ in range(DICE.choice((1, 1, 2, 3))):
            _, at, field = DICE.choice(flat(m))
            b = DICE.choice((refused_edits(b, at, field) + other_edits(b, at, field)) or [b])
        if DICE.random() < 0.3:
            b = put(b, DICE.randrange(len(b)), bytes([DICE.choice((0, 1, 2, 128, 255))]))
        case(b)


def all_cases():
    document_01()
    shapes()
    made = len(CASES)
    plants()
    accepted = list(CASES.values())[made:]
    for fields in (edited_fields, cut_fields, cuts, trailing, connectors_left):
        fields()
    for entries in (member_lists, orders, key_orders, swaps, two_faults):
        entries()
    random_edits(accepted)
    return CASES
