"""Execution manifests for tests: their fields, whole manifests that the Rust accepts, and edits that break them.

A field is (kind, bytes, extra): the kinds are tag (extra: how many values are known), length and text (a string's two
fields), count (extra: the least bytes of an entry) and number. An entry is (fields of its key, other fields). A
manifest is {0: fields of section 1, 2: entries of section 2, .., 12: ..}; document 01, "The wire", has the layouts.
"""
SECTIONS = range(2, 13)
LEAST = {2: 8, 3: 34, 4: 19, 5: 20, 6: 5, 7: 10, 8: 20, 9: 21, 10: 10, 11: 14, 12: 7}
ASCENDING = (2, 3, 4, 5, 8, 9, 12)
REAL, INTEGER, BOOLEAN, STRING, ENUM = range(5)
IN, OUT = range(2)
BOUND_CLASS = b"CDL.Reals.Sin"  # one of TARGET_BOUND_CLASSES

# -- Fields -----------------------------------------------------------------------------------------------------


def number(n, width=4):
    return [("number", n.to_bytes(width, "little"), None)]


def tag(n, known=2):
    return [("tag", bytes([n]), known)]


def string(t):
    return [("length", len(t).to_bytes(4, "little"), None), ("text", t, None)]


def counted(least, entries):
    return [("count", len(entries).to_bytes(4, "little"), least)] + [f for key, rest in entries for f in key + rest]


def block_key(*texts):
    """Of one text: an authored block; of two: a pass-through."""
    return tag(len(texts) - 1) + [f for t in texts for f in string(t)]


def connector_key(owner, direction, port):
    return owner + tag(direction) + number(port)


def value_type(kind, path=b""):
    return tag(kind, 5) + (string(path) if kind == ENUM else [])


def value(kind, x, ordinal=1):
    """x is a number, for an enum its class's path, for a string its text."""
    if kind in (REAL, INTEGER):
        return tag(kind, 5) + number(x, 8)
    if kind == BOOLEAN:
        return tag(kind, 5) + tag(x)
    return tag(kind, 5) + string(x) + (number(ordinal) if kind == ENUM else [])


def optional(fields):
    return tag(0) if fields is None else tag(1) + fields


# -- Entries ----------------------------------------------------------------------------------------------------


def enum_class(path, members):
    return string(path), counted(4, [(string(m), []) for m in members])


def block(key, name, state=(0, 0), params=(), inputs=(), outputs=(), kind=None):
    """state is revision and length, from which the kind follows if it is not given; params are (name, its value)."""
    head = string(name) + tag(int(any(state)) if kind is None else kind) + number(state[0]) + number(state[1], 8)
    lists = counted(6, [(string(n), v) for n, v in params])
    return key, head + lists + counted(10, [(k, []) for k in inputs]) + counted(10, [(k, []) for k in outputs])


def connector(key, path, kind, order=0, unit=None, quantity=None):
    texts = [optional(None if t is None else string(t)) for t in (unit, quantity)]
    return key, string(path) + number(order) + kind + texts[0] + texts[1]


def pair(a, b):
    """A connection, whose key is both."""
    return a + b, []


def slot(key, offset, length):
    return key, number(offset, 8) + number(length, 8)


def definition(path, kind, low=None, high=None):
    return string(path), kind + optional(low) + optional(high)


# -- Manifests --------------------------------------------------------------------------------------------------


def wire(fields):
    return b"".join(f[1] for f in fields)


def sort_key(section):
    """What ascends: the text alone in sections 2 and 12, else the key as written."""
    return lambda entry: entry[0][1][1] if section in (2, 12) else wire(entry[0])


def manifest(portability=None, **sections):
    """A manifest with the sections s2 .. s12 that are given, in order where they have one; the others are empty."""
    out = {0: tag(0) if portability is None else tag(1) + string(portability[0]) + string(portability[1])}
    for s in SECTIONS:
        entries = list(sections.get("s%d" % s, ()))
        out[s] = sorted(entries, key=sort_key(s)) if s in ASCENDING else entries
    return out


def flat(m):
    """All fields, each with its section and position: (section, position, field)."""
    out, at = [], 0
    for s in m:
        for f in m[0] if s == 0 else counted(LEAST[s], m[s]):
            out.append((max(s, 1), at, f))
            at += len(f[1])
    return out


def encode(m):
    return wire([f for _, _, f in flat(m)])


def section_at(m, position):
    """The section that holds a byte; the last one for what follows it."""
    return max(s for s, at, _ in flat(m) if at <= position)


def port(text, direction=IN, index=0):
    return connector_key(block_key(text), direction, index)


def entry(section, t):
    """The plainest entry with a text in its key."""
    return {
        2: lambda: enum_class(t, [b"m"]),
        3: lambda: block(block_key(t), b""),
        4: lambda: connector(port(t), b"", value_type(REAL)),
        5: lambda: pair(port(t), port(b"z")),
        6: lambda: (block_key(t), []),
        7: lambda: (port(t), []),
        8: lambda: (port(t), port(b"z")),
        9: lambda: slot(block_key(t), 0, 1),
        10: lambda: (port(t), []),
        11: lambda: (string(t), port(b"z")),
        12: lambda: definition(t, value_type(REAL)),
    }[section]()


def alone(section, *entries):
    """A manifest with entries in one section only, in the order given."""
    m = manifest()
    m[section] = list(entries)
    return m


VALUES = [value(REAL, 1 << 63), value(INTEGER, 2**64 - 1), value(BOOLEAN, 0), value(BOOLEAN, 1)]
VALUES += [value(STRING, b""), value(STRING, "ä阀😀".encode()), value(ENUM, b"E", 1), value(ENUM, b"", 2**32 - 1)]
TYPES = [value_type(k) for k in range(4)] + [value_type(ENUM, b"E"), value_type(ENUM, b"")]


# -- Whole manifests that hold together -------------------------------------------------------------------------


def some_value(dice, kind, classes):
    if kind[0][1][0] == ENUM:
        path = kind[2][1]
        return value(ENUM, path, dice.randrange(len(classes[path])) + 1)
    n = kind[0][1][0]
    return value(n, some_text(dice, dice.randrange(9)) if n == STRING else dice.getrandbits(1 if n == BOOLEAN else 63))


def some_text(dice, n):
    """Valid text of n bytes."""
    out = b""
    while len(out) < n:
        c = dice.choice("aaaabbcxyzAZ09._/ \0\x7fäßΩ߿ࠀ阀\uffff\U00010000😀\U0010ffff").encode()
        out += c if len(out + c) <= n else b"q"
    return out


def distinct(make, n):
    """Up to n different texts, in the order in which they were made."""
    return list(dict.fromkeys(make() for _ in range(n)))


def plant(dice, blocks, ports=1, longest=5, bound=False):
    """A manifest that the Rust accepts: so many blocks, each with up to so many ports each way, and so long texts."""
    text = lambda: some_text(dice, dice.randrange(longest + 1))
    classes = {p: distinct(text, dice.randrange(1, 4)) for p in distinct(text, dice.randrange(3) if blocks else 0)}
    kinds = [value_type(k) for k in range(4)] + [value_type(ENUM, p) for p in classes]
    keys = [block_key(*[text() for _ in range(dice.choice((1, 1, 2)))]) for _ in range(blocks)]
    rows, ins, outs = [], [], []
    for i, key in enumerate({wire(k): k for k in keys}.values()):
        mine = [[connector_key(key, d, p) for p in range(dice.randrange(ports + 1))] for d in (IN, OUT)]
        ins, outs = ins + mine[IN], outs + mine[OUT]
        params = {text(): some_value(dice, dice.choice(kinds), classes) for _ in range(dice.choice((0, 0, 1, 2)))}
        if i == 0:  # so that each class is named
            params.update((b"p" + p, value(ENUM, p)) for p in classes)
        state = (dice.randrange(1, 9), dice.randrange(1, 9)) if dice.random() < 0.5 else (0, 0)
        name = BOUND_CLASS if bound and i == 0 else text()
        rows.append((key, state[1], block(key, name, state, sorted(params.items()), *mine)))
    return joined(dice, text, classes, kinds, rows, ins, outs, bound)


def joined(dice, text, classes, kinds, rows, ins, outs, bound):
    """The sections that follow from the blocks (key, state length, entry) and their ports."""
    every = ins + outs
    outside = [k for k in ins if dice.random() < 0.5]
    path = {wire(k): text() for k in every}
    kind = {p: dice.choice(kinds) for p in path.values()}  # one type for each path
    maybe = lambda x: x if dice.random() < 0.4 else None
    limit = lambda k: maybe(some_value(dice, k, classes)) if k[0][1][0] in (REAL, INTEGER, ENUM) else None
    shape = lambda p: (p, kind[p], dice.getrandbits(32), maybe(text()), maybe(text()))
    slots, at = [], 0
    for key, length, _ in dice.sample(rows, len(rows)):
        slots, at = slots + ([slot(key, at, length)] if length else []), at + length
    defined = dict.fromkeys(path[wire(k)] for k in outside)
    return manifest(
        (b"x86_64", b"linux") if bound and rows else None,
        s2=[enum_class(p, m) for p, m in classes.items()],
        s3=[row for _, _, row in rows],
        s4=[connector(k, *shape(path[wire(k)])) for k in every],
        s5=[pair(a, b) for a in outs for b in ins if dice.random() < 0.4],
        s6=[(key, []) for key, _, _ in dice.sample(rows, len(rows))],
        s7=[(k, []) for k in dice.sample(every, len(every))],
        s8=[(k, dice.choice(every)) for k in every],
        s9=slots,
        s10=[(k, []) for k in outside],
        s11=[(string(n), dice.choice(outs)) for n in distinct(text, len(outs))],
        s12=[definition(p, kind[p], limit(kind[p]), limit(kind[p])) for p in defined],
    )


# -- Calls ------------------------------------------------------------------------------------------------------

HIGHEST = 2**64 - 1  # where offsets stop


def needed(b):
    """Question 2: the least words of the index."""
    return len(b) // 2 + 16


def some_base(dice, n):
    """Mostly 0; also such that the offsets of n bytes stop at the highest one, or just do not."""
    near = (HIGHEST, HIGHEST - n, min(HIGHEST - n + 1, HIGHEST), HIGHEST - dice.randrange(n + 1))
    return dice.choice((0,) * 12 + (1, dice.getrandbits(32), dice.getrandbits(64)) + near)
