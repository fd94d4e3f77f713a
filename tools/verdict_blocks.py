"""Edits that leave a manifest accepted: the target, enum classes and blocks, in which sections 1 to 3 differ then."""
from input_edits import BOUND
from verdict_table import *

# -- 1: portability ---------------------------------------------------------------------------------------------


@renames(1, 0)
def target_renamed(dice, p, q, how):
    require(p.target)
    i = dice.randrange(2)
    p.target[i], q.target[i] = two_texts(dice, p.target[i], how)


@differs(1, 0)
def target_parted_elsewhere(dice, p, q):
    require(p.target)
    arch, os = p.target
    q.target = [arch[:-1], arch[-1:] + os]


@differs(1, 0)
def target_given(dice, p, q):
    require(not p.target)
    q.target = [b"a", b"o"]


@differs(1, 0)
def class_bound(dice, p, q):
    target_given(dice, p, q)
    pick(dice, q.blocks).name = dice.choice(BOUND)


# -- 2: enum classes --------------------------------------------------------------------------------------------


def recast(fields, old, new):
    """A type or a value, with another path for this class."""
    if fields and kind_of(fields) == ENUM and fields[2][1] == old:
        return fields[:1] + string(new) + fields[3:]
    return fields


def reclass(p, old, new):
    for row in p.classes:
        row[0] = new if row[0] == old else row[0]
    for param in [param for b in p.blocks for param in b.params]:
        param[1] = recast(param[1], old, new)
    for c in p.connectors:
        c.type = recast(c.type, old, new)
    for row in p.definitions:
        row[1:] = [recast(x, old, new) for x in row[1:]]


@differs(2, 0)
def class_renamed(dice, p, q):
    old = pick(dice, p.classes)[0]
    reclass(q, old, unknown(dice, old))


@differs(2, 0)
def member_added(dice, p, q):
    members = pick(dice, q.classes)[1]
    members.insert(dice.randrange(len(members) + 1), unknown(dice, members[0]))


@renames(2, 0)
def member_renamed(dice, p, q, how):
    a, b = both(dice, p.classes, q.classes)
    i = dice.randrange(len(a[1]))
    a[1][i], b[1][i] = two_texts(dice, a[1][i], how)


@differs(2, 0)
def members_swapped(dice, p, q):
    swap(dice, pick(dice, q.classes)[1])


@differs(2, 0, "first")
@differs(2, 13, "last")
def class_added(dice, p, q, where):
    paths = [path for path, _ in p.classes]
    require(where == "last" or (paths and b"" not in paths))
    path = b"" if where == "first" else max(paths, default=b"") + some_text(dice, dice.choice((1, 2)))
    q.classes.append([path, [b"m"]])
    pick(dice, q.blocks).params.append([b"?", value(ENUM, path)])


# -- 3: blocks --------------------------------------------------------------------------------------------------


def rekey(p, old, new):
    """A block gets another key, wherever its key stands."""
    of_block = lambda key: new if wire(key) == wire(old) else key
    of_port = lambda key: of_block(owner(key)) + key[-2:]
    for b in p.blocks:
        b.key, b.inputs, b.outputs = of_block(b.key), [of_port(k) for k in b.inputs], [of_port(k) for k in b.outputs]
    for c in p.connectors:
        c.key = of_port(c.key)
    for name in ("connections", "drivers"):
        setattr(p, name, [[of_port(a), of_port(b)] for a, b in getattr(p, name)])
    p.schedule = [of_block(k) for k in p.schedule]
    p.slots = [[of_block(k), *rest] for k, *rest in p.slots]
    p.order, p.externals = [of_port(k) for k in p.order], [of_port(k) for k in p.externals]
    p.boundaries = [[name, of_port(k)] for name, k in p.boundaries]


def with_port(dice, p, b, side):
    """A port more, with its connector, its place in the order and its driver."""
    ports, way = getattr(b, side), {"inputs": IN, "outputs": OUT}[side]
    key = connector_key(b.key, way, len(ports))
    ports.append(key)
    p.connectors.append(SimpleNamespace(key=key, path=b"", order=0, type=value_type(REAL), texts=tag(0) + tag(0)))
    p.order.insert(dice.randrange(len(p.order) + 1), key)
    p.drivers.append([key, dice.choice(p.connectors).key])


def with_block(dice, p, key):
    """A block more, with its ports, its place in the schedule and, where it has state, its slot."""
    length = dice.choice((0, 1, 3))
    b = SimpleNamespace(key=key, name=b"", kind=int(length > 0), revision=length, length=length)
    b.params, b.inputs, b.outputs = [], [], []
    p.blocks.append(b)
    for side in dice.choice(((), (), ("inputs",), ("inputs", "outputs"))):
        with_port(dice, p, b, side)
    p.schedule.insert(dice.randrange(len(p.schedule) + 1), key)
    rejoin(p, by_offset(p) + ([[key, 0, length]] if length else []))


@renames(3, 1)
def block_renamed(dice, p, q, how):
    old = pick(dice, p.blocks).key
    for side, new in zip((p, q), two_texts(dice, old[2][1], how)):
        rekey(side, old, old[:1] + string(new) + old[3:])


@differs(3, 1)
def block_of_the_other_tag(dice, p, q):
    old = pick(dice, p.blocks).key
    t = old[2][1]
    rekey(q, old, block_key(t + b"?") if len(old) > 3 else block_key(t, b"?"))


@differs(3, 1, "first")
@differs(3, 13, "last")
def block_added(dice, p, q, where):
    keys = sorted([b.key for b in p.blocks], key=wire)
    require(where == "last" or wire(keys[0]) != wire(block_key(b"")))
    longer = [f[1] for f in keys[-1] if f[0] == "text"]
    with_block(dice, q, block_key(b"") if where == "first" else block_key(longer[0] + b"~", *longer[1:]))


@renames(3, 2)
def class_of_a_block_renamed(dice, p, q, how):
    a, b = both(dice, p.blocks, q.blocks, lambda b: b.name not in BOUND)
    a.name, b.name = two_texts(dice, a.name, how)


@differs(3, 2)
def bound_class_exchanged(dice, p, q):
    b = pick(dice, [b for b in q.blocks if b.name in BOUND])
    b.name = dice.choice([name for name in BOUND if name != b.name])


@differs(3, 3)
def state_given(dice, p, q):
    b = pick(dice, [b for b in q.blocks if not b.kind])
    b.kind, b.revision, b.length = 1, dice.choice((1, 256)), dice.choice((1, 256))
    rejoin(q, by_offset(q) + [[b.key, 0, b.length]])


@differs(3, 4)
def revision_changed(dice, p, q):
    b = pick(dice, [b for b in q.blocks if b.kind])
    b.revision = (b.revision + dice.choice((1, 255, 256, 65536, 1 << 24))) % 2**32


@differs(3, 5)
def state_length_changed(dice, p, q):
    b = pick(dice, [b for b in q.blocks if b.kind])
    b.length += dice.choice((1, 255, 256, 1 << 32, 1 << 56))
    slots = by_offset(q)
    next(row for row in slots if wire(row[0]) == wire(b.key))[2] = b.length
    rejoin(q, slots)


@differs(3, 10, "inputs")
@differs(3, 12, "outputs")
def port_added(dice, p, q, side):
    with_port(dice, q, pick(dice, q.blocks), side)


# -- 3: parameters ----------------------------------------------------------------------------------------------

PLAIN = {
    **REALS,
    **INTEGERS,
    "equal bytes": (value(REAL, 5), value(INTEGER, 5)),
    "Booleans": (value(BOOLEAN, 0), value(BOOLEAN, 1)),
    "strings": (value(STRING, b""), value(STRING, b"?")),
    "lengths": (value(STRING, b"?"), value(STRING, b"?" * 256)),
}


def is_plain(param):
    return kind_of(param[1]) != ENUM


def params_of(dice, p, q, least):
    """The parameters of a block that has so many."""
    a, b = both(dice, p.blocks, q.blocks, lambda b: len(b.params) >= least)
    return a.params, b.params


@renames(3, 6)
def parameter_renamed(dice, p, q, how):
    a, b = both(dice, *params_of(dice, p, q, 1))
    a[0], b[0] = two_texts(dice, a[0], how)


@differs(3, 6, "first")
@differs(3, 6, "second")
@differs(3, 8, "last")
def parameter_added(dice, p, q, where):
    _, params = params_of(dice, p, q, ("last", "first", "second").index(where))
    names = [name for name, _ in params]
    name = {"first": b"", "second": min(names, default=b"") + b"\0", "last": max(names, default=b"") + b"~"}[where]
    require(name not in names)
    params.append([name, dice.choice(VALUES[:6])])


def revalued(dice, p, q, which):
    a, b = both(dice, *params_of(dice, p, q, 1), is_plain)
    a[1], b[1] = PLAIN[which]


for which in PLAIN:
    differs(3, 7, which)(revalued)


@differs(3, 7)
def ordinal_of_a_parameter_changed(dice, p, q):
    param = pick(dice, [param for b in q.blocks for param in b.params if not is_plain(param)])
    param[1] = other_ordinal(dice, q, param[1])
