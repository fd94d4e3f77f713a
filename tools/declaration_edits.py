"""Edits for questions 11 to 16: enum classes, the kinds of blocks, their parameters and ports."""
from edits_table import asks
from manifest_parts import *

# -- 11: each class has a member --------------------------------------------------------------------------------


@asks(11)
def class_emptied(dice, p):
    pick(dice, p.classes)[1].clear()


@asks(11)
def empty_class_added(dice, p):
    p.classes.append([unknown(dice, b"E"), []])


# -- 12: kinds --------------------------------------------------------------------------------------------------


def of_kind(dice, p, kind):
    return pick(dice, [b for b in p.blocks if b.kind == kind])


@asks(12)
def kind_exchanged(dice, p):
    b = pick(dice, p.blocks)
    b.kind = 1 - b.kind


@asks((12, "revision"), (12, "length"))
def stateful_with_0(dice, p, part):
    setattr(of_kind(dice, p, 1), part, 0)


@asks(12)
def stateful_with_both_0(dice, p):
    b = of_kind(dice, p, 1)
    b.revision = b.length = 0


@asks((12, "revision"), (12, "length"))
def algebraic_with_more(dice, p, part):
    most = {"revision": 31, "length": 63}[part]
    setattr(of_kind(dice, p, 0), part, 1 << dice.choice((0, 8, 31, most)))


# -- 13: parameters of an enum class ----------------------------------------------------------------------------


def enum_param(dice, p):
    """A parameter, [name, value], and how many members its class has."""
    param = pick(dice, [q for b in p.blocks for q in b.params if q[1][0][1][0] == ENUM])
    return param, len(dict(p.classes).get(param[1][2][1], ()))


@asks((13, "0"), (13, "one above"), (13, "256 above"), (13, "highest"))
def ordinal(dice, p, what):
    param, members = enum_param(dice, p)
    ordinals = {"0": 0, "one above": members + 1, "256 above": members + 256, "highest": 2**32 - 1}
    param[1] = value(ENUM, param[1][2][1], ordinals[what])


@asks(13)
def class_of_a_parameter_unknown(dice, p):
    param, _ = enum_param(dice, p)
    param[1] = value(ENUM, unknown(dice, param[1][2][1]), 1)


@asks(13)
def parameter_of_an_unknown_class_added(dice, p):
    pick(dice, p.blocks).params.append([dice.choice((b"?", b"")) + b"?", value(ENUM, b"?", 1)])


# -- 14: the ports of a block -----------------------------------------------------------------------------------

SIDES = ((14, "inputs"), (14, "outputs"))


def port_list(dice, p, side, least=1):
    return pick(dice, [ports for ports in (getattr(b, side) for b in p.blocks) if len(ports) >= least])


def change_port(dice, ports, change):
    i = dice.randrange(len(ports))
    ports[i] = change(ports[i])


@asks(*SIDES)
def owner_exchanged(dice, p, side):
    b = pick(dice, [b for b in p.blocks if getattr(b, side)])
    other = pick(dice, [c.key for c in p.blocks if c is not b])
    change_port(dice, getattr(b, side), lambda key: other + key[-2:])


@asks(*SIDES)
def owner_unknown(dice, p, side):
    change_port(dice, port_list(dice, p, side), lambda key: stranger(dice, key))


@asks(*SIDES)
def direction_exchanged(dice, p, side):
    change_port(dice, port_list(dice, p, side), turned)


@asks(*SIDES)
def index_changed(dice, p, side):
    more = dice.choice((1, 255, 256, 65536, 2**32 - 1))
    change_port(dice, port_list(dice, p, side), lambda key: key[:-1] + number((port_index(key) + more) % 2**32))


@asks(*SIDES)
def ports_swapped(dice, p, side):
    ports = port_list(dice, p, side, 2)
    i, j = dice.sample(range(len(ports)), 2)
    ports[i], ports[j] = ports[j], ports[i]


@asks(*SIDES)
def first_port_dropped(dice, p, side):
    del port_list(dice, p, side, 2)[0]


@asks(*SIDES)
def port_doubled(dice, p, side):
    ports = port_list(dice, p, side)
    i = dice.randrange(len(ports))
    ports.insert(i, ports[i])


# -- 12 to 14 go block by block ---------------------------------------------------------------------------------


@asks(13)
def first_block_by_a_parameter_and_last_by_its_kind(dice, p):
    first, last = first_and_last(p.blocks)
    first.params.append([b"?", value(ENUM, b"?", 1)])
    last.kind = 1 - last.kind


@asks(14)
def first_block_by_a_port_and_last_by_its_kind(dice, p):
    first, last = first_and_last(p.blocks)
    change_port(dice, pick(dice, [ports for ports in (first.inputs, first.outputs) if ports]), turned)
    last.kind = 1 - last.kind


# -- 15: ports are section 4 ------------------------------------------------------------------------------------


@asks(15)
def connector_dropped(dice, p):
    p.connectors.remove(pick(dice, p.connectors))


@asks(15)
def connector_added(dice, p):
    c = pick(dice, p.connectors)
    p.connectors.append(SimpleNamespace(**{**vars(c), "key": far(dice, c.key)}))


@asks(15)
def connector_key_changed(dice, p):
    c = pick(dice, p.connectors)
    c.key = dice.choice((far(dice, c.key), stranger(dice, c.key), turned(c.key)))


@asks((15, "inputs"), (15, "outputs"))
def last_port_dropped(dice, p, side):
    port_list(dice, p, side).pop()


@asks((15, "inputs"), (15, "outputs"))
def port_added(dice, p, side):
    b = pick(dice, p.blocks)
    ports = getattr(b, side)
    ports.append(connector_key(b.key, (IN, OUT)[side == "outputs"], len(ports)))


# -- 16: classes are those that are named -----------------------------------------------------------------------


def unname(p, path):
    """No parameter is of this class."""
    for b in p.blocks:
        b.params = [q for q in b.params if q[1][0][1][0] != ENUM or q[1][2][1] != path]


def untype(p, path):
    """No connector has this class."""
    for c in p.connectors:
        c.type = value_type(REAL) if c.type == value_type(ENUM, path) else c.type


@asks(16)
def class_added(dice, p):
    p.classes.append([unknown(dice, dice.choice(p.classes)[0] if p.classes else b""), [b"m"]])


@asks(16)
def class_no_longer_named(dice, p):
    path = pick(dice, p.classes)[0]
    unname(p, path)
    untype(p, path)


@asks(16)
def class_of_a_connector_dropped(dice, p):
    c = pick(dice, [c for c in p.connectors if c.type[0][1][0] == ENUM])
    path = c.type[2][1]
    unname(p, path)
    p.classes = [row for row in p.classes if row[0] != path]


@asks(16)
def class_of_a_connector_unknown(dice, p):
    c = pick(dice, p.connectors)
    c.type = value_type(ENUM, unknown(dice, c.type[2][1] if c.type[0][1][0] == ENUM else b""))


@asks(16)
def class_named_by_a_definition_only(dice, p):
    """Its type and its bounds name a class, but they are not asked."""
    row, path = pick(dice, p.definitions), pick(dice, p.classes)[0]
    unname(p, path)
    untype(p, path)
    row[1:] = value_type(ENUM, path), value(ENUM, path), value(ENUM, path)
