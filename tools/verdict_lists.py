"""Edits that leave a manifest accepted: sections 4 to 12 differ then."""
from input_edits import HIGH, LOW, external_connectors, other_type, retype
from verdict_table import *

# -- 4: connectors ----------------------------------------------------------------------------------------------


def inner(p):
    """The connectors that are not external, whose paths and types no definition has."""
    outside = external_connectors(p)
    return [c for c in p.connectors if c not in outside]


@differs(4, 0)
def declaration_order_changed(dice, p, q):
    c = pick(dice, q.connectors)
    c.order = (c.order + dice.choice((1, 255, 256, 1 << 24))) % 2**32


@renames(4, 0)
def path_renamed(dice, p, q, how):
    a, b = both(dice, inner(p), inner(q))
    a.path, b.path = two_texts(dice, a.path, how)


@differs(4, 0)
def path_of_an_input_renamed(dice, p, q):
    """With its definition, and wherever else it stands."""
    row = pick(dice, q.definitions)
    old, row[0] = row[0], unknown(dice, row[0])
    for c in q.connectors:
        c.path = row[0] if c.path == old else c.path


@differs(4, 0)
def type_changed(dice, p, q):
    c = pick(dice, [c for c in inner(q) if kind_of(c.type) != ENUM])
    c.type = dice.choice([other_type(dice, c.type)] + [value_type(ENUM, path) for path, _ in q.classes])


@differs(4, 0)
def type_of_an_input_changed(dice, p, q):
    row = pick(dice, [row for row in q.definitions if kind_of(row[1]) != ENUM])
    require(all(kind_of(c.type) != ENUM for c in q.connectors if c.path == row[0]))
    retype(q, row, other_type(dice, row[1]))


def set_texts(c, unit, quantity):
    c.texts = [f for t in (unit, quantity) for f in optional(None if t is None else string(t))]


UNITS = {
    "given": ((None, None), (b"?", None)),
    "given empty": ((None, b"?"), (b"", b"?")),
    "renamed": ((b"?", None), (b"??", None)),
    "long": ((b"?", b"?"), (b"?" * 256, b"?")),
    "as quantity": ((b"?", None), (None, b"?")),
    "quantity": ((b"?", b"?"), (b"?", b"??")),
}


def unit_changed(dice, p, q, which):
    for c, texts in zip(both(dice, p.connectors, q.connectors), UNITS[which]):
        set_texts(c, *texts)


for which in UNITS:
    differs(4, 0, which)(unit_changed)

# -- 5 to 9: connections, schedule, order, drivers, slots ---------------------------------------------------------


@differs(5, 0)
def connection_added(dice, p, q):
    there = [wire(a + b) for a, b in p.connections]
    every = [[a, b] for a in keys_of(p, OUT) for b in keys_of(p, IN)]
    q.connections.append(pick(dice, [row for row in every if wire(row[0] + row[1]) not in there]))


@differs(5, 0)
def connection_moved(dice, p, q):
    """As many as before, but one of them elsewhere."""
    gone = pick(dice, [row for row in p.connections if row in q.connections])
    connection_added(dice, p, q)
    q.connections.remove(gone)


@differs(6, 0, "schedule")
@differs(7, 0, "order")
@differs(10, 0, "externals")
@differs(11, 0, "boundaries")
def swapped(dice, p, q, name):
    swap(dice, getattr(q, name))


@differs(8, 0)
def driver_exchanged(dice, p, q):
    row = pick(dice, q.drivers)
    row[1] = pick(dice, [c.key for c in q.connectors if c.key != row[1]])


@differs(9, 0)
def slots_swapped(dice, p, q):
    slots = by_offset(q)
    swap(dice, slots)
    rejoin(q, slots)


# -- 10, 11: external inputs, boundary outputs ------------------------------------------------------------------


@differs(10, 0)
def external_added(dice, p, q):
    rows = {row[0]: row[1] for row in q.definitions}
    c = pick(dice, [c for c in inner(q) if direction(c.key) == IN and rows.get(c.path, c.type) == c.type])
    q.externals.insert(dice.randrange(len(q.externals) + 1), c.key)
    if c.path not in rows:
        q.definitions.append([c.path, c.type, None, None])


@differs(10, 0)
def external_dropped(dice, p, q):
    q.externals.remove(pick(dice, q.externals))
    paths = [c.path for c in external_connectors(q)]
    q.definitions = [row for row in q.definitions if row[0] in paths]


@differs(11, 0)
def boundary_added(dice, p, q):
    q.boundaries.insert(dice.randrange(len(q.boundaries) + 1), [b"?", pick(dice, keys_of(q, OUT))])


@differs(11, 0)
def boundary_dropped(dice, p, q):
    q.boundaries.remove(pick(dice, q.boundaries))


@renames(11, 0)
def boundary_renamed(dice, p, q, how):
    a, b = both(dice, p.boundaries, q.boundaries)
    a[0], b[0] = two_texts(dice, a[0], how)


@differs(11, 0)
def boundary_of_another_source(dice, p, q):
    row = pick(dice, q.boundaries)
    row[1] = pick(dice, [key for key in keys_of(q, OUT) if key != row[1]])


# -- 12: input definitions --------------------------------------------------------------------------------------

BOUNDS = {**REALS, **INTEGERS}


def rows_of(dice, p, q, kind):
    """A definition of this kind, as it stands in both, and the place of one of its bounds."""
    return (*both(dice, p.definitions, q.definitions, lambda row: kind_of(row[1]) == kind), dice.choice((LOW, HIGH)))


def bound_changed(dice, p, q, which):
    a, b, place = rows_of(dice, p, q, kind_of(BOUNDS[which][0]))
    a[place], b[place] = BOUNDS[which]


for which in BOUNDS:
    differs(12, 0, which)(bound_changed)


@differs(12, 0)
def bound_given(dice, p, q):
    a, b, place = rows_of(dice, p, q, REAL)
    a[place], b[place] = None, value(REAL, ONE)


@differs(12, 0)
def bound_on_the_other_side(dice, p, q):
    a, b, _ = rows_of(dice, p, q, INTEGER)
    a[LOW:], b[LOW:] = (value(INTEGER, 1), None), (None, value(INTEGER, 1))


@differs(12, 0)
def ordinal_of_a_bound_changed(dice, p, q):
    a, b, place = rows_of(dice, p, q, ENUM)
    a[place] = value(ENUM, a[1][2][1], 1)
    b[place] = other_ordinal(dice, q, a[place])
