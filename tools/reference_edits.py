"""Edits for questions 17 to 26: what refers to blocks and connectors, and the slots."""
from edits_table import asks
from manifest_parts import *

# -- 17: connections --------------------------------------------------------------------------------------------


@asks(17)
def ends_swapped(dice, p):
    pick(dice, p.connections).reverse()


@asks(17)
def connection_from_an_input(dice, p):
    p.connections.append([pick(dice, keys_of(p, IN)), pick(dice, keys_of(p, IN))])


@asks(17)
def connection_to_an_output(dice, p):
    p.connections.append([pick(dice, keys_of(p, OUT)), pick(dice, keys_of(p, OUT))])


@asks((17, "source"), (17, "target"))
def end_unknown(dice, p, end):
    row = [pick(dice, keys_of(p, OUT)), pick(dice, keys_of(p, IN))]
    i = ("source", "target").index(end)
    row[i] = far(dice, row[i])
    p.connections.append(row)


# -- 18, 19: each block once, each connector once ---------------------------------------------------------------

LISTS = ((18, "schedule"), (19, "order"))


@asks(*LISTS)
def place_dropped(dice, p, name):
    keys = getattr(p, name)
    keys.remove(pick(dice, keys))


@asks(*LISTS)
def place_doubled(dice, p, name):
    keys = getattr(p, name)
    keys.insert(dice.randrange(len(keys) + 1), pick(dice, keys))


@asks(*LISTS)
def place_of_another(dice, p, name):
    """As many as before, but one of them twice and one not at all."""
    keys = getattr(p, name)
    i, j = pick_two(dice, range(len(keys)))
    keys[i] = keys[j]


@asks(*LISTS)
def place_unknown(dice, p, name):
    keys = getattr(p, name)
    i = pick(dice, range(len(keys)))
    keys[i] = dice.choice((stranger, far if name == "order" else stranger))(dice, keys[i])


@asks(*LISTS)
def unknown_place_added(dice, p, name):
    keys = getattr(p, name)
    keys.append(stranger(dice, pick(dice, keys)))


# -- 20: drivers ------------------------------------------------------------------------------------------------


@asks(20)
def driver_dropped(dice, p):
    p.drivers.remove(pick(dice, p.drivers))


@asks(20)
def driver_added(dice, p):
    key, source = pick(dice, p.drivers)
    p.drivers.append([far(dice, key), source])


@asks((20, "driven"), (20, "driving"))
def driver_unknown(dice, p, side):
    row = pick(dice, p.drivers)
    i = ("driven", "driving").index(side)
    row[i] = far(dice, row[i])


# -- 21: slots are those of the stateful blocks -----------------------------------------------------------------


def slotless(p):
    return [b.key for b in p.blocks if not b.kind]


def end_of(p):
    return max((offset + length for _, offset, length in p.slots), default=0)


def of_different_lengths(p):
    return once(p.slots, lambda row: row[2])


@asks(21)
def slot_dropped(dice, p):
    p.slots.remove(pick(dice, p.slots))


@asks(21)
def slot_of_an_algebraic_block_added(dice, p):
    p.slots.append([pick(dice, slotless(p)), end_of(p), 1])


@asks(21)
def slot_of_an_unknown_block_added(dice, p):
    p.slots.append([stranger(dice, pick(dice, p.blocks).key), end_of(p), 1])


@asks(21)
def slot_of_an_algebraic_block(dice, p):
    pick(dice, p.slots)[0] = pick(dice, slotless(p))


@asks(21)
def slot_of_an_unknown_block(dice, p):
    row = pick(dice, p.slots)
    row[0] = stranger(dice, row[0])


# -- 22, 23: each slot's length, then its end -------------------------------------------------------------------


@asks(22)
def slot_length_changed(dice, p):
    row = pick(dice, p.slots)
    row[2] = dice.choice((row[2] + 1, row[2] - 1, 0, row[2] + 256, row[2] + (1 << 32), 2**64 - 1))


@asks(22)
def block_length_changed(dice, p):
    pick(dice, [b for b in p.blocks if b.kind]).length += dice.choice((1, 1 << 32, 1 << 63))


@asks(22)
def slot_lengths_swapped(dice, p):
    a, b = pick_two(dice, of_different_lengths(p))
    a[2], b[2] = b[2], a[2]


@asks(22)
def first_slot_too_long_and_last_past_the_end(dice, p):
    first, last = first_and_last(p.slots)
    first[2] += 1
    last[1] = 2**64 - 1


@asks((23, "by 0"), (23, "by more"))
def slot_past_the_end(dice, p, how):
    row = pick(dice, [row for row in p.slots if row[2]])
    row[1] = 2**64 - row[2] + (dice.randrange(row[2]) if how == "by more" else 0)


@asks(23)
def first_slot_past_the_end_and_last_too_long(dice, p):
    first, last = first_and_last(p.slots)
    first[1] = 2**64 - first[2]
    last[2] += 1


# -- 24: slots start at 0 and join ------------------------------------------------------------------------------


@asks(24)
def slots_shifted(dice, p):
    pick(dice, p.slots)
    more = dice.choice((1, 256, 1 << 63))
    for row in p.slots:
        row[1] += more


@asks((24, "up"), (24, "down"))
def slot_moved(dice, p, way):
    row = pick(dice, [row for row in p.slots if way == "up" or row[1]])
    row[1] += 1 if way == "up" else -1


@asks(24)
def slot_at_the_highest_offset(dice, p):
    row = pick(dice, p.slots)
    row[1] = 2**64 - 1 - row[2]


@asks(24)
def slot_offsets_swapped(dice, p):
    a, b = pick_two(dice, of_different_lengths(p))
    a[1], b[1] = b[1], a[1]


@asks(24)
def slots_at_one_offset(dice, p):
    a, b = pick_two(dice, p.slots)
    a[1] = b[1]


# -- 25: external inputs ----------------------------------------------------------------------------------------


@asks(25)
def external_unknown(dice, p):
    p.externals.append(far(dice, pick(dice, keys_of(p, IN))))


@asks(25)
def external_output(dice, p):
    p.externals.insert(0, pick(dice, keys_of(p, OUT)))


@asks(25)
def external_doubled(dice, p):
    p.externals.insert(dice.randrange(len(p.externals) + 1), pick(dice, p.externals))


# -- 26: boundary outputs ---------------------------------------------------------------------------------------


@asks(26)
def boundary_of_an_input(dice, p):
    p.boundaries.append([b"?", pick(dice, keys_of(p, IN))])


@asks(26)
def boundary_unknown(dice, p):
    pick(dice, p.boundaries)[1] = far(dice, pick(dice, keys_of(p, OUT)))


@asks(26)
def boundary_name_doubled(dice, p):
    name = pick(dice, p.boundaries)[0]
    p.boundaries.insert(dice.randrange(len(p.boundaries) + 1), [name, pick(dice, keys_of(p, OUT))])
