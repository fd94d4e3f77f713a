"""Edits for questions 27 to 32: input definitions, and whether a manifest is bound to a target."""
from edits_table import asks
from manifest_parts import *

# TARGET_BOUND_CLASSES of the Rust, in its order.
BOUND = [b"CDL.Psychrometrics." + n + b"_TDryBulPhi" for n in (b"DewPoint", b"SpecificEnthalpy", b"WetBulb")]
BOUND += [b"CDL.Reals." + n for n in (b"Acos", b"Asin", b"Atan", b"Atan2", b"Cos", b"Exp", b"Log", b"Log10", b"Sin")]
BOUND += [b"CDL.Reals.Sources.Sin", b"CDL.Reals.Tan", b"CDL.Utilities.SunRiseSet"]

# -- 27: one type for each external path ------------------------------------------------------------------------


def external_connectors(p):
    keys = [wire(k) for k in p.externals]
    return [c for c in p.connectors if wire(c.key) in keys]


def other_type(dice, kind):
    return value_type(dice.choice([k for k in range(4) if k != kind[0][1][0]]))


@asks(27)
def path_of_another_type(dice, p):
    a, b = pick_two(dice, external_connectors(p))
    b.path, b.type = a.path, other_type(dice, a.type)


@asks(27)
def path_of_another_class(dice, p):
    a, b = pick_two(dice, external_connectors(p))
    p.classes += [[b"?", [b"m"]], [b"??", [b"m"]]]
    b.path = a.path
    a.type, b.type = [value_type(ENUM, path) for path in dice.sample((b"?", b"??"), 2)]


# -- 28: definitions are those of the external paths ------------------------------------------------------------


@asks(28)
def definition_dropped(dice, p):
    p.definitions.remove(pick(dice, p.definitions))


@asks(28)
def definition_added(dice, p):
    path = unknown(dice, dice.choice(p.definitions)[0] if p.definitions else b"")
    p.definitions.append([path, value_type(REAL), None, None])


@asks(28)
def definition_of_an_unknown_path(dice, p):
    row = pick(dice, p.definitions)
    row[0] = unknown(dice, row[0])


@asks(28)
def definition_of_a_path_that_is_not_external(dice, p):
    row, paths = pick(dice, p.definitions), [c.path for c in external_connectors(p)]
    c = pick(dice, [c for c in p.connectors if c.path not in paths])
    row[:2] = c.path, c.type


@asks(28)
def definition_of_another_type(dice, p):
    row = pick(dice, p.definitions)
    row[1] = other_type(dice, row[1])


@asks(28)
def definition_of_another_class(dice, p):
    row, paths = pick(dice, p.definitions), pick_two(dice, [path for path, _ in p.classes])
    retype(p, row, value_type(ENUM, paths[0]))
    row[1] = value_type(ENUM, paths[1])


@asks(28)
def externals_cleared(dice, p):
    pick(dice, p.externals)
    p.externals.clear()


# -- 29, 30: bounds ---------------------------------------------------------------------------------------------

LOW, HIGH = 2, 3  # places in a definition
BOUNDS = {"low": (LOW,), "high": (HIGH,), "both": (LOW, HIGH)}


def retype(p, row, kind):
    """A definition gets another type, and so do the connectors with its path; its bounds are taken away."""
    for c in p.connectors:
        c.type = kind if c.path == row[0] else c.type
    row[1:] = kind, None, None


def bound_by(row, which, v):
    for place in BOUNDS[which]:
        row[place] = v


def rows(question):
    return [(question, which) for which in BOUNDS]


@asks(*rows(29))
def bound_of_another_type(dice, p, which):
    row = pick(dice, p.definitions)
    kind = dice.choice((REAL, INTEGER))
    retype(p, row, value_type(kind))
    wrong = dice.choice((value(1 - kind, 1), value(BOOLEAN, 1), value(STRING, b""), value(ENUM, b"", 1)))
    bound_by(row, which, wrong)


@asks(*rows(29))
def bound_on_a_type_without(dice, p, which):
    """A Boolean has no Boolean bounds, a String no String ones."""
    row = pick(dice, p.definitions)
    kind, v = dice.choice(((BOOLEAN, value(BOOLEAN, 0)), (STRING, value(STRING, b"a"))))
    retype(p, row, value_type(kind))
    bound_by(row, which, v)


@asks(*rows(29))
def bound_of_another_class(dice, p, which):
    row, path = pick(dice, p.definitions), pick(dice, p.classes)[0]
    retype(p, row, value_type(ENUM, path))
    other = dice.choice([b"?", path + b"?"] + [q for q, _ in p.classes if q != path])
    bound_by(row, which, value(ENUM, other, 1))


@asks(*rows(30))
def bound_ordinal(dice, p, which):
    row, (path, members) = pick(dice, p.definitions), pick(dice, p.classes)
    retype(p, row, value_type(ENUM, path))
    bound_by(row, which, value(ENUM, path, dice.choice((0, len(members) + 1, len(members) + 256, 2**32 - 1))))


@asks((29, "type"), (30, "ordinal"))
def low_and_high_fail_differently(dice, p, first):
    """Which question it is, the minimum decides."""
    row, path = pick(dice, p.definitions), pick(dice, p.classes)[0]
    retype(p, row, value_type(ENUM, path))
    wrong = {"type": value(REAL, 0), "ordinal": value(ENUM, path, 0)}
    row[LOW] = wrong.pop(first)
    (row[HIGH],) = wrong.values()


@asks(29)
def first_definition_by_a_bound_and_last_by_its_type(dice, p):
    """28 to 30 go definition by definition."""
    first, last = first_and_last(p.definitions)
    retype(p, first, value_type(REAL))
    first[dice.choice((LOW, HIGH))] = value(INTEGER, 0)
    last[1] = other_type(dice, last[1])


# -- 31, 32: the target -----------------------------------------------------------------------------------------


@asks(31)
def tag_without_a_bound_class(dice, p):
    p.target = None if p.target else [dice.choice((b"x86_64", b"")), dice.choice((b"linux", b""))]


@asks(31)
def class_bound(dice, p):
    """One of the fifteen in a manifest that is portable."""
    pick(dice, p.blocks).name = dice.choice(BOUND)
    p.target = None


@asks(31)
def class_nearly_bound(dice, p):
    """A name that is almost one of the fifteen, with tag 1."""
    name = dice.choice(BOUND)
    near = (name[:-1], name + b"2", name + b"\0", unknown(dice, name), name.lower(), b"")
    for b in p.blocks:
        b.name = b"" if b.name in BOUND else b.name
    pick(dice, p.blocks).name = dice.choice([n for n in near if n not in BOUND])
    p.target = [b"x86_64", b"linux"]


TARGETS = {"arch": [b"", b"linux"], "os": [b"x86_64", b""], "both": [b"", b""]}


@asks(*[(32, which) for which in TARGETS])
def bound_with_an_empty_target(dice, p, which):
    pick(dice, p.blocks).name = dice.choice(BOUND)
    p.target = TARGETS[which]


@asks(*[(32, which) for which in TARGETS], revision=1)
def unbound_with_an_empty_target(dice, p, which):
    """Under another revision than 2 the class is not asked for."""
    p.target = TARGETS[which]
