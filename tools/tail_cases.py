"""Manifests with their tails, for 3 to 7, 9 and 10 inside a tail and for questions 33 to 38.

`tail_cases` gives them with the question that each is made for (0: accepted), or None where the Rust has to say which
comes first. Base, revision and the length of the index vary.
"""
from collections import Counter, namedtuple

from question_cases import EDITS as BREAKING
from question_cases import edited, small_plant
from question_rows import BOOLEANS, E, EF, F, INTEGERS, KEY, REALS, STRINGS, one, two
from tails import *

MOST = 600  # a manifest, and a tail, has fewer bytes
EACH = 5  # the least cases for a kind of edit
INSIDE = (3, 4, 5, 6, 7, 9, 10, 33, 34, 35, 36, 37, 38)  # the questions on a tail

Case = namedtuple("Case", "question what bytes tail base revision words edit")
CASES = []


def some_tail_base(dice, n, more):
    """0, 7, the highest, and such that offsets stop there within the manifest's n bytes, or within the tail's."""
    near = (HIGHEST, HIGHEST - n + 1, HIGHEST - n, HIGHEST - n - dice.randrange(more + 1), HIGHEST - n - more)
    return dice.choice((0,) * 6 + (7, 7, dice.getrandbits(64)) + near)


def case(dice, question, what, m, t, lacking=0, edit=None, revision=None, base=None):
    """The manifest, or its bytes; its tail, or the bytes of one; how many index words are lacking."""
    b = m if isinstance(m, bytes) else encode(m)
    u = t if isinstance(t, bytes) else tail_bytes(t)
    assert len(b) < MOST and len(u) < MOST, (what, len(b), len(u))  # for SIZE and LINE of the program
    base = some_tail_base(dice, len(b), len(u)) if base is None else base
    revision = revision or dice.choice((1, 2, 2, 3))
    CASES.append(Case(question, what, b, u, base, revision, needed(b) - lacking, edit))


# -- Manifests --------------------------------------------------------------------------------------------------

PASS = block_key(b"", b"")
EMPTY, P = manifest(), one(state=(1, 1))
TYPED = one([REALS, INTEGERS, BOOLEANS, STRINGS], [E, F], (1, 3), s2=EF)
TEXT, CHOICE = one([STRINGS], state=(1, 1)), one([E], state=(1, 1), s2=EF[:1])
SLOTS = two((2, 1), (0, 2))  # the first block's slot behind the second's
WIDE = two((1, 2**61), (0, 1))  # as many words as no tail has
BOUND_PLANT = one([REALS], name=BOUND_CLASS, bound=(b"a", b"o"))


def blocks_of(*keys):
    """A block with an input for each key, all Real."""
    ports = [connector_key(key, IN, 0) for key in keys]
    return manifest(
        s3=[block(key, b"", (0, 0), (), [p]) for key, p in zip(keys, ports)],
        s4=[connector(p, b"", REALS) for p in ports],
        s6=[(key, []) for key in keys], s7=[(p, []) for p in ports], s8=[(p, p) for p in ports],
    )


OWNERS = blocks_of(block_key(b"b"), block_key(b"aa"), block_key(b"b", b""))  # in the order of their bytes
BY_KEY = [connector_key(KEY, d, i) for d, i in ((IN, 0), (IN, 1), (IN, 2), (IN, 3), (OUT, 0), (OUT, 1))]  # of TYPED
TYPE_VALUES = [value(REAL, 0), value(INTEGER, 0), value(BOOLEAN, 0), value(STRING, b"s")]
TYPE_VALUES += [value(ENUM, b"E"), value(ENUM, b"F", 2)]


def typed(**places):
    """TYPED's tail; another key or value where it is given: k2=.., v0=.."""
    rows = [[places.get("k%d" % i, k), places.get("v%d" % i, v)] for i, (k, v) in enumerate(zip(BY_KEY, TYPE_VALUES))]
    return tail(rows, (1, 2**64 - 1, 0))


def reals(*keys):
    """Values of these keys, all 0, and no word."""
    return tail([(k, value(REAL, 0)) for k in keys])


def text_tail(t=b"a text, and more of it"):
    return tail([(BY_KEY[0], value(STRING, t))], (5,))


def with_(t, **parts):
    """The tail with other parts."""
    return SimpleNamespace(**{**vars(t), **parts})


# -- Accepted ---------------------------------------------------------------------------------------------------


def document_01(dice):
    """Its entries, base 0 and revision 2: P with a word, and with none."""
    case(dice, 0, "P and its tail", P, tail(words=[1]), revision=2, base=0)
    case(dice, 37, "P, no word", P, tail(), revision=2, base=0)


def accepted(dice):
    for name, m, t in (("nothing", EMPTY, tail()), ("P", P, tail(words=[2**64 - 1])), ("all types", TYPED, typed())):
        for base in (7, HIGHEST, HIGHEST - len(encode(m)), HIGHEST - len(encode(m)) + 1):
            case(dice, 0, name, m, t, base=base)
        for revision in (1, 2, 3):
            case(dice, 0, name, m, t, revision=revision, base=0)
    for kind, x in enumerate((1 << 63, 2**64 - 1, 1)):
        case(dice, 0, "other values", TYPED, typed(**{"v%d" % kind: value(kind, x)}))
    for text in (b"", b"\0", "ä阀😀".encode(), b"x" * 256, b"y" * 400):
        case(dice, 0, "texts", TEXT, text_tail(text))
    for e, f in ((1, 1), (2, 1), (1, 2), (2, 2)):
        case(dice, 0, "ordinals", TYPED, typed(v4=value(ENUM, b"E", e), v5=value(ENUM, b"F", f)))
    case(dice, 0, "a slot behind a later block's", SLOTS, tail(words=(1, 2, 3)))
    case(dice, 0, "owners in wire order", OWNERS, reals(*[c.key for c in opened(OWNERS).connectors]))
    case(dice, 0, "bound to a target", BOUND_PLANT, reals(BY_KEY[0]), revision=2)


# -- 33 to 36: the values ---------------------------------------------------------------------------------------


def numbers_of_values(dice):
    every = typed()
    for i in range(6):
        case(dice, 33, "a value fewer", TYPED, with_(every, values=every.values[:i] + every.values[i + 1 :]))
    for key in (port(b"", IN, 256), port(b"", IN, 4), port(b"", OUT, 2), port(b"z"), connector_key(PASS, IN, 0)):
        case(dice, 33, "a value more", TYPED, with_(every, values=by_key(every.values + [[key, VALUES[0]]])))
    for m, words in ((TYPED, [0] * 3), (TYPED, []), (TEXT, [5]), (OWNERS, [])):
        case(dice, 33, "no value", m, tail(words=words))
    for m, words in ((EMPTY, []), (P, [1]), (P, []), (SLOTS, [0] * 3)):
        case(dice, 33, "a value, and no connector", m, tail([(BY_KEY[0], VALUES[0])], words))


def unknown_keys(dice):
    """In the first, the middle and the last place, the number of values right."""
    for what, keys in (
        ("first", {"k0": port(b"", IN, 256)}),
        ("first, by another byte", {"k0": port(b"", IN, 65536)}),
        ("middle", {"k2": port(b"", IN, 258)}),
        ("middle, the port behind the inputs", {"k3": port(b"", IN, 4)}),
        ("last", {"k5": port(b"", OUT, 2)}),
        ("last, by owner", {"k5": port(b"z", OUT, 1)}),
        ("last, by the owner's tag", {"k5": connector_key(PASS, OUT, 1)}),
        ("first and last", {"k0": port(b"", IN, 256), "k5": port(b"", OUT, 256)}),
    ):
        case(dice, 34, "an unknown key: " + what, TYPED, typed(**keys))
    for question, t in ((34, typed()), (35, typed(v3=VALUES[2])), (36, typed(v4=value(ENUM, b"E", 3)))):
        later = t.values[1:] + [[port(b"z"), VALUES[0]]]  # each known one is a place before its connector's
        case(dice, question, "the first value missing, an unknown one last", TYPED, with_(t, values=later))
    for owner in (b"c", b"ab", b"b\0"):
        keys = by_key([[port(owner)], *[[c.key] for c in opened(OWNERS).connectors[1:]]])
        case(dice, 34, "an unknown owner", OWNERS, reals(*[k for k, in keys]))


def other_types(dice):
    """Each type against each other, equal bytes among them, and other classes."""
    for i in range(6):
        for v in [v for v in TYPE_VALUES if v != TYPE_VALUES[i]]:
            case(dice, 35, "another type", TYPED, typed(**{"v%d" % i: v}))
    for path, ordinal in ((b"F", 1), (b"F", 3), (b"F", 0), (b"G", 1), (b"", 1), (b"EE", 1)):
        case(dice, 35, "another class", TYPED, typed(v4=value(ENUM, path, ordinal)))
    case(dice, 35, "classes exchanged", TYPED, typed(v4=TYPE_VALUES[5], v5=TYPE_VALUES[4]))


def ordinals(dice):
    for ordinal in (0, 3, 256, 257, 1 << 24, 2**32 - 1):
        case(dice, 36, "an ordinal out of range", TYPED, typed(v4=value(ENUM, b"E", ordinal)))
        case(dice, 36, "the last value's ordinal", TYPED, typed(v5=value(ENUM, b"F", ordinal)))
    case(dice, 36, "both ordinals", TYPED, typed(v4=value(ENUM, b"E", 3), v5=value(ENUM, b"F", 0)))


# -- 37, 38, 10: the words, the flags, the end ------------------------------------------------------------------


def numbers_of_words(dice):
    owners = reals(*[c.key for c in opened(OWNERS).connectors])
    none = ((EMPTY, tail(), 0), (OWNERS, owners, 0))
    for m, t, right in (*none, (P, tail(), 1), (SLOTS, tail(), 3), (TYPED, typed(), 3)):
        for n in (0, 1, 2, 3, 4, 8):
            if n != right:
                case(dice, 37, "words", m, with_(t, words=[7] * n))
            if n:
                case(dice, 7, "words missing", m, with_(t, words=[7] * (n - 1), word_count=n))
    case(dice, 37, "more words than there can be", WIDE, tail(words=[1]))
    for n in (2**61, 2**61 + 1):  # all of them, and eight times as many bytes as a number of 64 bits has
        case(dice, 7, "more words than there can be, counted", WIDE, with_(tail(words=[1]), word_count=n))


def flag_words(dice):
    for m, t in ((EMPTY, tail()), (P, tail(words=[1])), (TYPED, typed())):
        for flags in FLAGS:
            case(dice, 38, "flags", m, with_(t, flags=flags))
            case(dice, 38, "flags, and a byte left", m, with_(t, flags=flags, more=b"\0"))
        for more in (b"\0", b"\1", bytes(4), bytes(16)):
            case(dice, 10, "left over", m, with_(t, more=more))


# -- 3 to 7: the fields -----------------------------------------------------------------------------------------


def cuts(dice):
    """At every byte; the texts are so long that the count test passes for most of it."""
    long = tail([(connector_key(block_key(b"one owner", b"another"), IN, 0), value(ENUM, b"E"))], (5,))
    for m, t in ((EMPTY, tail()), (P, tail(words=[1])), (TEXT, text_tail()), (CHOICE, long)):
        for n in range(len(tail_bytes(t))):
            case(dice, None, "cut at %d" % n, m, tail_bytes(t)[:n])
    for n in range(0, len(tail_bytes(typed())), 7):
        case(dice, None, "cut at %d" % n, TYPED, tail_bytes(typed())[:n])


def fields_written_over(dice):
    long = tail([(connector_key(block_key(b"one", b"two"), OUT, 0), value(ENUM, b"class E"))], (5,))
    for m, t in ((TEXT, text_tail()), (CHOICE, long), (TYPED, typed())):
        for question in (3, 4, 5, 6):
            for new in broken(t, question):
                case(dice, question, "a field written over", m, new)


def counts(dice):
    for m, t in ((EMPTY, tail()), (P, tail(words=[1])), (TEXT, text_tail()), (TYPED, typed())):
        left, words = len(tail_bytes(t)) - 4, len(t.words)
        for n in (left // 12 + 1, 2**31, 2**32 - 1):
            case(dice, 7, "values counted too high", m, with_(t, count=n))
        case(dice, None, "as many values as can be left", m, with_(t, count=left // 12))
        for n in (words + 1, 2**61 - 1, 2**61, 2**61 + words, 2**64 - 1, 2**32 + words):
            case(dice, 7, "words counted too high", m, with_(t, word_count=n))


# -- 9: the order -----------------------------------------------------------------------------------------------

ONE_LONG = b"x" * 256
PAIRS = [  # in the order of their bytes; none of them is TYPED's
    (port(b"q"), port(b"q", OUT)),
    (port(b"q", IN, 256), port(b"q", IN, 1)),
    (port(b"q", OUT, 65536), port(b"q", OUT, 1)),
    (port(b"q", IN, 1), port(b"q", OUT, 0)),
    (port(b"b"), port(b"aa")),
    (port(ONE_LONG), port(b"b")),
    (port(b"z"), connector_key(block_key(b"a", b""), IN, 0)),
    (connector_key(block_key(b"a", b"b"), IN, 0), connector_key(block_key(b"a", b"aa"), IN, 0)),
]


def orders(dice):
    """Two keys in order are unknown, or too many; else 9, whatever else they are."""
    plants = [(one([REALS] * 2), 34), (EMPTY, 33)]
    for a, b in PAIRS:
        for m, question in plants:
            case(dice, question, "in order", m, reals(a, b))
            case(dice, 9, "out of order", m, reals(b, a))
    every = typed()
    rows = every.values
    for i in range(6):
        case(dice, 9, "a value twice", TYPED, with_(every, values=rows[:i] + [rows[i]] + rows[i:]))
    for i in range(1, 6):
        case(dice, 9, "the key of the one before", TYPED, typed(**{"k%d" % i: rows[i - 1][0]}))
        swapped = rows[: i - 1] + [rows[i], rows[i - 1]] + rows[i + 1 :]
        case(dice, 9, "neighbours exchanged", TYPED, with_(every, values=swapped))


# -- The order of the questions ---------------------------------------------------------------------------------


def two_faults(dice):
    every, unknown_first = typed(), {"k0": port(b"", IN, 256)}
    wrong, high = value(BOOLEAN, 1), value(ENUM, b"E", 3)
    fewer = lambda t: with_(t, values=t.values[:-1])
    for question, what, t in (
        (33, "33 before 34", fewer(typed(**unknown_first))),
        (33, "33 before 35", fewer(typed(v0=wrong))),
        (33, "33 before 36", fewer(typed(v4=high))),
        (34, "34 before 35, of one value", typed(v0=wrong, **unknown_first)),
        (34, "34 before 36, of one value", typed(k4=port(b"", OUT, 256), v4=high)),
        (35, "35 of a value before 34 of a later one", typed(v0=wrong, k5=port(b"z", OUT, 1))),
        (34, "34 of a value before 35 of a later one", typed(v5=wrong, **unknown_first)),
        (36, "36 of a value before 35 of a later one", typed(v4=high, v5=wrong)),
        (35, "35 of a value before 36 of a later one", typed(v3=wrong, v4=high)),
        (36, "36 of a value before 34 of a later one", typed(v4=high, k5=port(b"z", OUT, 1))),
        (35, "35 before 36, of one value", typed(v4=value(ENUM, b"F", 0))),
        (9, "9 before 33", with_(every, values=every.values[:2][::-1])),
        (9, "9 before 34", typed(k0=port(b"z"))),
        (9, "9 before 35", typed(v0=wrong, k1=BY_KEY[0])),
        (33, "33 before 37", with_(fewer(every), words=[])),
        (36, "36 before 37", with_(typed(v4=high), words=[])),
        (37, "37 before 38", with_(every, words=[1], flags=1)),
        (37, "37 before 10", with_(every, words=[1], more=b"\0")),
        (7, "7 before 37", with_(every, words=[1], word_count=2)),
        (38, "38 before 10", with_(every, flags=256, more=bytes(8))),
    ):
        case(dice, question, what, TYPED, t)


def ends_behind_a_fault(dice):
    """33 to 36 before the word count's 3 and 7, 37 before the flags' 3."""
    faults = {33: with_(typed(), values=typed().values[1:]), 34: typed(k5=port(b"z")), 35: typed(v0=value(INTEGER, 0))}
    faults[36] = typed(v5=value(ENUM, b"F", 3))
    for question, t in faults.items():
        for cut in (36, 33, 28):  # before the word count, within it, behind it
            case(dice, question, "%d before the word count's" % question, TYPED, tail_bytes(t)[:-cut])
        for n in (4, 2**61, 2**64 - 1):
            case(dice, question, "%d before the word count's 7" % question, TYPED, with_(t, word_count=n))
    for words in ([], [1], [1] * 4):
        b = tail_bytes(with_(typed(), words=words))
        for cut in (1, 4):
            case(dice, 37, "37 before the flags' 3", TYPED, b[:-cut])
    for cut in range(1, 5):
        case(dice, 3, "no flags", TYPED, tail_bytes(typed())[:-cut])


def refused_manifests(dice):
    """Before the tail is looked at, whatever it is."""
    bound = one([REALS], name=BOUND_CLASS)
    for t in (tail(), tail(words=[1]), tail_bytes(typed()), b"", b"\xff" * 20):
        case(dice, 2, "an index one word short", P, t, lacking=1)
        case(dice, 2, "no index", P, t, lacking=needed(encode(P)))
        case(dice, 3, "a manifest cut", encode(P)[:-1], t)
        case(dice, 10, "a manifest with a byte left", encode(P) + b"\0", t)
        case(dice, 24, "a slot at 1", one(state=(1, 1), s9=[slot(KEY, 1, 1)]), t)
        case(dice, 31, "no target", bound, t, revision=2)
    case(dice, 0, "no target, revision 1", bound, reals(BY_KEY[0]), revision=1)
    case(dice, 0, "a longer index", P, tail(words=[1]), lacking=-1)
    case(dice, 2, "an index one word short, and a cut manifest", encode(P)[:-2], b"", lacking=1)


# -- With dice --------------------------------------------------------------------------------------------------


def changed(dice, edits, tries=2000):
    """A manifest, and its tail with the edits; None where they find nothing to change."""
    for _ in range(tries):
        m = small_plant(dice)
        p = opened(m)
        t = fitting(dice, p)
        try:
            for edit in edits:
                edit.change(dice, p, t)
        except Nothing:
            continue
        if len(encode(m)) < MOST and len(tail_bytes(t)) < MOST:
            return m, t


def with_two(dice):
    """A manifest, and its tail with two edits that go together."""
    while True:
        two = changed(dice, dice.sample(EDITS, 2), tries=40)
        if two:
            return two


def by_dice(dice):
    for _ in range(30):
        m, t = changed(dice, [])
        case(dice, 0, "a plant", m, t)
    for edit in EDITS * EACH:
        m, t = changed(dice, [edit])
        case(dice, edit.question, edit.name, m, t, edit=edit)
    for _ in range(36):
        case(dice, None, "two edits", *with_two(dice))
    for _ in range(6):
        m, t = changed(dice, [])
        m = edited(dice, [dice.choice(BREAKING)], m) or m
        case(dice, None, "a manifest edited", encode(m)[: MOST - 1], t)


def tail_cases(dice):
    for make in (
        document_01, accepted, numbers_of_values, unknown_keys, other_types, ordinals, numbers_of_words, flag_words,
        cuts, fields_written_over, counts, orders, two_faults, ends_behind_a_fault, refused_manifests, by_dice,
    ):
        make(dice)
    return list({(x.bytes, x.tail, x.base, x.revision, x.words): x for x in reversed(CASES)}.values())[::-1]


# -- Counts -----------------------------------------------------------------------------------------------------


def show_tails(asked, sides, answers):
    """Prints how often each question was answered no, and asserts enough of it; sides: the manifests' answers alone."""
    found = [int(said.split()[1]) if said.startswith("refused") else 0 for said in answers]
    alone = [side.startswith("refused") for side in sides]
    wrong = [(x.what, x.question, q) for x, q in zip(asked, found) if x.question not in (None, q)]
    wrong += [(side, said) for side, said, no in zip(sides, answers, alone) if no and side != said]
    assert not wrong, "not the answer that was made for, or of a manifest that is refused: %s" % wrong
    met = Counter(q for q, no in zip(found, alone) if not no)
    by = Counter(x.edit for x in asked)
    print("%d tails, %d accepted;" % (len(asked), met[0]), ", ".join("%d: %d" % (q, met[q]) for q in INSIDE))
    before = Counter(q for q, no in zip(found, alone) if no)
    print("refused manifests with a tail:", ", ".join("%d: %d" % x for x in sorted(before.items())))
    missing = [q for q in INSIDE if met[q] < EACH] + [edit.name for edit in EDITS if by[edit] < EACH]
    assert set(met) <= {0, *INSIDE} and not missing, "met too seldom, or where it can't arise: %s" % missing
