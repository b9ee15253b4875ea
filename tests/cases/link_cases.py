"""Directed cases for the probe program of the call that stores several links, over sound records: every count, with every other way to be
refused; every refusal met by any pair, with and without another one behind it; eight links of every kind of record at every level, through
both copies; a repeated field; a list that a pair fills, or finds full. A case is a name with the bytes of
tests/programs/probe_program.py."""
import itertools

from cases.ample_shares import wide
from cases.limit_cases import TOP, X, Z, changed, filling, pairs, putting, ref, set_item, set_register, set_word, setting
from models.free_store import LINKS, MOST_LINKS
from models.record_layout import COLOUR, HEADER, REPLICA, least_list, size
from models.store_model import BLACK, GREY, LEVELS, WHITE, Sapphire
from programs.probe_program import encode

# the level of each phase, and before it that of the phase before, which a session keeps until its safe point
HAVING = sorted({(LEVELS[phase], phase) for phase in range(13)} | {(LEVELS[phase - 1], phase) for phase in range(13)})
S, AWAY = 3, 9  # sessions: the one that calls, and one that is not attached
HELD, NONE = 0, 7  # registers: the timetable, and one that is null unless a case sets it; the others hold lessons
FIELDS = 8  # links of the timetable; their lessons are the first eight, those in the registers 1 to 7 the others
LESSONS = FIELDS + 7
AT, FIRST = HEADER, HEADER + size(FIELDS, 1)  # where the timetable stands, before it a record without fields, and the lessons behind it
END = FIRST + LESSONS * HEADER
LENGTH = END + 3
CAPACITY = least_list(LENGTH) + 2
JUNK = [TOP, 8, 255, 9, 0, 99, 8, 8, 3, TOP, 1 << 31, 1, 7, 7, 8, 0]  # for the pairs that the count does not take

LOOKS = {"white": (WHITE, False), "grey": (GREY, False), "black": (BLACK, False), "white pair": (WHITE, True), "grey pair": (GREY, True),
         "black pair": (BLACK, True)}
SOUND = ["white", "null", "white pair", "grey", "white elsewhere", "black", "grey pair", "timetable", "white pair elsewhere", "black pair"]
BAD = {"colour 3": (COLOUR, 3), "shape 65536": (0, 65536), "itself for a replica": (REPLICA, None), "reference 1": None, "nothing": None}


def call(pairs_taken, k=HELD, s=S, count=None):
    """The arguments of a call with these pairs, and behind them others that it must leave."""
    flat = [number for pair in pairs_taken for number in pair]
    return [s, k, len(pairs_taken) if count is None else count, *flat, *JUNK[len(flat):]]


def lesson(store, n, look, h):
    """Sets lesson n up in half h, or elsewhere, as it looks: its reference."""
    if look == "null":
        return 0
    if look == "timetable":
        return ref(h, AT)
    if look in ("reference 1", "nothing"):
        return 1 if look == "reference 1" else ref(h, LENGTH)
    v = ref(1 - h if look.endswith("elsewhere") else h, FIRST + n * HEADER)
    if look in BAD:
        j, word = BAD[look]
        store.put(v, j, v if word is None else word)
        return v
    colour, paired = LOOKS[look.removesuffix(" elsewhere")]
    putting((v, COLOUR, colour), (v, REPLICA, (v ^ 1) * paired), (v ^ 1, REPLICA, v * paired))(store)
    return v


def stage(level, phase, current, side=0, old=(), new=(), room=CAPACITY, paired=True, turn=0):
    """Session 3 holds the timetable's copy of fromspace or, on side 1, of tospace, and new lessons in its registers 1 to 7; the old ones
    are in the fields. Both halves have the same records. The list has room for so many entries."""
    store = wide(Sapphire(LENGTH, CAPACITY))
    store.phase, store.current, store.frontier = phase, current, [END, END]
    h = (store.fromspace() + side) % 2
    for half in (0, 1):
        store.half[half] = [number % 3 for number in range(LENGTH)]
        for n in range(LESSONS):
            putting(*((ref(half, FIRST + n * HEADER), j, word) for j, word in enumerate((0, BLACK, 0, n + 50))))(store)
        putting(*((ref(half, AT), j, word) for j, word in enumerate(
            (256 * FIELDS + 1, turn % 3, ref(1 - half, AT) * paired, 49, *[0] * FIELDS, 7 + half))))(store)
        putting(*((ref(half, 0), j, word) for j, word in enumerate((0, BLACK, 0, 48))))(store)
    fields = [lesson(store, n, look, h) for n, look in enumerate(old)]
    putting(*((ref(h, AT), HEADER + i, v) for i, v in enumerate(fields)))(store)
    held = [lesson(store, FIELDS + n, look, h) for n, look in enumerate(new)]
    store.registers[S] = [ref(h, AT), *held, *[0] * (7 - len(held))]
    store.attached[S], store.level[S] = True, level
    store.tail, store.scanned = CAPACITY - room, [n % 2 == 0 for n in range(16)]
    store.list, store.head = [(5 * n + turn) % 9 for n in range(CAPACITY)], (turn % 3) * store.tail // 2
    return store


def looks(count, turn):
    """So many sound ones, in turn."""
    return [SOUND[(turn + 3 * n) % len(SOUND)] for n in range(count)]


# ---- counts, and what is tested before and after them

def counts():
    """Each count beside every other way to be refused: no such session, nobody, no such register, a null or damaged one, a first pair that
    would be refused; and a control record out of its range."""
    for turn, (count, s, k, pair, phase) in enumerate(itertools.product(
            (0, 1, 2, 7, 8, 9, 10, 16, 255, 256, 1 << 31, TOP), (S, AWAY, 16, TOP), (HELD, 5, 6, 8, 99, TOP), ((0, 1), (0, 9), (FIELDS, 1)),
            (0, 4, 13))):
        if phase == 13 and turn % 5:
            continue
        level, new = LEVELS[phase % 13], ["white", "grey", "black", "white pair"]
        store = stage(level, phase, turn % 2, 0, looks(FIELDS, turn), new, turn=turn)
        store.registers[S][5] = 1  # damaged; register 6 is null
        args = call([pair, *((n, n % 5) for n in range(1, 8))], k, s, count)
        yield f"several links, count {count}, session {s}, register {k}, first pair {pair}, phase {phase}", encode(store, LINKS, args)


def examples():
    """Those that are worked out in words: a record of two links in register 0, another record in 1, the others null. With each the number
    that it must be answered and, where it is done, what field 0 must hold: 0 for null, 1 for the record, None for what it held before."""
    for args, number, held in [(call([], count=9), 10, None), (call([], 99), 0, None), (call([(0, 1), (2, 1), (0, 9)]), 13, None),
                               (call([(0, 1), (0, 9), (2, 1)]), 8, None), (call([(0, 1), (0, 7)]), 0, 0), (call([(0, 1)]), 0, 1),
                               (call([(0, 7), (1, 1), (0, 1)]), 0, 1), (call([(0, 1)], count=TOP), 10, None)]:
        for level, phase in HAVING:
            store = wide(Sapphire(16, least_list(16)))
            store.phase, store.frontier, store.half[0][:10] = phase, [10, 0], [512, 0, 0, 1, 0, 0, 0, 0, 0, 2]
            store.attached[S], store.level[S], store.registers[S][:2] = True, level, [ref(0, 0), ref(0, 6)]
            yield f"example {args[:9]} at level {level} in phase {phase}", encode(store, LINKS, args), number, held


# ---- refusals by any pair

def wrongs(level):
    """Ways in which a pair may be refused at a level: the register and field that it has, what it stores and what it overwrites."""
    yield from [("register 8", 8, None, None, None), ("register 2^32 - 1", TOP, None, None, None), ("field 8", None, FIELDS, None, None),
                ("field 255", None, 255, None, None), ("field 2^32 - 1", None, TOP, None, None)]
    yield from ((f"stores {bad}", None, None, bad, None) for bad in BAD)
    yield from ((f"overwrites {bad}", None, None, None, bad) for bad in BAD if level in (2, 3))


def with_wrongs(level, phase, current, wanted, turn):
    """A store and the pairs of a call in which those at these places are wrong so."""
    old, new, taken = looks(FIELDS, turn), looks(7, turn + 1), []
    for n in range(MOST_LINKS):
        source, field = 1 + (n + turn) % 6, (n + turn) % FIELDS
        if n in wanted:
            _, register, wrong_field, stored, overwritten = wanted[n]
            if stored:
                source, new[6] = NONE, stored  # one such register is enough
            if overwritten:
                old[field] = overwritten
            source, field = source if register is None else register, field if wrong_field is None else wrong_field
        taken.append((field, source))
    return stage(level, phase, current, turn // 2 % 2, old, new, turn=turn), taken


def refusals():
    """Each refusal by the first pair, a middle one and the last, of eight and of as many as there are up to it; another one behind it; and
    those of the record, before and after a wrong register in the first pair."""
    turns = itertools.count()
    for level, phase in HAVING:
        for wrong, n in itertools.product(wrongs(level), range(MOST_LINKS)):
            turn = next(turns)
            for count in {n + 1, 8} if (turn + n) % 3 == 0 else {8}:
                store, taken = with_wrongs(level, phase, turn % 2, {n: wrong}, turn)
                yield (f"several links, pair {n + 1} of {count}: {wrong[0]}, level {level}, phase {phase}, turn {turn}",
                       encode(store, LINKS, call(taken[:count])))
    for (level, phase), (one, other) in itertools.product(HAVING[::2], itertools.permutations(
            [wrong for wrong in wrongs(2) if wrong[0] in ("register 8", "field 8", "stores colour 3", "overwrites reference 1")], 2)):
        turn = next(turns)
        n = turn % (MOST_LINKS - 1)
        store, taken = with_wrongs(level, phase, turn % 2, {n: one, n + 1 + turn % (7 - n): other}, turn)
        yield (f"several links, pair {n + 1}: {one[0]}, behind it {other[0]}, level {level}, phase {phase}",
               encode(store, LINKS, call(taken)))
    for (level, phase), (about, held), source in itertools.product(
            HAVING, [("null", 0), ("reference 1", 1), ("past the half", ref(0, LENGTH)), ("no field", ref(0, 0))], (2, 8)):
        turn = next(turns)
        store, taken = with_wrongs(level, phase, turn % 2, {}, turn)
        store.registers[S][HELD] = held
        yield (f"several links of a record that is {about}, first register {source}, level {level}, phase {phase}",
               encode(store, LINKS, call([(0, source), *taken[1:]])))


# ---- done

def kinds():
    """Eight links, and fewer, with every kind of record over every other, at every level in every phase that has it, through both copies,
    with a replica and without, in each half; a list with room."""
    for (turn, (level, phase)), current, side, count in itertools.product(enumerate(HAVING * 5), (0, 1), (0, 1), (8, 8, 3)):
        turn = 4 * turn + 2 * current + side + count
        store = stage(level, phase, current, side, looks(FIELDS, turn), looks(7, turn // 3), paired=turn % 5 > 0, turn=turn)
        taken = [((3 * n + turn) % FIELDS, (n + turn // 2) % 8) for n in range(MOST_LINKS)]
        yield (f"several links, {count} of every kind at level {level} in phase {phase}, current half {current}, side {side}, turn {turn}",
               encode(store, LINKS, call(taken[:count])))


ALIKE = [[0, 0], [0, 0, 0, 0, 0, 0, 0, 0], [0, 1, 0], [0, 1, 0, 1], [2, 2, 3, 3, 2], [7, 0, 7, 0, 7, 0, 7, 0], [5, 6, 6, 5], [4, 4, 4]]
EQUAL = [[1, 2, 3, 4, 5, 6, 7, 1], [1, 1, 1, 1, 1, 1, 1, 1], [1, 2, 1, 2, 1, 2, 1, 2], [1, 7, 1, 7, 7, 1, 7, 1], [2, 1, 0, 1, 2, 0, 7, 2]]


def repeats():
    """Repeated fields and equal references, just room enough for what is white and one entry less."""
    for turn, ((level, phase), fields, sources, less) in enumerate(itertools.product(HAVING, ALIKE, EQUAL, (0, 1))):
        old, new = looks(FIELDS, turn), ["white", "white pair", "grey", "white elsewhere", "black", "white"]
        store = stage(level, phase, turn % 2, turn // 2 % 2, old, new, turn=turn)
        taken = list(zip(fields, sources))
        trial = stage(level, phase, turn % 2, turn // 2 % 2, old, new, turn=turn)
        trial.call(LINKS, call(taken))
        store.tail = CAPACITY - max(trial.tail - store.tail - less, 0)
        store.head = min(store.head, store.tail)
        yield (f"several links, fields {fields}, registers {sources[:len(fields)]}, level {level}, phase {phase}, room for "
               f"{CAPACITY - store.tail}", encode(store, LINKS, call(taken)))


# ---- room in the list

SHADING = [(level, phase) for level, phase in HAVING if 1 <= level <= 3]


def full(name, store, taken, room):
    """A case with room in the list for so many entries."""
    store.tail = CAPACITY - room
    store.head = min(store.head, store.tail)
    return f"several links, {name}, level {store.level[S]}, phase {store.phase}, room for {room}", encode(store, LINKS, call(taken))


def rooms():
    """The list is full when pair k comes, k from 1 to 8, or has just room for it: by what it overwrites or by what it stores, the pairs
    before it having taken an entry each in either way. What else a pair overwrites or stores takes none."""
    both = list(itertools.product(("old", "stored"), repeat=2))
    for (level, phase), k, (before, last), less in itertools.product(SHADING, range(1, 9), both, (0, 1)):
        ways = [before] * (k - 1) + [last]
        if level == 1 and "old" in ways:
            continue
        black = "old" in ways  # the timetable, which an old lesson is overwritten by; without any it is the eighth that is stored
        old = ["white" if way == "old" else "null" for way in ways]
        store = stage(level, phase, (k + phase) % 2, k // 2 % 2, old, ["white"] * 7, turn=k)
        store.put(store.registers[S][HELD], COLOUR, BLACK * black)
        taken = [(n, HELD if way == "old" else (n + 1) % 8) for n, way in enumerate(ways)]
        yield full(f"pair {k} by {last}, before it by {before}", store, taken, k - less)


def shaded_before():
    """Records that are stored or overwritten again, or are grey, or black, take no further place; with room for none to six."""
    for (level, phase), room in itertools.product(SHADING, range(7)):
        old, new = ["white", "null", "grey", "white pair", "black", "white", "null", "grey"], ["white", "white pair", "grey", "black"]
        store = stage(level, phase, phase % 2, 0, old, new, turn=room)
        store.put(store.registers[S][HELD], HEADER + 6, store.registers[S][1])  # over which it is stored
        yield full("records shaded before", store, [(1, 1), (2, 1), (6, 1), (1, 2), (2, 2), (6, 7), (1, 0), (1, 7)], room)


def directed():
    for cases in (counts, refusals, kinds, repeats, rooms, shaded_before):
        yield from cases()
    yield from ((name, case) for name, case, _, _ in examples())


def few():
    """Two links done at levels 0, 2, 4, 5 and 6, through both copies; each refusal, met by the second pair where a pair can meet it; a
    count of 0 and of 9; a repeated field."""
    for (level, phase), k in itertools.product([(0, 0), (2, 4), (4, 7), (5, 8), (6, 10)], (0, 1)):
        yield f"two links at level {level}, register {k}", encode(pairs(level, phase), LINKS, call([(0, 4), (1, 2)], k, 0))
    calls = [("none", setting(), call([], 99, 0)), ("nine", setting(), call([(0, 1)], 99, 0, 9)), ("repeated", setting(), call(
        [(0, 4), (0, 6)], 0, 0)), ("other length", set_item("length", 0, 20), call([(0, 1)], 0, 0)),
        ("session 16", setting(), call([(0, 1)], 0, 16)), ("nobody", setting(), call([(0, 1)], 0, 1)),
        ("register 8", setting(), call([(0, 1), (0, 8)], 0, 0)), ("null", setting(), call([(0, 1)], 6, 0)),
        ("colour 3", set_word(0, X + COLOUR, 3), call([(0, 1)], 0, 0)), ("field 2", setting(), call([(0, 1), (2, 1)], 0, 0))]
    for name, change, args in calls:
        yield f"several links, {name}", encode(changed(filling(), change), LINKS, args)
    yield ("several links, the second one damaged",
           encode(changed(pairs(2, 4), set_register(7, ref(0, Z + 1))), LINKS, call([(0, 2), (1, 7)], 0, 0)))
    yield ("several links, no room for the second one",
           encode(changed(pairs(2, 4), setting(head=11, tail=11)), LINKS, call([(0, 6), (1, 4), (1, 5)], 0, 0)))
