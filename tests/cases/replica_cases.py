"""Cases for the probe program of records with a replica: in every call and every step that follows a reference, right pairs and each way
in which a replica is not the other copy of its record. A case is a name with the bytes of tests/programs/probe_program.py."""
import itertools

from cases.ample_shares import wide
from cases.limit_cases import LEVEL_PHASES, TOP, changed, putting, records, ref, set_item, setting
from mistakes.following_mistakes import place
from models.free_store import LOAD, STORE, READ, WRITE, SAME, PUT, STEP, LINKS
from models.record_layout import HEADER, NUMBER, size, size_of
from models.store_model import BIRTH, BLACK, COMPANION, GREY, LEVELS, STRETCH, WHITE, Refused, Sapphire
from programs.probe_program import MAKE, ask, decode, encode

# The records of `stage`, reference and plain fields of each; three of them have two copies. Half 1 begins with one more, so that no
# record has its copies at the same place.
HOLDER, OTHER, TARGET, LONE, LAST = "holder", "other", "target", "lone", "last"
SHAPES = {HOLDER: (3, 1), OTHER: (2, 1), LONE: (2, 1), TARGET: (2, 1), LAST: (0, 2)}
PAIRED = (HOLDER, OTHER, TARGET)
LEAD = [1, 0, 0, 70, 9]
LENGTH, CAPACITY, GLOBAL, USED = 48, 16, 9, 85
AT = [dict(zip(SHAPES, itertools.accumulate((size(r, p) for r, p in SHAPES.values()), initial=h * len(LEAD)))) for h in (0, 1)]
# registers: copies in fromspace and in tospace; the target's on the side that the case is about, and its other copy
HELD, HELD_TO, AIMED, TWIN, OTHER_FROM, OTHER_TO, LONE_FROM, NULL = range(8)


def named(name, h):
    return ref(h, AT[h][name])


def words_of(name, h, aim):
    """The words of a record in half h, those of its fields that the case is about naming `aim`."""
    fields = {HOLDER: [aim, named(LONE, h), 0, 100 + h], OTHER: [named(LONE, h), named(TARGET, h), 200 + h],
              LONE: [aim, named(OTHER, h), 300 + h], TARGET: [named(OTHER, h), 0, 400 + h], LAST: [500 + h, 600 + h]}[name]
    r, p = SHAPES[name]
    number = 71 + 2 * list(SHAPES).index(name) + h  # no two copies have the same
    return [256 * r + p, WHITE, named(name, 1 - h) if name in PAIRED else 0, number, *fields]


def stage(level, phase, current, side):
    """Session 0 holds copies of the records; the target is the one of fromspace or, on side 1, of tospace. A field of the holder and of
    the lone one name it too, and a global."""
    store = wide(Sapphire(LENGTH, CAPACITY))
    store.phase, store.current, store.births = phase, current, USED
    source = store.fromspace()
    aim = named(TARGET, (source + side) % 2)
    for h in (0, 1):
        words = LEAD * h + [word for name in SHAPES for word in words_of(name, h, aim)]
        store.frontier[h] = len(words)
        store.half[h][:len(words)] = words
    store.put(named(HOLDER, source), 1, BLACK)
    store.put(named(OTHER, source), 1, GREY)
    store.registers[0] = [named(HOLDER, source), named(HOLDER, 1 - source), aim, store.at(aim, 2), named(OTHER, source),
                          named(OTHER, 1 - source), named(LONE, source), 0]
    store.globals[GLOBAL] = aim
    store.attached[0], store.level[0] = True, level
    return store


# ---- replicas

def is_pair(store, v):
    """Whether a reference can be followed and has a replica."""
    try:
        store.follow(v)
    except Refused:
        return False
    return store.at(v, 2) != 0


def like(store, v, h):
    """The records of half h that have the shape of v, itself and its replica left out."""
    return [u for u in (ref(h, at) for at, _, _ in records(store, h))
            if store.at(u, 0) == store.at(v, 0) and u not in (v, store.at(v, 2))]


def elsewhere(store, v):
    """The replica word names another one."""
    h, w, n = v % 2, store.at(v, 2), len(store.half[0])
    for word in (1, v, w ^ 1, w + 2, ref(1 - h, n - 1), ref(1 - h, n), TOP - 1, TOP):
        yield f"replica {word}", putting((v, 2, word))
    for u in like(store, v, h)[:1]:
        yield f"replica {u} in the same half", putting((v, 2, u))
        yield f"replica {u} in the same half, pointing back", putting((v, 2, u), (u, 2, v))
    for x in like(store, v, 1 - h)[:2]:
        u = store.at(x, 2)
        yield f"replica {x} of {u}", putting((v, 2, x))
        yield f"replica {x}, which names {w}", putting((v, 2, x), (x, 2, w))
        if is_pair(store, x):
            yield f"replicas exchanged with {u}", putting((v, 2, x), (x, 2, v), (u, 2, w), (w, 2, u))


def other_shapes(store, v):
    """Those of the same size with other fields, and those with a field less or more."""
    r, p = divmod(store.at(v, 0), 256)
    for more, too in ((-1, 1), (1, -1), (-1, 0), (0, -1), (1, 0), (0, 1)):
        if r + more >= 0 and p + too >= 0:
            yield 256 * (r + more) + p + too


def spoilt(store, v):
    """The replica has another header."""
    w = store.at(v, 2)
    for shape in (*other_shapes(store, v), store.at(v, 0) + 65536, TOP):
        yield f"replica's word 0 is {shape}", putting((w, 0, shape))
    for shape in other_shapes(store, v):
        yield f"both words 0 are {shape}", putting((v, 0, shape), (w, 0, shape))
    for colour in (3, TOP):
        yield f"replica's colour is {colour}", putting((w, 1, colour))
    for word in (0, 1, w, v + 2, max(v - 2, 0), v ^ 1, TOP, *like(store, v, v % 2)[:1]):
        yield f"replica's replica word is {word}", putting((w, 2, word))


def cut(store, v):
    """The replica ends at its frontier, or behind it."""
    w = store.at(v, 2)
    start = (w - 2) // 2
    end = start + size_of(store.at(w, 0))
    for frontier in sorted({end, end - 1, start + HEADER, start + HEADER - 1, start + 2, start, 0}):
        yield f"replica's frontier is {frontier}", set_item("frontier", w % 2, frontier)


def moved(store, v):
    """The replica at another place of its half: above the frontier, then below it; over what ends at it; over the words that it had; at the
    end of the half and across it."""
    w, h, n = store.at(v, 2), 1 - v % 2, len(store.half[0])
    words = store.half[h][(w - 2) // 2:][:size_of(store.at(v, 0))]
    frontier, count, first = store.frontier[h], len(words), (w - 2) // 2

    def at(start, end):
        def change(store):
            store.half[h][start:start + count] = words[:n - start]
            store.put(v, 2, ref(h, start))
            store.frontier[h] = end
        return f"replica at {start}, frontier {end}", change
    above = [(frontier, end) for end in (frontier, frontier + HEADER, frontier + count - 1, frontier + count) if frontier + count <= n]
    within = [(start, frontier) for start in (frontier - count, first + 1, first + 2) if start + count <= frontier]
    for start, end in [*above, *within, (n - count, n), (n - HEADER, n), (n - HEADER + 1, n), (n - 2, n)]:
        yield at(start, end)


def right(store, v):
    """A pair as it is, with other colours and fields; a record without replica, which its copy still names or not."""
    w = store.at(v, 2)
    yield "as it is", putting()
    for colour, other in ((0, 1), (0, 2), (1, 0), (1, 1), (2, 0), (2, 2)):
        yield f"colours {colour} and {other}", putting((v, 1, colour), (w, 1, other))
    yield "another number in the replica", putting((w, NUMBER, TOP))
    yield "equal numbers", putting((w, NUMBER, store.at(v, NUMBER)))
    yield "other fields in the replica", putting(*((w, i, TOP - i) for i in range(HEADER, size_of(store.at(v, 0)))))
    yield "no replica, but it names this one", putting((v, 2, 0))
    yield "no replica", putting((v, 2, 0), (w, 2, 0))
    yield "no replica, black", putting((v, 2, 0), (v, 1, 2))


def changes(store, v):
    """What may be changed around a record of a right pair: a name, and the change of the store."""
    for some in (right, elsewhere, spoilt, cut, moved):
        yield from some(store, v)


# ---- every call and step that follows

WORKED_ON = [(LOAD, [0, NULL, AIMED, 1]), (READ, [0, AIMED, 0]), (WRITE, [0, AIMED, 0, 7]), (STRETCH, [0, AIMED]), (COMPANION, [0, AIMED]),
             (BIRTH, [0, AIMED]), (STORE, [0, AIMED, 1, OTHER_FROM]), (LINKS, [0, AIMED, 2, 0, NULL, 1, OTHER_FROM])]
STORED = [(STORE, [0, HELD, 1, AIMED]), (STORE, [0, HELD_TO, 1, AIMED]), (PUT, [0, 3, AIMED]), (LINKS, [0, HELD, 2, 2, OTHER_TO, 1, AIMED]),
          (LINKS, [0, HELD_TO, 3, 2, OTHER_FROM, 2, NULL, 1, AIMED])]
OVERWRITTEN = [(STORE, [0, HELD, 0, LONE_FROM]), (PUT, [0, GLOBAL, LONE_FROM]), (LINKS, [0, HELD, 2, 2, OTHER_FROM, 0, LONE_FROM])]
COMPARED = [(SAME, [0, AIMED, TWIN]), (SAME, [0, AIMED, OTHER_FROM]), (SAME, [0, OTHER_TO, AIMED]), (SAME, [0, NULL, AIMED])]


def calls():
    """Level, phase, name, kind, arguments, and what is set before the call: nothing. Below level 5 same follows nothing."""
    for level, phase in LEVEL_PHASES:
        for kind, args in WORKED_ON + STORED + OVERWRITTEN + COMPARED * (level >= 4):
            yield level, phase, f"kind {kind} {args}", kind, args, setting()


def walking(name, field):
    def set_up(store):
        store.place, store.field = AT[store.current][name], field
    return set_up


def listing(register, field):
    def set_up(store):
        store.list[0], store.tail, store.field = store.registers[0][register], 1, field
    return set_up


def steps():
    """In the same form, with what is set before the step."""
    for name, phase, set_up in [
            ("global", 3, setting(place=GLOBAL)), ("list entry, field", 4, listing(AIMED, 0)), ("list entry, done", 4, listing(AIMED, 2)),
            ("field", 4, listing(LONE_FROM, 0)), ("registers", 4, setting()), ("walk", 5, walking(TARGET, 0)),
            ("walk, reference", 7, walking(TARGET, 0)), ("walk, plain field", 7, walking(TARGET, 2)), ("walk, past", 7, walking(TARGET, 3)),
            ("field", 7, walking(HOLDER, 0)), ("global", 10, setting(place=GLOBAL)), ("registers", 11, setting()),
            ("walk", 12, walking(TARGET, 0))]:
        yield LEVELS[phase], phase, f"step, {name}", STEP, [], set_up


def directed():
    for (level, phase, name, kind, args, set_up), current, side in itertools.product([*calls(), *steps()], (0, 1), (0, 1)):
        store = stage(level, phase, current, side)
        for about, change in changes(store, store.registers[0][AIMED]):
            store = changed(changed(stage(level, phase, current, side), set_up), change)
            yield (f"{name} at level {level} in phase {phase}, current half {current}, side {side}, {about}", encode(store, kind, args))


# ---- what the cases show

def shown(case):
    """The refusal number of a case's call; the places at which it follows a reference that has a replica and passes; and the one at which
    it is refused for a replica, if it is."""
    store, kind, args = decode(case)
    follow, passed, refused = store.follow, [], []

    def watched(v):
        store.sound(v)
        try:
            fields = follow(v)
        except Refused:
            refused.append(place(store, v))
            raise
        if store.at(v, 2):
            passed.append(place(store, v))
        return fields
    store.follow = watched
    number = 0 if kind == MAKE else ask(store, kind, args)[0][0]  # making follows nothing
    return number, passed, refused


def level_of(case):
    """The level of the session that makes the call of a case, or of the phase, if it is a step."""
    store, kind, args = decode(case)
    return LEVELS[store.phase] if kind == STEP else store.level[args[0]]
