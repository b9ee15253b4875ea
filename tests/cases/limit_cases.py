"""Directed cases for the probe program: arguments and numbers at the edges of their ranges, steps at the end of their walks, and each way
to meet damage. A case is a name with the bytes of tests/programs/probe_program.py."""
import itertools

from cases.ample_shares import wide
from models.free_store import ATTACH, DETACH, SAFE, ALLOCATE, LOAD, STORE, READ, WRITE, MOVE, CLEAR, SAME, GET, PUT, STEP, LINKS
from models.record_layout import HEADER, NUMBER, least_list, size, size_of
from models.store_model import BIRTH, COMPANION, LEVELS, STRETCH, Sapphire
from programs.probe_program import MAKE, encode

TOP = (1 << 32) - 1
HUGE = (1 << 64) - 1
# for each level, a phase in which a session may be at it; last, a session that is not yet back at level 0
LEVEL_PHASES = [(0, 0), (1, 1), (2, 4), (3, 5), (4, 7), (5, 8), (6, 10), (6, 12)]
# where the records of `pairs` stand, and their end; the least half that holds them, with the least list, and a usual one
X, Y, Z, END = itertools.accumulate([size(2, 2), size(1, 1), size(1, 0)], initial=0)
LEAST, USUAL = (END, least_list(END)), (48, least_list(48))
USED = 7  # birth numbers that `pairs` has used


def ref(h, k):
    return 2 * k + 2 + h


def pairs(level=0, phase=0, current=0, n=USUAL[0], capacity=USUAL[1]):
    """Session 0 holds two records with two copies each and one without replica in each half: registers 0 and 1 are the copies of X
    (two reference fields, two plain ones), 2 and 3 those of Y (one and one), 4 and 5 the records Z (one, none), 6 and 7 null. The even
    ones are in fromspace. No two of them have the same birth number, not even two copies."""
    store = wide(Sapphire(n, capacity))
    store.births = USED
    store.phase, store.current, store.frontier = phase, current, [END, END]
    source = store.fromspace()
    for h in (0, 1):
        marked = (h == source) * 2
        store.half[h][:END] = [2 * 256 + 2, marked, ref(1 - h, X), 1 + h, ref(h, Y), ref(h, Z), 100 + h, 200 + h,
                               256 + 1, marked // 2, ref(1 - h, Y), 3 + h, ref(h, X), 300 + h,
                               256, 0, 0, 5 + h, ref(h, Y)]
    store.registers[0] = [ref(h, k) for k in (X, Y, Z) for h in (source, 1 - source)] + [0, 0]
    store.attached[0], store.level[0] = True, level
    return store


def filling():
    """The same in halves that they fill."""
    return pairs(n=LEAST[0], capacity=LEAST[1])


def records(store, h):
    """Where the records of a half begin, and their fields, as far as they can be followed."""
    at = 0
    while at + HEADER <= min(store.frontier[h], len(store.half[h])):
        shape = store.half[h][at]
        yield at, shape // 256, shape % 256
        at += size_of(shape)


# ---- changes of a store

def set_word(h, k, word):
    return lambda store: store.half[h].__setitem__(k, word)


def putting(*words):
    """A change of a store: each of these words, by a record, a place in it and the word."""
    def change(store):
        for v, j, word in words:
            store.put(v, j, word)
    return change


def setting(**numbers):
    """A change of a store: these numbers of its control record."""
    def change(store):
        for name, value in numbers.items():
            setattr(store, name, value)
    return change


def set_item(name, i, value):
    return lambda store: getattr(store, name).__setitem__(i, value)


def set_register(k, v):
    return lambda store: store.registers[0].__setitem__(k, v)


def changed(store, change):
    change(store)
    return store


def small(change):
    return changed(filling(), change)


# ---- arguments and numbers at the edges

CALLS = [(MAKE, []), (ATTACH, [1, 8]), (DETACH, [0]), (SAFE, [0]), (ALLOCATE, [0, 7, 1, 1]), (LOAD, [0, 7, 0, 1]), (STORE, [0, 0, 1, 2]),
         (READ, [0, 0, 1]), (WRITE, [0, 0, 1, 9]), (MOVE, [0, 7, 0]), (CLEAR, [0, 0]), (SAME, [0, 0, 1]), (GET, [0, 7, 0]),
         (PUT, [0, 0, 2]), (STEP, []), (STRETCH, [0, 0]), (COMPANION, [0, 0]), (BIRTH, [0, 0]), (LINKS, [0, 0, 2, 1, 2, 0, 4, 0, 3])]


def arguments():
    """Each argument of each call at the edges of the ranges."""
    for kind, args in CALLS:
        for i in range(len(args)):
            for value in (0, 1, 2, 7, 8, 15, 16, 31, 32, 255, 256, 1 << 31, TOP):
                yield f"kind {kind}, argument {i} is {value}", encode(pairs(), kind, [*args[:i], value, *args[i + 1:]])
    for r, p in [(255, 255), (256, 0), (0, 256), (255, TOP)]:
        for level, phase in LEVEL_PHASES:
            yield f"allocate {r} and {p} at level {level}", encode(pairs(level, phase, n=1024, capacity=400), ALLOCATE, [0, 7, r, p])


def rooms():
    """Allocations that just fit in a half, or just do not."""
    n, _ = USUAL
    last = n - size(1, 1)
    for level, phase in LEVEL_PHASES:
        for current in (0, 1):
            for frontier in [(last, last), (last, last + 1), (last + 1, last), (last + 1, last + 1), (n, 0), (0, n)]:
                store = pairs(level, phase, current)
                store.frontier = list(frontier)
                yield f"allocate at level {level} in phase {phase}, frontiers {frontier}", encode(store, ALLOCATE, [0, 7, 1, 1])


def edges():
    """Changes of a control record, each just inside or just outside one range of refusal 4, and the count of birth numbers, shares and
    charges, which have no range; with them the halves and list to start from."""
    n, listed = USUAL
    for h in (0, 1):
        for value in (0, 15, n - 1, n, n + 1, 1048576, 1048577, HUGE):
            yield USUAL, f"length {h} is {value}", set_item("length", h, value)
        for value in (0, 16, n - 1, n, n + 1, 1 << 32, HUGE):
            yield USUAL, f"frontier {h} is {value}", set_item("frontier", h, value)
    for name, values in [("capacity", (0, listed - 1, listed, listed + 1, HUGE)), ("current", (0, 1, 2, TOP)),
                         ("phase", (0, 12, 13, 1 << 32, HUGE)), ("place", (0, n - 1, n, n + 1, HUGE)), ("field", (0, 509, 510, 511, HUGE)),
                         ("tail", (0, listed - 1, listed, listed + 1, HUGE)), ("head", (0, 1, HUGE)),
                         ("births", (0, 1, USED, 1 << 31, TOP - 1, TOP))]:
        for value in values:
            yield USUAL, f"{name} is {value}", setting(**{name: value})
    for head, tail in [(3, 3), (4, 3), (3, 4), (listed, listed), (listed + 1, listed), (listed + 1, listed + 1)]:
        yield USUAL, f"list from {head} to {tail}", setting(head=head, tail=tail)
    for s in (0, 1, 15):
        for value in (6, 7, TOP):
            yield USUAL, f"level {value} of session {s}", set_item("level", s, value)
        for name, value in itertools.product(("share", "charge"), (0, 1, 1 << 31, TOP)):
            yield USUAL, f"{name} {value} of session {s}", set_item(name, s, value)
    for phase in (3, 4, 10, 11):
        for value in (LEAST[0], LEAST[0] + 1, 32, 33, n, n + 1):
            for start in (USUAL, LEAST):
                yield start, f"phase {phase}, place {value}", setting(phase=phase, place=value)


def lengths():
    """Stores over other lengths: what is lent, and what the control record says."""
    lent = [(16, 16, 4), (15, 15, 4), (16, 16, 3), (17, 16, 4), (16, 17, 4), (19, 19, 4), (20, 20, 4), (20, 20, 5), (16, 16, 0), (0, 0, 0),
            (15, 16, 4), (16, 15, 4), (1024, 1024, 256), (1024, 1024, 255), (48, 48, 16)]
    for n0, n1, n in lent:
        for said in {(n0, n1, n), (16, 16, 4), (n0, n0, n), (n1, n1, n)}:
            store = pairs()
            store.half = [(store.half[0] + [0] * 1024)[:n0], (store.half[1] + [0] * 1024)[:n1]]
            store.list = [0] * n
            store.length, store.capacity, store.frontier = list(said[:2]), said[2], [Z, Z]
            yield f"lent {n0}, {n1}, {n}, said {said}", store


def ranges():
    for kind, args in CALLS:
        for (n, capacity), name, change in edges():
            yield f"kind {kind}, {n} words, {name}", encode(changed(pairs(n=n, capacity=capacity), change), kind, args)
        for name, store in lengths():
            yield f"kind {kind}, {name}", encode(store, kind, args)


def endings():
    """Steps at the end of what their phase has to do, with sessions at the phase's level and at another."""
    places = [0, END - 1, END, END + 1, 32, USUAL[0]]
    for phase, place, scanned, current in itertools.product(range(13), places, (False, True), (0, 1)):
        level = LEVELS[phase]
        for who, attached, other in [("nobody", [0, 0], 6), ("two at the level", [1, 1], level),
                                     ("one at another", [1, 1], (level + 6) % 7), ("an absent one at another", [1, 0], (level + 1) % 7)]:
            store = pairs(0, phase, current)
            store.place, store.field, store.tail, store.head = place, 2, 3, 3
            store.attached[:2], store.level[:2], store.scanned = attached, [level, other], [scanned] * 16
            yield f"step in phase {phase} at {place}, {who}, scanned {scanned}, current half {current}", encode(store, STEP, [])


# ---- each way to meet damage

def session_calls():
    """Calls that follow references: level, phase, name, kind, arguments, and what is set before the call."""
    reading = [(LOAD, [0, 7, 0, 1]), (READ, [0, 1, 1]), (STRETCH, [0, 0]), (COMPANION, [0, 1]), (BIRTH, [0, 0]), (BIRTH, [0, 1])]
    by_level = [(SAME, [0, 2, 1]), (SAME, [0, 3, 4]), (SAME, [0, 4, 6]), (WRITE, [0, 0, 1, 7]), (WRITE, [0, 1, 1, 7]), (PUT, [0, 0, 2]),
                (PUT, [0, 0, 3]), (PUT, [0, 0, 4]), *((STORE, [0, k, 1, source]) for k in (0, 1) for source in (2, 3, 4, 6)),
                (LINKS, [0, 0, 3, 0, 6, 1, 2, 0, 4]), (LINKS, [0, 1, 3, 1, 3, 0, 6, 1, 5])]
    for level, phase in LEVEL_PHASES:
        for kind, args in by_level + reading * (level in (0, 5)):
            yield level, phase, f"{kind} {args}", kind, args, lambda store: None


def steps():
    """Collector steps that follow references, in the same form."""
    def listed(store):
        store.list[:3], store.tail = [store.registers[0][0], store.registers[0][4], store.registers[0][0]], 3

    def rooted(store):
        store.globals[:2] = [store.registers[0][4], store.registers[0][0]]

    def black(store):
        store.half[store.current][Z + 1] = 2
    for name, phase, place, field, before in [
            ("white global", 3, 0, 0, rooted), ("black global", 3, 1, 0, rooted), ("listed, field", 4, 0, 1, listed),
            ("listed, past the fields", 4, 0, 2, listed), ("registers", 4, 0, 0, lambda store: None), ("shell", 5, Z, 0, black),
            ("no shell", 5, X, 0, black), ("copy a reference", 7, X, 1, rooted), ("copy a plain field", 7, X, 3, rooted),
            ("past a record", 7, X, 4, rooted), ("flip a global", 10, 1, 0, rooted), ("flip a stack", 11, 0, 0, rooted),
            ("reclaim", 12, Y, 0, rooted)]:
        def set_up(store, before=before, place=place, field=field):
            before(store)
            store.place, store.field = place, field
        yield 0 if phase == 12 else LEVELS[phase], phase, name, STEP, [], set_up


def injuries(n=USUAL[0], capacity=USUAL[1]):
    """Ways to damage a store of `pairs`, and those just short of damage."""
    for at in (X, Y, Z):
        for name, word in [("shape 65535", 65535), ("no field", 0), ("only plain", 3), ("one of each", 257), ("a field less", 513)]:
            yield f"{name} in both halves at {at}", putting((ref(0, at), 0, word), (ref(1, at), 0, word))
    for h in (0, 1):
        for at in (X, Y, Z):
            for name, k, word in [("shape 65536", 0, 65536), ("shape 65535", 0, 65535), ("no field", 0, 0), ("only plain", 0, 3),
                                  ("colour 3", 1, 3), ("colour", 1, TOP), ("white", 1, 0), ("black", 1, 2),
                                  ("no number", NUMBER, 0), ("the last number", NUMBER, TOP)]:
                yield f"{name} at {h}:{at}", set_word(h, at + k, word)
            for word in (0, 1, ref(h, at), ref(1 - h, Z), ref(h, n), TOP):
                yield f"replica {word} at {h}:{at}", set_word(h, at + 2, word)
        for end in (END, END - 1, Z + HEADER, Z + HEADER - 1, Z, Z - 1, Y - 1, 0, n, n - HEADER, n - size(1, 0)):
            yield f"frontier {h} is {end}", set_item("frontier", h, end)
    for word in (1, ref(0, n - 1), ref(1, n), ref(0, n), TOP, TOP - 1, ref(1, Y + 1)):
        for k in range(6):
            yield f"register {k} is {word}", set_register(k, word)
        for h in (0, 1):
            for at in (X + size(1, 0), Z + HEADER):
                yield f"field at {h}:{at} is {word}", set_word(h, at, word)
        yield f"globals are {word}", setting(globals=[word] * 32)
        yield f"list holds {word}", setting(list=[word] * capacity)
    for head, tail in [(0, capacity), (capacity, capacity), (capacity - 1, capacity - 1), (capacity - 2, capacity - 2), (0, capacity - 1)]:
        yield f"list from {head} to {tail}", setting(head=head, tail=tail)


def injured():
    for level, phase, name, kind, args, set_up in [*session_calls(), *steps()]:
        for turn, (injury, change) in enumerate(injuries()):
            # the halves change roles from injury to injury in the session calls; steps get both
            for current in [0, 1] if kind == STEP else [(turn + level) % 2]:
                store = changed(changed(pairs(level, phase, current), set_up), change)
                yield f"{name} at level {level} in phase {phase}, current half {current}, {injury}", encode(store, kind, args)


def directed():
    for cases in (arguments, rooms, ranges, endings, injured):
        yield from cases()
