"""Directed cases for the probe program of birth numbers: the call that asks for one, of both copies in every phase, on damage too;
allocations where few numbers are left, with room and without; the steps that make and copy and clear what has a number; making. A case is
a name with the bytes of tests/programs/probe_program.py."""
import itertools

from cases.ample_shares import wide
from cases.limit_cases import (END, LEVEL_PHASES, TOP, USED, USUAL, X, Y, Z, changed, injuries, pairs, putting, ref, set_item, set_word,
                               setting, small)
from models.free_store import ALLOCATE, MOST_BIRTHS, STEP
from models.record_layout import HEADER, NUMBER, least_list, size
from models.store_model import BIRTH, LEVELS, Sapphire
from programs.probe_program import ANSWER, CALL, MAKE, decode, encode

ALL_PHASES = LEVEL_PHASES + [(LEVELS[phase], phase) for phase in range(13) if (LEVELS[phase], phase) not in LEVEL_PHASES]
COUNTS = [0, 1, USED, MOST_BIRTHS - 2, MOST_BIRTHS - 1, MOST_BIRTHS]  # of numbers used
FREE = 7  # a register of `pairs` that holds nothing


# ---- the call

def asked():
    """Each register in every phase, whatever the count; every word that a number may be; sessions and registers that there are not."""
    for (level, phase), current, births, k in itertools.product(ALL_PHASES, (0, 1), COUNTS, range(8)):
        store = changed(pairs(level, phase, current), setting(births=births))
        yield (f"birth of register {k} at level {level} in phase {phase}, current half {current}, {births} used",
               encode(store, BIRTH, [0, k]))
    for (level, phase), k, number in itertools.product(LEVEL_PHASES, range(6), (0, 1, USED, USED + 1, 1 << 31, TOP)):
        store = pairs(level, phase)
        store.put(store.registers[0][k], NUMBER, number)
        yield f"birth of register {k} at level {level} in phase {phase}, number {number}", encode(store, BIRTH, [0, k])
    for (level, phase), s, k in itertools.product(LEVEL_PHASES, (0, 1, 15, 16, 256, TOP), (0, 6, 7, 8, 256, TOP)):
        yield f"birth of session {s}, register {k}, in phase {phase}", encode(pairs(level, phase), BIRTH, [s, k])


def damaged():
    """Registers in turn on every injury, in every phase."""
    for (level, phase), (turn, (injury, change)) in itertools.product(ALL_PHASES, enumerate(injuries())):
        current, k = (turn + level) % 2, (turn + phase) % 6
        store = changed(pairs(level, phase, current), change)
        yield f"birth of register {k} at level {level} in phase {phase}, current half {current}, {injury}", encode(store, BIRTH, [0, k])


def cut():
    """A record at the end of a half that ends at the frontier, or a word behind it, or whose header does."""
    n = USUAL[0]
    for h, (r, p), less in itertools.product((0, 1), [(0, 0), (1, 0), (0, 2)], range(HEADER + 2)):
        store, at = pairs(), n - size(r, p) + less
        store.half[h][at:] = [256 * r + p, 0, 0, 77, 8, 9][:n - at]
        store.registers[0][FREE], store.frontier[h] = ref(h, at), n
        yield f"birth of a record of {size(r, p)} words at {h}:{at}, frontier {n}", encode(store, BIRTH, [0, FREE])


# ---- allocation

def left():
    """So many numbers used; room in both halves, in one, in none; good arguments, and a register and shapes that are refused."""
    n = USUAL[0]
    for (level, phase), current, births in itertools.product(LEVEL_PHASES, (0, 1), COUNTS):
        for r, p, k in [(0, 0, FREE), (1, 1, 0), (0, 3, 1), (0, 0, 8), (256, 0, FREE), (0, 256, FREE)]:
            last = n - size(r % 256, p % 256)
            for frontier in [*itertools.product((0, last, last + 1), repeat=2), (n, n)]:
                store = changed(pairs(level, phase, current), setting(births=births, frontier=list(frontier)))
                yield (f"allocate {r} and {p} to register {k} at level {level} in phase {phase}, current half {current}, {births} used, "
                       f"frontiers {frontier}", encode(store, ALLOCATE, [0, k, r, p]))


# ---- steps and making

def steps():
    """A shell, each field that is copied, each replica word that is cleared, of a record with any number; the end of a collection."""
    places = [(5, Z, 0), *((7, at, field) for at, fields in ((X, 5), (Y, 3), (Z, 2)) for field in range(fields)), (12, X, 0), (12, Y, 0),
              (12, Z, 0), (12, USUAL[0], 0)]
    for (phase, place, field), current, births, number in itertools.product(places, (0, 1), COUNTS, (0, 1, TOP)):
        store = pairs(LEVELS[phase], phase, current)
        store.births, store.place, store.field = births, place, field
        if place < USUAL[0]:
            putting((ref(current, place), NUMBER, number), (ref(current, Z), 1, 2))(store)
        yield (f"step in phase {phase} at {place}, field {field}, current half {current}, {births} used, number {number}",
               encode(store, STEP, []))


def makings():
    """Making over what was used; lists that have just one word for every four of a half, or one less, or one for every three."""
    for n in (16, 17, 19, 20, 23, 24, 32, 47, 48, 1024):
        for capacity in sorted({least_list(n) - 1, least_list(n), n // 3 - 1, n // 3}):
            for births in COUNTS:
                store = changed(wide(Sapphire(n, capacity)), setting(births=births))
                yield f"making, halves of {n}, a list of {capacity}, {births} used", encode(store, MAKE, [])


def directed():
    for cases in (asked, damaged, cut, left, steps, makings):
        yield from cases()


def few():
    """The call on both copies and on each refusal, also where all numbers are used; the last number, and none left, with room and
    without."""
    calls = [("half 0", 0, 0, setting()), ("half 1", 0, 1, setting()), ("no replica", 0, 4, setting()),
             ("all used", 0, 0, setting(births=TOP)), ("the last number", 0, 0, set_word(0, X + NUMBER, TOP)),
             ("other length", 0, 0, set_item("length", 1, END + 1)), ("session 16", 16, 0, setting()), ("nobody", 1, 0, setting()),
             ("register 8", 0, 8, setting()), ("null", 0, 6, setting()), ("colour 3", 0, 0, set_word(0, X + 1, 3)),
             ("another one's replica", 0, 0, set_word(0, X + 2, ref(1, Y)))]
    for name, s, k, change in calls:
        yield f"birth, {name}", encode(small(change), BIRTH, [s, k])
    for (level, phase), births, links in itertools.product([(0, 0), (5, 8)], (TOP - 1, TOP), (0, 255)):
        store = changed(pairs(level, phase), setting(births=births))
        yield f"allocate {links} links at level {level}, {births} used", encode(store, ALLOCATE, [0, FREE, links, 0])


# ---- what the cases show

LAST_GIVEN, NONE_LEFT, ROOM_FIRST = "the last number given", "16", "14 with no number left"


def traits(case, reply):
    """What is to be counted of a case: a birth call, by its level where it is answered, by its number where not; an allocation of the
    last number or without one, by its level."""
    kind, number = CALL.unpack_from(case)[0], ANSWER.unpack_from(reply)[0]
    if kind not in (BIRTH, ALLOCATE):
        return []
    if kind == BIRTH and number:
        return [(BIRTH, number)]
    store, _, args = decode(case)
    if kind == BIRTH:
        return [("birth", store.level[args[0]])]
    if store.births < MOST_BIRTHS - 1:
        return []
    found = {(MOST_BIRTHS - 1, 0): LAST_GIVEN, (MOST_BIRTHS, 16): NONE_LEFT, (MOST_BIRTHS, 14): ROOM_FIRST}.get((store.births, number))
    return [(found, store.level[args[0]])] if found else []


TRAITS = ([(BIRTH, number) for number in (4, 5, 6, 8, 11, 12)]
          + [(trait, level) for trait in ("birth", LAST_GIVEN, NONE_LEFT, ROOM_FIRST) for level in range(7)])
