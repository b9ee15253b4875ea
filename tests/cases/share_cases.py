"""Directed cases for the probe program of shares and charges: attach with any share over any other; allocations that fill a share, or pass
or leave it by a word, at every level and in every phase, with room and birth numbers and without; the step that ends Reclaim, which clears
all charges, and those beside it, which leave them; making. A case is a name with the bytes of tests/programs/probe_program.py."""
import itertools

from cases.ample_shares import wide
from cases.birth_cases import ALL_PHASES, FREE
from cases.limit_cases import END, LEVEL_PHASES, TOP, USED, USUAL, X, Z, changed, pairs, putting, ref, setting
from models.free_store import ALLOCATE, ATTACH, DETACH, SAFE, STEP
from models.record_layout import COLOUR, least_list, size
from models.store_model import BLACK, LEVELS, SESSIONS, Sapphire
from programs.probe_program import ANSWER, CALL, MAKE, after, decode, encode

RECLAIM = 12
WORDS = [0, 1, 8, 1 << 31, TOP - 1, TOP]  # that a share or a charge may be
ACCOUNTS = [(0, 0), (8, 5), (5, 8), (TOP, 0), (TOP, TOP), (0, TOP)]  # share and charge of a number
THERE, AWAY, OTHER = 0, 2, 15  # numbers of sessions: attached in `pairs`, not attached, and one that is attached here


def account(s, share, charge):
    """A change of a store: share and charge of a number."""
    def change(store):
        store.share[s], store.charge[s] = share, charge
    return change


def held_by(s, level):
    """A change of a store: session 0 of `pairs` is another one."""
    def change(store):
        store.attached[THERE], store.attached[s] = False, True
        store.level[s], store.registers[s] = level, store.registers[THERE]
        store.registers[THERE] = [0] * 8
    return change if s != THERE else setting()


# ---- attach, detach and safe point

def comings():
    """Of numbers that are attached or not, over every share and charge: attach with each share, detach, safe point."""
    for phase, s, (share, charge) in itertools.product(range(13), (THERE, AWAY, OTHER), ACCOUNTS):
        for kind, args in [*((ATTACH, [s, words]) for words in WORDS), (DETACH, [s]), (SAFE, [s])]:
            store = changed(pairs(LEVELS[phase], phase, phase % 2), account(s, share, charge))
            store.attached[OTHER] = kind != ATTACH or share % 2 == 0
            yield f"kind {kind} {args} in phase {phase}, share {share}, charge {charge}", encode(store, kind, args)


def refused_comings():
    """Attach refused with 5, and with 4."""
    for s, words in itertools.product((16, 256, TOP), WORDS):
        yield f"attach of session {s} with {words}", encode(pairs(), ATTACH, [s, words])
    for s, words in itertools.product((THERE, AWAY), WORDS):
        yield f"attach of session {s} with {words} in phase 13", encode(changed(pairs(), setting(phase=13)), ATTACH, [s, words])


# ---- allocation

def around(charge, words):
    """Shares that a record of so many words fills, passes or leaves by a word, as numbers and modulo 2^32; none, the charge, and all."""
    total = charge + words
    found = {total - 1, total, total + 1, (total - 1) % (TOP + 1), total % (TOP + 1), 0, charge, TOP}
    return sorted(share for share in found if share <= TOP)


def edge():
    """Allocations around the edge of a share, with little charged, much, and so much that the sum is past the highest word; the sessions
    in turn."""
    turns = itertools.cycle((THERE, 3, OTHER))
    for (level, phase), current, (r, p) in itertools.product(ALL_PHASES, (0, 1), [(0, 0), (1, 1), (0, 3)]):
        words = size(r, p)
        for charge in (0, 1, 20, 1 << 31, TOP - words, TOP - words + 1, TOP - 1, TOP):
            for share in around(charge, words):
                s = next(turns)
                store = changed(changed(pairs(level, phase, current), held_by(s, level)), account(s, share, charge))
                yield (f"allocate {words} words by session {s} at level {level} in phase {phase}, current half {current}, share {share}, "
                       f"charge {charge}", encode(store, ALLOCATE, [s, FREE, r, p]))


def orders():
    """Every other way in which an allocation is refused, within its share and past it: no such session, nobody, no such register or
    shape, no room in one half or in both, no number left."""
    n, charged = USUAL[0], 7
    ends = [(END, END), (END, n), (n, END), (n - size(1, 0), n - size(1, 0))]
    asked = [(THERE, FREE, 1, 1), (THERE, 0, 0, 3), (THERE, 1, 2, 0), (THERE, 8, 1, 1), (THERE, FREE, 256, 0), (THERE, FREE, 0, 256),
             (AWAY, FREE, 1, 1), (16, FREE, 1, 1)]
    for (level, phase), current, within, frontier, births, args in itertools.product(
            LEVEL_PHASES, (0, 1), (True, False), ends, (USED, TOP), asked):
        store = changed(pairs(level, phase, current), setting(frontier=list(frontier), births=births))
        store.share, store.charge = [charged + size(*args[2:]) - 1 + within] * SESSIONS, [charged] * SESSIONS
        yield (f"allocate {args} at level {level} in phase {phase}, current half {current}, within {within}, frontiers {frontier}, "
               f"{births} used", encode(store, ALLOCATE, args))


# ---- steps and making

CHARGES = {"all": [TOP] * SESSIONS, "by number": [5 * s for s in range(SESSIONS)], "of the absent": [0, 0, *[9] * (SESSIONS - 2)]}


def steps():
    """Steps in every phase, at the start of its work, at a record that gets a shell in Allocate, and at its end, with sessions that have
    the level, one that lags behind, and nobody, and with charges of all numbers, or of those that are not attached."""
    for phase, current, place in itertools.product(range(13), (0, 1), (X, Z, END, USUAL[0])):
        level = LEVELS[phase]
        for who, attached, behind in [("nobody", False, 6), ("two at the level", True, level), ("one behind", True, (level + 6) % 7)]:
            for name, charges in CHARGES.items():
                store = changed(pairs(level, phase, current), putting((ref(current, Z), COLOUR, BLACK)))
                store.place, store.charge, store.attached[:2], store.level[:2] = place, list(charges), [attached] * 2, [level, behind]
                yield f"step in phase {phase} at {place}, {who}, current half {current}, charges {name}", encode(store, STEP, [])


def makings():
    for n, capacity in ((16, 4), (16, 3), (15, 4), USUAL):
        yield f"making, halves of {n}, a list of {capacity}", encode(wide(Sapphire(n, capacity)), MAKE, [])


def directed():
    for cases in (comings, refused_comings, edge, orders, steps, makings):
        yield from cases()


def few():
    """Attach done and refused, with a share and a charge of before; allocations that fill a share or pass it by a word, at levels 0 and 5,
    past the highest word too; the step that ends Reclaim; making."""
    for s in (THERE, AWAY, 16):
        yield f"attach of session {s}", encode(changed(pairs(), account(AWAY, 5, 8)), ATTACH, [s, 77])
    yield "detach", encode(pairs(), DETACH, [THERE])
    for (level, phase), (share, charge) in itertools.product([(0, 0), (5, 8)], [(13, 7), (12, 7), (0, 0), (TOP, TOP - 6), (TOP, TOP - 5)]):
        yield (f"allocate at level {level}, share {share}, charge {charge}",
               encode(changed(pairs(level, phase), account(THERE, share, charge)), ALLOCATE, [THERE, FREE, 1, 1]))
    for phase in (11, RECLAIM):
        store = changed(pairs(LEVELS[phase], phase), setting(place=END, scanned=[True] * SESSIONS))
        yield f"step that ends phase {phase}", encode(store, STEP, [])
    yield "making", encode(wide(Sapphire(16, least_list(16))), MAKE, [])


# ---- what the cases show

OVER, OVER_FIRST, PAST_ALL = "17", "17 without room or number", "17 past the highest word"
FILLED, ONCE = "a share filled to its last word", "a record of two copies charged once"
CLEARED, ABSENT_CLEARED, LEFT = "charges cleared", "charges of absent sessions cleared", "charges left by the end of another phase"
SET, UNSET = "a share set, the charge kept", "a refused attach"
BY_LEVEL = [OVER, OVER_FIRST, PAST_ALL, FILLED]
TRAITS = ([(trait, level) for trait in BY_LEVEL for level in range(7)] + [(ONCE, level) for level in range(3, 7)]
          + [CLEARED, ABSENT_CLEARED, LEFT, SET, UNSET])


def traits(case, reply):
    """What is to be counted of a case."""
    kind, number = CALL.unpack_from(case)[0], ANSWER.unpack_from(reply)[0]
    if kind not in (ALLOCATE, ATTACH, STEP):
        return []
    store, _, args = decode(case)
    left = after(case, reply)
    if kind == ALLOCATE:
        return allocation_traits(store, left, number, *args) if number in (0, 17) else []
    if kind == ATTACH:
        return [UNSET] if number == 7 else [SET] if number == 0 and store.charge[args[0]] else []
    if store.phase == left.phase or not any(store.charge):
        return []
    absent = any(words for words, there in zip(store.charge, store.attached) if not there)
    return [CLEARED, *[ABSENT_CLEARED] * absent] if store.phase == RECLAIM else [LEFT]


def allocation_traits(store, left, number, s, k, r, p):
    level, words = store.level[s], size(r, p)
    halves = [store.current] if level <= 2 else [0, 1]
    if number:
        full = any(store.frontier[h] + words > len(store.half[h]) for h in halves) or store.births == TOP
        return [(OVER, level)] + [(OVER_FIRST, level)] * full + [(PAST_ALL, level)] * (store.charge[s] + words > TOP)
    once = len(halves) == 2 and left.charge[s] == store.charge[s] + words
    return [(FILLED, level)] * (left.charge[s] == store.share[s]) + [(ONCE, level)] * once
