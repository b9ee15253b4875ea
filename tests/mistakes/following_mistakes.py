"""Where the store in Python follows a reference, and the test of its replica with the mistakes of tests/mistakes/mistake_names.py built
in."""
from mistakes.mistake_names import (BACK_BY_PLACE, BACK_OR_NONE, BACK_SOMEWHERE, BACK_TO_ITSELF, BACK_UNTESTED, COLOUR_UNTESTED,
                                    COLOURS_COMPARED, FIELDS_COMPARED, FRONTIER_OF_THIS, FRONTIER_UNTESTED, HALF_NOT_CURRENT, HALF_SAME,
                                    HALF_UNTESTED, HEADER_ALONE, LEFT_BEFORE_5, LEFT_BELOW_3, LEFT_IN_12, LEFT_IN_FROMSPACE,
                                    LEFT_IN_TOSPACE, LINKS_ALONE, NONE_REFUSED, NUMBERS_COMPARED, PLACES, PLAINS_ALONE, REPLICAS_UNTESTED,
                                    SHAPE_AT_LEAST, SHAPE_AT_MOST, SHAPE_BY_COLOUR, SHAPE_UNTESTED, SIZE_ALONE, SOUND_UNTESTED)
from models.free_store import BIRTH, COMPANION, LINKS, LOAD, STORE, READ, WRITE, SAME, PUT, STEP, STRETCH
from models.record_layout import HEADER, NUMBER, size_of

REPLICA = "replica written"  # a place where no test of replicas is left out: the record that it belongs to has passed


# ---- where a call follows

def place(store, v):
    """What names a reference that the call at hand follows: one of PLACES, or a replica."""
    kind, args = store.asked
    if kind == STEP:
        return place_in_step(store, v)
    if kind in (STORE, PUT):
        return place_in_barrier(store, kind, args, v)
    if kind == LINKS:  # the arguments are those of a single store
        found = place_in_barrier(store, STORE, args, v)
        return found if found == REPLICA else f"several links: {found}"
    return {LOAD: "load", READ: "read", WRITE: "write", STRETCH: "stretch", COMPANION: "companion", BIRTH: "birth", SAME: "same"}[kind]


def place_in_barrier(store, kind, args, v):
    regs, level = store.registers[args[0]], store.level[args[0]]
    if kind == STORE and v == regs[args[1]]:
        return "store"
    if v == regs[args[-1]]:
        how = "and shaded" if level <= 3 else f"at level {level}"
        return f"stored {how}" if kind == STORE else f"put {how}"
    return REPLICA if level >= 4 else "overwritten by store" if kind == STORE else "overwritten by put"


def place_in_step(store, v):
    if store.phase == 4 and store.head < store.tail:
        return "list entry" if v == store.list[store.head] else "field shaded"
    if store.phase == 7 and v != 2 * store.place + 2 + store.current:
        return REPLICA if v % 2 != store.current else "field copied"
    return {3: "global shaded", 4: "register shaded", 5: "walk in Allocate", 7: "walk in Copy", 10: "global flipped",
            11: "register flipped", 12: "walk in Reclaim"}[store.phase]


# ---- the parts of the test: each with what a slip has in its place, of a record v and its replica w

def header(store, w):
    return store.at(w, 0) <= 65535 and store.at(w, 1) <= 2


def below(store, w, half):
    return (w - 2) // 2 + size_of(store.at(w, 0)) <= store.frontier[half]


def fields(store, v):
    return [store.at(v, i) for i in range(HEADER, size_of(store.at(v, 0)))]


def untested(store, v, w):
    return True


HALF = (lambda store, v, w: w % 2 != v % 2), {
    HALF_UNTESTED: untested,
    HALF_SAME: lambda store, v, w: w % 2 == v % 2,
    HALF_NOT_CURRENT: lambda store, v, w: w % 2 != store.current}
SOUND = (lambda store, v, w: header(store, w) and below(store, w, w % 2)), {
    SOUND_UNTESTED: untested,
    COLOUR_UNTESTED: lambda store, v, w: store.at(w, 0) <= 65535 and below(store, w, w % 2),
    FRONTIER_UNTESTED: lambda store, v, w: header(store, w),
    FRONTIER_OF_THIS: lambda store, v, w: header(store, w) and below(store, w, v % 2),
    HEADER_ALONE: lambda store, v, w: header(store, w) and (w - 2) // 2 + HEADER <= store.frontier[w % 2]}
SHAPE = (lambda store, v, w: store.at(w, 0) == store.at(v, 0)), {
    SHAPE_UNTESTED: untested,
    SHAPE_AT_LEAST: lambda store, v, w: store.at(w, 0) >= store.at(v, 0),
    SHAPE_AT_MOST: lambda store, v, w: store.at(w, 0) <= store.at(v, 0),
    SHAPE_BY_COLOUR: lambda store, v, w: store.at(w, 0) == store.at(v, 1),
    SIZE_ALONE: lambda store, v, w: size_of(store.at(w, 0)) == size_of(store.at(v, 0)),
    LINKS_ALONE: lambda store, v, w: store.at(w, 0) // 256 == store.at(v, 0) // 256,
    PLAINS_ALONE: lambda store, v, w: store.at(w, 0) % 256 == store.at(v, 0) % 256}
BACK = (lambda store, v, w: store.at(w, 2) == v), {
    BACK_UNTESTED: untested,
    BACK_SOMEWHERE: lambda store, v, w: store.at(w, 2) != 0,
    BACK_OR_NONE: lambda store, v, w: store.at(w, 2) in (0, v),
    BACK_BY_PLACE: lambda store, v, w: store.at(w, 2) // 2 == v // 2,
    BACK_TO_ITSELF: lambda store, v, w: store.at(w, 2) == w}
MORE = untested, {
    COLOURS_COMPARED: lambda store, v, w: store.at(w, 1) == store.at(v, 1),
    NUMBERS_COMPARED: lambda store, v, w: store.at(w, NUMBER) == store.at(v, NUMBER),
    FIELDS_COMPARED: lambda store, v, w: fields(store, w) == fields(store, v)}


def left(store, v):
    """Whether a slip leaves out the test of this reference's replica."""
    kind, args = store.asked
    found = {REPLICAS_UNTESTED: True, LEFT_BEFORE_5: store.phase < 5, LEFT_IN_12: store.phase == 12, PLACES.get(place(store, v)): True,
             LEFT_IN_TOSPACE: v % 2 != store.fromspace(), LEFT_IN_FROMSPACE: v % 2 == store.fromspace(),
             LEFT_BELOW_3: kind != STEP and store.level[args[0]] < 3}
    return any(found[slip] for slip in store.slips & found.keys())


def passes(store, v):
    """Whether a sound reference passes the test of its replica, with the slips that the store has."""
    w = store.at(v, 2)
    if w == 0:
        return NONE_REFUSED not in store.slips
    if left(store, v):
        return True
    if w < 2 or (w - 2) // 2 + HEADER > len(store.half[w % 2]):
        return False  # there are no words to look at
    for right, wrong in (HALF, SOUND, SHAPE, BACK, MORE):
        tests = [wrong[slip] for slip in store.slips & wrong.keys()] or [right]
        if not all(test(store, v, w) for test in tests):
            return False
    return True
