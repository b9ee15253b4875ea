"""Directed cases for the probe program of what is shaded and marked: stores and puts of any reference over any other, with more and less
room in the list, in every phase in which a session may shade, from phase 5 on with replicas too; attach and detach over old marks; steps
that shade beside marks. A case is a name with the bytes of tests/programs/probe_program.py."""
import itertools

from cases.ample_shares import wide
from cases.limit_cases import TOP, changed, putting, ref
from models.free_store import ATTACH, DETACH, SAFE, STORE, PUT, STEP
from models.record_layout import COLOUR, HEADER
from models.store_model import LEVELS, Sapphire
from programs.probe_program import encode

# the records of `stage`, the same in both halves, where each begins, and their end; the holder has two reference fields and a plain one
WORDS = [[513, 0, 0, 31, 0, 0, 77], [0, 0, 0, 32], [1, 0, 0, 33, 88], [0, 1, 0, 34], [0, 2, 0, 35], [0, 0, 0, 36], [0, 3, 0, 37],
         [65536, 0, 0, 38], [256, 0, 0, 39]]
PLACES = list(itertools.accumulate(map(len, WORDS), initial=0))
HOLDER_AT, WHITE_AT, WHITE_TOO_AT, GREY_AT, BLACK_AT, OTHER_AT, BAD_COLOUR_AT, BAD_SHAPE_AT, TOO_LONG_AT, END = PLACES
RECORDS = dict(zip(PLACES, WORDS))
PAIRED = (HOLDER_AT, WHITE_AT, GREY_AT, BLACK_AT)  # with the same in the other half, where there are replicas
LENGTH, CAPACITY = END + 1, 12
FIELD, GLOBAL = 1, 9   # what is written: this field of the holder, or this global
HELD, STORED = 2, 5    # registers: the holder, and what is stored
SHADING = range(2, 7)  # the phases in which a session may have level 2 or 3


SOUND = ["null", "white", "another white", "grey", "black", "holder", "white elsewhere"]
DAMAGE = ["reference 1", "colour 3", "shape 65536", "past the frontier", "past the half", "nothing"]


def named(name, h):
    """The reference of this name, the current half being h."""
    places = {"white": WHITE_AT, "another white": WHITE_TOO_AT, "grey": GREY_AT, "black": BLACK_AT, "holder": HOLDER_AT,
              "colour 3": BAD_COLOUR_AT, "shape 65536": BAD_SHAPE_AT, "past the frontier": TOO_LONG_AT, "past the half": LENGTH}
    others = {"null": 0, "white elsewhere": ref(1 - h, WHITE_AT), "reference 1": 1, "nothing": TOP}
    return ref(h, places[name]) if name in places else others[name]


# overwritten and stored: every sound reference over every other, each way of damage beside three sound ones and itself
PAIRS = [*itertools.product(SOUND, SOUND), *itertools.product(DAMAGE, SOUND[:3]), *itertools.product(SOUND[:3], DAMAGE),
         *zip(DAMAGE, DAMAGE)]


def marks(turn):
    """Of the sixteen sessions, in turn: most, every other one, all, none."""
    return [[n % 5 != 0 for n in range(16)], [n % 2 == 0 for n in range(16)], [True] * 16, [False] * 16][turn % 4]


def stage(level, phase, current, old, stored, room, turn):
    """Session 3 holds the holder and what is stored; the overwritten reference is in a field of the holder and in a global, beside a
    white one in each. The list has room for so many entries. From phase 5 on two turns of three have replicas."""
    store = wide(Sapphire(LENGTH, CAPACITY))
    store.phase, store.current, store.frontier = phase, current, [END, END]
    for h, (at, words) in itertools.product((0, 1), RECORDS.items()):
        store.half[h][at:at + len(words)] = words
    holder = ref(current, HOLDER_AT)
    putting((holder, COLOUR, 2 * ((turn + phase + room) % 3 > 0)), (holder, HEADER, ref(current, OTHER_AT)),
            (holder, HEADER + FIELD, old))(store)
    if phase >= 5 and turn % 3:
        putting(*((ref(h, at), 2, ref(1 - h, at)) for h in (0, 1) for at in PAIRED))(store)
    store.globals[GLOBAL - 1:GLOBAL + 2] = [ref(current, OTHER_AT), old, ref(current, OTHER_AT)]
    store.registers[3][HELD], store.registers[3][STORED] = holder, stored
    store.attached[3], store.attached[7], store.level[3], store.level[7] = True, True, level, LEVELS[phase]
    store.tail, store.list, store.scanned = CAPACITY - room, [0] * CAPACITY, marks(turn)
    store.head = store.tail // 2
    return store


def calls(level, phase, rooms):
    """A store and a put of every pair, the halves and marks in turn."""
    for room, kind, (turn, (old, stored)) in itertools.product(rooms, (STORE, PUT), enumerate(PAIRS)):
        current = (level + phase + room + kind + turn) % 2
        store = stage(level, phase, current, named(old, current), named(stored, current), room, turn)
        args = [3, HELD, FIELD, STORED] if kind == STORE else [3, GLOBAL, STORED]
        yield (f"kind {kind} of {stored} over {old} at level {level} in phase {phase}, current half {current}, room for {room}",
               encode(store, kind, args))


def barriers():
    """Levels 1 to 3 in the phases 2 to 6, with room in the list for none, one, two and more; the other levels where they belong."""
    for level, phase in itertools.product((1, 2, 3), SHADING):
        yield from calls(level, phase, (0, 1, 2, 5))
    for level, phase in [(0, 0), (0, 12), (1, 1), (2, 9), (3, 12), (4, 6), (4, 7), (5, 8), (6, 10), (6, 11)]:
        yield from calls(level, phase, (0, 2))


def overlaps():
    """Records that share words: the stored one's colour is the field that is written, or either of the two has the other's colour for a
    header word. The one that begins within another has no replica, or one in the other half, which points back."""
    for level, phase, current, room, paired in itertools.product((1, 2, 3), (2, 4, 5), (0, 1), (0, 1, 2), (False, True)):
        in_field, one_on, white, copy = (ref(h, at) for h, at in (
            (current, HOLDER_AT + HEADER + FIELD - COLOUR), (current, WHITE_AT + 1), (current, WHITE_AT), (1 - current, OTHER_AT)))
        for name, old, stored, within in [("colour in the field", 0, in_field, in_field), ("one word on", white, one_on, one_on),
                                          ("one word back", one_on, white, one_on)]:
            store = stage(level, phase, current, old, stored, room, 3)
            store.put(in_field, 0, 2)  # the shape of the record that begins in the field before
            putting((within, 2, copy * paired), (copy, 0, store.at(within, 0)), (copy, 2, within * paired))(store)
            for kind, args in ((STORE, [3, HELD, FIELD, STORED]), (PUT, [3, GLOBAL, STORED])):
                yield (f"kind {kind}, {name}, at level {level} in phase {phase}, current half {current}, room for {room}, "
                       f"{'with' if paired else 'no'} replica", encode(store, kind, args))


def comings():
    """Attach, detach and safe point in every phase, where the number has a mark and where it has none."""
    for phase, s, turn in itertools.product(range(13), (0, 3, 7, 15), range(4)):
        for kind in (ATTACH, DETACH, SAFE):
            store = stage(LEVELS[phase], phase, turn % 2, 0, 0, 2, turn)
            store.attached[s] = kind != ATTACH
            store.registers[s] = [ref(turn % 2, WHITE_AT)] * 8
            yield f"kind {kind} of session {s} in phase {phase}, marks {turn}", encode(store, kind, [s])


def steps():
    """Steps that shade beside marks: a global, a field, the registers of the first session without a mark, with more and less room."""
    def in_field(store):
        store.head, store.field = store.tail - 1, FIELD
        store.list[store.head] = store.registers[3][HELD]

    def in_registers(store):
        store.head = store.tail
        for n in (1, 3, 5, 7):
            store.attached[n] = True
            places = WHITE_TOO_AT, WHITE_AT, GREY_AT, WHITE_AT, BLACK_AT, WHITE_TOO_AT
            store.registers[n] = [ref(store.current, at) for at in places] + [0, 0]

    def in_global(store):
        store.phase, store.place = 3, GLOBAL
    for (name, set_up), current, room, turn in itertools.product(
            [("field", in_field), ("registers", in_registers), ("global", in_global)], (0, 1), (0, 1, 2, 5), range(4)):
        for seen in ("null", "white", "grey", "black"):
            store = changed(stage(2, 4, current, named(seen, current), 0, room, turn), set_up)
            yield f"step at a {name}, {seen}, current half {current}, room for {room}, marks {turn}", encode(store, STEP, [])
    for turn in range(4):  # every session done: all marks go
        yield f"step that ends phase 4, marks {turn}", encode(changed(stage(2, 4, 0, 0, 0, 5, turn), all_done), STEP, [])


def all_done(store):
    store.head, store.attached = store.tail, list(store.scanned)


def directed():
    for cases in (barriers, overlaps, comings, steps):
        yield from cases()
