"""Directed cases for the probe program of the call that stores several links, over records that share words, as no run leaves them: what a
pair writes is a header word of what a later one follows. The word may come right by that or wrong. A case is a name with the bytes of
tests/programs/probe_program.py.

A pair writes up to three words: colours, the field and its replica's field. Of the record that is worked on and of its replica they can
change one header word alone, a replica word of 0, which becomes 1 as the colour of another record: a record that is shaded has 0 there
before, and a record with fields has another shape. So the number of its fields, and with it 13, is the same for every pair."""
import itertools

from cases.ample_shares import wide
from cases.limit_cases import TOP, putting, ref
from cases.link_cases import HAVING, call
from models.free_store import LINKS
from models.record_layout import COLOUR, HEADER, REPLICA, least_list
from models.store_model import BLACK, Sapphire
from programs.probe_program import encode

S = 3
FIELDS, WRITTEN, LATER = 7, 2, 6  # of the holder: how many, the one that the first pair stores in, and the one for the second
LENGTH = 40
AT, COPY_AT = 4, 7  # where the holder stands, and its replica
FAR, TWIN_AT = 33, 26  # where other records stand: a sound one, and the other copy of the target
HOLDER, FIRST, TARGET, BESIDE, NONE = 0, 1, 2, 3, 7  # registers: the holder, what the first pair stores, what the second one does
ROLES = ["stored", "old", "stored with replica", "old with replica", "stored's replica", "old's replica"]


def crowd(level, phase, current, h, paired, room=8):
    """All words are 0 but those of the holder in half h, and of its replica: so a white record begins at nearly every word."""
    store = wide(Sapphire(LENGTH, least_list(LENGTH) + 3))
    store.phase, store.current, store.frontier = phase, current, [LENGTH, LENGTH]
    v, w = ref(h, AT), ref(1 - h, COPY_AT)
    putting((v, 0, 256 * FIELDS), (v, COLOUR, BLACK))(store)
    if paired:
        putting((v, REPLICA, w), (w, 0, 256 * FIELDS), (w, COLOUR, BLACK), (w, REPLICA, v))(store)
    store.registers[S][HOLDER] = v
    store.attached[S], store.level[S], store.tail = True, level, store.capacity - room
    store.list = [(3 * n + 1) % 7 for n in range(store.capacity)]
    return store


def twin_of(u):
    """Where the other copy of a target stands, if it has one."""
    return ref(1 - u % 2, TWIN_AT)


def aim(store, u, role, shape=0, colour=0):
    """The second pair stores or overwrites the record u, or another one of which u is the replica."""
    v, twin = u, twin_of(u)
    if "replica" in role:
        putting((twin, 0, shape), (twin, COLOUR, colour), (twin, REPLICA, u), (u, REPLICA, twin), (u, 0, shape))(store)
    if role.endswith("'s replica"):
        v = twin
    if role.startswith("stored"):
        store.registers[S][TARGET] = v
    else:
        store.put(store.registers[S][HOLDER], HEADER + LATER, v)


def second(role):
    return LATER, TARGET if role.startswith("stored") else NONE


def turned(turn, level):
    """A phase of this level, the current half and the holder's, whether it has a replica."""
    phases = [phase for at, phase in HAVING if at == level]
    return phases[turn % len(phases)], turn // 2 % 2, turn % 2, turn // 4 % 2


# ---- a field is a header word

def words_before(u):
    return [0, 2, 3, 257, 65536, TOP, twin_of(u)]


def words_after(store, twin):
    """What the first pair may store: nothing, records of which the references are small numbers or not, what names nothing, where it is not
    followed, and the other copy."""
    return [0, ref(0, 0), ref(1, 0), ref(0, FAR), ref(1, FAR), twin, ref(1 - store.fromspace(), 40000)]


SHAPES = [(0,), ("after",), (0, "before", "after")]  # of the target's other copy: none needed; as the target's word will be; as it is, too


def fields():
    """The first pair stores a word that is a header word of the second one's record, or of its replica: in the holder's own half or in that
    of its replica."""
    turns = itertools.count()
    for level, in_copy, role, j in itertools.product(range(1, 7), (0, 1), ROLES, range(3)):
        if in_copy and level < 4 or level == 1 and role.startswith("old"):
            continue
        for before, after, shape in itertools.product(range(7), range(7), SHAPES[role.endswith("'s replica") + ("replica" in role)]):
            turn = next(turns)
            phase, current, h, paired = turned(turn, level)
            store = crowd(level, phase, current, h, paired or in_copy)
            half, at = (1 - h, COPY_AT) if in_copy else (h, AT)
            u = ref(half, at + HEADER + WRITTEN - j)
            word, stored = words_before(u)[before], words_after(store, twin_of(u))[after]
            aim(store, u, role, {"before": word, "after": stored}.get(shape, 0) % 65536, BLACK * (turn // 2 % 2))
            putting((u, j, word), *((ref(side, FAR), COLOUR, BLACK * (turn % 3 > 0 or j == REPLICA)) for side in (0, 1)))(store)
            store.registers[S][FIRST] = stored
            yield (f"several links, word {j} of {role} is {word}, then {stored}, level {level}, phase {phase}, current half {current}, "
                   f"holder in {h}, shape {shape}, {'replica' if in_copy else 'own'} field",
                   encode(store, LINKS, call([(WRITTEN, FIRST), second(role)])))


# ---- a colour is a header word, or a field

def shading(store, t, by_old):
    """The pair that shades t, which it stores or overwrites."""
    if by_old:
        store.put(store.registers[S][HOLDER], HEADER + WRITTEN, t)
        return WRITTEN, NONE
    store.registers[S][FIRST] = t
    return WRITTEN, FIRST


def colours():
    """The first pair shades a record whose colour is word 0 or the replica word of what the second one follows; records up to the frontier,
    so that one with a plain field more ends behind it, or not."""
    turns = itertools.count()
    for level, by_old, role, j, in_half, slack, shapes in itertools.product((1, 2, 3), (0, 1), ROLES, (0, 2), (0, 1), (0, 1), (
            (0, 0), (0, 1), (1, 1))):
        if level == 1 and (by_old or role.startswith("old")) or "replica" not in role and shapes != (0, 0):
            continue
        for _ in range(4):
            phase, current, h, paired = turned(next(turns), level)
            store = crowd(level, phase, current, h, paired)
            half = (h + in_half) % 2
            u = ref(half, FAR)
            aim(store, u, role)
            putting((twin_of(u), 0, shapes[1]), (u, 0, shapes[0]), (u, j, 0))(store)
            store.frontier[half] = FAR + HEADER + slack
            taken = [shading(store, u + 2 * (j - 1), by_old), second(role)]
            yield (f"several links, word {j} of {role} is shaded as a colour, level {level}, phase {phase}, current half {current}, holder "
                   f"in {h}, {'overwritten' if by_old else 'stored'}, in half {half}, slack {slack}, shapes {shapes}",
                   encode(store, LINKS, call(taken)))


def in_holder():
    """The first pair shades a record whose colour is the holder's replica word, or one of its fields: the one that it stores in, the one
    for the second pair, or another; alone, before a second pair that is right by itself, and before one with a field that there is not or
    a wrong register."""
    turns = itertools.count()
    for level, by_old, place, (behind, later), room in itertools.product((1, 2, 3), (0, 1), (REPLICA, *range(HEADER, HEADER + FIELDS)), [
            ("nothing", None), ("null", (LATER, NONE)), ("another", (LATER, BESIDE)), ("the same", (WRITTEN, FIRST)), ("over it",
            (WRITTEN, NONE)), ("itself", (0, HOLDER)), ("field 9", (9, NONE)), ("register 8", (0, 8))], (8, 2, 1)):
        if level == 1 and by_old:
            continue
        phase, current, h, _ = turned(next(turns), level)
        store = crowd(level, phase, current, h, False, room)
        v = store.registers[S][HOLDER]
        taken = [shading(store, v + 2 * (place - COLOUR), by_old), later][:1 + (later is not None)]
        store.registers[S][BESIDE] = ref(1 - h, FAR)
        yield (f"several links, word {place} of the holder is shaded as a colour, then {behind}, level {level}, phase {phase}, current "
               f"half {current}, holder in {h}, {'overwritten' if by_old else 'stored'}, room for {room}",
               encode(store, LINKS, call(taken)))


def directed():
    for cases in (fields, colours, in_holder):
        yield from cases()
