"""Directed cases for the probe program: the stretch and its companion, in either half, on both copies of a record, at every level, with
few fields and many, and refused. A case is a name with the bytes of tests/programs/probe_program.py."""
from cases.ample_shares import wide
from cases.limit_cases import END, LEVEL_PHASES, TOP, X, Y, filling, pairs, ref, set_item, set_word, small
from models.free_store import ATTACH, SAFE, ALLOCATE, STEP
from models.record_layout import least_list, size
from models.store_model import COMPANION, STRETCH, Sapphire
from programs.probe_program import encode


def copies(level):
    """A record with two copies, allocated by a session at this level; register 0 holds the one in half 0, register 1 the other."""
    store = Sapphire(16, least_list(16))
    store.call(ATTACH, [0])
    while store.level[0] != level:
        store.call(STEP, [])
        store.call(SAFE, [0])
    store.call(ALLOCATE, [0, 0, 1, 3])
    for h in (0, 1):
        store.half[h][size(1, 0):size(1, 3)] = [10 * h + 1, 10 * h + 2, 10 * h + 3]
    store.registers[0][:2] = [ref(0, 0), ref(1, 0)]
    return store


def plain(r, p, h, n):
    """A record of this shape that fills half h up to its frontier."""
    store = wide(Sapphire(n, least_list(n)))
    store.attached[0] = True
    store.half[h][:size(r, p)] = [256 * r + p, 2, 0, 9] + [0] * r + [TOP - i for i in range(p)]
    store.frontier[h] = size(r, p)
    store.registers[0][0] = ref(h, 0)
    return store


def few():
    """A stretch and its companion in each half, on both copies of a record, with no plain field and 255, on each refusal, and with a
    replica that is wrong or missing."""
    calls = [("half 0", filling(), 0, 0), ("half 1", filling(), 0, 1),
             ("copy in half 0", copies(5), 0, 0), ("copy in half 1", copies(5), 0, 1),
             ("no plain field", filling(), 0, 4), ("255 plain fields", plain(1, 255, 1, size(1, 255)), 0, 0),
             ("other length", small(set_item("length", 0, END + 1)), 0, 0), ("session 16", filling(), 16, 0),
             ("nobody", filling(), 1, 0), ("register 8", filling(), 0, 8),
             ("null", filling(), 0, 6), ("colour 3", small(set_word(0, X + 1, 3)), 0, 0)]
    calls += [(name, small(set_word(h, k, word)), 0, 0) for name, h, k, word in [
        ("another one's replica", 0, X + 2, ref(1, Y)), ("itself for a replica", 0, X + 2, ref(0, X)), ("no replica", 0, X + 2, 0),
        ("replica without replica", 1, X + 2, 0), ("replica of another shape", 1, X, 513)]]
    for name, store, s, k in calls:
        for kind in (STRETCH, COMPANION):
            yield f"{name}, kind {kind}", encode(store, kind, [s, k])


def directed():
    yield from few()
    calls = [(f"level {level}, copy {k}", copies(level), 0, k) for level in (3, 4, 5, 6) for k in (0, 1)]
    calls += [(f"r {r}, p {p}, half {h}, {n} words", plain(r, p, h, n), 0, 0) for h in (0, 1) for r, p, n in
              [(0, 0, 16), (12, 0, 16), (0, 12, 16), (255, 255, size(255, 255)), (255, 0, 1024), (0, 255, 1024)]]
    calls += [(f"session {s}, register {k}", pairs(), s, k) for s in (0, 1, 15, 16, 255, 256, TOP) for k in (0, 1, 5, 6, 7, 8, 256, TOP)]
    for level, phase in LEVEL_PHASES:
        calls += [(f"level {level}, phase {phase}, register {k}", pairs(level, phase, current), 0, k)
                  for current in (0, 1) for k in range(8)]
    for name, store, s, k in calls:
        for kind in (STRETCH, COMPANION):
            yield f"{name}, kind {kind}", encode(store, kind, [s, k])
