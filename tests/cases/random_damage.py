"""Random damaged stores with random calls, for the probe program: numbers near their limits, words near references, records that
overlap, right pairs and replicas that name anything. Everything is made from a seed, so a case that fails can be made again from its
name."""
import random

from cases import ample_shares
from cases.limit_cases import TOP, edges, putting, ref
from cases.replica_cases import changes, is_pair
from models.free_store import ATTACH, DETACH, SAFE, ALLOCATE, LOAD, STORE, READ, WRITE, MOVE, CLEAR, SAME, GET, PUT, STEP, LINKS, MOST_LINKS
from models.record_layout import HEADER, least_list, size
from models.store_model import BIRTH, COMPANION, LEVELS, MOST_BIRTHS, STRETCH, Sapphire
from programs.probe_program import COUNTS, MAKE, encode

SHAPES = [(0, 0), (1, 0), (0, 1), (1, 1), (1, 1), (2, 1), (1, 2), (2, 2), (3, 2), (0, 4), (5, 5)]
KINDS = ([STEP] * 16 + [STORE] * 8 + [LINKS] * 6 + [ALLOCATE] * 5 + [BIRTH] * 4 + [WRITE, PUT, SAME, LOAD] * 3
         + [READ, STRETCH, COMPANION] * 2 + [MOVE, CLEAR, GET, ATTACH, DETACH, SAFE, MAKE])
EDGES = list(edges())


def any_number(rng):
    """A birth number, or a count of those used: small, one of the last, or anything."""
    return rng.choice([rng.randrange(12), rng.randrange(12), MOST_BIRTHS - 1, MOST_BIRTHS, rng.randrange(MOST_BIRTHS + 1)])


def fill(rng, store, h, shapes):
    """Records of these shapes one behind another in half h, as many as fit below a limit, between small words; their references."""
    n, at, heads = len(store.half[h]), 0, []
    store.half[h], limit = rng.choices(range(12), k=n), rng.choice([n, n, n, n - HEADER, n // 2])
    for r, p in shapes:
        if at + size(r, p) > limit:
            break
        store.half[h][at:at + HEADER] = [256 * r + p, rng.choice([0, 0, 1, 2, 2]), 0, any_number(rng)]
        heads.append(ref(h, at))
        at += size(r, p)
    store.frontier[h] = at
    return heads


def pair_up(rng, store, some, others):
    """Nine in ten of the records get a replica, if one of their shape is left in the other half; the references of both copies."""
    paired, free = [], rng.sample(others, len(others))
    for v in some:
        w = next((w for w in free if store.at(w, 0) == store.at(v, 0)), 0)
        if w and rng.random() < 0.9:
            free.remove(w)
            putting((v, 2, w), (w, 2, v))(store)
            paired += [v, w]
    return paired


def cross(rng, store):
    """The references of a right pair that begins anywhere in both halves, and so shares words with other records."""
    r, p = rng.choice(SHAPES[:8])
    last = [store.frontier[h] - size(r, p) for h in (0, 1)]  # where it may begin
    if min(last) < 0:
        return []
    v, w = ref(0, rng.randrange(last[0] + 1)), ref(1, rng.randrange(last[1] + 1))
    for u, other in ((v, w), (w, v)):
        putting((u, 0, 256 * r + p), (u, 1, rng.choice([0, 0, 1, 2])), (u, 2, other))(store)
    return [v, w]


def spoil(rng, store, paired):
    """One of the changes of tests/cases/replica_cases.py around a record of a right pair, if one is left."""
    whole = [v for v in paired if is_pair(store, v)]
    if whole:
        _, change = rng.choice(list(changes(store, rng.choice(whole))))
        change(store)


def world(rng):
    """A store of random records that name each other, many of them right pairs, in which now and then a pair is not right, or a word is
    none that belongs there."""
    n = rng.choice([16, 17, 24, 32, 33, 48])
    store = Sapphire(n, least_list(n) + rng.choice([0, 0, 1, 3]))
    shapes = [rng.choice(SHAPES) for _ in range(14)]
    some, others = fill(rng, store, 0, shapes), fill(rng, store, 1, shapes[rng.choice([0, 0, 1, 2]):])
    paired = pair_up(rng, store, some, others)
    pool = (some + others) * 3 + [0, 0, 0, 0, 1, ref(0, rng.randrange(n)), ref(1, rng.randrange(n)), ref(rng.randrange(2), n)]
    for v in some + others:
        putting(*((v, HEADER + i, rng.choice(pool)) for i in range(store.at(v, 0) // 256)))(store)
    if rng.random() < 0.2:
        crossed = cross(rng, store)
        paired, pool = paired + crossed, pool + crossed * 6
    for _ in range(rng.choice([0, 0, 0, 0, 1, 1, 2])):
        spoil(rng, store, paired)
    for _ in range(rng.choice([0, 0, 0, 1, 2, 4])):
        store.half[rng.randrange(2)][rng.randrange(n)] = rng.choice([65536, 65535, 3, 1, 256, 512, TOP, rng.choice(pool)])
    store.list, store.globals = rng.choices(pool, k=len(store.list)), rng.choices(pool, k=32)
    flat = rng.choices(pool, k=128)
    store.registers = [flat[at:at + 8] for at in range(0, 128, 8)]
    if rng.random() < 0.04:  # then what is lent is not what it was
        lent = rng.choice([*store.half, store.list])
        lent[:] = rng.choice([lent[:-1], [*lent, 0], lent[:4]])
    return store


def numbers(rng, store):
    """Random numbers of the control record, most of them in range."""
    n = store.length[0]
    store.phase, store.current, store.field = rng.randrange(13), rng.randrange(2), rng.choice([0, 0, 0, 1, 1, 2, 3, 4, 6])
    store.place = rng.choice([0, 0, rng.randrange(n), store.frontier[store.current], rng.choice([3, 4, 5, 7, 8, 9])])
    store.tail = rng.choice([0, rng.randrange(store.capacity + 1), store.capacity - 1, store.capacity])
    store.head = rng.choice([0, store.tail, rng.randrange(store.tail + 1)])
    level = LEVELS[store.phase]
    store.level = rng.choice([[level] * 16, rng.choices([level, max(level - 1, 0)], k=16), rng.choices(range(7), k=16)])
    style = rng.random()
    store.attached = rng.choices([True, True, False], k=16) if style < 0.7 else [style < 0.9 and i == 3 for i in range(16)]
    store.scanned = rng.choice([rng.choices([True, False, False], k=16), [True] * 16])
    store.births = any_number(rng)
    ample_shares.scatter(rng, store)
    if rng.random() < 0.06:
        _, _, change = rng.choice(EDGES)
        change(store)


def arguments_for(rng, kind, store):
    """Mostly an attached session and a field that many records have; now and then a number that is none of those."""
    args = [rng.choice([0, 0, 0, 1, 1, 2]) if kind in (LOAD, STORE, READ, WRITE) else rng.randrange(8) for _ in range(COUNTS[kind])]
    if kind == ALLOCATE and rng.random() < 0.7:
        args[2:] = rng.choice(SHAPES[:6])
    if kind == ATTACH:
        args[1] = ample_shares.any_words(rng)
    if kind == LINKS:
        args[2] = rng.choice([0, 1, 1, 2, 2, 2, 3, 3, 4, 8, 9])
        args += [number for _ in range(MOST_LINKS) for number in (rng.choice([0, 0, 0, 1, 1, 2]), rng.randrange(8))]
    attached = [s for s in range(16) if store.attached[s]]
    if args and attached and rng.random() < 0.9:
        args[0] = rng.choice(attached)
    return [rng.choice([8, 16, 32, 256, TOP]) if rng.random() < 0.02 else a for a in args]


def random_cases(count, seed=1):
    rng = random.Random(seed)
    for i in range(count):
        if i % 4 == 0:
            store = world(rng)
            kept = store.length, store.capacity, store.frontier
        store.length, store.capacity, store.frontier = list(kept[0]), kept[1], list(kept[2])
        numbers(rng, store)
        kind = rng.choice(KINDS)
        args = arguments_for(rng, kind, store)
        ample_shares.fit(rng, store, kind, args)
        yield f"random case {i} of seed {seed}", encode(store, kind, args)
