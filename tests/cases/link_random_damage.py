"""Random calls for several links over crowded words, for the probe program: a holder whose fields, and those of its replica, are header
words of other records, so that a pair often depends on those before it. Everything is made from a seed, so a case that fails can be made
again from its name."""
import random

from cases.ample_shares import scatter
from cases.limit_cases import TOP, putting, ref
from cases.link_cases import HAVING
from cases.random_damage import any_number
from cases.replica_cases import is_pair
from cases.scan_cases import any_words
from cases.scan_overlap_cases import white_there
from models.free_store import LINKS
from models.record_layout import COLOUR, HEADER, REPLICA, least_list, size
from models.store_model import Sapphire
from programs.probe_program import encode

LENGTHS = [16, 18, 24, 24, 32, 40]


def hold(rng, store, fields):
    """A holder with so many fields anywhere in a half, and with a replica two times of three: its reference."""
    h, n = rng.randrange(2), len(store.half[0])
    p = rng.choice([0, 0, 1])
    v, w = (ref(half, rng.randrange(n - size(fields, p) + 1)) for half in (h, 1 - h))
    paired = rng.random() < 0.67
    putting((v, 0, 256 * fields + p), (v, COLOUR, rng.choice([0, 1, 2])), (v, REPLICA, w * paired))(store)
    if paired:
        putting((w, 0, 256 * fields + p), (w, COLOUR, rng.choice([0, 1, 2])), (w, REPLICA, v))(store)
    return v


def near(rng, store, v, fields):
    """A record that begins at a header or field of the holder, or of its replica, or anywhere."""
    w, n = store.at(v, REPLICA), len(store.half[0])
    at = rng.choice([v, v, w if w > 1 else v])
    u = at + 2 * rng.randrange(-2, HEADER + fields)
    return u if rng.random() < 0.75 and 1 < u <= ref(u % 2, n - HEADER) else ref(rng.randrange(2), rng.randrange(n - HEADER + 1))


def pair_with(rng, store, u, v):
    """The record u gets another copy in the other half, whose words point back, or do but for one; the holder's header stays. Both."""
    x = ref(1 - u % 2, rng.randrange(len(store.half[0]) - HEADER + 1))
    kept = {(v, j): store.at(v, j) for j in range(3)}
    shape = rng.choice([0, 0, 0, 1, 2, 256])
    for one, other in ((u, x), (x, u)):
        putting((one, 0, shape), (one, COLOUR, rng.choice([0, 0, 1, 2])), (one, REPLICA, other))(store)
    if rng.random() < 0.4:
        store.put(rng.choice([u, x]), rng.randrange(3), rng.choice([0, 1, 2, 3, 7, 65536]))
    putting(*((record, j, word) for (record, j), word in kept.items()))(store)
    return [u, x]


def drawn(rng, store, pool):
    """The references to draw from: most often those that can be followed, more of them white; with nulls among them."""
    chances = {True: 6, False: 3, None: rng.choice([0, 0, 1, 2])}
    found = [v for v in pool for _ in range(chances[white_there(store, v)])] or [0]
    return found + [0] * rng.choice([1, 3, len(found) // 3 + 1])


def wound(rng, store, v, fields):
    """A record that would be right but for one header word, which is a field of the holder; that field and the record."""
    i, j = rng.randrange(fields), rng.randrange(3)
    u = v + 2 * (HEADER + i - j)
    if u <= v + 2 * REPLICA or u > ref(u % 2, len(store.half[0]) - HEADER):
        return []
    putting(*((u, at, 0) for at in range(3)), (u, j, rng.choice([3, 5, 9, 65535, 65536, TOP])))(store)
    return [(i, u)]


def crowd(rng):
    """A store, the holder in it, its fields, references to draw from, and wounded records."""
    n, (level, phase) = rng.choice(LENGTHS), rng.choice(HAVING[1:] + [(2, 4), (3, 5)] * 2)
    store = Sapphire(n, least_list(n) + rng.choice([0, 3, 8, 16]))
    store.half = [any_words(rng, n), any_words(rng, n)]
    store.frontier = [rng.choice([n, n, n, n - 1, n - rng.randrange(5)]) for _ in (0, 1)]
    store.phase, store.current, store.level = phase, rng.randrange(2), [level] * 16
    fields = rng.choice([2, 3, 4, 6, 8])
    v = hold(rng, store, fields)
    pool = [near(rng, store, v, fields) for _ in range(9)]
    for u in rng.sample(pool, rng.choice([0, 1, 2, 3])):
        pool += pair_with(rng, store, u, v)
    some = drawn(rng, store, pool)
    for i in range(fields):
        if rng.random() < 0.4 and not is_pair(store, v + 2 * (HEADER + i)):
            store.put(v, HEADER + i, rng.choice(some))
    wounded = wound(rng, store, v, fields) if rng.random() < 0.5 else []
    return store, v, fields, pool, wounded


def crowded(rng):
    """A store, the register of the holder, its fields, and pairs that may come one behind another: one that heals a record, and one that
    stores it."""
    while True:
        store, v, fields, pool, wounded = crowd(rng)
        if white_there(store, v) is not None or rng.random() < 0.05:
            break
    some, n = drawn(rng, store, pool), len(store.half[0])
    nothing = ref(1 - store.fromspace(), rng.choice([n, 40000]))
    store.registers = [rng.choices(some + [nothing] * (rng.random() < 0.5), k=8) for _ in range(16)]
    k, *others = rng.sample(range(8), 3)
    set_numbers(rng, store)
    for registers in store.registers:
        registers[k] = v
        for _, u in wounded:
            registers[others[0]], registers[others[1]] = 0, u
    hints = [number for i, _ in wounded for number in (i, others[0], rng.randrange(fields), others[1])]
    return store, k, fields, hints


def set_numbers(rng, store):
    """The other numbers of the control record; room in the list for none, some or all."""
    store.attached, store.scanned = rng.choices([True, True, True, False], k=16), rng.choices([True, False], k=16)
    store.births = any_number(rng)
    scatter(rng, store)
    store.tail = store.capacity - min(rng.choice([16, 16, 16, 4, 2, 1, 0]), store.capacity)
    store.head = rng.choice([0, store.tail, rng.randrange(store.tail + 1)])
    store.list = rng.choices([0, 1, 7, TOP], k=store.capacity)


def arguments(rng, store, k, fields, hints):
    """Mostly pairs that are right by themselves, or those of the hints among them; now and then a field, a register, a count or a session
    that is not."""
    attached = [s for s in range(16) if store.attached[s]] or [0]
    s = rng.choice(attached) if rng.random() < 0.98 else rng.randrange(18)
    top = rng.choice([fields, fields, 2])  # the fewer fields, the more of them are repeated
    pairs = [number for _ in range(8) for number in (rng.randrange(top), rng.randrange(8))]
    if hints and rng.random() < 0.7:
        at = 2 * rng.choice([0, 0, 1, 2])
        pairs[at:at + 4] = hints
    if rng.random() < 0.1:
        pairs[rng.randrange(16)] = rng.choice([fields, 8, 255, TOP])
    count = rng.choice([0, 1, 2, 2, 2, 3, 3, 4, 5, 6, 7, 8, 8, 9]) if rng.random() < 0.97 else rng.choice([9, 255, TOP])
    return [s, k if rng.random() < 0.98 else rng.randrange(10), count, *pairs]


def random_cases(count, seed=1):
    rng = random.Random(f"links {seed}")
    for i in range(count):
        if i % 3 == 0:
            store, *about = crowded(rng)
        yield f"random links {i} of seed {seed}", encode(store, LINKS, arguments(rng, store, *about))
