"""Random cases of the directory's calls for the probe program: directories by calls at random, in which some words are not what they were,
and the random records of tests/cases/random_damage.py. Everything is made from a seed, so a case that fails can be made again from its
name."""
import random

from cases import random_damage
from cases.ample_shares import any_words
from cases.directory_cases import SCHOOL, heads, school, step, told
from cases.directory_chain_cases import GROUP, PERSON
from cases.limit_cases import TOP, records
from models.directory_model import MARK, MINE, ROOT, Directory
from models.record_layout import HEADER
from models.table_model import LAST
from programs.probe_program import OPEN, ADD, REMOVE, MAKE_GROUP, JOIN, LEAVE, LIST, MOST_LENT, decode, encode


def any_call(rng, most=4):
    kind = rng.choice([ADD, ADD, REMOVE, REMOVE, MAKE_GROUP, MAKE_GROUP, JOIN, JOIN, JOIN, LEAVE, LEAVE, LIST, LIST, OPEN])
    person, group = rng.randint(1, most), rng.randint(1, 3)
    if rng.random() < 0.02:
        person, group = rng.choice([(LAST + 1, 1), (1, TOP), (LAST, LAST)])
    lent = rng.choice([0, 1, 2, 5, MOST_LENT])
    return kind, {OPEN: [any_words(rng)], ADD: [person], REMOVE: [person], MAKE_GROUP: [group],
                  LIST: [group, lent]}.get(kind, [person, group])


def any_school(rng):
    """A directory by calls at random, with the collector somewhere at its work."""
    calls = rng.choice([SCHOOL, SCHOOL[:1]]) + [any_call(rng, 5) for _ in range(rng.choice([4, 8, 16, 30]))]
    store = school(calls=calls, n=rng.choice([60, 84, 108, 132]))
    for _ in range(rng.randrange(20, 180)):
        step(store)
        if rng.random() < 0.05:
            told(Directory(store), [any_call(rng, 5)])
    return store


def damage_at(rng, store):
    """A word that isn't what it was; references mostly to records."""
    h, some = rng.randrange(2), heads(store) or [2]
    value = rng.choice([rng.choice(some), rng.choice(some), rng.choice(some) + 2, 0, 1, 2, 3, 257, 513, MARK + 1, 65536, TOP])
    style = rng.random()
    if style < 0.15:
        store.globals[ROOT] = value
    elif style < 0.2:
        store.registers[MINE][rng.randrange(8)] = value
    elif style < 0.25:
        store.list[rng.randrange(len(store.list))] = value
    elif style < 0.3:
        store.frontier[h] = rng.randrange(len(store.half[h]) + 1)
    elif style < 0.35:
        store.head = store.tail = len(store.list)
    elif style < 0.55:  # a link, most often
        v = rng.choice(some)
        store.half[v % 2][min((v - 2) // 2 + HEADER + rng.choice([0, 0, 1]), len(store.half[0]) - 1)] = rng.choice(some)
    else:
        store.half[h][rng.randrange(store.frontier[h] or 1)] = value


def tighten(rng, store):
    """Now and then a charge and, on from it, a share for one more record, or not even that."""
    if rng.random() < 0.3:
        store.charge[MINE] = rng.choice([0, 6, rng.randrange(200), TOP - PERSON, TOP])
        store.share[MINE] = min(store.charge[MINE] + rng.choice([0, PERSON - 1, PERSON, GROUP - 1, GROUP]), TOP)


def damaged_school(rng, base):
    store, _, _ = decode(base)
    if rng.random() < 0.3:
        random_damage.spoil(rng, store, heads(store))
    for _ in range(rng.choice([0, 0, 1, 1, 2, 3, 6])):
        damage_at(rng, store)
    if rng.random() < 0.06:
        rng.choice(random_damage.EDGES)[2](store)
    if rng.random() < 0.06:
        store.attached[MINE] = False
    if rng.random() < 0.3:
        store.births = random_damage.any_number(rng)
    tighten(rng, store)
    return store


def any_records(rng):
    """The random records of tests/cases/random_damage.py, most of them with words as a directory has them."""
    store = random_damage.world(rng)
    for h in (0, 1):
        for at, r, p in records(store, h):
            if p and at + HEADER + r < len(store.half[h]):
                store.half[h][at + HEADER + r] = rng.choice([1, 2, 3, 4, MARK + 1, MARK + 2, MARK + 3, rng.randrange(12)])
    kept = store.length, store.capacity, store.frontier
    random_damage.numbers(rng, store)
    store.length, store.capacity, store.frontier = kept
    store.attached[MINE] = rng.random() < 0.95
    tighten(rng, store)
    return store


def random_cases(count, seed=1):
    rng = random.Random(seed)
    for i in range(count):
        if i % 40 == 0:
            base = encode(any_school(rng), OPEN, [])
        store = any_records(rng) if i % 4 == 0 else damaged_school(rng, base)
        yield f"random case {i} of seed {seed}", encode(store, *any_call(rng, 5))
