"""Directed cases for the probe program of the directory's calls: every call in every phase of the collector, numbers of the control record
at the edges of their ranges, halves that are nearly full, few birth numbers left, records that are damaged, lack a field or have a replica
that is not theirs; and the chains of tests/cases/directory_chain_cases.py. A case is a name with the bytes of
tests/programs/probe_program.py."""
import itertools

from cases.directory_chain_cases import DONE, GROUP, LAST_PASSED, PERSON, RINGS, chain, long_chains, named, passed_groups, passes, rings
from cases.limit_cases import LEAST, TOP, USUAL, changed, edges, lengths, putting, records, ref, set_item, set_word, setting
from cases.replica_cases import changes, is_pair
from models.directory_model import MARK, MINE, ROOT, Directory
from models.free_store import ATTACH, MOST_BIRTHS, SAFE, STEP
from models.record_layout import HEADER, NUMBER, least_list
from models.store_model import Sapphire
from models.table_model import LAST
from programs.probe_program import OPEN, ADD, REMOVE, MAKE_GROUP, JOIN, LEAVE, LIST, MOST_LENT, decode, encode

PHASES = range(13)
HALF, FEW = 84, 72  # words of a half: of the schools here, and of the few cases that are kept in files
# people 1, 2 and 3 are in group 1, person 1 is in group 2
SCHOOL = [(OPEN, []), (ADD, [1]), (MAKE_GROUP, [1]), (ADD, [2]), (ADD, [3]), (MAKE_GROUP, [2]), (JOIN, [1, 1]), (JOIN, [2, 1]),
          (JOIN, [3, 1]), (JOIN, [1, 2])]
TINY = [(OPEN, []), (ADD, [1]), (MAKE_GROUP, [1]), (JOIN, [1, 1])]
# each way to be refused by the table
REFUSED = [(OPEN, []), (ADD, [1]), (ADD, [LAST + 1]), (REMOVE, [4]), (REMOVE, [TOP]), (MAKE_GROUP, [2]), (MAKE_GROUP, [LAST + 1]),
           (JOIN, [1, 3]), (JOIN, [4, 1]), (JOIN, [1, 1]), (JOIN, [LAST + 1, 1]), (JOIN, [1, TOP]), (LEAVE, [2, 2]), (LEAVE, [1, 3]),
           (LEAVE, [4, 1]), (LEAVE, [LAST + 1, 1]), (LEAVE, [1, LAST + 1]), (LIST, [3, 4]), (LIST, [LAST + 1, 3])]
# those that allocate, then two of them that are refused before it
ALLOCATING = [(ADD, [4]), (MAKE_GROUP, [3]), (JOIN, [2, 2]), (ADD, [1]), (JOIN, [1, 1])]
EACH = [(OPEN, []), *DONE[:2], *DONE[3:6], DONE[-1]]


def told(directory, calls):
    for kind, args in calls:
        directory.call(kind - 100, args)
    return directory.store


def step(store):
    """A safe point of every attached session and a step, so that the collector never waits."""
    for session in range(16):
        store.call(SAFE, [session])
    store.call(STEP, [])


def school(phase=0, steps=0, again=False, n=HALF, calls=SCHOOL):
    """A directory that its own calls made; then the collector's steps up to this phase, and so many more. `again`: after a whole
    collection, so that the halves have changed roles."""
    store = told(Directory(Sapphire(n, least_list(n))), calls)
    while store.phase != phase or store.collections < again:
        step(store)
    for _ in range(steps):
        step(store)
    return store


def schools():
    for phase in PHASES:
        for again in (False, True):
            for steps in (0, 3, 11):
                yield f"phase {phase}, {steps} steps on{', roles changed' * again}", school(phase, steps, again)


def table_of(store):
    """The table that the words of a sound store hold: people and groups in their order, the members of each group in theirs."""
    def chain_from(v):
        while v:
            yield v, store.at(v, HEADER + store.at(v, 0) // 256)  # its first plain field
            v = store.at(v, HEADER)
    entries = list(chain_from(store.globals[ROOT]))
    groups = {word - MARK: [member for _, member in chain_from(store.at(v, HEADER + 1))] for v, word in entries if word >= MARK}
    return [word for _, word in entries if word < MARK], groups


# ---- calls on sound stores

def calls():
    for name, store in schools():
        for kind, args in DONE + REFUSED:
            yield f"{named(kind, args)} in {name}", encode(store, kind, args)
    store = school()
    for count in (0, 1, 2, 3, 4, 63, MOST_LENT):
        for group in (1, 2, 3):
            yield f"list of group {group} in {count} words", encode(store, LIST, [group, count])


def sessions():
    """Session 15 absent, and others there; session 15 there, at any level, with registers that hold anything."""
    for phase in PHASES:
        for kind, args in EACH + REFUSED[1:3]:
            alone = school(phase)
            alone.attached[MINE] = False
            yield f"{named(kind, args)} in phase {phase}, absent", encode(alone, kind, args)
            busy = school(phase)
            busy.call(ATTACH, [3])
            busy.level[MINE], busy.registers[MINE] = 6 - phase % 7, [TOP, 1, ref(0, 1), ref(1, HALF - 1), 0, TOP, ref(0, 0), 3]
            yield f"{named(kind, args)} in phase {phase}, other level", encode(busy, kind, args)


def rooms():
    """Allocations that just fit in a half, or just do not."""
    for phase in PHASES:
        for again in (False, True):
            base = encode(school(phase, 2, again), OPEN, [])
            for free in [*itertools.product((PERSON - 1, PERSON, GROUP), repeat=2), (0, HALF)]:
                for kind, args in ALLOCATING:
                    store, _, _ = decode(base)
                    store.frontier = [HALF - words for words in free]
                    yield f"{named(kind, args)} in phase {phase}, {free} words free", encode(store, kind, args)


def numbers():
    """Calls in every phase where one birth number is left, or none, with room for the record and without."""
    for phase, again, births in itertools.product(PHASES, (False, True), (MOST_BIRTHS - 2, MOST_BIRTHS - 1, MOST_BIRTHS)):
        base = encode(changed(school(phase, 2, again), setting(births=births)), OPEN, [])
        for kind, args in ALLOCATING + DONE + REFUSED[:1]:
            yield (f"{named(kind, args)} in phase {phase}{', roles changed' * again}, {births} numbers used",
                   encode(decode(base)[0], kind, args))
        for free, (kind, args) in itertools.product([(0, 0), (PERSON - 1, HALF), (HALF, PERSON - 1)], ALLOCATING):
            store, _, _ = decode(base)
            store.frontier = [max(at, HALF - words) for at, words in zip(store.frontier, free)]
            yield f"{named(kind, args)} in phase {phase}, {births} numbers used, {free} words free", encode(store, kind, args)


def ranges():
    """Numbers just inside or just outside each range of refusal 4."""
    bases = {n: encode(school(n=n, calls=TINY), OPEN, []) for n, _ in (LEAST, USUAL)}
    for (n, capacity), name, change in edges():
        for kind, args in EACH:
            store = changed(decode(bases[n])[0], change)
            yield f"{named(kind, args)}, {n} words, {name}", encode(store, kind, args)
    for name, store in lengths():
        store.attached[MINE], store.globals[ROOT] = True, ref(0, 0)
        for kind, args in EACH[:3]:
            yield f"{named(kind, args)}, {name}", encode(store, kind, args)


# ---- damage

def top_injuries(store):
    """Global 31 names something that is no record, or one that is damaged."""
    top = store.globals[ROOT]
    h, at = top % 2, (top - 2) // 2
    for word in (1, TOP, TOP - 1, top + 2, ref(h, store.frontier[h]), ref(h, store.frontier[h] - HEADER + 1), ref(h, HALF),
                 ref(1 - h, HALF - 1)):
        yield f"global 31 is {word}", set_item("globals", ROOT, word)
    for name, k, word in [("shape 65536", 0, 65536), ("shape 65535", 0, 65535), ("colour 3", 1, 3), ("colour", 1, TOP)]:
        yield f"first entry, {name}", set_word(h, at + k, word)
    yield "frontier before the first entry's end", set_item("frontier", h, at + HEADER + 1)


def record_injuries(store):
    """Each word of each record damaged, and the list without room."""
    for h in (0, 1):
        for at, r, p in records(store, h):
            for shape in (0, 1, 256, 257, 513, 65536, 65535):
                yield f"shape {shape} at {h}:{at}", set_word(h, at, shape)
            for word in (0, 1, 2, 3):
                yield f"colour {word} at {h}:{at}", set_word(h, at + 1, word)
            if store.half[h][at + 2]:
                for shape in (0, 1, 256, 257, 513):
                    yield f"shape {shape} in both copies of {h}:{at}", putting((ref(h, at), 0, shape), (store.half[h][at + 2], 0, shape))
            for word in (0, 1, ref(h, at), ref(1 - h, 0), ref(h, HALF), TOP):
                yield f"replica {word} at {h}:{at}", set_word(h, at + 2, word)
            for word in (0, TOP):
                yield f"number {word} at {h}:{at}", set_word(h, at + NUMBER, word)
            for i in range(r):
                for word in (0, 1, ref(h, at), ref(h, 0), ref(1 - h, 0), ref(h, at + 1), TOP):
                    yield f"link {i} is {word} at {h}:{at}", set_word(h, at + HEADER + i, word)
            for word in (0, 1, 3, LAST, MARK, MARK + 1, MARK + 2, TOP):
                yield f"word {word} at {h}:{at}", set_word(h, at + HEADER + r, word)
    listed = len(store.list)
    for head, tail in [(0, listed), (listed, listed), (0, listed - 1)]:
        yield f"list from {head} to {tail}", setting(head=head, tail=tail)


def injured():
    """In every phase, and with it at every level, all calls on a damaged first entry, and the calls in turn on every other damage."""
    for turn, (name, store) in enumerate(schools()):
        base = encode(store, OPEN, [])
        if turn % 3 == 1:
            for injury, change in top_injuries(store):
                for kind, args in [*EACH, (ADD, [1])]:
                    yield f"{named(kind, args)} in {name}, {injury}", encode(changed(decode(base)[0], change), kind, args)
        for at, (injury, change) in enumerate(record_injuries(store)):
            kind, args = DONE[(5 * at + turn) % len(DONE)]
            if (at + turn) % 4 == 0:
                yield f"{named(kind, args)} in {name}, {injury}", encode(changed(decode(base)[0], change), kind, args)


def heads(store):
    """The references of the records of both halves."""
    return [ref(h, at) for h in (0, 1) for at, _, _ in records(store, h)]


def replicas():
    """From phase 5 on each change of tests/cases/replica_cases.py around a record with a replica: all calls around the first entry at the
    phase's start, or soon after that of phase 5, which has none at its start; around the others, and later, the calls in turn."""
    for turn, (phase, again, steps) in enumerate(itertools.product(range(5, 13), (False, True), (0, 3, 11))):
        store = school(phase, steps, again)
        base, early, first = encode(store, OPEN, []), steps == 3 * (phase == 5), store.globals[ROOT]
        around = ((v, *change) for v in heads(store) if is_pair(store, v) for change in changes(store, v))
        for at, (v, about, change) in enumerate(around):
            calls = [DONE[(at // 13 + turn) % len(DONE)]] if at % 13 == turn % 13 else []
            for kind, args in EACH[1:] if v == first and early else calls:
                yield (f"{named(kind, args)} in phase {store.phase}, {steps} steps after the start of {phase}{', roles changed' * again}, "
                       f"record {v}, {about}", encode(changed(decode(base)[0], change), kind, args))


def directed():
    for cases in (passes, rings, long_chains, calls, sessions, rooms, numbers, ranges, injured):
        yield from cases()


def few():
    """Each call done and refused, in a store that a collection is at work on; damage, a first entry among it whose replica is another
    one's, and beside it one without; a walk that is too long."""
    for phase in (0, 8):
        for kind, args in [*EACH, REFUSED[1]]:
            yield named(kind, args), encode(school(phase, 2, n=FEW), kind, args)
    absent = school(n=FEW)
    absent.attached[MINE] = False
    yield "absent", encode(absent, OPEN, [])
    yield "phase 13", encode(changed(school(n=FEW), setting(phase=13)), LIST, [1, 4])
    yield "global 31 is 1", encode(changed(school(n=FEW), set_item("globals", ROOT, 1)), LIST, [1, 4])
    store = school(8, 2, n=FEW)
    for name, word in [("another one's replica", store.at(store.at(store.globals[ROOT], HEADER), 2)), ("no replica", 0)]:
        yield name, encode(changed(decode(encode(store, OPEN, []))[0], putting((store.globals[ROOT], 2, word))), LIST, [1, 4])
    yield "a group with one link", encode(chain(16, RINGS["a group with one link"]), LIST, [1, 4])
    yield "a ring", encode(chain(16, RINGS["a ring with the person looked for"]), LIST, [1, 4])
    yield "no number left", encode(changed(school(n=FEW), setting(births=MOST_BIRTHS)), *ALLOCATING[0])
    yield "a long walk", encode(passed_groups(LAST_PASSED, 1), REMOVE, [1])
