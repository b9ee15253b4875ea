"""Scripts for the script program: how entries are written, what must be printed, long random scripts, and directed ones for the races of
the handshakes.

Everything is made from a seed, so a script that fails can be made again from its name.
"""
import random

from models.free_store import ATTACH, DETACH, SAFE, ALLOCATE, LOAD, STORE, READ, WRITE, MOVE, CLEAR, SAME, GET, PUT, STEP
from models.store_model import Sapphire

ARGUMENTS = {ATTACH: 1, DETACH: 1, SAFE: 1, ALLOCATE: 4, LOAD: 4, STORE: 4, READ: 3, WRITE: 4, MOVE: 3, CLEAR: 2, SAME: 3, GET: 3,
             PUT: 3, STEP: 0}
SIZES = {kind: 1 + n + (3 if kind == WRITE else 0) for kind, n in ARGUMENTS.items()}  # bytes after the length byte


def body(kind, args):
    """The bytes of an entry after its length byte."""
    return bytes([kind]) + bytes(args[:3]) + args[3].to_bytes(4, "big") if kind == WRITE else bytes([kind]) + bytes(args)


def encode(entries):
    """The bytes of a script: version 1, then for each entry its length byte, kind byte and argument bytes."""
    bodies = (body(kind, args) for kind, args in entries)
    return b"\x01" + b"".join(bytes([len(entry)]) + entry for entry in bodies)


def expected(data):
    """The text that documents 01 and 02 give for these bytes."""
    if not data or data[0] != 1:
        return b"0 15 0\n"
    store, out, at, n = Sapphire(), [], 1, 1
    while at < len(data):
        body = data[at + 1:at + 1 + data[at]]
        if len(body) < data[at] or not body or SIZES.get(body[0]) != len(body):
            out.append(f"{n} 15 0\n")
            break
        kind, args = body[0], list(body[1:])
        if kind == WRITE:
            args = args[:3] + [int.from_bytes(body[4:8], "big")]
        number, value = store.call(kind, args)
        out.append(f"{n} {number} {value}\n")
        at, n = at + 1 + len(body), n + 1
    return "".join(out).encode()


# ---- random scripts

def shape(rng, hunger):
    """Mostly small records, now and then a large one, up to 255 of each kind."""
    style = rng.random() ** (1 / hunger)
    if style < 0.85:
        return rng.randrange(4), rng.randrange(4)
    if style < 0.97:
        return rng.randrange(20), rng.randrange(20)
    return rng.choice([0, 100, 255]), rng.choice([0, 100, 255])


def entry(rng, sessions, wrong, hunger):
    """One session call with mostly good arguments; `wrong` is how often an argument is out of range, `hunger` how much is allocated."""
    def number(limit, top):
        return rng.randrange(limit, top) if rng.random() < wrong else rng.randrange(limit)
    s = rng.randrange(256) if rng.random() < wrong / 2 else rng.randrange(sessions)
    register = lambda: number(8, 256)
    field = lambda: number(4, 256)
    kind = rng.choices([LOAD, STORE, READ, WRITE, MOVE, CLEAR, SAME, GET, PUT, ALLOCATE, ATTACH, DETACH],
                       [12, 16, 10, 8, 6, 5, 10, 6, 6, 14 * hunger, 1.5, 0.4])[0]
    if kind in (ATTACH, DETACH):
        return kind, [s]
    if kind == ALLOCATE:
        return kind, [s, register(), *shape(rng, hunger)]
    if kind == LOAD:
        return kind, [s, register(), register(), field()]
    if kind == STORE:
        return kind, [s, register(), field(), register()]
    if kind == READ:
        return kind, [s, register(), field()]
    if kind == WRITE:
        return kind, [s, register(), field(), rng.randrange(1 << 32)]
    if kind == CLEAR:
        return kind, [s, register()]
    if kind == GET:
        return kind, [s, register(), number(32, 256)]
    if kind == PUT:
        return kind, [s, number(32, 256), register()]
    return kind, [s, register(), register()]


def random_script(seed, length):
    """Sessions work, lag behind in level and leave, while collector steps fall between their calls."""
    rng = random.Random(seed)
    sessions = rng.randint(1, 16)
    steps = rng.choice([0.15, 0.4, 0.6])
    lazy = rng.choice([0.1, 0.3, 0.5])
    wrong = rng.choice([0.0, 0.02, 0.1])
    hunger = rng.choice([1, 1, 2, 4])
    entries = [(ATTACH, [s]) for s in range(sessions) if rng.random() < 0.8]
    while len(entries) < length:
        draw = rng.random()
        if draw < steps:
            entries += [(STEP, [])] * rng.randint(1, 12)
        elif draw < steps + lazy * (1 - steps):
            entries.append((SAFE, [rng.randrange(sessions)]))
        else:
            entries.append(entry(rng, sessions, wrong, hunger))
    return entries[:length]


# ---- directed scripts

# where a collection waits for a session that is a level behind: PreMark1, PreMark2, Allocate, PreCopy, PreFlip1, PreFlip2, Reclaim
STALLS = 7
AHEAD, BEHIND = 0, 1


def race(rng, length):
    """Calls of one session that is ahead and one that is behind, on records that both hold through globals 0 to 3."""
    entries = []
    for _ in range(length):
        s = rng.choice([AHEAD, BEHIND])
        a, b, g = rng.randrange(4), rng.randrange(4), rng.randrange(4)
        entries.append(rng.choice([
            (ALLOCATE, [s, a, 2, 1]), (STORE, [s, a, rng.randrange(2), b]), (LOAD, [s, a, b, rng.randrange(2)]),
            (PUT, [s, g, a]), (GET, [s, a, g]), (SAME, [s, a, b]), (WRITE, [s, a, 0, rng.randrange(1 << 32)]), (READ, [s, a, 0]),
            (CLEAR, [s, a]), (STEP, []), (STEP, [])]))
    return entries


def directed_script(seed, stall, length=60):
    """A collection driven to its waiting place number `stall` while session BEHIND keeps the level before, and races there."""
    rng = random.Random((seed << 8) + stall)
    entries = [(ATTACH, [AHEAD]), (ATTACH, [BEHIND])]
    for k in range(4):
        entries += [(ALLOCATE, [AHEAD, k, 2, 1]), (WRITE, [AHEAD, k, 0, k]), (PUT, [AHEAD, k, k]), (GET, [BEHIND, k, k])]
    for place in range(stall + 1):
        entries += [(STEP, [])] * 500
        entries.append((SAFE, [AHEAD]))
        if place == stall:
            entries += race(rng, length)
        entries.append((SAFE, [BEHIND]))
        entries += race(rng, 12)
    for _ in range(STALLS + 1):
        entries += [(STEP, [])] * 400 + [(SAFE, [AHEAD]), (SAFE, [BEHIND])]
        entries += race(rng, 6)
    for k in range(4):
        entries += [(GET, [AHEAD, 4, k]), (READ, [AHEAD, 4, 0]), (LOAD, [AHEAD, 5, 4, 0]), (READ, [AHEAD, 5, 0]),
                    (SAME, [AHEAD, 4, 5]), (LOAD, [AHEAD, 6, 4, 1]), (READ, [AHEAD, 6, 0]), (SAME, [AHEAD, 5, 6])]
    return entries


# a record with two links and a number, kept in a global
def kept(s, k, g, number):
    return [(ALLOCATE, [s, k, 2, 1]), (WRITE, [s, k, 0, number]), (PUT, [s, g, k])]


def finish(sessions, rounds=9):
    """Steps and safe points until every collection under way has ended, and new records where the old ones were."""
    entries = []
    for _ in range(rounds):
        entries += [(STEP, [])] * 300 + [(SAFE, [s]) for s in sessions]
    for _ in range(40):
        entries += [(ALLOCATE, [sessions[0], 7, 2, 1]), (WRITE, [sessions[0], 7, 0, 0xDEAD])]
    return entries + [(CLEAR, [sessions[0], 7])]


def look(s, g):
    """What hangs on a global, read to a depth of two."""
    return [(GET, [s, 4, g]), (READ, [s, 4, 0]), (LOAD, [s, 5, 4, 0]), (READ, [s, 5, 0]), (SAME, [s, 4, 5]), (LOAD, [s, 6, 5, 0]),
            (READ, [s, 6, 0])]


def to_marking(sessions, steps=0):
    """From Rest to HeapMark, and so many steps in it."""
    meeting = [(SAFE, [s]) for s in sessions] + [(STEP, [])]
    return [(STEP, [])] + meeting * 2 + [(STEP, [])] * (33 + steps)


def to_level(sessions, level):
    """From Rest, with few records, until all these sessions have taken a level."""
    return ([(STEP, [])] * 120 + [(SAFE, [s]) for s in sessions]) * level


def new_record_gets_a_white_one(waits):
    """PreMark1 and PreMark2: the session ahead makes a record, the one behind stores a record into it that nothing else names."""
    entries = [(ATTACH, [AHEAD]), (ATTACH, [BEHIND]), (ALLOCATE, [BEHIND, 1, 2, 1]), (WRITE, [BEHIND, 1, 0, 77]), (STEP, [])]
    for _ in range(waits):
        entries += [(SAFE, [AHEAD]), (SAFE, [BEHIND]), (STEP, [])]
    entries += [(SAFE, [AHEAD])] + kept(AHEAD, 0, 0, 5) + [(GET, [BEHIND, 0, 0]), (STORE, [BEHIND, 0, 0, 1]), (CLEAR, [BEHIND, 1])]
    return entries + finish([BEHIND, AHEAD]) + look(AHEAD, 0)


def scanned_session_loads_late(steps):
    """HeapMark: session 0 has been scanned; session 1 stores a record that session 0 then empties of its link, keeping what it named."""
    entries = [(ATTACH, [0]), (ATTACH, [1])] + kept(0, 0, 0, 1)
    entries += [(ALLOCATE, [1, 1, 2, 1]), (ALLOCATE, [1, 2, 2, 1]), (WRITE, [1, 2, 0, 99]), (STORE, [1, 1, 0, 2]), (CLEAR, [1, 2])]
    entries += to_marking([0, 1], steps)
    entries += [(GET, [0, 0, 0]), (STORE, [1, 1, 1, 1]), (PUT, [1, 1, 1]), (GET, [0, 1, 1]), (LOAD, [0, 2, 1, 0]), (STORE, [0, 1, 0, 7])]
    return entries + finish([1, 0]) + [(READ, [0, 2, 0]), (SAME, [0, 2, 1])] + look(0, 1)


def scanned_session_drops_a_link(steps):
    """HeapMark: a session loads what its record names and overwrites the link before the walk comes to it. Nothing else names that one."""
    entries = [(ATTACH, [0]), (ALLOCATE, [0, 0, 2, 1]), (ALLOCATE, [0, 1, 2, 1]), (WRITE, [0, 1, 0, 55]), (STORE, [0, 0, 1, 1]),
               (CLEAR, [0, 1])]
    entries += to_marking([0], steps) + [(LOAD, [0, 1, 0, 1]), (STORE, [0, 0, 1, 7])]
    return entries + finish([0]) + [(READ, [0, 1, 0]), (LOAD, [0, 2, 1, 0]), (SAME, [0, 1, 0])]


def unscanned_session_stores_and_leaves(steps):
    """HeapMark: the walk is done with a record; a session that has not been scanned stores in it what it alone holds, and detaches."""
    entries = [(ATTACH, [0]), (ATTACH, [1])] + kept(0, 0, 0, 1) + [(ALLOCATE, [1, 1, 2, 1]), (WRITE, [1, 1, 0, 66])]
    entries += to_marking([0, 1], steps) + [(GET, [1, 0, 0]), (STORE, [1, 0, 0, 1]), (DETACH, [1])]
    return entries + finish([0]) + look(0, 0)


def sessions_come_and_go(others):
    """HeapMark: between the steps one session after the other detaches and attaches again, and new ones come; some have been scanned."""
    sessions = range(others + 1)
    entries = [(ATTACH, [s]) for s in sessions] + kept(0, 0, 0, 1) + [(ALLOCATE, [others, 1, 2, 1]), (STORE, [others, 1, 0, 1])]
    entries += to_marking(sessions, others // 2)
    for n in range(24):
        entries += [(DETACH, [n % 16]), (ATTACH, [n % 16]), (GET, [n % 16, 0, 0]), (STORE, [n % 16, 0, 0, 0]), (STEP, [])]
    return entries + finish(range(16)) + look(0, 0)


def both_copies_compared(steps):
    """RootFlip and StackFlip: a register names the one copy of a record, a global already the other."""
    entries = [(ATTACH, [0])] + kept(0, 0, 0, 3) + kept(0, 1, 20, 4) + to_level([0], 6) + [(STEP, [])] * steps
    for _ in range(40):
        entries += [(STEP, []), (GET, [0, 2, 0]), (SAME, [0, 0, 2]), (SAME, [0, 2, 1]), (GET, [0, 3, 20]), (SAME, [0, 1, 3])]
    return entries + finish([0]) + look(0, 0)


def sessions_come_in_the_flip(steps):
    """StackFlip: so many of twelve sessions have been flipped; the first and the last detach and attach again, and a new one comes."""
    sessions = range(12)
    entries = [(ATTACH, [s]) for s in sessions] + kept(0, 0, 0, 5) + [(GET, [s, 1, 0]) for s in sessions]
    entries += to_level(sessions, 6) + [(STEP, [])] * (34 + steps)
    entries += [(DETACH, [0]), (DETACH, [11]), (ATTACH, [0]), (ATTACH, [11]), (ATTACH, [15])]
    for s in (0, 5, 11, 15):
        entries += [(GET, [s, 2, 0]), (SAME, [s, 1, 2]), (STORE, [s, 2, 0, 2]), (STEP, [])]
    return entries + finish([*sessions, 15]) + look(0, 0)


def allocates_behind_the_walk(steps):
    """Allocate: a session at the level before makes a record after the walk has begun."""
    entries = [(ATTACH, [AHEAD]), (ATTACH, [BEHIND])] + kept(BEHIND, 0, 0, 8)
    for _ in range(3):
        entries += [(STEP, [])] * 120 + [(SAFE, [AHEAD])] + [(SAFE, [BEHIND])] * (_ < 2)
    entries += [(STEP, [])] * steps + kept(BEHIND, 1, 1, 9) + [(STORE, [BEHIND, 0, 0, 1])]
    return entries + finish([BEHIND, AHEAD]) + look(AHEAD, 0) + look(BEHIND, 1)


def stored_ahead_compared_behind(plains):
    """PreFlip1: the session ahead stores and puts a record; the one behind, who still compares words, loads and gets it."""
    entries = [(ATTACH, [AHEAD]), (ATTACH, [BEHIND]), (ALLOCATE, [AHEAD, 7, 0, plains])] + kept(AHEAD, 0, 0, 3) + kept(AHEAD, 1, 1, 4)
    entries += [(GET, [BEHIND, k, k]) for k in (0, 1)] + to_level([AHEAD, BEHIND], 4) + [(STEP, [])] * 120 + [(SAFE, [AHEAD])]
    entries += [(STORE, [AHEAD, 0, 0, 1]), (LOAD, [BEHIND, 2, 0, 0]), (SAME, [BEHIND, 2, 1])]
    entries += [(PUT, [AHEAD, 2, 1]), (GET, [BEHIND, 3, 2]), (SAME, [BEHIND, 3, 1])]
    return entries + finish([AHEAD, BEHIND]) + look(AHEAD, 0)


def old_record_in_a_new_one_behind(plains):
    """PreFlip2: the session ahead makes a record and gets its new copy; the one behind stores in it one of which it has the old copy."""
    entries = [(ATTACH, [AHEAD]), (ATTACH, [BEHIND]), (ALLOCATE, [BEHIND, 7, 0, plains]), (ALLOCATE, [BEHIND, 1, 2, 1]),
               (WRITE, [BEHIND, 1, 0, 88])]
    entries += to_level([AHEAD, BEHIND], 5) + [(STEP, []), (SAFE, [AHEAD])] + kept(AHEAD, 0, 0, 5)
    entries += [(GET, [BEHIND, 0, 0]), (STORE, [BEHIND, 0, 0, 1]), (STORE, [BEHIND, 1, 0, 0])]
    return entries + finish([BEHIND, AHEAD]) + look(AHEAD, 0)


def old_record_in_a_new_one(globals_flipped):
    """RootFlip: a session makes a record and gets its new copy, and stores in it one of which it has the old copy, its registers not
    being flipped yet."""
    entries = [(ATTACH, [0]), (ALLOCATE, [0, 1, 2, 1]), (WRITE, [0, 1, 0, 99])] + to_level([0], 6)
    entries += [(STEP, [])] * (1 + globals_flipped) + kept(0, 0, 0, 6) + [(STORE, [0, 0, 0, 1]), (STORE, [0, 1, 0, 0])]
    return entries + finish([0]) + look(0, 0)


RECIPES = [new_record_gets_a_white_one, scanned_session_loads_late, scanned_session_drops_a_link, unscanned_session_stores_and_leaves,
           sessions_come_and_go, both_copies_compared, sessions_come_in_the_flip, allocates_behind_the_walk,
           stored_ahead_compared_behind, old_record_in_a_new_one_behind, old_record_in_a_new_one]


def long_scripts():
    """Scripts of a hundred thousand entries and more: several times what the program reads at once."""
    for seed in (1001, 1002):
        yield f"long {seed}", random_script(seed, 120000)


def all_scripts():
    """The scripts of the test, each with its name: random ones, races at each handshake, and the recipes."""
    for seed in range(300):
        yield f"random {seed}", random_script(seed, 1500 + 60 * (seed % 50))
    for seed in range(8):
        for stall in range(STALLS):
            yield f"race {seed} {stall}", directed_script(seed, stall)
    for recipe in RECIPES:
        for n in range(12):
            yield f"{recipe.__name__} {n}", recipe(n)
