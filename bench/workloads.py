"""The scripts of the benchmark, the same in every run: mostly reads and writes; allocation and collection; stores under a running
collection; collector steps alone. The first has no step, the last next to nothing else. `live` fills the store with that many linked
records first, so that cost can be held against the number of live records. And scripts that end before the scan of a session."""
import os
import random
import sys

sys.path.insert(0, os.path.join(os.path.dirname(os.path.abspath(__file__)), "..", "tests"))
from models.free_store import ATTACH, SAFE, ALLOCATE, LOAD, STORE, READ, WRITE, MOVE, CLEAR, SAME, GET, PUT, STEP  # noqa: E402
from models.store_model import Sapphire  # noqa: E402
from programs.store_scripts import encode  # noqa: E402,F401


def chain(live):
    """Records of two links and two numbers, each linked to the one before, held by global 0; the newest is in register 0."""
    entries = [(ATTACH, [0]), (ATTACH, [1])]
    for n in range(live):
        entries += [(ALLOCATE, [0, 0, 2, 2]), (GET, [0, 1, 0]), (STORE, [0, 0, 0, 1]), (WRITE, [0, 0, 0, n]), (PUT, [0, 0, 0])]
    return entries


def reads_and_writes(length, live=100):
    rng, entries = random.Random(1), chain(live)
    while len(entries) < length:
        draw = rng.random()
        if draw < 0.45:
            entries.append((READ, [0, 0, rng.randrange(2)]))
        elif draw < 0.8:
            entries.append((WRITE, [0, 0, rng.randrange(2), rng.randrange(1 << 32)]))
        elif draw < 0.9:
            entries.append((LOAD, [0, 0, 0, 0]))
        else:
            entries.append((GET, [0, 0, 0]))
    return entries


def allocation_and_collection(length, live=100):
    rng, entries = random.Random(2), chain(live)
    while len(entries) < length:
        entries += [(ALLOCATE, [0, 2, rng.randrange(3), rng.randrange(4)]), (CLEAR, [0, 2])] if rng.random() < 0.3 else []
        entries += [(STEP, [])] * 6
        if rng.random() < 0.2:
            entries += [(SAFE, [0]), (SAFE, [1])]
    return entries[:length]


def stores_under_collection(length, live=100):
    rng, entries = random.Random(3), chain(live)
    while len(entries) < length:
        draw = rng.random()
        if draw < 0.4:
            entries.append((STORE, [0, rng.randrange(2), rng.randrange(2), rng.randrange(2)]))
        elif draw < 0.6:
            entries.append((LOAD, [0, 1, 0, rng.randrange(2)]))
        elif draw < 0.7:
            entries += [(GET, [0, 0, 0]), (SAME, [0, 0, 1])]
        elif draw < 0.75:
            entries.append((PUT, [0, 1 + rng.randrange(31), rng.randrange(2)]))
        elif draw < 0.97:
            entries.append((STEP, []))
        else:
            entries += [(SAFE, [0]), (SAFE, [1])]
    return entries[:length]


def steps_alone(length, live=100):
    """Nineteen steps in twenty entries, after the records are made: the cost of a step."""
    entries = chain(live)
    while len(entries) < length:
        entries += [(STEP, [])] * 38 + [(SAFE, [0]), (SAFE, [1])]
    return entries[:length]


WORKLOADS = {"reads and writes": reads_and_writes, "allocation and collection": allocation_and_collection,
             "stores under a collection": stores_under_collection, "steps alone": steps_alone}


def before_scan(held, marked=0):
    """Up to the step that scans session 0, whose registers hold so many different records, one after another and then again; the first
    ones of them are held by globals too, and so are marked by then."""
    entries = [(ATTACH, [0])]
    for r in range(8 if held else 0):
        entries.append((ALLOCATE, [0, r, 0, 0]) if r < held else (MOVE, [0, r, r % held]))
    entries += [(PUT, [0, r, r]) for r in range(marked)]
    entries += [(STEP, []), (SAFE, [0])] * 2 + [(STEP, [])] * (1 + 33)  # up to RootMark, 32 globals, on to HeapMark
    return entries + [(STEP, [])] * marked                              # they are listed, and have no field


SCANS = {"eight nulls": before_scan(0), "one white record eight times": before_scan(1), "eight white records": before_scan(8),
         "eight marked records": before_scan(8, 8), "seven marked, then one white": before_scan(8, 7)}


def scan_is_next(entries):
    """Whether the step after these entries scans session 0, by the store in Python."""
    store = Sapphire(4096, 1365)
    for kind, arguments in entries:
        store.call(kind, arguments)
    return store.phase == 4 and store.head == store.tail and store.unmarked() == 0
