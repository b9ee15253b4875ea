#!/usr/bin/env python3
"""In runs no reference is refused for its replica. After every call of random runs, with sessions that lag behind in level, every record of
the current half passes the test of following, and before phase 12 every record of the other half. And no call is refused with 4 or 12, and
every session answer is the collector-free store's. A pair that is broken by hand is seen."""
import random
import sys
import time
from collections import Counter

from cases.limit_cases import records, ref
from models.free_store import ALLOCATE, ATTACH, SAFE, STEP
from models.store_model import LEVELS, Refused
from programs.line_checks import faults
from runs.marking_runs import Run, any_call, attached, fill

RUNS, CALLS = 120, 3000
COPYING, RECLAIM = 7, 12  # phases


def unfollowed(store, seen):
    """The first record that must pass the test of following and doesn't, or None."""
    for h in (0, 1):
        if h != store.current and store.phase == RECLAIM:
            continue
        for at, _, _ in records(store, h):
            try:
                store.follow(ref(h, at))
            except Refused:
                return ref(h, at)
            seen["tested"] += 1
            seen["paired"] += store.at(ref(h, at), 2) != 0
    return None


def do(run, seen, entry):
    run.do(entry)
    seen["calls"] += 1
    return unfollowed(run.store, seen)


def next_entries(rng, run, sessions, busy):
    """A call of a session, or a step with the safe points of some of those that lag behind."""
    store = run.store
    if rng.random() < busy:
        return [any_call(rng, sessions, 0.1)]
    behind = [s for s in range(16) if store.attached[s] and store.level[s] != LEVELS[store.phase]]
    return [(SAFE, [s]) for s in behind if rng.random() < 0.6] + [(STEP, [])]


def random_run(seed, seen):
    """A run of many collections; where a record doesn't pass, it ends, and the record is handed out."""
    rng = random.Random(seed)
    length, sessions = rng.choice([16, 17, 24, 32, 48, 100]), rng.choice([1, 2, 3, 4])
    run = attached(range(sessions), length)
    fill(rng, run, range(sessions), rng.choice([0.3, 0.7]) * length)
    busy = rng.choice([0.3, 0.6, 0.8])
    while len(run.entries) < CALLS:
        for kind, args in next_entries(rng, run, sessions, busy):
            late = kind not in (STEP, SAFE) and run.store.phase == RECLAIM and run.store.level[args[0]] == 6
            seen["late"] += late
            wrong = do(run, seen, (kind, args))
            if wrong:
                return run, wrong
    seen["collections"] += run.store.collections
    return run, None


def check_runs():
    seen = Counter()
    for seed in range(RUNS):
        run, wrong = random_run(seed, seen)
        if wrong:
            sys.exit(f"test_replicas: run {seed}: after call {len(run.entries)}, {run.entries[-1]}, record {wrong} can't be followed")
        fault = next(faults(run.entries, run.lines), None)
        if fault:
            sys.exit(f"test_replicas: run {seed}: {fault}")
    print(f"test_replicas: {RUNS} runs, {seen['calls']} calls, {seen['late']} of sessions at level 6 in phase 12, {seen['collections']} "
          f"collections; {seen['tested']} tests of records, {seen['paired']} of records with a replica, all passed")
    if seen["late"] < 1000 or seen["collections"] < 300 or seen["paired"] < 100000:
        sys.exit("test_replicas: the runs do not show enough")


def check_broken():
    """Each of the three words that the test compares, changed in one copy of a pair, is seen."""
    for j, word in ((0, 256), (1, 3), (2, 0)):
        run = Run(48)
        run.do((ATTACH, [0]), (ALLOCATE, [0, 0, 1, 1]))
        store = run.to(COPYING).store
        copy = store.at(store.registers[0][0], 2)
        store.put(copy, j, word)
        if unfollowed(store, Counter()) is None:
            sys.exit(f"test_replicas: word {j} of a replica is {word}, and nobody sees it")


def main():
    began = time.time()
    check_broken()
    check_runs()
    print(f"test_replicas: {time.time() - began:.0f} s")


if __name__ == "__main__":
    main()
