#!/usr/bin/env python3
"""The directory in Python with a share, which no script of the directory program can show: an example worked out by hand, and random runs
in which session 15 and the others have small shares in small halves, other sessions and the collector work between the directory's calls,
and the directory is opened again with another share. Every directory call is answered as the plain table is, which is fed 14 and 17; after
every call the words hold the plain table's people, groups and members; what is charged to session 15 are the words of what was added, made
and joined since Reclaim last ended; and every store call is answered as the collector-free store answers it. Mistakes are seen."""
import random
import sys
import time
from collections import Counter

from models.directory_model import MINE, SHARE_SLIPS
from models.free_store import FITTED, NO_ROOM, OVER_SHARE, WHOLE_SHARE
from models.record_layout import size
from models.table_model import OPEN, ADD, REMOVE, MAKE, JOIN, LEAVE, LIST, ALREADY, OPEN_ALREADY
from programs.explain_tool import need
from runs.birth_runs import Wrong
from runs.directory_runs import SESSIONS, Beside
from runs.share_runs import Budget, first_share, shared_call

RUNS, ROUNDS = 120, 400
WORDS = {ADD: size(1, 1), MAKE: size(2, 1), JOIN: size(1, 1)}  # that a call allocates
REST = 0


class Shared(Beside):
    """It counts the words of the directory's calls by their answers alone."""

    def __init__(self, rng, length, slip=None):
        super().__init__(rng, Budget(length), rng.choice([0.4, 0.7]), slip)
        self.chosen, self.eager = shared_call, rng.choice([1, 10, 30])
        self.share, self.words, self.collections = 0, 0, 0

    def count(self, kind, args, line):
        if self.collections != self.budget.seen["collections"]:
            self.collections, self.words = self.budget.seen["collections"], 0
        if line[0] == 0:
            self.words += WORDS.get(kind, 0)
            self.share = args[0] if kind == OPEN else self.share
        found = self.store.share[MINE], self.store.charge[MINE]
        want = self.share, self.words
        need(found == want, f"kind {kind} {args}: session 15 has share and charge {found}, not {want}")
        self.seen[kind, line[0]] += 1

    def done(self, kind, *args):
        """A call that is done."""
        self.refused(0, kind, *args)

    def refused(self, number, kind, *args):
        before = self.seen[kind, number]
        self.directory_call(kind, list(args))
        need(self.seen[kind, number] == before + 1, f"kind {kind} {args} is not answered with {number}")

    def collect_all(self):
        """A whole collection."""
        collections = self.budget.seen["collections"]
        while self.budget.seen["collections"] == collections:
            self.collect(1)


# ---- by hand

def example():
    """Share 13: a person and a group fit, then adding, making and joining are 17, but only where nothing else is to be refused, and all
    other calls are done. Open is refused where it is open, and leaves the share. After a collection two more fit, and so on; detached and
    opened with another share, session 15 keeps its charge."""
    run = Shared(random.Random(1), 200)
    run.begin([WHOLE_SHARE], 13)
    run.done(ADD, 1)
    run.done(MAKE, 7)
    run.refused(OVER_SHARE, ADD, 2)
    run.refused(OVER_SHARE, MAKE, 8)
    run.refused(OVER_SHARE, JOIN, 1, 7)
    run.refused(ALREADY, ADD, 1)
    run.refused(OPEN_ALREADY, OPEN, WHOLE_SHARE)
    run.collect_all()
    run.done(JOIN, 1, 7)
    run.done(ADD, 2)
    run.refused(OVER_SHARE, JOIN, 2, 7)
    run.directory_call(LIST, [7, 3])
    run.done(LEAVE, 1, 7)
    run.done(REMOVE, 1)
    run.close()
    run.done(OPEN, 18)
    run.done(JOIN, 2, 7)
    run.refused(OVER_SHARE, ADD, 3)
    run.close()
    run.done(OPEN, 0)
    run.refused(OVER_SHARE, ADD, 3)
    need(run.store.phase == REST, "the example ends within a collection")
    return run


# ---- by chance

def played(seed, slip=None):
    rng = random.Random(f"directory {seed}")
    run = Shared(rng, rng.choice([64, 120, 200, 400]), slip)
    run.begin([first_share(rng) for _ in range(SESSIONS)], rng.choice([6, 13, 30, 100]))
    for _ in range(ROUNDS):
        run.round()
        if rng.random() < 0.01:
            run.close()
            run.directory_call(OPEN, [run.share if rng.random() < 0.5 else rng.choice([0, 7, 20, 60, 200, WHOLE_SHARE])])
    return run


def fault_of(seed, slip):
    """What is found against the run of this seed with a mistake, or None."""
    try:
        played(seed, slip)
    except (Wrong, SystemExit) as wrong:
        return str(wrong)
    return None


def check_slips():
    for slip in SHARE_SLIPS:
        seen = next((f"run {seed}, {fault}" for seed in range(RUNS) if (fault := fault_of(seed, slip))), None)
        need(seen, f"the slip '{slip}' is not seen")
        print(f"test_directory_shares: '{slip}' is seen: {seen}")


def main():
    began, seen, calls, collections = time.time(), Counter(), 0, 0
    by_hand = example()
    for seed in range(RUNS):
        try:
            run = played(seed)
        except Wrong as wrong:
            sys.exit(f"test_directory_shares: run {seed}: {wrong}")
        seen, calls, collections = seen + run.seen, calls + len(run.budget.entries), collections + run.collections
    done, over, room = [[seen[kind, number] for kind in WORDS] for number in (FITTED, OVER_SHARE, NO_ROOM)]
    print(f"test_directory_shares: an example of {sum(by_hand.seen.values())} calls; {RUNS} runs, {calls} store calls, {collections} "
          f"collections; add, make and join are done {done} times, refused with 17 {over} times, with 14 {room} times; opened "
          f"{seen[OPEN, 0]} times, refused with 7 {seen[OPEN, OPEN_ALREADY]} times")
    need(min(over) > 200 and min(room) > 20 and min(done) > 200 and seen[OPEN, OPEN_ALREADY] > 50, f"the runs do not show enough: {seen}")
    check_slips()
    print(f"test_directory_shares: {time.time() - began:.0f} s")


if __name__ == "__main__":
    main()
