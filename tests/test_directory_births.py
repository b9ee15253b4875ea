#!/usr/bin/env python3
"""The directory in Python where birth numbers run out, which no script of the directory program can show: random runs with few numbers and
small halves, other sessions and the collector between the directory's calls. Every directory call is answered as the plain table is, which
is fed 14 and 16; after every call the words hold the plain table's people, groups and members, after one refused its allocation those of
before; and every store call, the directory's own too, is answered as the collector-free store answers it, 16 and birth numbers included."""
import random
import sys
import time
from collections import Counter

from models.free_store import BIRTH, WHOLE_SHARE
from models.table_model import ADD, MAKE, JOIN, NO_NUMBER, NO_ROOM
from runs.birth_runs import Wrong
from runs.directory_runs import SESSIONS, Beside
from runs.share_runs import Budget

RUNS, ROUNDS = 150, 400


class Numbered(Beside):
    """It counts the directory's answers where no birth number is left."""

    def __init__(self, seed):
        rng = random.Random(seed)
        budget = Budget(rng.choice([32, 64, 120, 400, 2000]), rng.choice([5, 10, 19, 60]))
        super().__init__(rng, budget, rng.choice([0.4, 0.7, 0.8]))

    def count(self, kind, args, line):
        self.seen[kind, line[0]] += self.store.births == self.store.most_births


def played(seed):
    """The run of this seed; every store call is answered as the collector-free store answers it."""
    run = Numbered(seed)
    try:
        run.begin([WHOLE_SHARE] * SESSIONS, WHOLE_SHARE)
        for _ in range(ROUNDS):
            run.round()
    except Wrong as wrong:
        sys.exit(f"test_directory_births: run {seed}: {wrong}")
    return run


def main():
    began, seen, calls, asked = time.time(), Counter(), 0, 0
    for seed in range(RUNS):
        run = played(seed)
        seen, calls = seen + run.seen, calls + len(run.budget.entries)
        asked += sum(kind == BIRTH and line[0] == 0 for (kind, _), line in zip(run.budget.entries, run.budget.lines))
    told = Counter()
    for (_, number), times in seen.items():
        told[number] += times
    left, room = [[seen[kind, number] for kind in (ADD, MAKE, JOIN)] for number in (NO_NUMBER, NO_ROOM)]
    print(f"test_directory_births: {RUNS} runs, {calls} store calls, {asked} numbers told; where no number is left directory calls answer "
          f"{dict(sorted(told.items()))}, 16 to add, make and join {left} times, 14 {room} times; {time.time() - began:.0f} s")
    if asked < 500 or min(left) < 200 or min(room) < 50:
        sys.exit("test_directory_births: the runs do not show enough")


if __name__ == "__main__":
    main()
