#!/usr/bin/env python3
"""The directory program on long scripts, in which other sessions work, fill the halves and collect between the directory's calls: every
line of a directory call is the plain table's, every other session's line the collector-free store's; and every line, room and phases
included, is that of the directory in Python over the store in Python."""
import sys
import time
from collections import Counter

from models.free_store import STEP
from models.store_model import LEVELS
from models.table_model import OPEN, ADD, MAKE, JOIN, NO_ROOM, Table
from programs import built_programs
from programs.directory_scripts import all_removed, crowd, encode, random_script
from programs.line_checks import faults

SCRIPTS = 60


def scripts():
    for seed in range(SCRIPTS):
        yield f"random {seed}", random_script(seed)
    for seed in range(2):
        yield f"crowd {seed}", crowd(seed)
    yield "all removed", all_removed()


def check(name, played):
    """Compares the lines of the program with all that is known of them."""
    answers = built_programs.lines(encode(played.entries), built_programs.DIRECTORY)
    if [line[0] for line in answers] != list(range(1, len(played.entries) + 1)):
        sys.exit(f"test_directory: {name}: entries are not numbered from 1 to {len(played.entries)}")
    lines = [line[1:] for line in answers]
    fault = next(faults(played.entries, lines, Table()), None)
    if fault:
        sys.exit(f"test_directory: {name}: {fault}")
    for n, (line, want) in enumerate(zip(lines, played.lines), 1):
        if line != want:
            sys.exit(f"test_directory: {name}: entry {n}: {line}, the directory in Python answers {want}")


class Seen:
    """What the scripts have shown."""

    def __init__(self):
        self.scripts = self.entries = self.steps = self.collections = self.longest = 0
        self.refusals = Counter()  # by kind and number
        self.full = Counter()      # calls without room, by kind and level

    def add(self, played):
        phase = 0
        self.scripts, self.entries = self.scripts + 1, self.entries + len(played.entries)
        self.collections += played.store.collections
        for (kind, _), line in zip(played.entries, played.lines):
            if kind == STEP:
                phase, self.steps = line[1], self.steps + 1
            elif kind >= OPEN:
                self.refusals[kind, line[0]] += 1
                self.full[kind, LEVELS[phase]] += line[0] == NO_ROOM
                self.longest = max(self.longest, len(line) - 2)

    def numbers(self):
        return {number: sum(times for (_, of), times in self.refusals.items() if of == number)
                for number in sorted({number for _, number in self.refusals})}

    def enough(self):
        return (self.entries > 100000 and self.collections > 30 and self.longest > 60
                and all(self.full[kind, level] for kind in (ADD, MAKE, JOIN) for level in range(7))
                and set(self.numbers()) == {0, 6, 7, 14, 23, 24, 25})


def main():
    began, seen = time.time(), Seen()
    for name, played in scripts():
        check(name, played)
        seen.add(played)
    print(f"test_directory: {seen.scripts} scripts, {seen.entries} entries, {seen.steps} of them steps, {sum(seen.refusals.values())} "
          f"directory calls, {seen.collections} collections, the longest list {seen.longest} members, refusals {seen.numbers()}, "
          f"{time.time() - began:.0f} s")
    if not seen.enough():
        sys.exit(f"test_directory: the scripts do not show enough: {sorted(seen.refusals.items())}, {sorted(seen.full.items())}")


if __name__ == "__main__":
    main()
