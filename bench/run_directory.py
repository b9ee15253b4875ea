#!/usr/bin/env python3
"""The benchmark of the directory: the instructions of each directory call, by people, groups and members, of the directory program and of
the same calls written the usual way in Rust (plain_directory.rs), on the same scripts.

    python3 bench/run_directory.py

Needs the program built (`rt all test`), rustc and valgrind. Both programs must write the same bytes. A call's instructions are counted as the
difference of two runs, one with the calls behind a script that makes the directory and one without them, divided by their number; what
reading an entry and writing its line cost is in it. The store calls are those that the directory in Python makes.
"""
import os
import subprocess
import sys

from run import ROOT, instructions, missing, run

sys.path.insert(0, os.path.join(ROOT, "tests"))
from models.directory_model import Directory  # noqa: E402
from programs.directory_scripts import encode  # noqa: E402
from models.table_model import OPEN, ADD, REMOVE, MAKE, JOIN, LEAVE, LIST, LAST  # noqa: E402

OURS = os.path.join(ROOT, "crates", "directory_main", "out", "directory_main")
PLAIN = os.path.join(ROOT, "target", "bench", "plain_directory")
NEEDS = {OURS: "the directory program; rt all test proves and builds it", "rustc": "on Debian: apt-get install rustc",
         "valgrind": "on Debian: apt-get install valgrind"}
TIMES = 20  # calls that are counted together
SIZES = [(20, 2, 20), (100, 10, 20), (100, 10, 60), (300, 10, 60), (300, 40, 60)]  # people, groups, members of group 0


def build():
    os.makedirs(os.path.dirname(PLAIN), exist_ok=True)
    subprocess.run(["rustc", "-O", "-C", "codegen-units=1", "-C", "panic=abort", "-o", PLAIN, os.path.join(ROOT, "bench", "plain_directory.rs")], check=True)


def made(people, groups, members):
    """A directory of this size: people and groups are numbered from 0, and the first people are members of group 0."""
    return ([(OPEN, [])] + [(MAKE, [group]) for group in range(groups)] + [(ADD, [person]) for person in range(people)]
            + [(JOIN, [person, 0]) for person in range(members)])


def calls(people, groups, members):
    """What is counted, by name: always in the middle of the people and of the members, or behind the last."""
    some = range(people // 2 - TIMES // 2, people // 2 + TIMES // 2)
    middle = range(max(members // 2 - TIMES // 2, 0), members // 2 + TIMES // 2)
    return {
        "add": [(ADD, [1000 + n]) for n in range(TIMES)], "add, 24": [(ADD, [person]) for person in some],
        "add, number too high": [(ADD, [LAST + 1])] * TIMES, "make": [(MAKE, [1000 + n]) for n in range(TIMES)],
        "join": [(JOIN, [person, 1]) for person in some], "leave": [(LEAVE, [person, 0]) for person in middle],
        "list, none lent": [(LIST, [0, 0])] * TIMES, "list, all lent": [(LIST, [0, 255])] * TIMES,
        "remove": [(REMOVE, [person]) for person in some]}


def store_calls(setup, entries):
    directory = Directory()
    for kind, args in setup:
        assert directory.call(kind, args)[0] == 0, (kind, args)
    total = 0
    for kind, args in entries:
        directory.call(kind, args)
        total += directory.calls
    return total / len(entries)


def compare(size):
    """A line for each call on a directory of this size."""
    setup = made(*size)
    base = [instructions([program], encode(setup)) for program in (OURS, PLAIN)]
    for name, entries in calls(*size).items():
        data = encode(setup + entries)
        if run([OURS], data)[0] != run([PLAIN], data)[0]:
            sys.exit(f"{name}, {size}: the two programs write different lines")
        ours, plain = ((instructions([program], data) - less) / len(entries) for program, less in zip((OURS, PLAIN), base))
        times = store_calls(setup, entries)
        print(f"{name:22} {size[0]:6} {size[1]:6} {size[2]:7} {times:8.1f} {ours:9.0f} {plain:9.0f} {ours / plain:6.2f} "
              f"{ours / times:7.0f} {plain / times:7.0f}")


def main():
    missing("bench/run_directory.py", NEEDS)
    build()
    print(f"{'call':22} {'people':>6} {'groups':>6} {'members':>7} {'calls':>8} {'instr':>9} {'plain':>9} {'ratio':>6} {'a call':>7} "
          f"{'plain':>7}")
    for size in SIZES:
        compare(size)


if __name__ == "__main__":
    main()
