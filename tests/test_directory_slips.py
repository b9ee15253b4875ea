#!/usr/bin/env python3
"""A test of the tests: the directory in Python agrees with the plain table on the scripts of the test, and each mistake that is built into
it is seen, by the plain table or, where it only wastes memory, by a line that differs."""
import sys

from models.directory_model import REGISTERS_KEPT, SLIPS, Directory
from models.table_model import Table
from programs.directory_scripts import all_removed, random_script
from programs.line_checks import faults


def scripts():
    for seed in range(12):
        yield f"random {seed}", random_script(seed)
    yield "all removed", all_removed()


def fault_of(played, slip):
    """The first fault of the directory with this mistake on a script, or None."""
    directory = Directory(slip=slip)
    lines = [directory.call(kind, args) for kind, args in played.entries]
    fault = next(faults(played.entries, lines, Table()), None)
    if slip == REGISTERS_KEPT and lines != played.lines:
        fault = fault or "a line differs"
    return fault


def main():
    shown = list(scripts())
    for name, played in shown:
        fault = next(faults(played.entries, played.lines, Table()), None)
        if fault:
            sys.exit(f"test_directory_slips: {name}: {fault}")
    for slip in SLIPS:
        seen = next((f"{name}, {fault}" for name, played in shown if (fault := fault_of(played, slip))), None)
        if not seen:
            sys.exit(f"test_directory_slips: the slip '{slip}' is not seen")
        print(f"test_directory_slips: '{slip}' is seen: {seen}")


if __name__ == "__main__":
    main()
