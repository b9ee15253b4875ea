#!/usr/bin/env python3
"""A test of the tests: the store in Python agrees with the collector-free store on every script, and each slip built into it is seen: by
the collector-free store, such as those that document 01 warns of and a test of replicas that is too strict, or where no session is
answered otherwise by a line that differs. Those that no script shows are left to the tests that tests/mistakes/mistake_names.py names."""
import sys

from mistakes.mistake_names import ANSWER_SLIPS, LINE_SLIPS, STRICT_SLIPS
from models.store_model import Sapphire
from programs.line_checks import faults
from programs.store_scripts import all_scripts


def lines_of(entries, slip=None):
    store = Sapphire(slip=slip)
    lines = []
    try:
        for kind, args in entries:
            lines.append(store.call(kind, args))
    except IndexError:  # a slip may lead the store out of its halves
        pass
    return lines, store.collections


def all_right(scripts):
    """The lines of the scripts, none of which has a fault."""
    entries = collections = 0
    refusals, right = {}, []
    for name, script in scripts:
        lines, done = lines_of(script)
        fault = next(faults(script, lines), None)
        if fault:
            sys.exit(f"test_slips: {name}: {fault}")
        right.append(lines)
        entries, collections = entries + len(script), collections + done
        for number, _ in lines:
            refusals[number] = refusals.get(number, 0) + 1
    print(f"test_slips: {len(scripts)} scripts, {entries} entries, {collections} collections, refusals {dict(sorted(refusals.items()))}")
    return right


def first_seen(slip, scripts, right):
    """Where this slip is first seen, and how."""
    for (name, script), lines in zip(scripts, right):
        slipped, _ = lines_of(script, slip)
        if slipped == lines:
            continue
        fault = next(faults(script, slipped), None)
        if fault:
            return f"{name}, {fault}"
        if slip in LINE_SLIPS:
            n = next(n for n, (a, b) in enumerate(zip(slipped, lines)) if a != b)
            return f"{name}, entry {n + 1}: {slipped[n]}, not {lines[n]}"
    return None


def main():
    scripts = list(all_scripts())[::-1]  # those that were written for a slip come first
    right = all_right(scripts)
    for slip in ANSWER_SLIPS + LINE_SLIPS + STRICT_SLIPS:
        seen = first_seen(slip, scripts, right)
        if not seen:
            sys.exit(f"test_slips: the slip '{slip}' is not seen")
        print(f"test_slips: '{slip}' is seen: {seen}")


if __name__ == "__main__":
    main()
