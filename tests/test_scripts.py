#!/usr/bin/env python3
"""The script program on long scripts: every session line is the collector-free store's, no line has 4 or 12, a step's phase only
stays or moves on; and every line, room and phases included, is that of the whole store in Python."""
import itertools
import sys
import time

from models import store_model
from models.free_store import STEP
from programs import built_programs
from programs.line_checks import faults
from programs.store_scripts import all_scripts, encode, long_scripts


def main():
    began = time.time()
    count = entries = collections = steps = longest = 0
    refusals = {}
    for name, script in itertools.chain(all_scripts(), long_scripts()):
        data = encode(script)
        longest = max(longest, len(data))
        answers = built_programs.lines(data)
        if [n for n, _, _ in answers] != list(range(1, len(script) + 1)):
            sys.exit(f"test_scripts: {name}: entries are not numbered from 1 to {len(script)}")
        pairs = [(number, value) for _, number, value in answers]
        fault = next(faults(script, pairs), None)
        if fault:
            sys.exit(f"test_scripts: {name}: {fault}")
        store = store_model.Sapphire()
        for n, (kind, args) in enumerate(script):
            want = store.call(kind, args)
            if pairs[n] != want:
                sys.exit(f"test_scripts: {name}: entry {n + 1}: {pairs[n]}, the store in Python answers {want}")
        count, entries, collections = count + 1, entries + len(script), collections + store.collections
        for number, _ in pairs:
            refusals[number] = refusals.get(number, 0) + 1
        steps += sum(1 for kind, _ in script if kind == STEP)
    print(f"test_scripts: {count} scripts, the longest {longest} bytes, {entries} entries, {steps} of them steps, {collections} "
          f"collections, refusals {dict(sorted(refusals.items()))}, {time.time() - began:.0f} s")
    if count < 300 or entries < 500000 or collections < 100 or any(n not in refusals for n in (5, 6, 7, 8, 9, 11, 13, 14)):
        sys.exit("test_scripts: the scripts do not show enough")


if __name__ == "__main__":
    main()
