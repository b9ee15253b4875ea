#!/usr/bin/env python3
"""The programs in a small stack, which no proof bounds. With 96 KB of it the script program writes, byte for byte, what documents 01
and 02 give for long random scripts with every kind of call and for one that fills the store and collects it while it is full; with
120 KB the directory program writes what the directory in Python gives, and with 32 KB the load program writes the longest loads. With
no more stack than their arrays take they must fail, which shows that the limit is kept."""
import sys

from models import load_model
from models.free_store import ALLOCATE, ATTACH, CLEAR, GET, PUT, STORE
from models.record_layout import size
from programs import built_programs, directory_scripts
from programs.store_scripts import ARGUMENTS, encode, expected, finish, kept, long_scripts, look

STACK, DIRECTORY_STACK, LOAD_STACK = 96 * 1024, 120 * 1024, 32 * 1024
HALVES = 2 * 4096 * 4
BUFFER = 4096  # of the load program
RECORDS = 4096 // size(2, 1)  # of `kept`, which a half has room for
SESSIONS = list(range(16))


def filling_script():
    """Records, each linked to the one before, until there is no room, and collections that keep them all; then nothing names them any
    more, and collections free them."""
    entries = [(ATTACH, [s]) for s in SESSIONS]
    for n in range(RECORDS):
        entries += kept(0, 0, 0, n) + [(STORE, [0, 0, 0, 1]), (GET, [0, 1, 0])]
    entries += [(GET, [s, 0, 0]) for s in SESSIONS] + [(ALLOCATE, [s, 7, 2, 1]) for s in SESSIONS]
    entries += finish(SESSIONS, 60) + look(15, 0)
    entries += [(PUT, [0, 0, 7])] + [(CLEAR, [s, k]) for s in SESSIONS for k in range(8)]
    return entries + finish(SESSIONS, 60)


def check(name, data, want, stack, path):
    """That the program writes this on these bytes, with so much stack."""
    done = built_programs.run(data, stack, path)
    if done.returncode != 0 or done.stderr:
        sys.exit(f"test_stack: {name}: with {stack // 1024} KB of stack the program ended with status {done.returncode}")
    if done.stdout != want:
        sys.exit(f"test_stack: {name}: wrote {done.stdout[-80:]!r}, not {want[-80:]!r}")


def script_program():
    longest = entries = no_room = 0
    kinds = set()
    for name, script in [*long_scripts(), ("full store", filling_script())]:
        data = encode(script)
        want = expected(data)
        check(name, data, want, STACK, built_programs.PROGRAM)
        longest, entries, kinds = max(longest, len(want)), entries + len(script), kinds | {kind for kind, _ in script}
        no_room = want.count(b" 14 0\n")  # in the end those of the last script, the full store
    print(f"test_stack: {entries} entries with {STACK // 1024} KB of stack, the longest output {longest} bytes, {no_room} allocations "
          "without room in the full store")
    if kinds != set(ARGUMENTS) or no_room < len(SESSIONS):
        sys.exit("test_stack: the scripts do not show enough")


def directory_program():
    entries, kinds = 0, set()
    for name, played in [("crowd", directory_scripts.crowd(0))] + [(f"random {n}", directory_scripts.random_script(n)) for n in range(6)]:
        want = "".join(directory_scripts.text(n, line) for n, line in enumerate(played.lines, 1)).encode()
        check(name, directory_scripts.encode(played.entries), want, DIRECTORY_STACK, built_programs.DIRECTORY)
        entries, kinds = entries + len(played.entries), kinds | {kind for kind, _ in played.entries}
    print(f"test_stack: {entries} entries of the directory program with {DIRECTORY_STACK // 1024} KB of stack")
    if kinds != set(directory_scripts.SIZES):
        sys.exit(f"test_stack: the directory's scripts do not show enough: {kinds}")


def load_program():
    entries = 0
    for seed in (1, 2, load_model.WORD):
        want = load_model.Workload().script(seed, load_model.MOST)
        check(f"load of seed {seed}", load_model.asked(seed, load_model.MOST), want, LOAD_STACK, built_programs.WORKLOAD)
        entries += load_model.MOST
    print(f"test_stack: {entries} entries of the load program with {LOAD_STACK // 1024} KB of stack")


def main():
    script_program()
    directory_program()
    load_program()
    for data, path, least in ((b"\x01", built_programs.PROGRAM, HALVES), (b"\x02", built_programs.DIRECTORY, HALVES),
                              (load_model.asked(1, 5), built_programs.WORKLOAD, BUFFER)):
        if built_programs.run(data, least, path).returncode == 0:
            sys.exit(f"test_stack: {path} runs with {least // 1024} KB of stack, so the limit is not kept")


if __name__ == "__main__":
    main()
