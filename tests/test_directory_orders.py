#!/usr/bin/env python3
"""The directory program where a collector step, another session's edit and a directory call come in every order, at every step of a
collection: each order is a script that drives a small directory to that step, makes the three, ends the collection and asks for all that
the table holds. Every line is the plain table's or the collector-free store's, and that of the directory in Python."""
import itertools
import sys
import time

from models.free_store import ATTACH, SAFE, ALLOCATE, LOAD, STORE, READ, WRITE, CLEAR, GET, PUT, STEP
from models.table_model import OPEN, ADD, REMOVE, MAKE, JOIN, LEAVE, LIST, LAST, Table
from programs import built_programs
from programs.directory_scripts import Played, encode
from programs.line_checks import faults

# a record that is dropped at once, so that all others move; groups 1 and 2 of people 1 to 3; a record of another session
SETUP = [
    (OPEN, []), (ADD, [4]), (MAKE, [1]), (ADD, [1]), (ADD, [2]), (REMOVE, [4]), (MAKE, [2]), (ADD, [3]), (JOIN, [1, 1]), (JOIN, [2, 1]),
    (JOIN, [1, 2]), (ATTACH, [0]), (ALLOCATE, [0, 0, 2, 1]), (WRITE, [0, 0, 0, 77]), (PUT, [0, 0, 0])]
CALLS = [
    (ADD, [5]), (ADD, [1]), (REMOVE, [1]), (REMOVE, [2]), (REMOVE, [3]), (MAKE, [3]), (JOIN, [3, 1]), (JOIN, [2, 2]), (JOIN, [2, 1]),
    (LEAVE, [1, 1]), (LEAVE, [2, 1]), (LEAVE, [1, 2]), (LEAVE, [3, 1]), (LIST, [1, 8]), (LIST, [2, 0])]
EDITS = [
    [(SAFE, [0])], [(ALLOCATE, [0, 1, 1, 1]), (STORE, [0, 0, 0, 1])], [(LOAD, [0, 1, 0, 0]), (STORE, [0, 0, 1, 1])],
    [(WRITE, [0, 0, 0, 78]), (READ, [0, 0, 0])], [(PUT, [0, 1, 0]), (GET, [0, 2, 1])], [(ALLOCATE, [0, 1, 0, 0]), (CLEAR, [0, 1])]]
ORDERS = list(itertools.permutations(range(3)))
TOO_HIGH = (ADD, [LAST + 1])  # a directory call that only takes its safe point
ALL = [(LIST, [group, 8]) for group in (1, 2, 3)] + [(ADD, [person]) for person in range(1, 6)] + [(GET, [0, 3, 0]), (READ, [0, 3, 0])]


def step(played, early):
    """A step that does something: where the collector waits, the sessions that are behind come to their safe points and it tries again.
    The other session comes to its own early or only then."""
    store = played.store
    if early:
        played.do((SAFE, [0]))
    before = store.phase, store.place, store.field, store.head, list(store.scanned)
    played.do((STEP, []))
    while before == (store.phase, store.place, store.field, store.head, list(store.scanned)):
        played.do((SAFE, [0]), TOO_HIGH, (STEP, []))


def order(place, early, call, edit, turns):
    """The script that makes the three at this place of a collection; None where the collection ends before it."""
    played = Played()
    played.do(*SETUP)
    for n in range(place):
        step(played, early)
        if played.store.phase == 0:
            return None
    three = [[call], edit, [(STEP, [])]]
    for turn in turns:
        played.do(*three[turn])
    step(played, not early)
    while played.store.phase != 0:
        step(played, not early)
    played.do(*ALL)
    return played


def orders():
    """Each call at each place; edits, orders and who is behind in turn, so that they all meet."""
    for n, call in enumerate(CALLS):
        for place in itertools.count():
            turn = 7 * place + n
            played = order(place, place % 2 == n % 2, call, EDITS[turn % len(EDITS)], ORDERS[(turn // 6 + place) % len(ORDERS)])
            if played is None:
                break
            yield f"call {n} at place {place}", played


def main():
    began = time.time()
    count = entries = 0
    for name, played in orders():
        lines = [line[1:] for line in built_programs.lines(encode(played.entries), built_programs.DIRECTORY)]
        fault = next(faults(played.entries, lines, Table()), None)
        if fault:
            sys.exit(f"test_directory_orders: {name}: {fault}")
        if lines != played.lines:
            n = next(n for n, (line, want) in enumerate(zip(lines, played.lines)) if line != want)
            sys.exit(f"test_directory_orders: {name}: entry {n + 1}: {lines[n]}, the directory in Python answers {played.lines[n]}")
        count, entries = count + 1, entries + len(lines)
    print(f"test_directory_orders: {count} orders, {entries} entries, {time.time() - began:.0f} s")
    if count < 2000:
        sys.exit("test_directory_orders: too few orders")


if __name__ == "__main__":
    main()
