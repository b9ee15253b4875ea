"""What the store in Python does with birth numbers where mistakes of tests/mistakes/mistake_names.py are built in."""
from mistakes.mistake_names import (ANSWERS_COUNT, ASKS_BLINDLY, ASKS_FOR_FIELDS, ASKS_REPLICA, COPY_CARRIES, COPY_CLEARS, COUNTED_BOTH,
                                    ENDS_EARLY, NEVER_ENDS, NUMBERS_FIRST, ROOM_BY_3, SHELL_RENUMBERED, SHELL_UNNUMBERED, UNCOUNTED,
                                    USED_BY)
from models.free_store import ALLOCATE, MOST_BIRTHS
from models.record_layout import NUMBER, size

ALLOCATING = {NUMBERS_FIRST, ROOM_BY_3, ENDS_EARLY, NEVER_ENDS, UNCOUNTED, COUNTED_BOTH}
ASKING = {ASKS_FOR_FIELDS, ANSWERS_COUNT, ASKS_BLINDLY, ASKS_REPLICA}
SHELLS, COPYING = {SHELL_UNNUMBERED, SHELL_RENUMBERED}, {COPY_CLEARS, COPY_CARRIES}


def after(count):
    """The count after this one, as a word."""
    return (count + 1) % (MOST_BIRTHS + 1)


def take(store, halves, r, p):
    """The number of a new record in these halves, refused with 14 or 16, and counted."""
    words = size(r, p) - (ROOM_BY_3 in store.slips)
    tests = [(all(store.frontier[h] + words <= len(store.half[h]) for h in halves), 14),
             (store.births + (ENDS_EARLY in store.slips) < store.most_births or NEVER_ENDS in store.slips, 16)]
    for holds, refusal in tests[::-1] if NUMBERS_FIRST in store.slips else tests:
        store.need(holds, refusal)
    number, paired = after(store.births), len(halves) == 2
    if not (paired and UNCOUNTED in store.slips):
        store.births = number
    if paired and COUNTED_BOTH in store.slips:
        store.births = after(number)
    return number


def refused(store, kind, refusal):
    """A refused allocation that uses a number."""
    if kind == ALLOCATE and USED_BY.get(refusal) in store.slips:
        store.births = after(store.births)


def shell_number(store):
    if SHELL_UNNUMBERED in store.slips:
        return 0
    store.births = after(store.births)
    return store.births


def copied(store, v, t):
    """What copying a field from a record to its replica does beside it."""
    store.put(t, NUMBER, 0 if COPY_CLEARS in store.slips else store.at(v, NUMBER))


def asked(store, v):
    """What birth answers of a record in a register."""
    if ASKS_BLINDLY in store.slips:
        k = (v - 2) // 2 + NUMBER
        return store.half[v % 2][k] if v >= 2 and k < len(store.half[v % 2]) else 0
    _, p = store.follow(v)
    if ASKS_FOR_FIELDS in store.slips:
        store.need(p, 13)
    if ANSWERS_COUNT in store.slips:
        return store.births
    return store.at(store.at(v, 2) or v if ASKS_REPLICA in store.slips else v, NUMBER)
