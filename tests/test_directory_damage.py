#!/usr/bin/env python3
"""The directory program on chains that no directory call makes: session 15 itself puts records together that name each other in a ring,
lack a field or stand where others belong, and global 31 names one of them. Every line is that of the directory in Python: 26 where a
chain has more links than a half has words, 13 where a field is missing, and any answer where a walk finds what it looks for before that.
A script can't make 12, which is proved of every run; nor 4."""
import random
import sys
import time
from collections import Counter

from models.directory_model import MARK, MINE, ROOT, TOO_LONG
from models.free_store import ATTACH, DETACH, ALLOCATE, STORE, WRITE, CLEAR, GET, PUT, STEP
from models.table_model import OPEN, ADD, REMOVE, MAKE, JOIN, LEAVE, LIST, LAST
from programs import built_programs
from programs.directory_scripts import Played, encode

PERSON, GROUP, MEMBER = (1, 1), (2, 1), (1, 1)  # links and words of a record
NO_FIELD = 13
CALLS = [(ADD, [9]), (ADD, [1]), (MAKE, [9]), (MAKE, [1]), (JOIN, [1, 1]), (JOIN, [2, 1]), (LEAVE, [1, 1]), (LEAVE, [2, 1]), (LIST, [1, 3]),
         (LIST, [2, 255]), (REMOVE, [2]), (REMOVE, [1]), (REMOVE, [9])]


def built(shapes, words, links, first=0):
    """A directory whose records are these, each kept in the global of its place: their links and words, the word of each, and which
    link names which record. Global 31 names the first, or the one that is said."""
    entries = [(OPEN, [])]
    for place, ((r, p), word) in enumerate(zip(shapes, words)):
        entries += [(ALLOCATE, [MINE, 5, r, p]), (WRITE, [MINE, 5, 0, word]), (PUT, [MINE, place, 5])]
    for place, field, to in links:
        entries += [(GET, [MINE, 5, place]), (GET, [MINE, 6, to]), (STORE, [MINE, 5, field, 6])]
    return entries + [(GET, [MINE, 5, first]), (PUT, [MINE, ROOT, 5]), (CLEAR, [MINE, 5]), (CLEAR, [MINE, 6])]


# each with what must come among the answers to CALLS
RINGS = {
    "a person who comes after himself": (built([PERSON], [1], [(0, 0, 0)]), TOO_LONG),
    "two people in a ring": (built([PERSON, PERSON], [1, 2], [(0, 0, 1), (1, 0, 0)]), TOO_LONG),
    "groups in a ring": (built([GROUP, GROUP], [MARK + 1, MARK + 2], [(0, 0, 1), (1, 0, 0)]), TOO_LONG),
    "a ring that a group leads to": (built([GROUP, PERSON, PERSON], [MARK + 1, 1, 2], [(0, 0, 1), (1, 0, 2), (2, 0, 1)]), TOO_LONG),
    "members in a ring": (built([GROUP, PERSON, MEMBER, MEMBER], [MARK + 1, 1, 3, 4], [(0, 0, 1), (0, 1, 2), (2, 0, 3), (3, 0, 2)]),
                          TOO_LONG),
    "a ring with the person looked for": (built([GROUP, PERSON, MEMBER], [MARK + 1, 1, 1], [(0, 0, 1), (0, 1, 2), (2, 0, 2)]), TOO_LONG),
    "a group whose members are the groups": (built([GROUP, GROUP, PERSON], [MARK + 1, MARK + 2, 1], [(0, 0, 1), (1, 0, 2), (0, 1, 0)]), 0),
    "no fields": (built([(0, 0)], [0], []), NO_FIELD),
    "no link": (built([(0, 1)], [5], []), NO_FIELD),
    "a word and links, but no number": (built([(1, 0)], [0], []), NO_FIELD),
    "a group without members' link": (built([(1, 1), PERSON], [MARK + 1, 1], [(0, 0, 1)]), NO_FIELD),
    "a member without a link": (built([GROUP, PERSON, (0, 1)], [MARK + 1, 1, 3], [(0, 0, 1), (0, 1, 2)]), NO_FIELD),
    "people before groups": (built([PERSON, GROUP, PERSON], [1, MARK + 1, 2], [(0, 0, 1), (1, 0, 2)]), 0),
    "words above all numbers": (built([GROUP, PERSON, MEMBER], [2 ** 32 - 1, 1, 2 ** 32 - 1], [(0, 0, 1), (0, 1, 2)]), 0),
    "the person as a member": (built([GROUP, PERSON], [MARK + 1, 1], [(0, 0, 1), (0, 1, 1)]), 0),
}


def directed():
    for name, (entries, _) in RINGS.items():
        for call in CALLS:
            played = Played()
            played.do(*entries, call, (LIST, [1, 255]), call)
            yield name, f"call {call}", played
    played = Played()
    played.do((OPEN, []), (ADD, [1]), (DETACH, [MINE]), (ADD, [1]), (ATTACH, [MINE]), (OPEN, []), (ADD, [1]), (CLEAR, [MINE, 0]),
              (PUT, [MINE, ROOT, 0]), (ADD, [1]))
    yield "session 15 detached and attached", "", played


SHAPES = [PERSON] * 4 + [GROUP] * 4 + [(0, 1), (1, 0), (3, 2)]
WORDS = [1, 2, 3, MARK + 1, MARK + 1, MARK + 2, LAST, 2 ** 32 - 1]


def random_chains(seed):
    """A few records that name each other at random, mostly onwards; calls and collector steps on them."""
    rng, played = random.Random(seed), Played()
    count = rng.randint(1, 7)
    shapes = [rng.choice(SHAPES) for _ in range(count)]
    links = [(place, field, rng.randrange(count) if rng.random() < 0.15 else min(place + rng.randint(1, 3), count - 1))
             for place in range(count) for field in range(shapes[place][0]) if rng.random() < 0.9 and place < count - 1]
    played.do(*built(shapes, [rng.choice(WORDS) for _ in range(count)], links))
    for _ in range(12):
        kind, person, group = rng.choice([ADD, REMOVE, MAKE, JOIN, JOIN, LEAVE, LIST]), rng.randint(1, 4), rng.randint(1, 3)
        played.do((kind, {ADD: [person], REMOVE: [person], MAKE: [group], LIST: [group, 4]}.get(kind, [person, group])))
        played.do(*[(STEP, [])] * rng.choice([0, 1, 20, 60]))
        if rng.random() < 0.1:
            played.do((CLEAR, [MINE, 5]), (PUT, [MINE, rng.randrange(count), 5]))
    return played


def answers(name, played):
    """The numbers that the directory calls of a script are answered with; every line must be that of the directory in Python."""
    lines = [line[1:] for line in built_programs.lines(encode(played.entries), built_programs.DIRECTORY)]
    if lines != played.lines:
        n = next((n for n, (line, want) in enumerate(zip(lines, played.lines)) if line != want), len(lines) - 1)
        sys.exit(f"test_directory_damage: {name}: entry {n + 1}: {lines[n]}, the directory in Python answers {played.lines[n]}")
    return [line[0] for (kind, _), line in zip(played.entries, lines) if kind >= OPEN]


def main():
    began, seen, count, shown = time.time(), Counter(), 0, {name: set() for name in RINGS}
    for name, which, played in [*directed(), *(("random", seed, random_chains(seed)) for seed in range(120))]:
        numbers = answers(f"{name} {which}", played)
        seen.update(numbers)
        shown.setdefault(name, set()).update(numbers)
        count += 1
    for name, (_, number) in RINGS.items():
        if number not in shown[name]:
            sys.exit(f"test_directory_damage: {name}: {number} does not come")
    print(f"test_directory_damage: {count} scripts, answers {dict(sorted(seen.items()))}, {time.time() - began:.0f} s")
    if any(seen[number] < 5 for number in (0, NO_FIELD, 23, 24, 25)) or seen[TOO_LONG] < 50:
        sys.exit("test_directory_damage: the scripts do not show enough")


if __name__ == "__main__":
    main()
