"""Directed cases for the probe program: the directory's calls on chains that no run makes. They come back to where they began, are as
long as both halves can hold, or lead a removal past more groups than a half has words. A case is a name with the bytes of
tests/programs/probe_program.py."""
from cases.ample_shares import wide
from cases.limit_cases import TOP, records, ref
from models.directory_model import MARK, MINE, ROOT
from models.record_layout import least_list, size
from models.store_model import Sapphire
from programs.probe_program import ADD, REMOVE, MAKE_GROUP, JOIN, LEAVE, LIST, MOST_LENT, encode

PERSON, GROUP = size(1, 1), size(2, 1)  # words of a person or membership, and of a group
# calls of which each succeeds on a school of three people and two groups
DONE = [(ADD, [4]), (REMOVE, [1]), (REMOVE, [3]), (MAKE_GROUP, [3]), (JOIN, [2, 2]), (LEAVE, [1, 1]), (LEAVE, [2, 1]), (LEAVE, [1, 2]),
        (LIST, [1, 4])]


def named(kind, args):
    return f"kind {kind} {args}"


def chain(n, entries):
    """A store of these records, in half 0 as far as they fit and then in half 1: links, by number from 1, and word of each. A link that
    is no number of a record is taken as it is. Global 31 names the first."""
    store, places = wide(Sapphire(n, least_list(n))), [0]
    for links, _ in entries:
        h = 0 if store.frontier[0] + size(len(links), 1) <= n else 1
        places.append(ref(h, store.frontier[h]))
        store.frontier[h] += size(len(links), 1)
    for number, (place, (links, word)) in enumerate(zip(places[1:], entries), 1):
        fields = [places[to] if to < len(places) else to for to in links]
        for i, value in enumerate([256 * len(links) + 1, 0, 0, number, *fields, word]):
            store.put(place, i, value)
    store.attached[MINE], store.globals[ROOT], store.births = True, places[1], len(entries)
    return store


def doubled(store):
    """The records of half 0 with a second copy each, at the same place in half 1, whose links name the copies there."""
    for at, r, p in records(store, 0):
        shape, colour, _, number, *fields = store.half[0][at:at + size(r, p)]
        links = [link and link + 1 for link in fields[:r]]
        store.half[0][at + 2], store.half[1][at:at + size(r, p)] = ref(1, at), [shape, colour, ref(0, at), number, *links, *fields[r:]]
    store.frontier[1] = store.frontier[0]
    return store


RINGS = {
    "a person who comes after himself": [([1], 1)],
    "two people in a ring": [([2], 1), ([1], 2)],
    "groups in a ring": [([2, 0], MARK + 1), ([1, 0], MARK + 2)],
    "a ring that a group leads to": [([2, 0], MARK + 1), ([3], 1), ([2], 2)],
    "members in a ring": [([2, 3], MARK + 1), ([0], 1), ([4], 3), ([3], 4)],
    "a ring with the person looked for": [([2, 3], MARK + 1), ([0], 1), ([3], 1)],
    "the groups as members": [([2, 1], MARK + 1), ([3, 2], MARK + 2), ([0], 1)],
    "the entries as members": [([2, 2], MARK + 1), ([3], 1), ([0], 2)],
    "people before groups": [([2], 1), ([3, 0], MARK + 1), ([0], 2)],
    "numbers above all": [([2, 3], TOP), ([0], 1), ([0], TOP)],
    "a person without link": [([2], 1), ([3], 2), ([], 3)],
    "a group with one link": [([2], MARK + 1), ([0], 1)],
    "a group's member without link": [([2, 3], MARK + 1), ([0], 1), ([], 3)],
}


def rings():
    calls = [*DONE, (ADD, [1]), (REMOVE, [9]), (MAKE_GROUP, [1]), (JOIN, [1, 1]), (JOIN, [3, 1]), (LEAVE, [3, 1]), (LIST, [2, MOST_LENT]),
             (LIST, [1, 0])]
    for name, entries in RINGS.items():
        for store, phases in [(chain(16, entries), (0, 2, 8)), (chain(48, entries), (0, 2, 8)),
                              (doubled(chain(48, entries)), (5, 7, 8, 10, 12))]:
            for phase in phases:
                store.phase = phase
                for kind, args in calls:
                    yield (f"{named(kind, args)} on {name}, {store.length[0]} words, phase {phase}, replicas up to {store.frontier[1]}",
                           encode(store, kind, args))


def people_in_a_row(count, last):
    """The last of them names this one, or none."""
    return [([i + 1 if i < count else last], 9 + i) for i in range(1, count + 1)]


def members_in_a_row(count, last):
    """The same of the members of group 1; person 5 is there too."""
    return [([2, 3], MARK + 1), ([0], 5), *(([i + 1 if i < count + 2 else last], 7 + i) for i in range(3, count + 3))]


def long_chains():
    """As many records as both halves hold. They are fewer than a half has words: a chain that ends is never too long."""
    for n in (48, 1000):
        count = 2 * (n // PERSON)
        for last in (0, 1, count):
            store = chain(n, people_in_a_row(count, last))
            for kind, args in [(ADD, [9]), (ADD, [9 + count]), (REMOVE, [9 + count]), (REMOVE, [9]), (MAKE_GROUP, [1]), (LIST, [1, 5])]:
                yield f"{named(kind, args)} on {count} people, the last names {last}", encode(store, kind, args)
        for last in (0, 3, count - 1):
            store = chain(n, members_in_a_row(count - 3, last))
            for kind, args in [(LIST, [1, MOST_LENT]), (LIST, [1, 1]), (JOIN, [5, 1]), (LEAVE, [5, 1]), (REMOVE, [5]), (JOIN, [10, 1])]:
                yield f"{named(kind, args)} on {count - 3} members, the last names {last}", encode(store, kind, args)


PASSED = 15  # members, so many that all records fit in two halves of as many words as groups are passed
LAST_PASSED = 2 + 5 * PASSED


def passed_groups(n, lead, members=PASSED):
    """A removal of person 1 that makes its own ring. Behind `lead` groups come six; the members of the first are the sixth group itself
    and the entry behind it, which is the person's. Cut out there, he leaves the sixth naming the second: these five come again and
    again. The second loses a member each time and then names what is no record. That is met, and answered with 12, in the group
    2 + lead + 5 * members of the walk, if it comes so far."""
    person, first, nothing = lead + 7, lead + 8, 4 * n
    groups = [([i + 1, 0], MARK + i) for i in range(1, lead + 7)]
    groups[lead][0][1], groups[lead + 1][0][1] = lead + 6, first
    return chain(n, [*groups, ([lead + 2], 1), *(([first + i if i < members else nothing], 1) for i in range(1, members + 1))])


def passes():
    """The group with the damage comes as the last that a removal may pass, or one later: then it is 26."""
    for n in (LAST_PASSED - 1, LAST_PASSED, LAST_PASSED + 1):
        for lead in (0, 1):
            for phase in (0, 6, 8, 11):
                store = passed_groups(n, lead)
                store.phase = phase
                yield f"group {lead + LAST_PASSED} of a walk in {n} words, phase {phase}", encode(store, REMOVE, [1])
