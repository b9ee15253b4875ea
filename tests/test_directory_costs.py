#!/usr/bin/env python3
"""How many store calls a directory call makes, counted in the directory in Python: to the call, for directories of many sizes, what the
table of bench/README.md says by people, groups and members; and on damaged memory no more than the bounds there."""
import random
import sys

from cases.random_damage import numbers, world
from models.directory_model import MINE, ROOT, Directory
from models.table_model import OPEN, ADD, REMOVE, MAKE, JOIN, LEAVE, LIST, LAST, UNKNOWN, ALREADY, Table, fed


def passed(table, person):
    """Links that are passed in all groups until the person is found or the chain ends, and the groups that the person is in."""
    chains = [table.members(group) for group in table.groups]
    found = [chain for chain in chains if person in chain]
    return sum(chain.index(person) for chain in found) + sum(len(chain) for chain in chains if chain not in found), len(found)


def remove_cost(table, person):
    place = len(table.groups) + table.people.index(person)
    links, left = passed(table, person)
    return 2 * place + 4 * len(table.groups) + 2 * links + 2 * left + 14 - (place == 0)


def list_cost(table, group, lent):
    members = len(table.members(group))
    written = min(members, lent)
    return 2 * table.groups.index(group) + 2 * members + 9 + (2 * written + 1 if written else 0)


def cost(table, kind, args):
    """The store calls of a call that is not refused, on this table."""
    groups, people = len(table.groups), len(table.people)
    if kind in (JOIN, LEAVE):
        person, group = args
        place, members = groups + table.people.index(person), table.members(group)
        return 2 * place + (2 * len(members) + 13 if kind == JOIN else 2 * members.index(person) + 12)
    return {OPEN: lambda: 1, ADD: lambda: 2 * (groups + people) + 8, MAKE: lambda: 2 * groups + 10,
            REMOVE: lambda: remove_cost(table, *args), LIST: lambda: list_cost(table, *args)}[kind]()


def call(rng, most):
    person, group = rng.randrange(most), rng.randrange(most // 3 + 1)
    kind = rng.choices([ADD, REMOVE, MAKE, JOIN, LEAVE, LIST], [6, 2, 2, 12, 3, 3])[0]
    return kind, {ADD: [person], REMOVE: [person], MAKE: [group], LIST: [group, rng.choice([0, 1, 5, 255])]}.get(kind, [person, group])


def counted(seed, most, length):
    """The calls of a run whose cost is as said, by kind; ends at one where it isn't."""
    rng, table, directory, shown = random.Random(seed), Table(), Directory(), []
    for kind, args in [(OPEN, [])] + [call(rng, most) for _ in range(length)]:
        number, *_ = directory.call(kind, args)
        if number == ALREADY and kind == ADD:
            want = 2 * (len(table.groups) + table.people.index(args[0])) + 5
        else:
            want = cost(table, kind, args) if number == 0 else directory.calls
        if directory.calls != want:
            sys.exit(f"test_directory_costs: {kind} {args} on {table.__dict__}: {directory.calls} store calls, not {want}")
        table.call(kind, args, fed(number))
        shown += [kind] if number == 0 else []
    if (directory.call(ADD, [LAST + 1]), directory.calls) != ((UNKNOWN, 0), 3):
        sys.exit(f"test_directory_costs: a number too high takes {directory.calls} store calls")
    return shown


def damaged(count):
    """On damaged stores: the largest share of the bound that a call has taken, and the numbers that were answered."""
    rng, most, answered = random.Random(4), 0, set()
    for _ in range(count):
        store = world(rng)
        numbers(rng, store)
        if store.length[0] != len(store.half[0]) or store.phase > 12:
            continue
        store.attached[MINE] = True
        store.globals[ROOT] = rng.choice(store.globals)
        directory, n = Directory(store), store.length[0]
        kind, args = call(rng, 12)
        answered.add(directory.call(kind, args)[0])
        bound = 2 * n * n + 8 * n + 14 if kind == REMOVE else 6 * n + 10
        most = max(most, directory.calls / bound)
        if most > 1:
            sys.exit(f"test_directory_costs: {kind} {args} with halves of {n} words: {directory.calls} store calls")
    return most, answered


def main():
    shown = [kind for seed, most in enumerate((3, 6, 10, 20, 40, 90)) for kind in counted(seed, most, 500)]
    most, answered = damaged(4000)
    print(f"test_directory_costs: {len(shown)} calls of known cost; on damaged stores at most {100 * most:.0f} in 100 of the bound, "
          f"answers {sorted(answered)}")
    if any(shown.count(kind) < 50 for kind in (ADD, REMOVE, MAKE, JOIN, LEAVE, LIST)) or not answered >= {0, 4, 12, 13, 23, 26}:
        sys.exit("test_directory_costs: the calls do not show enough")


if __name__ == "__main__":
    main()
