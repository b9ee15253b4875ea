#!/usr/bin/env python3
"""Every call of the directory on any control record and any memory: the probe program writes, word for word, what the directory in Python
gives, over the store in Python. Directed cases (every phase and level, edges of every range, damaged records, records without the
field, right and wrong replicas, chains in a ring, birth numbers used up, shares filled and passed) and random damaged directories. Where
no number is left, where the last one is given, and around the edge of a share, the words hold what the plain table has. Mistakes built
into the directory in Python are seen."""
import sys
import time
from collections import Counter

from cases import directory_cases, directory_random_damage, directory_share_cases, replica_cases
from models import directory_model
from models.free_store import MOST_BIRTHS
from models.store_model import LEVELS
from models.table_model import NO_NUMBER, NO_ROOM, OVER_SHARE, Table, fed
from programs import probe_program
from programs.probe_program import OPEN, ADD, REMOVE, MAKE_GROUP, JOIN, LEAVE, LIST

RANDOM = 6000
# the refusals that each call has, by document 02
WALK = {4, 6, 12, 13, 23, 26}
ALLOCATING = WALK | {14, 16, 17, 24}
REFUSALS = {OPEN: {4, 7}, ADD: ALLOCATING, REMOVE: WALK, MAKE_GROUP: ALLOCATING, JOIN: ALLOCATING, LEAVE: WALK | {25}, LIST: WALK}


def compare(cases):
    """Runs the program on the cases. Answers the replies, how often each kind had each number, and at which levels each had 12."""
    replies, seen, levels = [], Counter(), set()
    for case, reply in probe_program.answered(cases):
        kind, group, lent = probe_program.CALL.unpack_from(case)[:3]
        number, value = probe_program.ANSWER.unpack_from(reply)
        if number and (value or not reply.endswith(probe_program.words(probe_program.lent(kind, [group, lent])))):
            sys.exit("test_directory_probe: a refused call has a value, or a refused list has written")
        replies.append(reply)
        seen[kind, number] += 1
        if number == 12:
            levels.add((kind, LEVELS[probe_program.decode(case)[0].phase]))  # the level that the safe point gives
    return replies, seen, levels


def check_bad_cases():
    """A list that is lent too much is not answered, and ends the program; kinds beside the directory's are 15."""
    _, case = next(directory_cases.few())
    want = probe_program.expected(case)
    for lent in (probe_program.MOST_LENT + 1, 1 << 31):
        if probe_program.run(case + probe_program.encode(probe_program.decode(case)[0], LIST, [1, lent]) + case) != want:
            sys.exit("test_directory_probe: a list that is lent too much is answered")
    for kind in (100, OPEN - 1, LIST + 1):
        reply = probe_program.run(kind.to_bytes(4, "big") + case[4:])
        if reply != probe_program.ANSWER.pack(15, 0) + probe_program.unchanged(case) + probe_program.words([0]):
            sys.exit(f"test_directory_probe: kind {kind} is not answered with 15")


def check_slips(cases, replies):
    """Each mistake built into the directory in Python must show in some case."""
    for slip in directory_model.SLIPS + directory_model.DAMAGE_SLIPS + directory_model.NUMBER_SLIPS + directory_model.SHARE_SLIPS:
        seen = next((name for (name, case), reply in zip(cases, replies) if probe_program.expected(case, slip) != reply), None)
        if seen is None:
            sys.exit(f"test_directory_probe: the slip '{slip}' is not seen")
        print(f"test_directory_probe: '{slip}' is seen by: {seen}")


def check_replicas(cases):
    """That every call but open, in every phase that has replicas, is refused for one in some cases, in others follows one and is done."""
    done, refused = Counter(), Counter()
    for _, case in cases:
        key = probe_program.CALL.unpack_from(case)[0], probe_program.decode(case)[0].phase
        number, passed, wrong = replica_cases.shown(case)
        refused[key] += len(wrong)
        done[key] += number == 0 and bool(passed)
    keys = {(kind, phase) for kind in REFUSALS if kind != OPEN for phase in range(5, 13)}
    print(f"test_directory_probe: {len(cases)} cases of replicas: {refused.total()} are refused for one, {done.total()} follow one and are "
          f"done; of each call in each phase from 5 on at least {min(refused[key] for key in keys)} and {min(done[key] for key in keys)}")
    if any(min(refused[key], done[key]) < 20 for key in keys):
        sys.exit(f"test_directory_probe: the cases of replicas do not show enough: {sorted(refused.items())}, {sorted(done.items())}")


def plain_table(store):
    """The plain table that a sound store holds."""
    people, groups = directory_cases.table_of(store)
    plain = Table()
    plain.opened, plain.people, plain.groups = store.attached[directory_model.MINE], people, list(groups)
    plain.pairs = [(person, group) for group, members in groups.items() for person in members]
    return plain


def beside_table(cases):
    """Runs the program on cases of sound stores: the number of the reply is the plain table's, and so is what the words hold after it; a
    record that is made takes a number and is charged to session 15. Number, the store before the call, and whether it made a record."""
    names = {case: name for name, case in cases}
    for case, reply in probe_program.answered(cases):
        number = probe_program.ANSWER.unpack_from(reply)[0]
        before, kind, args = probe_program.decode(case)
        after, plain = probe_program.after(case, reply), plain_table(before)
        told = plain.call(kind - 100, args, fed(number))[0]
        made = number == 0 and kind in (ADD, MAKE_GROUP, JOIN)
        held = plain.people, {group: plain.members(group) for group in plain.groups}
        words = directory_share_cases.words_of(kind) * made
        found = after.births - before.births, after.charge[directory_model.MINE] - before.charge[directory_model.MINE]
        if told != number or directory_cases.table_of(after) != held or found != (made, words):
            sys.exit(f"test_directory_probe: {names[case]}: answered {number}, the plain table {told} and {held}; {found[0]} numbers used, "
                     f"{found[1]} words charged")
        yield number, before, made


def check_numbers():
    """Where one birth number is left, or none."""
    cases, seen = list(directory_cases.numbers()), Counter()
    for number, before, made in beside_table(cases):
        seen[before.births, number] += made or number > 0
    last, none = seen[MOST_BIRTHS - 1, 0], seen[MOST_BIRTHS, NO_NUMBER]
    print(f"test_directory_probe: {len(cases)} calls where few birth numbers are left: the last one is given {last} times, {none} are "
          f"refused with 16, {seen[MOST_BIRTHS, NO_ROOM]} with 14 though no number is left; the table is as before")
    if min(last, none, seen[MOST_BIRTHS, NO_ROOM]) < 60 or seen[MOST_BIRTHS - 1, NO_NUMBER]:
        sys.exit(f"test_directory_probe: the calls do not show enough of birth numbers: {seen}")


def check_shares():
    """Around the edge of a share, and past it where there is no room or no number either."""
    cases, seen = [*directory_share_cases.edges(), *directory_share_cases.orders()], Counter()
    for number, before, made in beside_table(cases):
        seen[number] += 1
        seen["both"] += made and LEVELS[before.phase] > 2
        asked = before.charge[directory_model.MINE] + directory_share_cases.PERSON
        seen["past all"] += number == OVER_SHARE and asked > directory_share_cases.TOP
    print(f"test_directory_probe: {len(cases)} calls around the edge of a share: {seen[OVER_SHARE]} are refused with 17, "
          f"{seen['past all']} of them past the highest word, {seen[NO_ROOM]} with 14, {seen[NO_NUMBER]} with 16; {seen['both']} records "
          f"of two copies are charged once")
    if min(seen[OVER_SHARE], seen["both"], seen["past all"]) < 100 or min(seen[NO_ROOM], seen[NO_NUMBER]) < 20:
        sys.exit(f"test_directory_probe: the calls do not show enough of shares: {seen}")


def check_refusals(name, seen):
    numbers = Counter()
    for (_, number), count in seen.items():
        numbers[number] += count
    print(f"test_directory_probe: {seen.total()} {name} cases, refusals {dict(sorted(numbers.items()))}")
    lacking = [kind for kind, refusals in REFUSALS.items() if {number for k, number in seen if k == kind} != refusals | {0}]
    if lacking:
        sys.exit(f"test_directory_probe: the {name} cases of the kinds {lacking} do not have just the refusals of document 02")


def main():
    began = time.time()
    check_bad_cases()
    paired = list(directory_cases.replicas())
    directed = [*directory_cases.directed(), *paired, *directory_share_cases.directed()]
    replies, seen, levels = compare(directed)
    check_refusals("directed", seen)
    if levels != {(kind, level) for kind in REFUSALS if kind != OPEN for level in range(7)}:
        sys.exit(f"test_directory_probe: 12 does not come in every call but open at every level, but only at {sorted(levels)}")
    check_replicas(paired)
    check_numbers()
    check_shares()
    check_refusals("random", compare(list(directory_random_damage.random_cases(RANDOM)))[1])
    check_slips(directed, replies)
    print(f"test_directory_probe: {time.time() - began:.0f} s")


if __name__ == "__main__":
    main()
