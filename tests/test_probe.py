#!/usr/bin/env python3
"""Every call of the store, the stretch and its companion too, on any control record and any memory: the probe program writes, word for
word, what documents 01 and 02 give, by the store in Python. Directed cases (edges of every range, every way to meet damage, both halves,
both copies; every reference stored over every other, and all that shades or marks; right and wrong replicas wherever a reference is
followed; the session scan over any registers; birth numbers asked for, given and used up; shares filled and passed, charges kept and
cleared; several links stored at once, by pairs that see what those before them write) and random ones, damaged stores and scans. Mistakes
built into the store in Python are seen.

    python3 tests/test_probe.py write    writes crates/probe/stdin and stdout anew, both from documents 01 and 02 alone
"""
import functools
import os
import random
import sys
import time
from collections import Counter

from cases import (birth_cases, directory_cases, directory_share_cases, limit_cases, link_case_coverage, link_cases, link_overlap_cases,
                   link_random_damage, random_damage, replica_cases, scan_cases, shading_cases, share_cases, stretch_cases)
from mistakes.mistake_names import (DAMAGE_SLIPS, LEVEL_SLIPS, LINK_SLIPS, MARKING_SLIPS, NUMBER_SLIPS, PLACE_IN_HALF, PLACES, SCAN_SLIPS,
                                    SHARE_SLIPS, STRICT_SLIPS, WEAK_SLIPS)
from models.free_store import ATTACH, DETACH, SAFE, ALLOCATE, LOAD, STORE, READ, WRITE, MOVE, CLEAR, SAME, GET, PUT, STEP, LINKS
from models.store_model import BIRTH, COMPANION, STRETCH
from programs import probe_program

CRATE = os.path.join(os.path.dirname(os.path.abspath(__file__)), "..", "crates", "probe")
RANDOM, RANDOM_SCANS, RANDOM_LINKS = 70000, 10000, 20000
# the refusals that each call has, by document 01's table and document 02
SESSION = {4, 5, 6}
RECORD = SESSION | {8, 11, 12}
REFUSALS = {probe_program.MAKE: {1, 2, 3}, ATTACH: {4, 5, 7}, DETACH: SESSION, SAFE: SESSION, ALLOCATE: SESSION | {8, 10, 14, 16, 17},
            LOAD: RECORD | {13}, STORE: RECORD | {13}, READ: RECORD | {13}, WRITE: RECORD | {13}, MOVE: SESSION | {8}, CLEAR: SESSION | {8},
            SAME: SESSION | {8, 12}, GET: SESSION | {8, 9}, PUT: SESSION | {8, 9, 12}, STEP: {4, 12}, STRETCH: RECORD, COMPANION: RECORD,
            BIRTH: RECORD, LINKS: RECORD | {10, 13}}


def few(*makers):
    """The few cases of each of these modules of tests/cases."""
    return [case for maker in makers for _, case in maker.few()]


def files():
    """What crates/probe/stdin and stdout must hold."""
    cases = few(stretch_cases, birth_cases, directory_cases, share_cases, directory_share_cases, link_cases)
    return b"".join(cases), b"".join(probe_program.expected(case) for case in cases)


def held(name):
    with open(os.path.join(CRATE, name), "rb") as file:
        return file.read()


def compare(cases):
    """Runs the program on the cases; its whole output must be what documents 01 and 02 give. How often each kind had each number, and
    how often each trait of birth numbers, of shares and of several links came."""
    seen, traits = {}, Counter()
    for case, want in probe_program.answered(cases):
        kind, number = probe_program.CALL.unpack_from(case)[0], probe_program.ANSWER.unpack_from(want)[0]
        if kind == LINKS and number and want[probe_program.ANSWER.size:] != probe_program.unchanged(case) + probe_program.words([0]):
            sys.exit("test_probe: a refused call for several links has changed something")
        if kind == STRETCH:  # why it was refused only its companion says
            number, = probe_program.ANSWER.unpack_from(probe_program.expected(COMPANION.to_bytes(4, "big") + case[4:]))[:1]
        seen[kind, number] = seen.get((kind, number), 0) + 1
        traits.update(birth_cases.traits(case, want))
        traits.update(share_cases.traits(case, want))
        traits.update(link_case_coverage.traits(case, want))
    return seen, traits


def check_replicas(kind, cases, least):
    """That the cases show enough: wherever a call follows a reference, at each level at which it does, at least so many that are refused
    for a replica, and so many that follow a record with a replica there and are done."""
    done, refused = Counter(), Counter()
    for _, case in cases:
        number, passed, wrong = replica_cases.shown(case)
        level = replica_cases.level_of(case) if passed or wrong else None
        refused.update((place, level) for place in wrong)
        done.update((place, level) for place in set(passed) if number == 0 and place in PLACES)
    print(f"test_probe: the {kind} cases follow a record with a replica and are done {done.total()} times, are refused for a replica "
          f"{refused.total()} times; at each of {len(done)} places and levels {min(done.values())} and {min(refused.values())} at least")
    if done.keys() != refused.keys() or len(done) < 90 or min(*done.values(), *refused.values()) < least:
        sys.exit(f"test_probe: the {kind} cases do not show enough of replicas: {sorted(done.items())}, {sorted(refused.items())}")


def check_numbers(kind, traits, least):
    """That birth is answered at every level and refused in every way, the last number given at every level, and an allocation without a
    number refused there, with 16 where it has room and with 14 where it hasn't; at least so often."""
    def times(wanted):
        return [traits[trait] for trait in birth_cases.TRAITS if trait[0] == wanted]
    print(f"test_probe: the {kind} cases have birth answered {sum(times('birth'))} times, refused {sum(times(BIRTH))} times, the last "
          f"number given {sum(times(birth_cases.LAST_GIVEN))} times; without a number 16 {sum(times(birth_cases.NONE_LEFT))} times, 14 "
          f"{sum(times(birth_cases.ROOM_FIRST))} times; of each refusal and level at least "
          f"{min(traits[trait] for trait in birth_cases.TRAITS)}")
    if any(traits[trait] < least for trait in birth_cases.TRAITS):
        sys.exit(f"test_probe: the {kind} cases do not show enough of birth numbers: {traits}")


def check_shares(kind, traits, least):
    """That 17 comes at every level, where there is no room or no number too, and where the sum is past the highest word; that a share is
    filled at every level, records of two copies are charged once, and charges cleared; at least so often."""
    def times(wanted):
        return sum(traits[trait] for trait in share_cases.TRAITS if trait == wanted or trait[0] == wanted)
    print(f"test_probe: the {kind} cases have 17 {times(share_cases.OVER)} times, {times(share_cases.OVER_FIRST)} without room or number, "
          f"{times(share_cases.PAST_ALL)} past the highest word; shares filled {times(share_cases.FILLED)} times, "
          f"{times(share_cases.ONCE)} records of two copies charged once, charges cleared {times(share_cases.CLEARED)} times, "
          f"{times(share_cases.ABSENT_CLEARED)} of absent sessions; of each and level at least "
          f"{min(traits[trait] for trait in share_cases.TRAITS)}")
    if any(traits[trait] < least for trait in share_cases.TRAITS):
        sys.exit(f"test_probe: the {kind} cases do not show enough of shares: {[(trait, traits[trait]) for trait in share_cases.TRAITS]}")


def check_links(kind, traits, wanted, least, blind):
    """That several links are stored and refused in all these ways, at least so often; and so often with another answer, or other words, by
    pairs that are planned on the words as they came in."""
    def times(of):
        return sum(count for trait, count in traits.items() if isinstance(trait, tuple) and trait[0] == of)
    done, full, shaded = (times(of) for of in (link_case_coverage.DONE, link_case_coverage.FULL, link_case_coverage.SHADED))
    ways = link_case_coverage.PASSES, link_case_coverage.REFUSED
    words = [sum(traits[trait] for trait in link_case_coverage.seen_words() if trait[3] == way) for way in ways]
    print(f"test_probe: the {kind} cases store several links {done} times, {shaded} times a record that an earlier pair has shaded; "
          f"refused by a full list {full} times; a pair is done {words[0]} times only because of one word that an earlier one wrote, "
          f"refused {words[1]} times; planned on the words as they came in they have another answer "
          f"{traits[link_case_coverage.BLIND_ANSWER]} times, other words {traits[link_case_coverage.BLIND_WORDS]} times")
    lacking = [(trait, traits[trait]) for trait in wanted if traits[trait] < least]
    if lacking or traits[link_case_coverage.BLIND_ANSWER] < blind or traits[link_case_coverage.BLIND_WORDS] < blind // 5:
        sys.exit(f"test_probe: the {kind} cases do not show enough of several links: {lacking}")


def check_scans(kind, cases):
    """Runs the program on cases of the session scan. And the model: it refuses none but with 12, and then changes nothing."""
    names, seen = {case: name for name, case in cases}, Counter()
    for case, reply in probe_program.answered(cases):
        number, _ = probe_program.ANSWER.unpack_from(reply)
        if number not in (0, 12):
            sys.exit(f"test_probe: refused with {number}: {names[case]}")
        if number and reply[probe_program.ANSWER.size:] != probe_program.unchanged(case) + probe_program.words([0]):
            sys.exit(f"test_probe: refused, and has changed something: {names[case]}")
        seen.update(scan_cases.traits(case, reply))
    print(f"test_probe: {len(cases)} {kind} cases of the session scan, {seen['beside']} of them other steps, {seen['refused']} scans "
          f"refused, {seen['scanned']} done: {seen['equal']} with equal white registers, {seen['paired']} with replicas, {seen['shared']} "
          f"with records that share words, {seen['crossed']} of them with a replica, {seen['written']} with a colour written in another "
          f"one's record")
    if any(seen[trait] < least for trait, least in scan_cases.LEAST.items()):
        sys.exit(f"test_probe: the {kind} cases of the session scan do not show enough")


def check_bad_cases():
    """A case that is cut short, or lends more than the program has, is not answered, and ends the program; an unknown kind is 15."""
    _, case = next(stretch_cases.few())
    want = probe_program.expected(case)
    pairs, memory = probe_program.CALL.size + probe_program.RECORD.size, probe_program.MEMORY  # where the pairs and the lent words begin
    for n in (0, 1, probe_program.CALL.size - 1, probe_program.CALL.size, pairs - 1, pairs, pairs + 1, memory - 1, memory, len(case) - 1):
        if probe_program.run(case + case[:n]) != want:
            sys.exit(f"test_probe: a case cut after {n} bytes is answered")
    for at in (20, 24, 28):
        if probe_program.run(case + case[:at] + (1025).to_bytes(4, "big") + case[at + 4:] + case * 9) != want:
            sys.exit("test_probe: a case that lends too much is answered")
    for kind in (19, 99, 255, 1 << 31):
        unknown = kind.to_bytes(4, "big") + case[4:]
        if probe_program.run(unknown) != probe_program.ANSWER.pack(15, 0) + probe_program.unchanged(case) + probe_program.words([0]):
            sys.exit(f"test_probe: kind {kind} is not answered with 15")


def check_pairs_unread():
    """The words of the pairs are nothing to a call that stores no links."""
    cases = few(stretch_cases, birth_cases, directory_cases, share_cases, directory_share_cases)
    junk = probe_program.words(link_cases.JUNK)
    changed = [case[:probe_program.MEMORY - len(junk)] + junk + case[probe_program.MEMORY:] for case in cases]
    if probe_program.run(b"".join(changed)) != b"".join(map(probe_program.expected, cases)):
        sys.exit("test_probe: a call that stores no links is answered otherwise by the words of the pairs")


def slipped(case, slip):
    """What a store with this mistake answers; nothing where it is led out of its halves."""
    try:
        return probe_program.expected(case, slip)
    except IndexError:
        return None


def check_slips(slips, cases):
    """Each of these mistakes built into the store in Python must show in some case."""
    right = functools.cache(probe_program.expected)
    for slip in slips:
        seen = next((name for name, case in cases if slipped(case, slip) != right(case)), None)
        if seen is None:
            sys.exit(f"test_probe: the slip '{slip}' is not seen")
        print(f"test_probe: '{slip}' is seen by: {seen}")


def main():
    began = time.time()
    if (held("stdin"), held("stdout")) != files():
        sys.exit("test_probe: crates/probe/stdin and stdout are not those that this test writes")
    check_bad_cases()
    check_pairs_unread()
    directed, marking = [*stretch_cases.directed(), *limit_cases.directed()], list(shading_cases.directed())
    by_chance = [*random_damage.random_cases(RANDOM), *link_random_damage.random_cases(RANDOM_LINKS)]
    paired, numbered, charged = list(replica_cases.directed()), list(birth_cases.directed()), list(share_cases.directed())
    linked = [*link_cases.directed(), *link_overlap_cases.directed()]
    all_directed = directed + marking + paired + numbered + charged + linked
    for name, cases, least, wanted in [("directed", all_directed, 20, link_case_coverage.TRAITS), ("random", by_chance, 10, [])]:
        seen, traits = compare(cases)
        numbers = {}
        for (_, number), count in seen.items():
            numbers[number] = numbers.get(number, 0) + count
        print(f"test_probe: {len(cases)} {name} cases, refusals {dict(sorted(numbers.items()))}")
        lacking = [kind for kind, refusals in REFUSALS.items() if {number for k, number in seen if k == kind} != refusals | {0}]
        if lacking:
            sys.exit(f"test_probe: the {name} cases of the kinds {lacking} do not have just the refusals of document 01's table")
        check_numbers(name, traits, least)
        check_shares(name, traits, least)
        check_links(name, traits, wanted, 2, 1000)
    check_replicas("directed", paired, 10)
    check_replicas("random", by_chance, 1)
    scans = scan_cases.directed()
    check_scans("directed", scans)
    check_scans("random", list(scan_cases.random_cases(RANDOM_SCANS)))
    check_slips([PLACE_IN_HALF, *DAMAGE_SLIPS], by_chance[:4000] + directed)
    check_slips(MARKING_SLIPS, marking)
    check_slips([*WEAK_SLIPS, *PLACES.values(), *STRICT_SLIPS, *LEVEL_SLIPS], random.Random(1).sample(paired, len(paired)))
    check_slips(SCAN_SLIPS, scans)
    check_slips(NUMBER_SLIPS, numbered)
    check_slips(SHARE_SLIPS, charged)
    check_slips(LINK_SLIPS, random.Random(1).sample(linked, len(linked)))
    print(f"test_probe: {time.time() - began:.0f} s")


if __name__ == "__main__":
    if sys.argv[1:] == ["write"]:
        for name, data in zip(("stdin", "stdout"), files()):
            with open(os.path.join(CRATE, name), "wb") as file:
                file.write(data)
    else:
        main()
