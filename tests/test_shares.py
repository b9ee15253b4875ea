#!/usr/bin/env python3
"""A share for every session. The probe program, word for word: examples worked out by hand; days on which an import fills its share in any
phase of a collection and the secretary still allocates to the last word of the half. In random runs the charges are the words counted
beside the store, the shares those of the last attach, every session answer is the collector-free store's, which is fed 14 and 17, and no
allocation meets 14 that document 02's claim, or a stronger one, covers; claims that ask for a word less, or leave out sessions that are not
attached, are seen to be false. Pairs of runs with the same session calls part exactly where one refuses an allocation for another reason.
Mistakes built into the store in Python are seen.

    python3 tests/test_shares.py show    prints a day of the import and the secretary as the probe program answers
"""
import itertools
import sys
import time
from collections import Counter

from cases import share_cases
from mistakes.mistake_names import FED_AS_ROOM, FREE_SHARE_SLIPS, LINE_SHARE_SLIPS, UNFED
from mistakes.replay import seen_in
from models.collector_model import PHASES
from models.free_store import FITTED, NO_ROOM, OVER_SHARE, fed
from models.record_layout import size
from programs import probe_program
from programs.explain_tool import need
from programs.line_checks import faults
from runs import birth_runs, share_runs
from stories import import_story, share_examples
from stories.import_story import IMPORT, LENGTH, LARGE, LETTER, SECRETARY, SHARES

RUNS, CALLS = 240, 3000
SHOWN = 30  # runs whose calls the probe program gets
PAIRS, PAIR_CALLS = 200, 800


# ---- examples and days, by the probe program

def check_examples():
    cases = [(f"{example.__name__}, {name}", case) for example in share_examples.EXAMPLES for name, case in example().cases]
    replies = Counter(probe_program.ANSWER.unpack_from(reply)[0] for _, reply in probe_program.answered(cases))
    print(f"test_shares: {len(share_examples.EXAMPLES)} examples, {len(cases)} calls of the probe program, answers "
          f"{dict(sorted(replies.items()))}")


def said(replies, case):
    number = probe_program.ANSWER.unpack_from(replies[case])[0]
    return f"refused {number}" if number else "done"


def table(day, replies):
    """The rows of the day in words: at the start of each phase the levels, what both were answered, what is charged to each, and the words
    used of both halves."""
    yield f"a half of {LENGTH} words; shares: secretary {SHARES[SECRETARY]}, import {SHARES[IMPORT]}; kept from before: {import_story.USED}"
    yield (f"phase         secretary level  makes {size(*LETTER)} words  charged  import level  makes {size(*LARGE)} words  charged  "
           f"current half  other half  free")
    for phase, levels, imported, written, charges, ends, current, free in day.rows:
        yield (f"{phase:2} {PHASES[phase]:10} {levels[SECRETARY]:15}  {said(replies, written):13}  {charges[SECRETARY]:7}  "
               f"{levels[IMPORT]:12}  {said(replies, imported):14}  {charges[IMPORT]:7}  {ends[current]:12}  "
               f"{ends[1 - current]:10}  {free:4}")


def check_days(show):
    """The day through all phases, and the days on which all is taken in one."""
    day = import_story.whole_day()
    replies = [reply for _, reply in probe_program.answered(day.cases)]
    if show:
        print("\n".join(table(day, replies)))
    days = list(import_story.days())
    cases = [(f"{name}, {about}", case) for name, one, _ in days for about, case in one.cases]
    answers = Counter(probe_program.ANSWER.unpack_from(reply)[0] for _, reply in probe_program.answered(cases))
    levels = {level for _, _, levels in days for level in levels}
    print(f"test_shares: an import and a secretary in {LENGTH} words through a collection, {len(replies)} calls of the probe program; "
          f"{len(days)} days in one phase each, {len(cases)} calls: {answers[OVER_SHARE]} times 17, the half full to the last word "
          f"{len(days)} times, 14 only for a third session, {answers[NO_ROOM]} times")
    need(levels == set(range(7)) and answers[NO_ROOM] == len(days), f"the days do not show enough: levels {levels}, answers {answers}")


# ---- random runs

def check_runs():
    """The runs of the test, none of which has a fault."""
    seen, runs = Counter(), []
    for seed in range(RUNS):
        try:
            runs.append(share_runs.random_run(seed, CALLS, showing=seed < SHOWN))
        except birth_runs.Wrong as wrong:
            sys.exit(f"test_shares: random run {seed}: {wrong}")
        seen += runs[-1].seen
    full = [seen[share_runs.STRONGER, "full", phase] for phase in range(13)]
    print(f"test_shares: {RUNS} random runs, {sum(len(run.entries) for run in runs)} calls, {seen['collections']} collections, "
          f"{seen['cleared']} with charges to clear; allocations done {seen[FITTED]}, {seen['both']} in both halves, refused with 17 "
          f"{seen[OVER_SHARE]}, with 14 {seen[NO_ROOM]}, with 16 {seen[birth_runs.LEFT]}; attached again with the share of before and a "
          f"charge {seen['attached again']} times")
    for claim in (share_runs.CLAIM, share_runs.STRONGER):
        print(f"test_shares: {claim} covers {seen[claim, FITTED]} allocations done, {seen[claim, OVER_SHARE]} refused with 17, none with "
              f"14; {seen[claim, 'just']} times shares and used words are just the half, which is filled to the last word "
              f"{seen[claim, 'full']} times")
    claimed = [seen[share_runs.CLAIM, about] for about in ("full", "just")]
    need(min(full[:8]) > 3 and min(claimed) > 200 and seen[NO_ROOM] > 1000 and seen["both"] > 1000 and seen[birth_runs.LEFT] > 20
         and seen["attached again"] > 500 and seen["collections"] > 2000, f"the runs do not show enough: {seen}")
    return runs


def check_shown(runs):
    """Calls of the first runs, by the probe program."""
    cases, seen = [(f"random run {n}, {name}", case) for n, run in enumerate(runs[:SHOWN]) for name, case in run.cases], Counter()
    for case, reply in probe_program.answered(cases):
        seen.update(share_cases.traits(case, reply))
    over, once = [[seen[trait, level] for level in range(7)] for trait in (share_cases.OVER, share_cases.ONCE)]
    print(f"test_shares: {len(cases)} calls of {SHOWN} of these runs by the probe program: 17 {sum(over)} times, {sum(once)} records of "
          f"two copies charged once, charges cleared {seen[share_cases.CLEARED]} times, of absent sessions "
          f"{seen[share_cases.ABSENT_CLEARED]} times")
    need(min(over) > 10 and sum(once) > 50 and seen[share_cases.ABSENT_CLEARED] > 10, f"the calls shown do not show enough: {seen}")


def check_false_claims():
    """Claims that are a little too much are refuted, so the watch is one."""
    for about, false in [("that asks for a word less", {"lacking": 1}), ("that counts attached sessions alone", {"attached_alone": True})]:
        def refuted(seed):
            try:
                share_runs.random_run(seed, CALLS, **false)
            except birth_runs.Wrong as wrong:
                return f"random run {seed}, {wrong}"
        found = next(filter(None, map(refuted, range(RUNS))), None)
        need(found, f"a claim {about} is not seen to be false")
        print(f"test_shares: a claim {about} is seen to be false: {found}")


def check_slips(runs):
    for slip in FREE_SHARE_SLIPS + LINE_SHARE_SLIPS:
        print(f"test_shares: '{slip}' is seen: {seen_in(runs, slip, slip in FREE_SHARE_SLIPS)}")
    for slip, told in ((UNFED, FITTED), (FED_AS_ROOM, NO_ROOM)):
        found = next(faults(runs[1].entries, runs[1].lines, most_births=runs[1].store.most_births,
                            feeding=lambda kind, number: told if number == OVER_SHARE else fed(kind, number)), None)
        need(found, f"the slip '{slip}' is not seen")
        print(f"test_shares: '{slip}' is seen: random run 1, {found}")


# ---- pairs

def check_pairs():
    seen = Counter()
    for seed in range(PAIRS):
        wrong = birth_runs.pair(seed, PAIR_CALLS, seen, chosen=share_runs.shared_call, shared=share_runs.first_share)
        need(not wrong, f"pair {seed}: {wrong}")
    reasons = {pair: seen["parted", *pair] for pair in itertools.combinations((FITTED, NO_ROOM, OVER_SHARE), 2)}
    print(f"test_shares: {PAIRS} pairs of runs, {seen['calls']} session calls with the same answer, {seen['share']} of them 17, "
          f"{seen['room']} 14; {seen['whole']} agree to the end, {seen['parted']} part where an allocation is answered {reasons}")
    need(seen["share"] > 500 and min(seen["whole"], reasons[FITTED, OVER_SHARE], reasons[FITTED, NO_ROOM]) > 20,
         f"the pairs do not show enough: {seen}")


def main():
    began = time.time()
    check_examples()
    check_days(sys.argv[1:] == ["show"])
    runs = check_runs()
    check_shown(runs)
    check_false_claims()
    check_slips(runs)
    check_pairs()
    print(f"test_shares: {time.time() - began:.0f} s")


if __name__ == "__main__":
    main()
