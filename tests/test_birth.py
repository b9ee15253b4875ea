#!/usr/bin/env python3
"""A record's birth number is its own for life. The probe program through the life of one record, word for word: the number before, during
and after collections that move it, through both copies; the numbers of new records, and none for refused ones; the last number, and 16
after it; document 02's examples; runs at the end of the numbers. In random runs every session answer is the collector-free store's and
every word 3 the record's number; in pairs of runs with the same session calls the numbers are the same. Mistakes built into the store in
Python are seen.

    python3 tests/test_birth.py show    prints the life of the record as the probe program answers
"""
import sys
import time
from collections import Counter

from cases import birth_cases
from mistakes.mistake_names import (COUNT_RECLAIMED, COUNTED_BOTH, LINE_NUMBER_SLIPS, RUN_NUMBER_SLIPS, SHELL_RENUMBERED, SHELL_UNNUMBERED,
                                    UNCOUNTED)
from mistakes.replay import played, seen_in
from models.collector_model import PHASES
from models.free_store import BIRTH, MOST_BIRTHS
from programs import probe_program
from programs.explain_tool import need
from programs.line_checks import faults
from runs import birth_runs
from stories import record_life_story
from stories.record_life_story import FROM, TO

RUNS, CALLS = 120, 3000
AGED, AGED_CALLS = 100, 1200
PAIRS, PAIR_CALLS = 120, 1500


# ---- the life of a record, by the probe program

def said(replies, case):
    """What the program answered to a case: a number, or the refusal."""
    if case is None:
        return "-"
    number, value = probe_program.ANSWER.unpack_from(replies[case])
    return f"refused {number}" if number else str(value)


def place(reference):
    return f"{reference % 2}:{(reference - 2) // 2}" if reference else "-"


def table(story, replies):
    """The rows of the story in words: at the start of each phase the sessions' levels, where the copies lie (half and word), the number
    that each session is told, that of each copy, and the number of a record that is new then."""
    yield "phase         levels  from    to      office  import  from copy  to copy  new record"
    for phase, levels, copies, row in story.rows:
        cells = [said(replies, row.get(name)) for name in ("office", "import", FROM, TO, "new")]
        places = f"{place(copies.get(FROM)):7} {place(copies.get(TO)):7}"
        yield (f"{phase:2} {PHASES[phase]:10} {levels[0]}, {levels[1]}    {places} {cells[0]:7} {cells[1]:7} {cells[2]:10} {cells[3]:8} "
               f"{cells[4]}")


def check_story(show):
    story, last, places = record_life_story.whole_story()
    replies = [reply for _, reply in probe_program.answered(story.cases)]
    asked = [case for _, case in story.cases if probe_program.CALL.unpack_from(case)[0] == BIRTH]
    told = Counter(said(replies, row[name]) for _, _, _, row in story.rows for name in ("office", "import", FROM, TO) if name in row)
    need(told.keys() == {str(story.ours)}, f"the record of number {story.ours} is told as {told}")
    new = [int(said(replies, row["new"])) for _, _, _, row in story.rows]
    need(new == list(range(new[0], new[0] + len(new))) and new[0] > story.ours, f"new records have the numbers {new}")
    ends = [said(replies, last[name]) for name in ("last", "its number", "then", "without room", "still")]
    need(ends == ["0", str(MOST_BIRTHS), "refused 16", "refused 14", str(story.ours)], f"at the end of the numbers: {ends}")
    if show:
        print("\n".join(table(story, replies)))
        print(f"with {MOST_BIRTHS - 1} numbers used: a record gets {ends[1]}, the next is {ends[2]}, without room {ends[3]}; the record is "
              f"still {ends[4]}")
    print(f"test_birth: a record that lay at {', then at '.join(place(v) for v in places)} (half and word) is number {story.ours} in every "
          f"phase, through both copies; new records had the numbers {new[0]} to {new[-1]}; {len(replies)} calls of the probe program, "
          f"{len(asked)} for a number")


def check_examples():
    """Document 02's examples: what is starred there, and the steps of an empty store."""
    wanted = list(record_life_story.examples())
    for (name, _, number), (_, reply) in zip(wanted, probe_program.answered([(name, case) for name, case, _ in wanted]), strict=True):
        need(probe_program.ANSWER.unpack_from(reply)[0] == number, f"{name}: answered {probe_program.ANSWER.unpack_from(reply)}")
    print(f"test_birth: {len(wanted)} calls of document 02's examples")


# ---- random runs and pairs

def check_runs():
    """The runs of the test, none of which has a fault."""
    seen, runs = Counter(), []
    for seed in range(RUNS):
        try:
            runs.append(birth_runs.random_run(seed, CALLS))
        except birth_runs.Wrong as wrong:
            sys.exit(f"test_birth: random run {seed}: {wrong}")
        seen += runs[-1].seen
    left, first = [[seen[number, level] for level in range(7)] for number in (birth_runs.LEFT, birth_runs.ROOM)]
    phases = [seen["phase", phase] for phase in range(13)]
    refused = {number: seen["birth", number] for number in (5, 6, 8, 11)}
    print(f"test_birth: {RUNS} random runs, {seen['calls']} calls, {seen['collections']} collections; {seen['birth', 0]} numbers told, in "
          f"each phase {min(phases)} at least, refused {refused}; without a number left 16 {sum(left)} times, 14 {sum(first)} times; "
          f"{seen['words']} words 3 looked at")
    need(min(phases) > 80 and min(refused.values()) > 500 and min(left) > 50 and min(first) > 3 and seen["collections"] > 500
         and not seen["birth", 12], f"the runs do not show enough: {seen}")
    return runs


def check_aged():
    """Runs at the end of the numbers, which the probe program can be shown: its replies to their calls, and their answers beside the
    collector-free store."""
    runs, seen = [birth_runs.Aged(seed, AGED_CALLS) for seed in range(AGED)], Counter()
    for seed, run in enumerate(runs):
        fault = next(faults(run.entries, run.lines, most_births=run.left), None)
        need(not fault, f"aged run {seed}: {fault}")
    for case, reply in probe_program.answered([case for run in runs for case in run.cases]):
        seen.update(birth_cases.traits(case, reply))
        seen["cases"] += 1
    told, last, left, first = [[seen[trait, level] for level in range(7)] for trait in
                               ("birth", birth_cases.LAST_GIVEN, birth_cases.NONE_LEFT, birth_cases.ROOM_FIRST)]
    print(f"test_birth: {AGED} runs at the end of the numbers, {seen['cases']} of their calls by the probe program: {sum(told)} numbers "
          f"told, the last one given {sum(last)} times, then 16 {sum(left)} times, 14 {sum(first)} times")
    need(min(told) > 20 and sum(last) > 50 and min(left) > 10 and sum(first) > 20, f"the runs at the end do not show enough: {seen}")


def check_pairs():
    seen = Counter()
    for seed in range(PAIRS):
        wrong = birth_runs.pair(seed, PAIR_CALLS, seen)
        need(not wrong, f"pair {seed}: {wrong}")
    print(f"test_birth: {PAIRS} pairs of runs, {seen['calls']} session calls with the same answer, {seen['births']} of them numbers, "
          f"{seen['left']} 16, {seen['room']} 14; {seen['whole']} agree to the end, {seen['parted']} part where one has no room")
    need(seen["births"] > 4000 and seen["left"] > 500 and min(seen["whole"], seen["parted"]) > 20, f"the pairs do not show enough: {seen}")
    for slip in (SHELL_RENUMBERED, COUNT_RECLAIMED, UNCOUNTED, COUNTED_BOTH, SHELL_UNNUMBERED):
        told = ((seed, birth_runs.pair(seed, PAIR_CALLS, Counter(), slip)) for seed in range(PAIRS))
        parted = next((f"pair {seed}, {wrong}" for seed, wrong in told if wrong), None)
        need(parted, f"no pair of runs with '{slip}' parts")
        print(f"test_birth: '{slip}' is seen: {parted}")


# ---- mistakes

def check_slips(runs):
    for slip in RUN_NUMBER_SLIPS + LINE_NUMBER_SLIPS:
        print(f"test_birth: '{slip}' is seen: {seen_in(runs, slip, slip in RUN_NUMBER_SLIPS)}")
    limited = next(run for run in runs if run.store.births == run.store.most_births)
    fault = next(faults(limited.entries, played(limited)), None)
    need(fault, "a collector-free store without 16 is not seen")
    print(f"test_birth: a collector-free store without 16 is seen: {fault}")


def main():
    began = time.time()
    check_examples()
    check_story(sys.argv[1:] == ["show"])
    runs = check_runs()
    check_aged()
    check_slips(runs)
    check_pairs()
    print(f"test_birth: {time.time() - began:.0f} s")


if __name__ == "__main__":
    main()
