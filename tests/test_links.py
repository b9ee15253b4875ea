#!/usr/bin/env python3
"""Several links in one store. The probe program, word for word: examples worked out in words; one pair, which is a single store; a school's
timetable that is changed whole in every phase and after every number of steps of a collection. Planning every pair on the words that
those before it are going to write, before anything is written, gives the same answers and words as storing pair after pair and putting all
back where one is refused, on sound and on damaged memory. In random runs the call leaves the words and numbers that single stores in list
order leave, every session answer is the collector-free store's, marking keeps to its bound and what can't be reached is freed. Mistakes
built into the store in Python are seen.

    python3 tests/test_links.py show    prints the changes of the timetable as the probe program answers
"""
import sys
import time
from collections import Counter

from cases import link_cases, link_overlap_cases, link_random_damage, random_damage, shading_cases
from cases.link_case_coverage import BLIND_ANSWER, BLIND_WORDS, blind_traits
from mistakes.mistake_names import FREE_LINK_SLIPS, OLD_LEFT, OLD_LEFT_IN_4, STORED_LEFT, STORES_STAY
from mistakes.replay import seen_in
from models.collector_model import PHASES, Refused
from models.free_store import LINKS, STORE
from models.planned_links_model import store_planned
from programs import probe_program
from programs.explain_tool import need
from runs import birth_runs, link_runs
from stories import timetable_story
from stories.timetable_story import BOARD, OFFICE

RUNS, CALLS, SHOWN = 120, 2000, 12
PLANNED = 24000  # random calls that are planned
STORES = 20000   # random cases, of which the single stores are taken


# ---- examples, and one pair

def check_examples():
    wanted = list(link_cases.examples())
    replies = probe_program.answered([(name, case) for name, case, _, _ in wanted])
    for (name, _, number, held), (case, reply) in zip(wanted, replies, strict=True):
        before, after = probe_program.decode(case)[0], probe_program.after(case, reply)
        word = before.registers[link_cases.S][1] if held else 0
        need(probe_program.ANSWER.unpack_from(reply) == (number, 0) and after.half[0][4] == word,
             f"{name}: answered {probe_program.told(reply)}")
        need(number == 0 or probe_program.unchanged(case) == probe_program.given(after), f"{name}: refused, and has changed something")
    print(f"test_links: {len(wanted)} calls of examples worked out in words")


def as_single(case):
    """A single store as a call for several links, of which it has one."""
    store, _, (s, k, i, source) = probe_program.decode(case)
    return probe_program.encode(store, LINKS, link_cases.call([(i, source)], k, s))


def check_singles():
    """One pair is the single store: the same reply to both, on random and on sound stores."""
    taken = [*random_damage.random_cases(STORES, 2), *list(shading_cases.directed())[::4]]
    taken = [(name, case) for name, case in taken if probe_program.CALL.unpack_from(case)[0] == STORE]
    pairs = [probe_program.answered(cases) for cases in (taken, [(f"as one link, {name}", as_single(case)) for name, case in taken])]
    seen = Counter()
    for (name, _), (_, single), (_, linked) in zip(taken, *pairs, strict=True):
        if single != linked:
            need(False, f"{name}: one link is answered {probe_program.told(linked)}, a single store {probe_program.told(single)}")
        seen[probe_program.ANSWER.unpack_from(single)[0]] += 1
    print(f"test_links: {len(taken)} single stores as calls with one pair, answers {dict(sorted(seen.items()))}")
    need(set(seen) == {0, 4, 5, 6, 8, 11, 12, 13} and seen[0] > 1000, f"the single stores do not show enough: {seen}")


# ---- the other way

def planned_reply(case):
    """The reply to a case where every pair is planned before anything is written."""
    store, _, args = probe_program.decode(case)
    number = 0 if store.in_range() else 4
    try:
        if not number:
            store_planned(store, args)
    except Refused as refusal:
        number = refusal.args[0]
    return probe_program.ANSWER.pack(number, 0) + probe_program.given(store) + probe_program.words([0]), store, number


def check_plans():
    """Both ways agree to the last word; and a way on which no pair sees those before it does not."""
    cases, seen = [*link_cases.directed(), *link_overlap_cases.directed(), *link_random_damage.random_cases(PLANNED, 2)], Counter()
    for name, case in cases:
        reply, store, number = planned_reply(case)
        want = probe_program.expected(case)
        if reply != want:  # told only then: a reply is long
            need(False, f"{name}: planned {probe_program.told(reply)}, stored in turn {probe_program.told(want)}")
        seen[number] += 1
        first, _, args = probe_program.decode(case)
        seen.update(blind_traits(first, number, store, args) if number in (0, 8, 11, 12, 13) else [])
    answers = {number: seen[number] for number in range(14) if seen[number]}
    print(f"test_links: {len(cases)} calls, planned and stored in turn, answers {answers}; {seen[BLIND_ANSWER]} are answered otherwise by "
          f"pairs planned on the words as they came in, {seen[BLIND_WORDS]} leave other words")
    need(seen[BLIND_ANSWER] > 4000 and seen[BLIND_WORDS] > 500, f"the calls do not show enough: {seen}")


# ---- the timetable

def said(replies, case):
    number = probe_program.ANSWER.unpack_from(replies[case])[0]
    return f"refused {number}" if number else "done"


def table(school, replies):
    """The rows of the story in words: at the start of each phase the levels, the lessons before, what a change with a wrong link and one
    with a wrong register are answered, what the good one is, the lessons after it, the records that it has shaded, and the words used."""
    yield "a timetable of eight links, the first and the last to the same lesson; the lessons by their numbers, as the board reads them"
    yield "phase         office level  board level  lessons     link 8, register 8       change  lessons     shaded  half 0  half 1"
    for phase, levels, before, failed, after, changed, shaded, ends, current in school.rows:
        wrong = ", ".join(said(replies, case) for case in failed)
        used = "  ".join(f"{end}{'*' if h == current else ' '}".rjust(6) for h, end in enumerate(ends)).rstrip()
        yield (f"{phase:2} {PHASES[phase]:10} {levels[OFFICE]:12}  {levels[BOARD]:11}  {before[0]} to {before[-2]}  {wrong:23}  "
               f"{said(replies, changed):6}  {after[0]} to {after[-2]}  {shaded:6}  {used}")


def check_story(show):
    """The story by the probe program, in which each change is done and each wrong one refused."""
    school, kept = timetable_story.whole_story()
    replies = [reply for _, reply in probe_program.answered(school.cases)]
    if show:
        print("\n".join(table(school, replies)))
        print(f"* the current half; after the collection {kept} lessons are still there that nothing names, after the next one none")
    for _, _, _, failed, _, changed, _, _, _ in school.rows:
        told = [said(replies, case) for case in (*failed, changed)]
        need(told == ["refused 13", "refused 8", "done"], f"a change in the story is told as {told}")
    shaded = [row[6] for row in school.rows]
    print(f"test_links: a timetable changed whole in every phase, {len(school.rows)} changes, {len(replies)} calls of the probe program; "
          f"{sum(shaded)} lessons shaded by the changes")
    need(len(school.rows) == 14 and sum(shaded) and kept, f"the story does not show enough: {shaded}, {kept}")


def check_steps():
    """Changes after every number of steps, with the office at its level and behind; and all links dropped, with one lesson loaded."""
    having, cases, garbage = Counter(), [], Counter()
    for behind in (False, True):
        for n, (school, at, kept) in enumerate(timetable_story.every_change(behind)):
            having[at] += 1
            garbage[kept] += 1
            cases += [(f"change after {n} steps, behind {behind}, {name}", case) for name, case in school.cases]
    drops = [one for link in (0, 6) for one in timetable_story.every_drop(link)]
    cases += [(f"drop in phase {phase}, {name}", case) for school, phase in drops for name, case in school.cases]
    replies = Counter(probe_program.ANSWER.unpack_from(reply)[0] for _, reply in probe_program.answered(cases))
    print(f"test_links: a timetable changed after every number of steps of a collection, {having.total()} times, in {len(having)} phases "
          f"and levels, all links dropped {len(drops)} times; old lessons gone at the end of the collection {garbage[0]} times, else of "
          f"the next one; {len(cases)} of these calls by the probe program, answers {dict(sorted(replies.items()))}")
    need(sorted(having) == link_cases.HAVING and garbage[0] and garbage[timetable_story.LESSONS],
         f"the changes do not show enough: {having}")
    for slip, every, first in ((STORED_LEFT, timetable_story.every_change, False), (STORES_STAY, timetable_story.every_change, True),
                               (OLD_LEFT, timetable_story.every_drop, 0), (OLD_LEFT_IN_4, timetable_story.every_drop, 6)):
        print(f"test_links: '{slip}' is seen: {broken(every(first, slip))}")


def broken(changes):
    """After how many steps a change with a mistake goes wrong."""
    steps = -1
    try:
        for steps, _ in enumerate(changes):
            pass
    except AssertionError as wrong:
        return f"a change after {steps + 1} steps, {wrong}"
    return need(False, "no change with this mistake goes wrong")


# ---- random runs

def check_runs():
    seen, runs = Counter(), []
    for seed in range(RUNS):
        try:
            runs.append(link_runs.random_run(seed, CALLS, seed < SHOWN))
        except birth_runs.Wrong as wrong:
            sys.exit(f"test_links: random run {seed}: {wrong}")
        seen += runs[-1].seen
    done = {having: seen["done", *having] for having in link_cases.HAVING}
    refused = {number: seen[number] for number in (5, 6, 8, 10, 11, 13)}
    calls = sum(len(run.entries) for run in runs)
    print(f"test_links: {RUNS} random runs, {calls} calls, {seen['collections']} collections; several links stored {sum(done.values())} "
          f"times with the words of single stores, at each level in each phase {min(done.values())} times at least, {seen['repeated']} "
          f"times with a repeated field; refused {refused}; two collections leave just the {seen['reached']} words of records that can be "
          f"reached")
    need(min(done.values()) > 20 and min(refused.values()) > 100 and seen["repeated"] > 5000 and seen["collections"] > 500
         and seen["reached"] > 1000, f"the runs do not show enough: {seen}")
    cases = [(f"random run {n}, {name}", case) for n, run in enumerate(runs[:SHOWN]) for name, case in run.cases]
    told = Counter(probe_program.ANSWER.unpack_from(reply)[0] for _, reply in probe_program.answered(cases))
    print(f"test_links: {len(cases)} of these calls by the probe program, answers {dict(sorted(told.items()))}")
    need(told[0] > 1000, f"the calls shown do not show enough: {told}")
    return runs


def check_slips(runs):
    for slip in FREE_LINK_SLIPS:
        print(f"test_links: '{slip}' is seen: {seen_in(runs, slip, True)}")


def main():
    began = time.time()
    check_examples()
    check_singles()
    check_plans()
    check_story(sys.argv[1:] == ["show"])
    check_steps()
    check_slips(check_runs())
    print(f"test_links: {time.time() - began:.0f} s")


if __name__ == "__main__":
    main()
