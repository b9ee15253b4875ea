#!/usr/bin/env python3
"""Marking comes to an end, by document 02: the collector steps of a collection that begin in phase 4 are never more than the current
half's used words plus 17, after every call of a run.

An import that loads and drops links, one or eight at a time, and a session that detaches and attaches between every two steps, end within
that. By the rules of before they keep marking busy: the first for 18 steps a link, which larger halves make as many as one likes, the
last without end. The script program gets the first and the last as scripts, and its lines are those of the store in Python. Then the
extremes, of which one reaches the bound, and random runs in small and large halves."""
import time

from mistakes.mistake_names import ATTACHED_UNSCANNED, BEFORE, COUNTED_TWICE, LISTED_TWICE, MARKS_CLEARED, PLACE_IN_HALF
from models.free_store import ALLOCATE, LOAD, STORE, MOVE, PUT, SAFE, SAME, STEP
from models.record_layout import HEADER, size
from programs import built_programs
from programs.explain_tool import need
from programs.store_scripts import encode
from runs.marking_runs import (AFTER, BESIDE, MARKING, SCRIPT_LENGTH, Run, Seen, attached, chained, chained_by_eight, come_and_go,
                               drop_eight, links_in, load_and_drop, marked, random_run)

ROUNDS = 20000  # steps that the rules of before are watched for
RUNS = 200      # by chance


# ---- the two that kept marking busy

def numbers(store):
    """The numbers of the control record."""
    return (store.current, store.frontier, store.phase, store.place, store.field, store.head, store.tail, store.globals, store.attached,
            store.scanned, store.level, store.registers, store.births)


def ended(name, run):
    """That marking is over, within the bound, and the run is right. What is printed of it."""
    need(run.store.phase == AFTER and run.worst <= 0, f"{name}: phase {run.store.phase}, {run.spent} steps, {run.used()} used words")
    run.judged(name)
    return f"{run.spent} steps, at most {run.allowed()} are allowed"


def dropped_links(length):
    """The import, by the rules of before and by those of now."""
    before = marked(chained(length, BEFORE), load_and_drop)
    need(before.spent == 18 * links_in(length) + BESIDE, f"links in {length} words: {before.spent} steps by the rules of before")
    now = ended(f"links in {length} words", marked(chained(length), load_and_drop))
    print(f"test_marking_ends: an import that loads and drops links, halves of {length} words: {now}; before {before.spent}")


def eight_dropped(length):
    """The import that drops eight links by one call."""
    before = marked(chained_by_eight(length, BEFORE), drop_eight)
    need(before.over() > 0, f"eight links in {length} words: {before.spent} steps by the rules of before, {before.allowed()} are allowed")
    now = ended(f"eight links in {length} words", marked(chained_by_eight(length), drop_eight))
    print(f"test_marking_ends: an import that drops eight links by one call, halves of {length} words: {now}; before {before.spent}")


def long_links():
    run = marked(chained(8192, BEFORE), load_and_drop, ROUNDS)
    need(run.store.phase == MARKING and run.spent == ROUNDS, f"links: phase 4 ends after {run.spent} steps by the rules of before")
    return f"{ROUNDS} steps in halves of 8192 words, and no end yet"


def comings():
    """The session that comes and goes beside fifteen others: before, every round leaves the same numbers, and so it goes on for ever."""
    before = marked(attached(range(16), slip=BEFORE).to(MARKING), come_and_go, 2)
    first = repr(numbers(before.store))
    for rounds in range(3, ROUNDS + 1):
        marked(before, come_and_go, rounds)
        need(repr(numbers(before.store)) == first, f"comings: round {rounds} by the rules of before leaves other numbers")
    for others in range(16):
        now = ended(f"comings beside {others} others", marked(attached(range(others + 1)).to(MARKING), come_and_go))
    print(f"test_marking_ends: a session that detaches and attaches between two steps, fifteen others beside it: {now}; before {ROUNDS}, "
          f"and the same numbers after every one")


def held_up():
    for length in (16, 64, 1024, 4096):
        dropped_links(length)
    for length in (48, 1024):
        eight_dropped(length)
    print(f"test_marking_ends: the import by the rules of before: {long_links()}")
    comings()


# ---- the script program

def on_program(name, run):
    """The lines of the script program on the entries of this run are the run's; by them alone, how many steps of the last collection began
    in phase 4."""
    answers = built_programs.lines(encode(run.entries))
    need([n for n, _, _ in answers] == list(range(1, len(run.entries) + 1)), f"{name}: entries are not numbered from 1")
    phase = spent = 0
    for (kind, _), want, (n, *line) in zip(run.entries, run.lines, answers):
        need(tuple(line) == want, f"{name}: entry {n}: {line}, the store in Python answers {want}")
        if kind == STEP:
            spent, phase = spent + (phase == MARKING) if phase else 0, line[1]
    return spent


def again(run):
    """The entries of a run by the rules of now; steps and bound where phase 4 ended."""
    now, at_end = Run(), None
    for entry in run.entries:
        now.do(entry)
        if now.store.phase == AFTER and at_end is None:
            at_end = now.spent, now.allowed()
    need(at_end and now.store.phase == AFTER, "phase 4 does not end by the rules of now")
    return now, *at_end


def scripts():
    """Both as scripts: what kept the rules of before busy, played by the rules of now."""
    for name, before in (("links", marked(chained(4096, BEFORE), load_and_drop)),
                         ("comings", marked(attached(range(16), slip=BEFORE).to(MARKING), come_and_go, 3000))):
        now, steps, most = again(before)
        now.judged(f"script of {name}")
        spent = on_program(f"script of {name}", now)
        need(spent == steps == now.spent <= most, f"script of {name}: {spent} steps on the program, {steps} in Python, {most} allowed")
        print(f"test_marking_ends: script of {name}, {len(now.entries)} entries: the program leaves phase 4 after {spent} steps, at most "
              f"{most} are allowed; before {before.spent}{' and more' * (before.store.phase == MARKING)}")


# ---- extremes

def one_record(sessions, holder, links, slip=None):
    """So many sessions, of which one holds a record with so many links to nothing, and no more; phase 4 done."""
    run = attached(range(sessions), slip=slip)
    run.do((ALLOCATE, [holder, 0, links, 0]))
    return run.to(MARKING).to(AFTER)


def stored_over_itself(steps, slip=None):
    """Halves of 17 words, full of records of 5, 4, 4 and 4 words: three are listed by the globals, and so many steps after Rest the
    fourth is stored where it stands already, in the first."""
    run = attached([0], 17, slip)
    run.do((ALLOCATE, [0, 0, 1, 0]), *[(ALLOCATE, [0, k, 0, 0]) for k in range(1, 4)], (STORE, [0, 0, 0, 3]))
    need(run.used() == 17, f"four records take {run.used()} words")
    run.do(*[(PUT, [0, k, k]) for k in range(3)])
    for _ in range(steps):
        run.do((SAFE, [0]), (STEP, []))
    answer = run.do((STORE, [0, 0, 0, 3]))
    while not run.store.collections and answer == (0, 0):
        run.do((SAFE, [0]), (STEP, []))
    run.do((LOAD, [0, 5, 0, 0]), (SAME, [0, 5, 3]))
    return run, answer


def held_twice(slip=None):
    """Halves of 16 words with four records of 4 words: three in globals, the fourth in two registers. A whole collection, or up to the
    first refusal of a step: its phase and number."""
    run, refused = attached([0], 16, slip), None
    run.do(*[(ALLOCATE, [0, k, 0, 0]) for k in range(4)], *[(PUT, [0, k, k]) for k in range(3)], (MOVE, [0, 5, 3]))
    while not run.store.collections and not refused:
        phase = run.store.phase
        number, _ = run.do((SAFE, [0]), (STEP, []))
        refused = number and (phase, number)
    run.do((SAME, [0, 3, 5]))
    return run, refused


def crowds():
    """Sixteen sessions, alone and with one record; ten sessions and one record without fields."""
    run = attached(range(16)).to(MARKING).to(AFTER)
    need((run.spent, run.used()) == (BESIDE, 0), f"sixteen sessions: {run.spent} steps, {run.used()} used words")
    yield "sixteen sessions", run
    for holder in range(16):
        for links in (0, 1, 255):
            run = one_record(16, holder, links)
            need((run.spent, run.used()) == (links + 1 + BESIDE, size(links, 0)),
                 f"sixteen sessions and a record of {links} links: {run.spent} steps, {run.used()} used words")
        yield f"sixteen sessions, the record with session {holder}", run
    for holder in range(10):
        run, slipped = one_record(10, holder, 0), one_record(10, holder, 0, MARKS_CLEARED)
        need(run.spent == 12 and slipped.spent == holder + 13, f"ten sessions: {run.spent} steps, {slipped.spent} with marks cleared")
        yield f"ten sessions, the record with session {holder}", run
    need(slipped.over() == 1, f"'{MARKS_CLEARED}' does not pass the bound")


def over_itself():
    for steps in range(60):
        run, answer = stored_over_itself(steps)
        run.judged(f"stored over itself after {steps} steps")
        need(answer == (0, 0) and run.lines[-1] == (0, 1), f"stored over itself after {steps} steps: {answer}")
    refused = [steps for steps in range(60) if stored_over_itself(steps, COUNTED_TWICE)[1] == (12, 0)]
    need(refused, f"'{COUNTED_TWICE}' refuses nothing")
    print(f"test_marking_ends: a record stored over itself, 17 words full, room for one in the list: never refused; '{COUNTED_TWICE}' "
          f"refuses it after {refused[0]} to {refused[-1]} steps")


def twice_held():
    run, refused = held_twice()
    run.judged("held twice")
    need(not refused and run.lines[-1] == (0, 1) and run.store.tail == len(run.store.list),
         f"held twice: refused {refused}, same {run.lines[-1]}, {run.store.tail} listed")
    for slip, want in ((LISTED_TWICE, (MARKING, 12)), (COUNTED_TWICE, (MARKING, 12)), (PLACE_IN_HALF, (3, 4))):
        _, refused = held_twice(slip)
        need(refused == want, f"held twice: '{slip}': phase and number {refused}, not {want}")
    print(f"test_marking_ends: a record in two registers, 16 words full, room for one in the list: never refused; '{LISTED_TWICE}' "
          f"and '{COUNTED_TWICE}' refuse the scan, '{PLACE_IN_HALF}' a step in phase 3")


def extremes():
    shown = list(crowds())
    for name, run in shown:
        need(on_program(name, run) == run.spent and run.worst <= 0, f"{name}: another number of steps on the program")
    print(f"test_marking_ends: sixteen sessions {BESIDE} steps, with a record its words + {BESIDE + 1 - HEADER}; ten sessions and a "
          f"record of {HEADER} words 12 steps; {len(shown)} of these on the program")
    over_itself()
    twice_held()


# ---- random runs

def chance():
    seen, shown = Seen(), 0
    for seed in range(RUNS):
        run = random_run(seed, seen)
        need(run.worst <= 0, f"random run {seed}: {run.spent} steps, {run.used()} used words after entry {len(run.entries)}")
        run.judged(f"random run {seed}")
        if run.store.length[0] == SCRIPT_LENGTH:
            need(on_program(f"random run {seed}", run) == run.spent, f"random run {seed}: another number of steps on the program")
            shown += 1
    print(f"test_marking_ends: {seen.runs} random runs, {shown} on the program, {seen.calls} calls, {seen.collections} collections, "
          f"{seen.within} calls other than steps within phase 4, several links stored there {seen.links} times, at its end up to "
          f"{seen.words} used words; {-seen.nearest} steps from the bound at the least")
    need(shown > 10 and seen.collections > 2000 and seen.within > 300000 and seen.links > 1500 and seen.words > 4000
         and seen.nearest >= -2, "the runs do not show enough")
    for slip in (MARKS_CLEARED, ATTACHED_UNSCANNED):
        passed = next((seed for seed in range(RUNS) if random_run(seed, Seen(), slip).worst > 0), None)
        need(passed is not None, f"no random run with '{slip}' passes the bound")
        print(f"test_marking_ends: '{slip}' passes the bound in random run {passed}")


def main():
    began = time.time()
    held_up()
    scripts()
    extremes()
    chance()
    print(f"test_marking_ends: {time.time() - began:.0f} s")


if __name__ == "__main__":
    main()
