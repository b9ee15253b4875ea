"""Runs in which the steps of marking are counted: an import that loads and drops links, a session that comes and goes, and random ones.

The random runs are made from a seed, so one that fails can be made again from its name.
"""
import random

from models.free_store import (ATTACH, DETACH, SAFE, ALLOCATE, LOAD, STORE, READ, WRITE, MOVE, CLEAR, SAME, GET, PUT, STEP, LINKS,
                               MOST_BIRTHS, MOST_LINKS)
from models.record_layout import least_list, size
from models.store_model import LEVELS, WHITE, Sapphire
from programs.explain_tool import need
from programs.line_checks import faults

MARKING, AFTER = 4, 5  # phases
IMPORT = 15            # the session that loads and drops links; the other fifteen hold nothing
BESIDE = 17            # steps that the bound has beside the used words: sixteen scans, and the one that leaves phase 4
SCRIPT_LENGTH = 4096   # words of a half that the script program has


class Run:
    """A run of the store in Python. `spent` counts the steps of this collection that began in phase 4; `worst` is the most that it was
    over the bound after any call."""

    def __init__(self, length=SCRIPT_LENGTH, slip=None, most_births=MOST_BIRTHS):
        self.store = Sapphire(length, least_list(length), slip, most_births)
        self.entries, self.lines, self.spent, self.worst = [], [], 0, -1 << 32

    def do(self, *entries):
        """The answer to the last of these entries."""
        answer = None
        for kind, args in entries:
            phase = self.store.phase
            answer = self.store.call(kind, args)
            self.entries.append((kind, args))
            self.lines.append(answer)
            if kind == STEP:
                self.spent = 0 if phase == 0 else self.spent + (phase == MARKING)
            self.worst = max(self.worst, self.over())
        return answer

    def used(self):
        return self.store.frontier[self.store.current]

    def allowed(self):
        """The bound: the most steps that a collection may begin in phase 4, by the words that are used now."""
        return self.used() + BESIDE

    def over(self):
        """By how many steps the bound is passed; below 0 are those that are left."""
        return self.spent - self.allowed()

    def to(self, phase):
        """Steps and safe points up to this phase; in phase 4 steps alone."""
        while self.store.phase != phase:
            if self.store.phase != MARKING:
                self.do(*[(SAFE, [s]) for s in range(16) if self.store.attached[s] and self.store.level[s] != LEVELS[self.store.phase]])
            self.do((STEP, []))
        return self

    def judged(self, name):
        """No call was refused with 4 or 12, and every session answer is the collector-free store's."""
        fault = next(faults(self.entries, self.lines, most_births=self.store.most_births), None)
        need(not fault, f"{name}: {fault}")
        return self


def attached(sessions, length=SCRIPT_LENGTH, slip=None, most_births=MOST_BIRTHS):
    run = Run(length, slip, most_births)
    run.do(*[(ATTACH, [s]) for s in sessions])
    return run


# ---- the two that kept marking busy

def links_in(length):
    """How many records with one link fit."""
    return length // size(1, 0)


def chained(length, slip=None):
    """Sixteen sessions and as many records as fit, each with a link to the one made before it; the import holds the last one."""
    run = attached(range(16), length, slip)
    for _ in range(links_in(length)):
        run.do((ALLOCATE, [IMPORT, 1, 1, 0]), (STORE, [IMPORT, 1, 0, 0]), (MOVE, [IMPORT, 0, 1]))
    run.do((CLEAR, [IMPORT, 1]))
    return run.to(MARKING)


def load_and_drop(run):
    """Between two steps: the import loads the link of its record. Where the record has been shaded it drops the link there and goes on
    to what the link named; else it drops what it loaded."""
    held = run.store.registers[IMPORT][0]
    if held:
        run.do((LOAD, [IMPORT, 1, 0, 0]))
        if run.store.at(held, 1) != WHITE:
            run.do((STORE, [IMPORT, 0, 0, 7]), (MOVE, [IMPORT, 0, 1]))
        run.do((CLEAR, [IMPORT, 1]))


def all_links(register):
    """The pairs of a call that stores a register in eight links."""
    return [number for link in range(MOST_LINKS) for number in (link, register)]


def chained_by_eight(length, slip=None):
    """The same with records of eight links, all to the one made before."""
    run = attached(range(16), length, slip)
    for _ in range(length // size(MOST_LINKS, 0)):
        run.do((ALLOCATE, [IMPORT, 1, MOST_LINKS, 0]), (LINKS, [IMPORT, 1, MOST_LINKS, *all_links(0)]), (MOVE, [IMPORT, 0, 1]))
    run.do((CLEAR, [IMPORT, 1]))
    return run.to(MARKING)


def drop_eight(run):
    """Between two steps: as above, with all eight links dropped by one call."""
    held = run.store.registers[IMPORT][0]
    if held:
        run.do((LOAD, [IMPORT, 1, 0, 0]))
        if run.store.at(held, 1) != WHITE:
            run.do((LINKS, [IMPORT, 0, MOST_LINKS, *all_links(7)]), (MOVE, [IMPORT, 0, 1]))
        run.do((CLEAR, [IMPORT, 1]))


def come_and_go(run):
    """Between two steps: session 0 detaches and attaches."""
    run.do((DETACH, [0]), (ATTACH, [0]))


def marked(run, between, most=None):
    """Steps in phase 4, each after what is done between two of them, until it ends or there have been so many."""
    while run.store.phase == MARKING and run.spent != most:
        between(run)
        run.do((STEP, []))
    return run


# ---- random runs

# how often a session makes each call
WORK = {LOAD: 24, STORE: 18, LINKS: 8, GET: 8, PUT: 8, MOVE: 6, CLEAR: 8, ATTACH: 5, DETACH: 2, SAFE: 3, READ: 1, WRITE: 1, SAME: 2}
RESTLESS = {**WORK, ATTACH: 30, DETACH: 25}  # sessions that come and go


def several(rng, s):
    """A call for several links, most often of fields that small records have, and of equal ones; now and then a pair that there is not."""
    fields, count = rng.choice([1, 1, 2, 2, 3, 4]), rng.choice([0, 1, 2, 2, 2, 3, 4, 8, 8, 9])
    pairs = [number for _ in range(MOST_LINKS) for number in (rng.randrange(fields), rng.choice([0, 1, 2, 3, 7]))]
    if rng.random() < 0.06:
        pairs[rng.randrange(len(pairs))] = rng.choice([4, 8, 255])
    return LINKS, [s, rng.randrange(4), count, *pairs]


def any_call(rng, sessions, makes, work=WORK):
    """A call of a session that works on links: it loads and overwrites many, comes and goes, and makes a record so often."""
    s, a, b, c = rng.randrange(sessions), rng.randrange(4), rng.randrange(4), rng.choice([0, 1, 2, 3, 7])
    i, g = rng.choice([0, 0, 0, 1, 1, 2, 3]), rng.choice([0, 1, 2, 31])
    if rng.random() < makes:
        return ALLOCATE, [s, a, rng.choice([0, 1, 1, 2, 3]), rng.choice([0, 0, 0, 1, 2])]
    kind = rng.choices(list(work), list(work.values()))[0]
    if kind == LINKS:
        return several(rng, s)
    return kind, {LOAD: [s, a, b, i], STORE: [s, a, i, c], GET: [s, a, g], PUT: [s, g, c], MOVE: [s, a, b], CLEAR: [s, a],
                  READ: [s, a, 0], WRITE: [s, a, 0, i], SAME: [s, a, b]}.get(kind, [s])


def fill(rng, run, sessions, words):
    """Sessions make records, each with a link to another one, until so many words are used or nothing fits."""
    while run.used() < words:
        s, a = rng.choice(sessions), rng.randrange(4)
        number, _ = run.do((ALLOCATE, [s, a, rng.choice([1, 1, 2, 4]), rng.choice([0, 0, 1])]))
        if number:
            return
        run.do((STORE, [s, a, 0, rng.randrange(4)]), (PUT, [s, rng.randrange(32), a]))


class Seen:
    """What the random runs have shown."""

    def __init__(self):
        self.runs = self.calls = self.collections = self.within = self.links = 0
        self.nearest = -1 << 32  # the most steps over the bound, where phase 4 ended
        self.words = 0           # the most used words there

    def ended(self, run):
        self.nearest, self.words = max(self.nearest, run.over()), max(self.words, run.used())

    def add(self, run):
        self.runs, self.calls, self.collections = self.runs + 1, self.calls + len(run.entries), self.collections + run.store.collections


def random_run(seed, seen, slip=None):
    """A run of many collections, most of its calls within phase 4. It stops where the bound is passed."""
    rng = random.Random(seed)
    length = rng.choice([16, 17, 18, 24, 32, 48, 64, 120, 300, 1000, SCRIPT_LENGTH])
    sessions, makes = rng.choice([1, 2, 3, 5, 10, 16]), rng.choice([0, 0.03, 0.1])
    busy, idle = rng.choice([0.5, 0.8, 0.95]), rng.choice([0, 0.1, 0.3])
    work = {**(RESTLESS if seed % 3 == 1 else WORK), **({LINKS: 0} if length == SCRIPT_LENGTH else {})}  # no script has this one
    run = attached(range(sessions), length, slip)
    fill(rng, run, range(sessions), rng.choice([0, 0.3, 0.7, 1]) * length)
    while len(run.entries) < 6000 + length and run.worst <= 0:
        phase = run.store.phase
        if rng.random() < (busy if phase == MARKING else idle):
            entry = any_call(rng, sessions, makes, work)
            done = run.do(entry) == (0, 0)
            seen.within += phase == MARKING
            seen.links += done and phase == MARKING and entry[0] == LINKS
        else:
            lazy = [s for s in range(16) if run.store.attached[s] and run.store.level[s] != LEVELS[phase] and rng.random() < 0.7]
            run.do(*[(SAFE, [s]) for s in lazy], (STEP, []))
            if phase == MARKING and run.store.phase == AFTER:
                seen.ended(run)
    seen.add(run)
    return run
