"""Random runs in which every call for several links is played twice: by one call on the store, and on its twin by single stores in list
order. The twin's words and numbers are the store's after every call; where the call is refused, a copy of the twin meets the same refusal
by the first of the single stores that is refused, and the store is as before. Every session answer is the collector-free store's, with no 4
and no 12, marking keeps to its bound, and in the end two collections free every word of a record that can't be reached. All are made from
a seed, so one that fails can be made again from its name."""
import copy
import random
from collections import Counter

from models.free_store import ALLOCATE, ATTACH, LINKS, MOST_LINKS, SAFE, STEP, STORE, Model, fed, pairs_in
from models.record_layout import least_list, size
from models.store_model import LEVELS, Sapphire
from programs.probe_program import encode, given
from runs.birth_runs import Wrong, collector_calls
from runs.marking_runs import BESIDE, MARKING, any_call


def copied(store):
    """A copy on which stores can be tried: what they may change is its own."""
    other = copy.copy(store)
    other.half, other.list, other.scanned = [list(words) for words in store.half], list(store.list), list(store.scanned)
    return other


class Twins:
    """`showing`: `cases` has every call for several links for the probe program."""

    def __init__(self, length, showing=False):
        self.store, self.twin = Sapphire(length, least_list(length)), Sapphire(length, least_list(length))
        self.model, self.entries, self.seen, self.showing, self.cases = Model(), [], Counter(), showing, []
        self.spent = 0  # steps of this collection that began in phase 4

    def need(self, holds, words):
        if not holds:
            raise Wrong(f"call {len(self.entries)}, {self.entries[-1]}: {words}")

    def do(self, kind, args):
        self.entries.append((kind, args))
        if kind == LINKS and self.showing:
            self.cases.append((f"call {len(self.entries)}", encode(self.store, kind, args)))
        phase = self.store.phase
        line = self.store.call(kind, args)
        self.need(line[0] not in (4, 12), f"answered {line}")
        if kind not in (STEP, SAFE):
            want = self.model.call(kind, args, fed(kind, line[0]))
            self.need(line == want, f"answered {line}, the collector-free store {want}")
        if kind == LINKS:
            self._spell_out(args, line)
        else:
            self.need(self.twin.call(kind, args) == line, f"answered {line}, otherwise after single stores")
        self._bound(kind, phase)

    def _bound(self, kind, phase):
        if kind == STEP:
            self.spent = 0 if phase == 0 else self.spent + (phase == MARKING)
            self.seen["collections"] += phase == 12 and self.store.phase == 0
        used = self.store.frontier[self.store.current]
        self.need(self.spent <= used + BESIDE, f"{self.spent} steps in phase 4, {used} used words")

    def settle(self):
        """Two collections in which the sessions only come to their safe points: then every used word is one of a record that can be
        reached."""
        for _ in range(2):
            while True:
                behind = [s for s in range(16) if self.store.attached[s] and self.store.level[s] != LEVELS[self.store.phase]]
                for s in behind:
                    self.do(SAFE, [s])
                self.do(STEP, [])
                if self.store.phase == 0:
                    break
        used, reached = self.store.frontier[self.store.current], reached_words(self.model)
        self.need(used == reached, f"{used} words used, those of reached records are {reached}")
        self.seen["reached"] += reached

    def _spell_out(self, args, line):
        """The call by single stores. Done, they leave the same words and numbers; refused, the first that is refused has the number."""
        s, k, count = args[:3]
        self.seen[line[0]] += 1
        if count <= MOST_LINKS and line[0] not in (5, 6):
            other = self.twin if line[0] == 0 else copied(self.twin)
            numbers = [other.call(STORE, [s, k, *pair])[0] for pair in pairs_in(args)]
            refusal = next(filter(None, numbers), 0)
            self.need(line[0] == refusal, f"answered {line}, single stores {numbers}")
            if line[0] == 0 and count:
                self.seen["done", self.store.level[s], self.store.phase] += 1
                self.seen["repeated"] += len({i for i, _ in pairs_in(args)}) < count
        self.need(given(self.store) == given(self.twin), f"answered {line}: other words or numbers than after single stores")


def reached_words(model):
    """The words of the records that registers and globals lead to, by the collector-free store."""
    found, left = set(), [place for places in [*model.registers, model.globals] for place in places]
    while left:
        place = left.pop()
        if place and place not in found:
            found.add(place)
            left += model.records[place - 1][0]
    return sum(size(*map(len, model.records[place - 1])) for place in found)


# ---- random runs

def held(model, sessions):
    """Sessions and registers that hold a record with links, and how many it has."""
    return [(s, k, len(model.records[place - 1][0])) for s in range(sessions) for k, place in enumerate(model.registers[s])
            if place and model.records[place - 1][0]]


def several(rng, model, sessions):
    """A call for several links of a record that some session holds; in one of ten pairs, count, register or session are wrong."""
    s, k, fields = rng.choice(held(model, sessions) or [(0, 0, 1)])
    top = rng.choice([fields, fields, 1, min(fields, 2)])
    pairs = [number for _ in range(MOST_LINKS) for number in (rng.randrange(top), rng.randrange(8))]
    args = [s, k, rng.choice([0, 1, 2, 2, 3, 4, 5, 6, 7, 8, 8, 8]), *pairs]
    for _ in range(rng.choice([0] * 9 + [rng.randint(1, 4)])):
        at = rng.choice([0, 1, 2, *range(3, len(args))])
        args[at] = rng.choice({0: [15, 16, 99], 1: [7, 8, 99], 2: [9, 10, 255]}.get(at, [fields, 8, 255]))
    return LINKS, args


def next_calls(rng, run, sessions, makes, busy):
    """A call of a session, of which many store several links, or a step with safe points of sessions that lag behind."""
    if rng.random() > busy:
        return collector_calls(rng, run.store)
    draw = rng.random()
    if draw < 0.35:
        return [several(rng, run.model, sessions)]
    if draw < 0.35 + makes:
        return [(ALLOCATE, [rng.randrange(sessions), rng.randrange(8), rng.choice([1, 2, 3, 8, 10]), rng.choice([0, 0, 1])])]
    return [any_call(rng, sessions, makes / 4)]


def random_run(seed, calls, showing=False):
    rng = random.Random(f"twins {seed}")
    length, sessions = rng.choice([16, 20, 32, 48, 100, 200]), rng.choice([1, 2, 3, 4])
    makes, busy, run = rng.choice([0.05, 0.1, 0.2]), rng.choice([0.3, 0.5, 0.7]), Twins(length, showing)
    for s in range(sessions):
        run.do(ATTACH, [s])
    while len(run.entries) < calls:
        for entry in next_calls(rng, run, sessions, makes, busy):
            run.do(*entry)
    run.settle()
    return run
