"""Runs in which it is known of every record, whatever its word 3 says, which number it was born with: from the order of allocations and
from where each shell was written. Runs at the end of the numbers. And pairs of runs with the same session calls. All are made from a seed,
so one that fails can be made again from its name."""
import random
from collections import Counter

from cases.limit_cases import records, ref
from models.free_store import ALLOCATE, ATTACH, BIRTH, MOST_BIRTHS, OVER_SHARE, SAFE, STEP, Model, fed
from models.record_layout import NUMBER, least_list
from models.store_model import LEVELS, Sapphire
from programs.probe_program import encode
from runs.marking_runs import any_call

SHELLS, RECLAIM = 5, 12  # phases
ROOM, LEFT = 14, 16      # refusals of an allocation: no room, no number left


class Wrong(Exception):
    """What is wrong with a run."""


class Known:
    """The store in Python beside the collector-free store. `numbers` has for the reference of every record in either half the place in
    the collector-free list of the record that it stands for."""

    def __init__(self, length, most_births=MOST_BIRTHS):
        self.store, self.model = Sapphire(length, least_list(length), most_births=most_births), Model(most_births)
        self.entries, self.numbers, self.seen = [], {}, Counter()

    def do(self, kind, args):
        store = self.store
        self.entries.append((kind, args))
        phase, walked, ends = store.phase, ref(store.current, store.place), list(store.frontier)
        level = store.level[args[0]] if kind == ALLOCATE and args[0] < 16 else None
        answer = store.call(kind, args)
        if kind not in (STEP, SAFE):
            self._judge(kind, args, answer)
        new = [ref(h, ends[h]) for h in (0, 1) if store.frontier[h] > ends[h]]
        self.numbers.update(dict.fromkeys(new, self.numbers.get(walked) if kind == STEP else len(self.model.records)))
        if phase == RECLAIM and store.phase != RECLAIM:
            self.numbers = {v: number for v, number in self.numbers.items() if v % 2 == store.current}
        self._count(kind, phase, level, answer)
        return answer

    def _judge(self, kind, args, answer):
        want = self.model.call(kind, args, fed(kind, answer[0]))
        if answer != want:
            raise Wrong(f"call {len(self.entries)}, {kind} {args}: {answer}, the collector-free store answers {want}")

    def _count(self, kind, phase, level, answer):
        self.seen["calls"] += 1
        self.seen["collections"] += phase == RECLAIM and self.store.phase == 0
        if kind == BIRTH:
            self.seen["birth", answer[0]] += 1
            self.seen["phase", phase] += answer[0] == 0
        if kind == ALLOCATE and answer[0] in (ROOM, LEFT) and self.store.births == self.store.most_births:
            self.seen[answer[0], level] += 1

    def check(self):
        """Every record of both halves has its number in its word, every register and global names a record of the number that the
        collector-free store has there, and so many numbers are used as records were made."""
        store, model = self.store, self.model
        found = {ref(h, at): store.half[h][at + NUMBER] for h in (0, 1) for at, _, _ in records(store, h)}
        if found != self.numbers:
            raise Wrong(f"after call {len(self.entries)}: the words 3 are {found}, the numbers {self.numbers}")
        held = [[self.numbers.get(v, v) for v in registers] for registers in store.registers]
        if held != model.registers or [self.numbers.get(v, v) for v in store.globals] != model.globals:
            raise Wrong(f"after call {len(self.entries)}: registers or globals name other records")
        if store.births != len(model.records):
            raise Wrong(f"after call {len(self.entries)}: {store.births} numbers used, {len(model.records)} records")
        self.seen["words"] += len(found)


# ---- random runs

def session_call(rng, store, sessions, makes):
    """A call of a session, every fourth one for a number: most often of a register that holds a record in this store; now and then with
    arguments that are none."""
    if rng.random() < 0.25:
        s, k = rng.randrange(sessions), rng.randrange(4)
        held = [[s, k] for s in range(sessions) for k in range(8) if store.registers[s][k]]
        return BIRTH, rng.choice([rng.choice(held or [[s, k]])] * 16 + [[s, k]] * 4 + [[s, 7], [s, 8], [16, k], [15, k]])
    if rng.random() < 0.01:
        return ALLOCATE, rng.choice([[0, 8, 1, 1], [0, 0, 256, 0], [0, 0, 0, 256], [16, 0, 1, 1]])
    return any_call(rng, sessions, makes)


def collector_calls(rng, store):
    """A step, with the safe points of some of the sessions that lag behind."""
    behind = [s for s in range(16) if store.attached[s] and store.level[s] != LEVELS[store.phase]]
    return [(SAFE, [s]) for s in behind if rng.random() < 0.6] + [(STEP, [])]


def random_run(seed, calls, every=1):
    """A run of many collections with so many calls, of which the words are looked at after every so many. In two of three the numbers
    end before it does."""
    rng = random.Random(seed)
    length, sessions = rng.choice([16, 17, 24, 32, 48, 100]), rng.choice([1, 2, 3, 5])
    most = MOST_BIRTHS if seed % 3 == 0 else rng.choice([3, 8, 20, 40, 100, 300])
    run, busy, makes = Known(length, most), rng.choice([0.3, 0.6, 0.8]), rng.choice([0.05, 0.15, 0.4])
    for s in range(sessions):
        run.do(ATTACH, [s])
    while len(run.entries) < calls:
        some = [session_call(rng, run.model, sessions, makes)] if rng.random() < busy else collector_calls(rng, run.store)
        for entry in some:
            run.do(*entry)
            if len(run.entries) % every == 0:
                run.check()
    return run


# ---- runs at the end of the numbers

class Aged:
    """A run on a store that has used all birth numbers but a few before it begins. `lines` are its answers as they would be if those few
    were all that there are. `cases` are for the probe program: all allocations and calls for a number, and of the others some."""

    def __init__(self, seed, calls):
        rng = random.Random(f"aged {seed}")
        self.left, length = rng.choice([1, 3, 10, 30]), rng.choice([16, 24, 48, 100])
        self.used = MOST_BIRTHS - self.left
        self.store, self.entries, self.lines, self.cases = Sapphire(length, least_list(length)), [], [], []
        self.store.births = self.used
        self.name = f"aged run {seed}"
        self._play(rng, calls)

    def _play(self, rng, calls):
        sessions, makes, busy = rng.choice([1, 2, 3]), rng.choice([0.05, 0.3]), rng.choice([0.3, 0.7])
        for s in range(sessions):
            self._do(rng, ATTACH, [s])
        while len(self.entries) < calls:
            busily = rng.random() < busy
            for kind, args in [session_call(rng, self.store, sessions, makes)] if busily else collector_calls(rng, self.store):
                self._do(rng, kind, args)

    def _do(self, rng, kind, args):
        if kind in (ALLOCATE, BIRTH) or rng.random() < 0.1:
            self.cases.append((f"{self.name}, call {len(self.entries) + 1}", encode(self.store, kind, args)))
        number, value = self.store.call(kind, args)
        self.entries.append((kind, args))
        self.lines.append((number, value - self.used if kind == BIRTH and not number else value))


# ---- pairs of runs

class Player:
    """One of two runs with the same session calls: its own length, first words, steps and safe points."""

    def __init__(self, rng, length, most_births, slip=None):
        self.rng, self.store = rng, Sapphire(length, least_list(length), slip, most_births)
        self.store.half = [rng.choices(range(1 << 32), k=length) for _ in (0, 1)]
        self.eager = rng.choice([0, 0.5, 2, 6])  # steps before a call, about

    def answer(self, kind, args):
        for _ in range(int(self.rng.random() * 2 * self.eager + 0.5)):
            for entry in collector_calls(self.rng, self.store):
                self.store.call(*entry)
        return self.store.call(kind, args)


def pair(seed, calls, seen, slip=None, chosen=session_call, shared=None):
    """Two runs with the same session calls: where they part, or None. They may where an allocation is refused for room or for its share in
    one of them and not in the other, or with another number; after it nothing is compared. `chosen` gives a session call, `shared` the
    share of one that comes first, the whole one if there is none."""
    rng = random.Random(f"pair {seed}")
    most = MOST_BIRTHS if seed % 3 == 0 else rng.choice([5, 30, 200])
    players = [Player(rng, rng.choice([24, 64, 400, 4096]), most, slip) for _ in (0, 1)]
    model, sessions, makes = Model(most), rng.choice([1, 2, 4]), rng.choice([0.03, 0.1])
    for n in range(calls):
        kind, args = (ATTACH, [n, shared(rng)] if shared else [n]) if n < sessions else chosen(rng, model, sessions, makes)
        one, other = [player.answer(kind, args) for player in players]
        if kind != SAFE:
            model.call(kind, args, fed(kind, one[0]))
        reasons = fed(kind, one[0]), fed(kind, other[0])
        if reasons[0] != reasons[1]:
            seen["parted"] += 1
            seen["parted", *sorted(reasons)] += 1
            return None
        if one != other and kind != SAFE:
            return f"call {n + 1}, {kind} {args}: {one} and {other}"
        seen["calls"] += 1
        seen["births"] += kind == BIRTH and one[0] == 0
        seen["left"] += one[0] == LEFT
        seen["room"] += one[0] == ROOM
        seen["share"] += one[0] == OVER_SHARE
    seen["whole"] += 1
    return None
