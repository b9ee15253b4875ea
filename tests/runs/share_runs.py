"""Runs in which every word is counted beside the store: what each session number was charged, by its successful allocations since Reclaim
last ended, and its share, by its last successful attach. Outside Reclaim all charges together are the words that the current half has more
than at Reclaim's end. They watch document 02's claim: with used words and all shares together no more than a half at the end of a Reclaim,
no allocation meets 14 before the next one begins, as long as no share changes. And a stronger one: from any moment outside Reclaim, with
what is left of the shares in their place, on to the end of the next Reclaim. All are made from a seed."""
import random
from collections import Counter

from models.free_store import (ALLOCATE, ATTACH, CLEAR, DETACH, FITTED, MOST_BIRTHS, NO_ROOM, OVER_SHARE, PUT, SAFE, STEP, WHOLE_SHARE,
                               Model, fed, share_in)
from models.record_layout import HEADER, least_list, size
from models.store_model import SESSIONS, Sapphire
from models.table_model import NO_NUMBER
from programs.probe_program import encode
from runs.birth_runs import Wrong, collector_calls, session_call

REST, RECLAIM = 0, 12  # phases
CLAIM, STRONGER = "document 02's claim", "the stronger claim"
OTHERS = 40  # of so many other calls one is shown to the probe program
MOST_FIELDS, NOTHING = 255, 7  # of a record; a register that holds nothing


class Budget:
    """The store in Python beside the collector-free store and the counts. `after_reclaim` and `from_now` say whether document 02's claim
    and the stronger one cover the next call. For claims that are false: `lacking` words of the half are not asked for, or the shares of
    sessions that are not attached are not counted. `showing`: `cases` has for the probe program all calls to which shares and charges
    matter, and of the others some."""

    def __init__(self, length, most_births=MOST_BIRTHS, lacking=0, attached_alone=False, showing=False):
        self.store, self.model = Sapphire(length, least_list(length), most_births=most_births), Model(most_births)
        self.entries, self.lines, self.seen = [], [], Counter()
        self.share, self.charge = [0] * SESSIONS, [0] * SESSIONS
        self.phase, self.after_reclaim, self.from_now, self.kept = REST, False, False, 0  # the last: words used at Reclaim's end
        self.lacking, self.attached_alone, self.showing, self.cases = lacking, attached_alone, showing, []

    def used(self):
        return self.store.frontier[self.store.current]

    def do(self, kind, args):
        self.entries.append((kind, args))
        if self.showing and (kind in (ALLOCATE, ATTACH, DETACH) or at_the_end(self.store) or len(self.entries) % OTHERS == 0):
            self.cases.append((f"call {len(self.entries)}", encode(self.store, kind, args)))
        line = self.store.call(kind, args)
        self.lines.append(line)
        if kind not in (STEP, SAFE):
            want = self.model.call(kind, args, fed(kind, line[0]))
            self.need(line == want, f"answered {line}, the collector-free store {want}")
        if kind == ALLOCATE:
            self._watch(args, line[0])
        shares = list(self.share)
        ended = self._count(kind, args, line)
        self.need((self.store.share, self.store.charge) == (self.share, self.charge),
                  f"shares {self.store.share} and charges {self.store.charge}, counted {self.share} and {self.charge}")
        if ended:
            self.kept = self.used()
        self.need(self.phase == RECLAIM or self.used() == self.kept + sum(self.charge), f"{self.used()} words used, {self.kept} before")
        self._promise(shares != self.share, ended)
        return line

    def need(self, holds, words):
        if not holds:
            raise Wrong(f"call {len(self.entries)}, {self.entries[-1]}: {words}")

    def _count(self, kind, args, line):
        """What the answer says of shares, charges and the phase; whether it ends Reclaim."""
        ended = False
        if kind == STEP:
            ended = (self.phase, line[1]) == (RECLAIM, REST)
            self.phase = line[1]
            if ended:
                self.seen["collections"] += 1
                self.seen["cleared"] += any(self.charge)
                self.charge = [0] * SESSIONS
        elif kind == ATTACH and line[0] == 0:
            share = share_in(args[1:])
            self.seen["attached again"] += self.share[args[0]] == share and self.charge[args[0]] > 0
            self.share[args[0]] = share
        elif kind == ALLOCATE and line[0] == 0:
            self.charge[args[0]] += size(*args[2:])
        return ended

    def _watch(self, args, number):
        """An allocation: 17 where it would pass its share, by the counts, and never else; and none may meet 14 that a claim covers."""
        if number in (FITTED, NO_ROOM, OVER_SHARE, NO_NUMBER):
            total = self.charge[args[0]] + size(*args[2:])
            self.need((total > self.share[args[0]]) == (number == OVER_SHARE), f"answered {number}, {total} words of {self.share[args[0]]}")
        for claim, holds in ((CLAIM, self.after_reclaim), (STRONGER, self.from_now)):
            if holds:
                self.need(number != NO_ROOM, f"14, against {claim}")
                self.seen[claim, number] += 1
                if number == 0 and self.used() == self.store.length[0]:
                    self.seen[claim, "full"] += 1
                    self.seen[claim, "full", self.phase] += 1
        self.seen[number] += 1
        self.seen["both"] += number == 0 and self.store.level[args[0]] > 2

    def _promise(self, changed, ended):
        """Which of the claims cover the next call."""
        room = self.store.length[0] - self.used() + self.lacking
        self.after_reclaim = self.after_reclaim and not changed and self.phase != RECLAIM
        self.from_now = self.from_now and not changed and not ended
        left = sum(max(share - charge, 0) for share, charge, there in zip(self.share, self.charge, self.store.attached)
                   if there or not self.attached_alone)
        if ended and left <= room:  # nothing is charged
            self.after_reclaim = True
            self.seen[CLAIM, "just"] += left == room
        if self.phase != RECLAIM and not self.from_now and left <= room:
            self.from_now = True
            self.seen[STRONGER, "just"] += left == room


# ---- random runs

def parts(rng, whole, count):
    """So many numbers by chance, with this sum, each one that records can fill, if there are so many words."""
    found = [0] * count
    while whole >= HEADER:
        words = rng.randint(HEADER, whole)
        found[rng.randrange(count)] += words
        whole -= words
    found[found.index(max(found))] += whole
    return found


def share_out(rng, run, sessions):
    """All sessions come anew, so that what is left of all shares is as much as there is room, or a little less or more. One or the other
    leaves again; its share stays."""
    store = run.store
    room = store.length[0] - run.used() + rng.choice([0, 0, 0, 0, -1, 1])
    counted = [0] * SESSIONS if store.phase == RECLAIM else store.charge
    others = sum(max(store.share[s] - counted[s], 0) for s in range(sessions, SESSIONS))
    for s, part in enumerate(parts(rng, max(room - others, 0), sessions)):
        if store.attached[s]:
            run.do(DETACH, [s])
        run.do(ATTACH, [s, counted[s] + part])
        if rng.random() < 0.1:
            run.do(DETACH, [s])


def any_share(rng, before):
    """Most often that of before, else none, a few words, or more than any half has."""
    return rng.choice([before] * 6 + [0, rng.randrange(30), rng.randrange(120), WHOLE_SHARE])


def greedy(rng, run, s):
    """An allocation of a session of just what is left of its share, or of so much that another record is left, or of a word too much; cut
    to a record that there is."""
    left = run.share[s] - run.charge[s]
    part = rng.randint(HEADER, max(left - HEADER, HEADER))
    words = rng.choice([left, left, part, part, left + 1])
    fields = min(max(words - HEADER, 0), MOST_FIELDS)
    links = rng.randint(0, min(fields, 3))
    return ALLOCATE, [s, rng.randrange(4), links, fields - links]


def next_call(rng, run, sessions, makes):
    """A call of a session, of which many make or drop records; attach with a share."""
    s, draw = rng.randrange(sessions), rng.random()
    if draw < makes:
        return greedy(rng, run, s)
    if draw < 2 * makes:
        return rng.choice([(CLEAR, [s, rng.randrange(4)]), (PUT, [s, rng.choice([0, 1, 2, 31]), NOTHING])])
    kind, args = session_call(rng, run.store, sessions, makes / 4)
    return kind, [*args, any_share(rng, run.share[args[0]])] if kind == ATTACH else args


def at_the_end(store):
    """Whether Reclaim has one step left."""
    return store.phase == RECLAIM and store.place >= store.frontier[store.current]


def random_run(seed, calls, **how):
    """A run of many collections, with what Budget is told. Shares are dealt out before Reclaim's last step, and now and then outside
    Reclaim."""
    rng = random.Random(f"budget {seed}")
    sessions, makes, busy = rng.choice([1, 2, 3, 5]), rng.choice([0.03, 0.1, 0.4]), rng.choice([0.2, 0.4, 0.6])
    most = MOST_BIRTHS if seed % 4 else rng.choice([20, 100])
    run, changes = Budget(rng.choice([16, 17, 24, 40, 64, 100, 160]), most, **how), rng.choice([0, 0.002, 0.01])
    moving = rng.choice([0.1, 0.3])
    for s in range(sessions):
        run.do(ATTACH, [s, rng.randrange(2 * run.store.length[0] // sessions)])
    while len(run.entries) < calls:
        if at_the_end(run.store) and rng.random() < 0.3 or run.store.phase != RECLAIM and rng.random() < changes:
            share_out(rng, run, sessions)
        elif rng.random() < busy:
            kind, args = next_call(rng, run, sessions, makes)
            if kind not in (ATTACH, DETACH) or rng.random() < moving:
                run.do(kind, args)
        else:
            for entry in collector_calls(rng, run.store):
                run.do(*entry)
    return run


# ---- pairs of runs

def first_share(rng):
    """A share that no record has place in, one for a few records, or more than is ever used."""
    return rng.choice([0, HEADER - 1, 12, 40, 150, WHOLE_SHARE, WHOLE_SHARE])


def shared_call(rng, store, sessions, makes):
    """A call of a session, attach with a share."""
    kind, args = session_call(rng, store, sessions, makes)
    return kind, [*args, first_share(rng)] if kind == ATTACH else args
