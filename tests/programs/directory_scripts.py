"""Scripts for the directory program: how entries are written, what must be printed, and random scripts in which other sessions work, fill
the halves and collect between the directory's calls.

Everything is made from a seed, so a script that fails can be made again from its name.
"""
import random

from models.directory_model import MINE, ROOT, Directory
from models.free_store import ATTACH, SAFE, ALLOCATE, GET, PUT, STEP, WRITE
from models.record_layout import HEADER, size
from models.table_model import OPEN, ADD, REMOVE, MAKE, JOIN, LEAVE, LIST, LAST
from programs import store_scripts

WIDTHS = {OPEN: [], ADD: [4], REMOVE: [4], MAKE: [4], JOIN: [4, 4], LEAVE: [4, 4], LIST: [4, 1]}
SIZES = {**store_scripts.SIZES, **{kind: 1 + sum(widths) for kind, widths in WIDTHS.items()}}


# ---- bytes and lines

def body(kind, args):
    """The bytes of an entry after its length byte."""
    if kind < OPEN:
        return store_scripts.body(kind, args)
    return bytes([kind]) + b"".join(arg.to_bytes(width, "big") for arg, width in zip(args, WIDTHS[kind]))


def encode(entries):
    """The bytes of a script: version 2, then for each entry its length byte, kind byte and argument bytes."""
    bodies = (body(kind, args) for kind, args in entries)
    return b"\x02" + b"".join(bytes([len(entry)]) + entry for entry in bodies)


def decode(entry):
    """Kind and arguments of a whole entry, its length byte left out."""
    kind, args, at = entry[0], [], 1
    for width in WIDTHS.get(kind, [1, 1, 1, 4] if kind == WRITE else [1] * (len(entry) - 1)):
        args.append(int.from_bytes(entry[at:at + width], "big"))
        at += width
    return kind, args


def text(n, line):
    return " ".join(str(word) for word in (n, *line)) + "\n"


def expected(data):
    """The text that the directory program must write for these bytes."""
    if not data or data[0] != 2:
        return b"0 15 0\n"
    directory, out, at, n = Directory(), [], 1, 1
    while at < len(data):
        entry = data[at + 1:at + 1 + data[at]]
        if len(entry) < data[at] or not entry or SIZES.get(entry[0]) != len(entry):
            out.append(text(n, (15, 0)))
            break
        out.append(text(n, directory.call(*decode(entry))))
        at, n = at + 1 + len(entry), n + 1
    return "".join(out).encode()


# ---- a script that is played while it is written

class Played:
    """Entries and what the directory in Python answers to them."""

    def __init__(self, slip=None):
        self.entries, self.lines = [], []
        self.directory = Directory(slip=slip)
        self.store = self.directory.store

    def do(self, *entries):
        """The answer to the last of these entries."""
        for kind, args in entries:
            self.entries.append((kind, args))
            self.lines.append(self.directory.call(kind, args))
        return self.lines[-1]

    def room(self, session):
        """The words that an allocation of this session finds free."""
        store = self.store
        halves = [store.current] if store.level[session] <= 2 else [0, 1]
        return min(len(store.half[half]) - store.frontier[half] for half in halves)

    def fill(self, session, left):
        """The session takes all words but so many and keeps none of its records."""
        most = size(255, 255)
        while (words := self.room(session) - left) >= HEADER:
            fields = min(words, most) - HEADER if not most < words < most + HEADER else 400  # never less left than a record needs
            if self.do((ALLOCATE, [session, 7, max(fields - 255, 0), min(fields, 255)]))[0]:
                return


# ---- random scripts

def is_free(kind, args):
    """Whether a store call names neither the directory's session nor its global."""
    return (not args or args[0] != MINE) and not (kind == GET and args[2] == ROOT) and not (kind == PUT and args[1] == ROOT)


def other(rng, sessions, wrong, hunger):
    """A call of another session."""
    while True:
        kind, args = store_scripts.entry(rng, sessions, wrong, hunger)
        if is_free(kind, args):
            return kind, args


class Numbers:
    """The people and groups that the calls of a script name; the same number may be one of each."""

    def __init__(self, rng):
        self.rng = rng
        self.people = [0, LAST] + rng.sample(range(1, 400), rng.choice([3, 12, 60]))
        self.groups = [0, LAST] + rng.sample(range(1, 400), rng.choice([1, 4, 12]))
        self.joins = []

    def one(self, numbers):
        return self.rng.choice([LAST + 1, 2 ** 32 - 1]) if self.rng.random() < 0.01 else self.rng.choice(numbers)

    def join(self):
        self.joins.append([self.one(self.people), self.one(self.groups)])
        return self.joins[-1]

    def leave(self):
        """Mostly who has joined, or tried to."""
        return self.rng.choice(self.joins[-40:]) if self.joins and self.rng.random() < 0.8 else self.join()

    def args(self, kind):
        return {OPEN: list, ADD: lambda: [self.one(self.people)], REMOVE: lambda: [self.one(self.people)], JOIN: self.join,
                MAKE: lambda: [self.one(self.groups)], LEAVE: self.leave,
                LIST: lambda: [self.one(self.groups), self.rng.choice([0, 1, 3, 8, 255])]}[kind]()

    def call(self):
        kind = self.rng.choices([ADD, REMOVE, MAKE, JOIN, LEAVE, LIST, OPEN], [10, 3, 4, 20, 6, 8, 0.3])[0]
        return kind, self.args(kind)


def work(rng, played, numbers, sessions):
    """Directory calls and other sessions' calls, safe points and collector steps, in random order."""
    steps, own, lazy = rng.choice([0.3, 0.5]), rng.choice([0.2, 0.5]), rng.choice([0.2, 0.5])
    wrong, hunger = rng.choice([0.0, 0.05]), rng.choice([1, 2])
    for _ in range(700):
        draw = rng.random()
        if draw < steps:
            played.do(*[(STEP, [])] * rng.choice([1, 2, 6, 15]))
        elif draw < steps + own * (1 - steps):
            played.do(numbers.call())
        elif rng.random() < lazy:
            played.do(*[(SAFE, [session]) for session in range(sessions) if rng.random() < 0.8], (STEP, []))
        elif rng.random() < 0.03:
            full(rng, played, numbers, sessions)
        else:
            played.do(other(rng, sessions, wrong, hunger))


def full(rng, played, numbers, sessions):
    """One session leaves next to no room; then the directory allocates what it can."""
    session = rng.randrange(sessions)
    played.do((SAFE, [session]), (ADD, [LAST + 1]))
    if played.store.attached[session]:
        played.fill(session, rng.choice([0, 3, 5, 6, 7, 10]))
    for kind in rng.sample([ADD, MAKE, JOIN, JOIN, JOIN], 5):
        played.do((kind, numbers.args(kind)))


def random_script(seed, slip=None):
    """The played script of this seed."""
    rng, played = random.Random(seed), Played(slip)
    numbers, sessions = Numbers(rng), rng.choice([1, 2, 2, 3, 5, 15])
    played.do((rng.choice([ADD, REMOVE, MAKE]), [LAST + 1]), *[numbers.call() for _ in range(rng.randrange(3))])
    played.do(*[(ATTACH, [session]) for session in range(sessions) if rng.random() < 0.8], (OPEN, []))
    played.do(*[(MAKE, [group]) for group in numbers.groups if rng.random() < 0.8])
    played.do(*[(ADD, [person]) for person in numbers.people if rng.random() < 0.8])
    work(rng, played, numbers, sessions)
    return played


def crowd(seed):
    """A directory that fills both halves by itself, is collected while it is full, and gives room back."""
    rng, played = random.Random(seed), Played()
    people = rng.sample(range(LAST + 1), 160)
    played.do((OPEN, []), *[(MAKE, [group]) for group in range(6)], *[(ADD, [person]) for person in people])
    while played.do((JOIN, [rng.choice(people), rng.randrange(6)]))[0] != 14:
        if len(played.entries) % 7 == 0:
            played.do(*[(STEP, [])] * 30)
    for round_ in range(12):
        played.do(*[(STEP, [])] * 1500, (ADD, [round_]), (MAKE, [6 + round_]), (REMOVE, [people[round_]]), (LIST, [round_ % 6, 255]))
    return played


def all_removed():
    """All people are removed, most of them as the first entry. A register that still named one of them would keep all that were added
    after it, and another session would find less room when they are collected."""
    played = Played()
    played.do((ATTACH, [0]), (OPEN, []), *[(ADD, [person]) for person in range(100)])
    played.do(*[(REMOVE, [person]) for person in (1, 0, *range(2, 100))])
    for _ in range(9):
        played.do(*[(STEP, [])] * 1000, (SAFE, [0]), (ADD, [LAST + 1]))
    played.do(*[(ALLOCATE, [0, 0, 0, 96])] * 41)
    return played
