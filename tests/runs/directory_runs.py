"""Runs of the directory in Python beside the plain table, with other sessions and the collector between the directory's calls. Every store
call, the directory's own too, is counted and compared as tests/runs/share_runs.py does."""
from collections import Counter

from cases.directory_cases import table_of
from models.directory_model import MINE, Directory
from models.free_store import ALLOCATE, ATTACH, DETACH
from models.table_model import OPEN, Table, fed
from programs.directory_scripts import Numbers, is_free
from programs.explain_tool import need
from runs.birth_runs import collector_calls, session_call

SESSIONS = 3  # beside the directory's


class Counted:
    """A store for the directory: every call goes through its counts."""

    def __init__(self, budget):
        self.budget, self.length = budget, budget.store.length

    def call(self, kind, args):
        return self.budget.do(kind, args)


class Beside:
    """A run of the directory beside the plain table. `own` is how many of its calls are the directory's; half of the others are steps,
    `eager` of them at a time."""

    def __init__(self, rng, budget, own, slip=None):
        self.rng, self.budget, self.own, self.store = rng, budget, own, budget.store
        self.directory, self.table, self.numbers, self.seen = Directory(Counted(budget), slip), Table(), Numbers(rng), Counter()
        self.chosen, self.eager = session_call, 1

    def directory_call(self, kind, args):
        """A call of the directory: the answer is the plain table's, which is fed the refusal of an allocation, and so is what the words
        hold after it. The store's refusal of its allocation is the directory's, by number."""
        before = len(self.budget.entries)
        line = self.directory.call(kind, args)
        for (made, _), (number, _) in zip(self.budget.entries[before:], self.budget.lines[before:]):
            need(made != ALLOCATE or line[0] == number, f"kind {kind} {args}: answered {line}, its allocation {number}")
        want = self.table.call(kind, args, fed(line[0]))
        need(line == want, f"kind {kind} {args}: answered {line}, the plain table answers {want}")
        held = self.table.people, {group: self.table.members(group) for group in self.table.groups}
        need(table_of(self.store) == held, f"kind {kind} {args}: answered {line}; the words hold {table_of(self.store)}, the table {held}")
        self.count(kind, args, line)

    def count(self, kind, args, line):
        """What is to be counted of a directory call, or looked at after it."""

    def other_call(self):
        """A call of another session, which leaves the directory's session and global alone."""
        while True:
            kind, args = self.chosen(self.rng, self.store, SESSIONS, 0.15)
            if is_free(kind, args):
                return self.budget.do(kind, args)

    def close(self):
        """Session 15 detaches, which no call of the directory does: the table is as it was."""
        self.budget.do(DETACH, [MINE])
        self.table.opened = False

    def begin(self, shares, share):
        """The sessions attach and the directory is opened."""
        for s, words in enumerate(shares):
            self.budget.do(ATTACH, [s, words])
        self.directory_call(OPEN, [share])

    def round(self):
        """One directory call, or another session's, or a step with safe points."""
        draw = self.rng.random()
        if draw < self.own:
            self.directory_call(*self.numbers.call())
        elif draw < (1 + self.own) / 2:
            self.other_call()
        else:
            self.collect(self.eager)

    def collect(self, steps):
        """So many steps, with safe points."""
        for _ in range(steps):
            for entry in collector_calls(self.rng, self.store):
                self.budget.do(*entry)
