"""Calls on a store in Python as cases for the probe program, each with the answer that it must have."""
from cases.limit_cases import changed, setting
from models.free_store import SAFE, STEP
from models.store_model import LEVELS
from programs.probe_program import decode, encode


class Told:
    """`cases` are the calls in their order, with the state before each."""

    def __init__(self, store):
        self.store, self.cases = store, []

    def aside(self, **numbers):
        """A copy of the store, with these numbers."""
        return changed(decode(encode(self.store, STEP, []))[0], setting(**numbers))

    def ask(self, store, want, kind, args):
        """A call, which must be answered so: the number of its case."""
        self.cases.append((f"phase {store.phase}, kind {kind} {args}", encode(store, kind, args)))
        answer = store.call(kind, args)
        assert answer == want, (kind, args, answer, want)
        return len(self.cases) - 1

    def do(self, kind, *args, value=0):
        return self.ask(self.store, (0, value), kind, list(args))

    def refused(self, number, kind, *args):
        return self.ask(self.store, (number, 0), kind, list(args))

    def holds(self, s, share, charge):
        """That a number has this share and this charge."""
        found = self.store.share[s], self.store.charge[s]
        assert found == (share, charge), (s, found, share, charge)

    def safe_points(self):
        """Those of all sessions that have another level than the phase."""
        for s, there in enumerate(self.store.attached):
            if there and self.store.level[s] != LEVELS[self.store.phase]:
                self.do(SAFE, s)

    def to(self, phase):
        """Safe points and steps up to this phase; from this one on through a whole collection."""
        while True:
            self.safe_points()
            self.step()
            if self.store.phase == phase:
                return

    def step(self):
        """A step that does what it has to do; its case says the phase before it."""
        self.cases.append((f"step in phase {self.store.phase}", encode(self.store, STEP, [])))
        assert self.store.call(STEP, [])[0] == 0
