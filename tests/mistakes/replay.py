"""The calls of a run played again on a store with a mistake built in. A run has `entries` and the `store` in Python that it left."""
from models.store_model import Sapphire
from programs.explain_tool import need
from programs.line_checks import faults


def played(run, slip=None):
    """The lines of a store, with a mistake or none, on the calls of a run."""
    store, lines = Sapphire(run.store.length[0], run.store.capacity, slip, run.store.most_births), []
    try:
        for kind, args in run.entries:
            lines.append(store.call(kind, args))
    except IndexError:  # a slip may lead the store out of its halves
        pass
    return lines


def fault_of(run, slip, told):
    """What the collector-free store has against the lines of a run with a mistake that a session can tell, or None; of those that none can
    tell, the line that differs."""
    lines = played(run, slip)
    if told:
        return next(faults(run.entries, lines, most_births=run.store.most_births), None)
    return next((f"entry {n}: {a}, not {b}" for n, (a, b) in enumerate(zip(lines, played(run)), 1) if a != b), None)


def seen_in(runs, slip, told):
    """Where a mistake is first seen, and how; the test fails where it isn't."""
    seen = next((f"random run {seed}, {fault}" for seed, run in enumerate(runs) if (fault := fault_of(run, slip, told))), None)
    need(seen, f"the slip '{slip}' is not seen")
    return seen
