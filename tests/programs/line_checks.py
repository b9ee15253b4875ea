"""Holds the lines of a run to the collector-free store, and those of directory calls to the plain table."""
from models import free_store
from models.free_store import SAFE, MOST_BIRTHS, STEP
from models.table_model import OPEN, fed


def said(line):
    return " ".join(str(word) for word in line)


def faults(entries, lines, table=None, most_births=MOST_BIRTHS, feeding=free_store.fed):
    """What is wrong with the lines that were answered to these entries, each (number, value) and, for a list of the directory, the
    members; the first fault first. With a table kinds from 16 on are the directory's, which a run of the store alone hasn't. `feeding`
    says what the collector-free store is fed of a line."""
    free, phase = free_store.Model(most_births), 0
    for n, ((kind, args), line) in enumerate(zip(entries, lines), 1):
        number, value = line[:2]
        if number in (4, 12):
            yield f"entry {n}: refused with {number}"
        if kind == STEP:
            if value not in (phase, (phase + 1) % 13):
                yield f"entry {n}: phase {value} after {phase}"
            phase = value
        elif kind == SAFE:
            if line != (free._session(args[0]), 0):
                yield f"entry {n}: safe point answered {said(line)}"
        elif table and kind >= OPEN:
            want = table.call(kind, args, fed(number))
            if line != want:
                yield f"entry {n}: answered {said(line)}, the plain table answers {said(want)}"
        else:
            want = free.call(kind, args, feeding(kind, number))
            if line != want:
                yield f"entry {n}: answered {said(line)}, the collector-free store answers {said(want)}"
    if len(lines) != len(entries):
        yield f"{len(entries)} entries, {len(lines)} lines"
