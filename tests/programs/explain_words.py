"""Reads the words of tools/explain back into entries and compares them, and the summary, with the store and the directory in Python."""
import re
from collections import Counter

from models.collector_model import LEVELS, PHASES
from models.directory_model import Directory
from models.free_store import ATTACH, DETACH, SAFE, ALLOCATE, LOAD, STORE, READ, WRITE, MOVE, CLEAR, SAME, GET, PUT, STEP
from models.table_model import OPEN, ADD, REMOVE, MAKE, JOIN, LEAVE, LIST
from programs.explain_tool import need

# the words of each kind, with the order in which they name a script's arguments
WORDS = [
    (ATTACH, r"session (\d+): attach", [0]), (DETACH, r"session (\d+): detach", [0]), (SAFE, r"session (\d+): safe point", [0]),
    (ALLOCATE, r"session (\d+): allocate (\d+) links?, (\d+) words? into register (\d+)", [0, 3, 1, 2]),
    (LOAD, r"session (\d+): load link (\d+) of register (\d+) into register (\d+)", [0, 3, 2, 1]),
    (STORE, r"session (\d+): store register (\d+) in link (\d+) of register (\d+)", [0, 3, 2, 1]),
    (READ, r"session (\d+): read word (\d+) of register (\d+)", [0, 2, 1]),
    (WRITE, r"session (\d+): write (\d+) to word (\d+) of register (\d+)", [0, 3, 2, 1]),
    (MOVE, r"session (\d+): move register (\d+) to register (\d+)", [0, 2, 1]),
    (CLEAR, r"session (\d+): clear register (\d+)", [0, 1]),
    (SAME, r"session (\d+): same record in registers (\d+) and (\d+)\?", [0, 1, 2]),
    (GET, r"session (\d+): get global (\d+) into register (\d+)", [0, 2, 1]),
    (PUT, r"session (\d+): put register (\d+) in global (\d+)", [0, 2, 1]), (STEP, r"collector step", []),
    (OPEN, r"directory: open", []), (ADD, r"directory: add person (\d+)", [0]), (REMOVE, r"directory: remove person (\d+)", [0]),
    (MAKE, r"directory: make group (\d+)", [0]), (JOIN, r"directory: person (\d+) joins group (\d+)", [0, 1]),
    (LEAVE, r"directory: person (\d+) leaves group (\d+)", [0, 1]), (LIST, r"directory: list group (\d+), (\d+) words? lent", [0, 1])]
REASONS = {5: "no such session", 6: "the session is not attached", 7: "the session is attached already", 8: "no such register",
           9: "no such global", 11: "the register is null", 13: "no such field", 14: "no room"}
DIRECTORY_REASONS = {6: "the directory is not open", 7: "the directory is open already", 23: "no such person or group",
                     24: "there already", 25: "not a member", 26: "a damaged chain without end"}


def entry_of(words):
    for kind, pattern, order in WORDS:
        found = re.fullmatch(pattern, words)
        if found:
            return kind, [int(found.group(place + 1)) for place in order]
    return need(False, f"{words!r} is no entry")


def refusal_words(kind, number):
    return f"refused {number}, {(REASONS | DIRECTORY_REASONS if kind >= OPEN else REASONS)[number]}"


def list_words(count, *members):
    """What a row must say of a list."""
    said = {0: "no members", 1: "1 member"}.get(count, f"{count} members")
    first = f", the first {len(members)}" if len(members) < count else ""
    return f"{said}{first}: {', '.join(str(member) for member in members)}" if members else said


def answer_words(kind, answer, phase):
    """What a row must say of this answer of the directory in Python, the collector standing at this phase."""
    number, value = answer[:2]
    if number:
        return refusal_words(kind, number)
    if kind == STEP:
        return f"phase {value}, {PHASES[value]}"
    if kind in (ATTACH, SAFE):
        return f"done, at level {LEVELS[phase]}"
    return list_words(*answer[1:]) if kind == LIST else {READ: f"reads {value}", SAME: "yes" if value else "no"}.get(kind, "done")


def read_back(script, lines):
    """Compares the rows of a script, and the summary after them, with the script and the directory in Python. Returns the rows."""
    rows, empty, summary = lines[:len(script)], lines[len(script)], lines[len(script) + 1:]
    directory, refusals = Directory(), Counter()
    store = directory.store
    for n, ((kind, args), row) in enumerate(zip(script, rows), 1):
        answer = directory.call(kind, args)
        said = answer_words(kind, answer, store.phase)
        refusals[answer[0], said] += answer[0] > 0
        want = f"{n}  {{}}  -> {said}"
        words = row.split("  ")[1]
        need(row == want.format(words), f"entry {n}: {row!r} should be {want!r}")
        need(entry_of(words) == (kind, list(args)), f"entry {n}: {row!r} should be {kind} {args}")
    counts = [f"{said}: {times}" for (_, said), times in sorted((+refusals).items())] or ["refused: none"]
    want = [f"entries run: {len(script)}", *counts, f"collections that ended: {store.collections}",
            f"the collector is at phase {store.phase}, {PHASES[store.phase]}"]
    need(empty == "" and summary == want, f"the summary is {summary}, not {want}")
    return rows


def refused_in(rows):
    """The refusal numbers that rows have."""
    return {int(row.split("refused ")[1].split(",")[0]) for row in rows if "refused" in row}
