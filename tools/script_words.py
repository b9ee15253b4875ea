"""The entries of a script and the lines of the program that runs it in words: kinds, phases, levels and refusals. Version 1 is the script
program's, document 01; version 2 the directory program's, which has the directory's calls beside those of the store."""
from collections import namedtuple

PHASES = ["Rest", "PreMark1", "PreMark2", "RootMark", "HeapMark", "Allocate", "PreCopy", "Copy", "PreFlip1", "PreFlip2", "RootFlip",
          "StackFlip", "Reclaim"]
LEVELS = [0, 1, 2, 2, 2, 3, 4, 4, 5, 6, 6, 6, 0]

BAD_SCRIPT = 15
REASONS = {
    4: "the control record is damaged", 5: "no such session", 6: "the session is not attached", 7: "the session is attached already",
    8: "no such register", 9: "no such global", 10: "too many fields", 11: "the register is null", 12: "damaged memory",
    13: "no such field", 14: "no room", BAD_SCRIPT: "bad script", 16: "no birth number left", 17: "more than the session's share",
    23: "no such person or group", 24: "there already", 25: "not a member", 26: "a damaged chain without end"}
DIRECTORY_REASONS = REASONS | {6: "the directory is not open", 7: "the directory is open already", 17: "more than the directory's share"}

SCRIPT, DIRECTORY = 1, 2  # version bytes
BYTE, WORD = 1, 4  # bytes of an argument
WORDS = 2 ** 32 - 1  # the highest word
HALF = 4096  # words of a half: no chain of the directory has more links


def counted(number, thing):
    return f"{number} {thing}" if number == 1 else f"{number} {thing}s"


SESSION = {4, 5, 6}  # what every call of a session but attach may be refused with
ALLOCATION = {14, 16, 17}  # what only an allocation may be refused with
RECORD = SESSION | {8, 11, 12, 13}  # and one on the record in a register
CHAINS = {4, 6, 12, 13, 23, 26}  # what every call of the directory but open may be refused with

# bytes of each argument, what is said of them, the refusals that it may meet, and what they mean
Kind = namedtuple("Kind", "name widths words refusals reasons")


def of_session(name, widths, words, refusals):
    """A call of a session: the session is the first argument."""
    return Kind(name, [BYTE] + widths, lambda session, *args: f"session {session}: {words(*args)}", refusals, REASONS)


def of_directory(name, widths, words, refusals):
    """A call of the directory."""
    return Kind(name, widths, lambda *args: f"directory: {words(*args)}", refusals, DIRECTORY_REASONS)


KINDS = {
    1: of_session("attach", [], lambda: "attach", {4, 5, 7}),
    2: of_session("detach", [], lambda: "detach", SESSION),
    3: of_session("safe point", [], lambda: "safe point", SESSION),
    4: of_session("allocate", [BYTE] * 3, lambda to, r, p: f"allocate {counted(r, 'link')}, {counted(p, 'word')} into register {to}",
                  SESSION | ALLOCATION | {8, 10}),
    5: of_session("load", [BYTE] * 3, lambda to, record, field: f"load link {field} of register {record} into register {to}", RECORD),
    6: of_session("store", [BYTE] * 3, lambda record, field, source: f"store register {source} in link {field} of register {record}", RECORD),
    7: of_session("read", [BYTE] * 2, lambda record, field: f"read word {field} of register {record}", RECORD),
    8: of_session("write", [BYTE] * 2 + [WORD], lambda record, field, value: f"write {value} to word {field} of register {record}", RECORD),
    9: of_session("move", [BYTE] * 2, lambda to, source: f"move register {source} to register {to}", SESSION | {8}),
    10: of_session("clear", [BYTE], lambda register: f"clear register {register}", SESSION | {8}),
    11: of_session("same", [BYTE] * 2, lambda a, b: f"same record in registers {a} and {b}?", SESSION | {8, 12}),
    12: of_session("get", [BYTE] * 2, lambda to, place: f"get global {place} into register {to}", SESSION | {8, 9}),
    13: of_session("put", [BYTE] * 2, lambda place, source: f"put register {source} in global {place}", SESSION | {8, 9, 12}),
    14: Kind("step", [], lambda: "collector step", {4, 12}, REASONS),
}
DIRECTORY_KINDS = {
    16: of_directory("open", [], lambda: "open", {4, 7}),
    17: of_directory("add", [WORD], lambda person: f"add person {person}", CHAINS | ALLOCATION | {24}),
    18: of_directory("remove", [WORD], lambda person: f"remove person {person}", CHAINS),
    19: of_directory("make", [WORD], lambda group: f"make group {group}", CHAINS | ALLOCATION | {24}),
    20: of_directory("join", [WORD] * 2, lambda person, group: f"person {person} joins group {group}", CHAINS | ALLOCATION | {24}),
    21: of_directory("leave", [WORD] * 2, lambda person, group: f"person {person} leaves group {group}", CHAINS | {25}),
    22: of_directory("list", [WORD, BYTE], lambda group, lent: f"list group {group}, {counted(lent, 'word')} lent", CHAINS),
}
KINDS_OF = {SCRIPT: KINDS, DIRECTORY: {**KINDS, **DIRECTORY_KINDS}}  # by version

# the entry number, its first byte, its kind, what it asks for, and how many members its line may have
Entry = namedtuple("Entry", "number place kind words lent")


class BadEntry(Exception):
    """An entry that can't be read: the script ends with 15 there."""

    def __init__(self, number, place, reason):
        super().__init__(reason)
        self.number, self.place, self.reason = number, place, reason


def args_of(kind, body):
    """The arguments of a whole entry."""
    args, at = [], 1
    for width in kind.widths:
        args.append(int.from_bytes(body[at:at + width], "big"))
        at += width
    return args


def fault(kinds, length, body):
    """Why an entry with this length byte and these bytes after it can't be read, or None."""
    if length == 0:
        return "its length byte is 0, so it has no kind"
    if body and body[0] not in kinds:
        return f"there is no kind {body[0]}"
    if body and length != 1 + sum(kinds[body[0]].widths):
        kind = kinds[body[0]]
        return f"the length byte of {kind.name} is {1 + sum(kind.widths)}, not {length}"
    if len(body) < length:
        return f"the script ends inside it, after {len(body)} of {counted(length, 'byte')}"
    return None


def kinds_of(version):
    """The kinds of a script with this version byte, or none."""
    versions = " or ".join(str(number) for number in KINDS_OF)
    if not version:
        raise BadEntry(0, 0, f"the script is empty; it must begin with version byte {versions}")
    if version[0] not in KINDS_OF:
        raise BadEntry(0, 0, f"the version byte is {version[0]}, not {versions}")
    return KINDS_OF[version[0]]


def entries(script):
    """The entries of a script, an open file of bytes, one after another; ends with BadEntry where one can't be read."""
    kinds, number, place = kinds_of(script.read(1)), 1, 1
    while length := script.read(1):
        body = script.read(length[0])
        reason = fault(kinds, length[0], body)
        if reason:
            raise BadEntry(number, place, reason)
        kind = kinds[body[0]]
        args = args_of(kind, body)
        yield Entry(number, place, kind, kind.words(*args), args[1] if kind.name == "list" else 0)
        number, place = number + 1, place + 1 + len(body)


def fits(entry, refusal, value, members, phase):
    """Whether a line of the program can be the answer to this entry, with the collector at this phase."""
    name = entry.kind.name
    if refusal:
        return refusal in entry.kind.refusals and value == 0 and not members
    if name == "step":
        return value == (phase + 1) % len(PHASES) or value == phase != 0
    most = {"read": WORDS, "same": 1, "list": HALF}.get(name, 0)
    return value <= most and len(members) == min(value, entry.lent) and all(member <= WORDS for member in members)


def phase_words(phase):
    return f"phase {phase}, {PHASES[phase]}"


def refusal_words(number, reasons=REASONS):
    return f"refused {number}, {reasons[number]}"


def members_words(count, members):
    """How many members a group has, and those that were written."""
    if not members:
        return counted(count, "member") if count else "no members"
    first = "" if len(members) == count else f", the first {len(members)}"
    return f"{counted(count, 'member')}{first}: {', '.join(str(member) for member in members)}"


def answer_words(kind, value, members, phase):
    """What a call that was not refused answered, the collector standing at this phase."""
    if kind.name == "step":
        return phase_words(phase)
    if kind.name == "read":
        return f"reads {value}"
    if kind.name == "same":
        return "yes" if value else "no"
    if kind.name in ("attach", "safe point"):
        return f"done, at level {LEVELS[phase]}"
    return members_words(value, members) if kind.name == "list" else "done"
