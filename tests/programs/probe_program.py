"""Cases for the probe program (crates/probe), or the program that the environment names as PROBE_PROGRAM: one call on a store of
which every number and every word is given, and all that comes out.

A case in 32-bit words, big-endian: kind and four arguments of the call, the three lent lengths, the control record, eight pairs of field
number and register, which are 0 where the call stores no links, then the words of half 0, half 1 and the list. A reply: refusal number,
value in two words, the control record, the words of both halves and the list, then a count and that many words of a stretch. A control
record: current half; in two words each lengths, frontiers, phase, walk place, walk field, and the list's place and end; 32 globals; for
each session its registers, level, share and charge, and whether it is attached and scanned; the birth numbers used.

A call of the directory has 100 and the kind that it has in a directory script, and the arguments that it has there. Attach has its share
for a second argument, and open for its only one. In the place of a stretch a directory call's reply has the words that a list was lent:
1000, 1001 and so on, where the list has not written.
"""
import os
import struct
import subprocess

from models import table_model
from models.directory_model import Directory
from models.free_store import ATTACH, LINKS, MOST_LINKS, share_in
from models.store_model import BIRTH, COMPANION, STRETCH, Sapphire
from programs.built_programs import built
from programs.store_scripts import ARGUMENTS

PROGRAM = os.environ.get("PROBE_PROGRAM", built("probe"))
MAKE = 0
OPEN, ADD, REMOVE, MAKE_GROUP, JOIN, LEAVE, LIST = range(100 + table_model.OPEN, 100 + table_model.LIST + 1)
MOST_LENT = 64  # words that a list may be lent
COUNTS = {MAKE: 0, **ARGUMENTS, ATTACH: 2, STRETCH: 2, COMPANION: 2, BIRTH: 2, LINKS: 3,  # of arguments, for each kind, without pairs
          OPEN: 1, ADD: 1, REMOVE: 1, MAKE_GROUP: 1, JOIN: 2, LEAVE: 2, LIST: 2}
BEFORE_SHARE = {ATTACH: 1, OPEN: 0}  # arguments before the share, which may be left out where it is the whole one
CALL = struct.Struct(">8I")
RECORD = struct.Struct(">I10Q32I208II")
FIRST, EACH = 43, 13  # where the sessions begin among the numbers of a control record, and the words of each
PAIRS = struct.Struct(f">{2 * MOST_LINKS}I")
MEMORY = CALL.size + RECORD.size + PAIRS.size  # where the lent words of a case begin
ANSWER = struct.Struct(">IQ")


def words(values):
    return struct.pack(f">{len(values)}I", *values)


def record(store):
    """The control record of a store."""
    numbers = [store.current, *store.length, store.capacity, *store.frontier, store.phase, store.place, store.field, store.head, store.tail,
               *store.globals]
    for registers, others in zip(store.registers, zip(store.level, store.share, store.charge, store.attached, store.scanned)):
        numbers += registers
        numbers += others
    return RECORD.pack(*numbers, store.births)


def memory(store):
    """The lent words of a store."""
    return words(store.half[0] + store.half[1] + store.list)


def given(store):
    """The control record and the lent words of a store, as a reply has them."""
    return record(store) + memory(store)


def unchanged(case):
    """The same of a case."""
    return case[CALL.size:CALL.size + RECORD.size] + case[MEMORY:]


def encode(store, kind, args):
    if kind in BEFORE_SHARE:
        args = [*args[:BEFORE_SHARE[kind]], share_in(args[BEFORE_SHARE[kind]:])]
    pairs = PAIRS.pack(*[*args[COUNTS[kind]:], *[0] * 2 * MOST_LINKS][:2 * MOST_LINKS])
    args = [*args[:COUNTS[kind]], 0, 0, 0, 0][:4]
    return CALL.pack(kind, *args, len(store.half[0]), len(store.half[1]), len(store.list)) + record(store) + pairs + memory(store)


def decode(case, slip=None):
    """The store, kind and arguments of a case."""
    kind, *rest = CALL.unpack_from(case)
    length0, length1, capacity = rest[4:]
    numbers = list(RECORD.unpack_from(case, CALL.size))
    lent_words = list(struct.unpack_from(f">{length0 + length1 + capacity}I", case, MEMORY))
    store = Sapphire(0, 0, slip)
    store.current, store.length, store.capacity, store.frontier = numbers[0], numbers[1:3], numbers[3], numbers[4:6]
    store.phase, store.place, store.field, store.head, store.tail = numbers[6:11]
    store.globals, store.births = numbers[11:FIRST], numbers[-1]
    sessions = numbers[FIRST:-1]
    store.registers = [sessions[at:at + 8] for at in range(0, len(sessions), EACH)]
    store.level, store.share, store.charge = sessions[8::EACH], sessions[9::EACH], sessions[10::EACH]
    store.attached, store.scanned = list(map(bool, sessions[11::EACH])), list(map(bool, sessions[12::EACH]))
    store.half = [lent_words[:length0], lent_words[length0:length0 + length1]]
    store.list = lent_words[length0 + length1:]
    pairs = PAIRS.unpack_from(case, CALL.size + RECORD.size) if kind == LINKS else []
    return store, kind, [*rest[:COUNTS.get(kind, 0)], *pairs]


def after(case, reply):
    """The store that a reply to a case leaves."""
    left, end = reply[ANSWER.size:], RECORD.size
    return decode(case[:CALL.size] + left[:end] + bytes(PAIRS.size) + left[end:])[0]


def lent(kind, args):
    """The words that a case lends for a list, before the call."""
    return list(range(1000, 1000 + args[1])) if kind == LIST else []


def ask_directory(store, kind, args, slip=None):
    """Refusal number and value of a directory call, and the words for a list as it leaves them."""
    directory = Directory(store, slip)
    answer = directory.call(kind - 100, args)
    out = lent(kind, args)
    return answer[:2], directory.written + out[len(directory.written):]


def ask(store, kind, args, slip=None):
    """Refusal number and value of any call but making, and the words that it hands out. A stretch has no number."""
    if kind == STRETCH:
        return (0, 0), store.stretch(*args)
    if kind >= OPEN:
        return ask_directory(store, kind, args, slip)
    return store.call(kind, args), []


def expected(case, slip=None):
    """What documents 01 and 02 give for a case, by the store and the directory in Python, as the bytes of the reply."""
    store, kind, args = decode(case, slip)
    if kind == MAKE:
        number, store = store.make()
        answer, part = (number, 0), []
    else:
        answer, part = ask(store, kind, args, slip)
    return ANSWER.pack(*answer) + given(store) + words([len(part), *part])


def run(data):
    """What the program writes on these bytes; it must end well and write nothing to standard error."""
    done = subprocess.run([PROGRAM], input=data, stdout=subprocess.PIPE, stderr=subprocess.PIPE, timeout=120)
    if done.returncode != 0 or done.stderr:
        raise SystemExit(f"the program ended with status {done.returncode} and wrote to standard error: {done.stderr[:200]}")
    return done.stdout


def told(reply):
    """A reply in words for a reader."""
    return f"{ANSWER.unpack_from(reply)}, {struct.unpack(f'>{len(reply[12:]) // 4}I', reply[12:])}"


def place(a, b):
    """The first word in which two replies differ."""
    at = next((i for i in range(0, min(len(a), len(b)), 4) if a[i:i + 4] != b[i:i + 4]), min(len(a), len(b)))
    return at // 4


def answered(cases):
    """Runs the program on the cases. Each case with its reply, which must be the documents' to the last word."""
    written = run(b"".join(case for _, case in cases))
    at = 0
    for name, case in cases:
        want = expected(case)
        got = written[at:at + len(want)]
        if got != want:
            raise SystemExit(f"probe: {name}: the reply differs from the documents' in word {place(got, want)}:\n{told(got)}\n{told(want)}")
        at += len(want)
        yield case, want
    if at != len(written):
        raise SystemExit(f"probe: the program wrote {len(written)} bytes, not {at}")
