#!/usr/bin/env python3
"""The programs where a signal interrupts their reads and writes before a byte is moved (EINTR): at the start, in the middle of an entry or
a line, at the end of the input, many times in a row. They write what they write without. A read that fails otherwise ends the input
there, and after a write that fails otherwise there is no other."""
import errno
import random
from collections import Counter, namedtuple

from models.free_store import ALLOCATE, ATTACH, STEP
from models.load_model import asked
from models.store_model import Sapphire
from programs import built_programs, directory_scripts, probe_program, store_scripts, traced_program
from programs.explain_tool import need

MANY = 1000  # interruptions in a row
ERRORS = (errno.EIO, errno.EAGAIN, errno.EBADF)
PAGE = 4096  # the bytes of a buffer of the programs

Case = namedtuple("Case", "name program data")


def probe_cases():
    """Calls one after another, each with all words of the store."""
    store, cases = Sapphire(64, 21).make()[1], b""
    for kind, args in [(ATTACH, [0]), (ALLOCATE, [0, 0, 2, 1]), (STEP, []), (ALLOCATE, [0, 1, 0, 0]), (STEP, [])]:
        cases += probe_program.encode(store, kind, args)
        store.call(kind, args)
    return cases


def cases():
    """Each program with an input that takes it several reads or several writes."""
    directory_entries = directory_scripts.random_script(3).entries
    return [Case("script program", built_programs.PROGRAM, store_scripts.encode(store_scripts.random_script(11, 2000))),
            Case("directory program", built_programs.DIRECTORY, directory_scripts.encode(directory_entries)[:PAGE + 600]),
            Case("load program", built_programs.WORKLOAD, asked(0x12345678, 1500)),
            Case("probe", probe_program.PROGRAM, probe_cases())]


# ---- interruptions

class Interrupted:
    """A plan: before a call is let through it is interrupted as often as `times` says for its number among those of its name; it may then
    move as many bytes as `size` says, all where that is None."""

    def __init__(self, times, size=lambda: None):
        self.times, self.size = times, size
        self.let, self.left = Counter(), {}

    def __call__(self, name, asked, moved):
        call = name, self.let[name]
        if self.left.setdefault(call, self.times(call[1])):
            self.left[call] -= 1
            return -errno.EINTR
        self.let[name] += 1
        return self.size()


def plans():
    rng = random.Random(7)
    yield "the first call of each kind", Interrupted(lambda n: int(n == 0))
    yield "each call, that which meets the end of the input too", Interrupted(lambda n: 1)
    yield f"two calls of each kind {MANY} times in a row", Interrupted(lambda n: MANY if n < 2 else 0)
    yield "between bytes", Interrupted(lambda n: n % 2, lambda: 1)
    for size in (3, 7):
        yield f"after every {size} bytes", Interrupted(lambda n: 1, lambda: size)
    yield "at random", Interrupted(lambda n: rng.choice([0, 0, 1, 9]), lambda: rng.choice([None, 1, 5, 300, PAGE - 1]))


def interruptions(case):
    """How many interruptions the program went on after; each plan's output must be that of a run without any."""
    want, count = built_programs.output(case.data, case.program), 0
    for name, plan in plans():
        got, calls = traced_program.run(case.program, case.data, plan)
        here = sum(answer == -errno.EINTR for _, answer in calls)
        need(here > 0, f"{case.name}: {name}: no call was interrupted")
        need(got == want, f"{case.name}: {name} interrupted: wrote {len(got)} bytes that end in {got[-40:]!r}, not {len(want)} that end in "
             f"{want[-40:]!r}")
        count += here
    return count


# ---- other errors

def failing(which, at, error):
    """A plan: each call of this name is interrupted once, and when so many bytes have been moved it fails with this error; then there
    must be no other."""
    state = {"interrupted": False, "failed": False}

    def plan(name, asked, moved):
        if name != which:
            return None
        need(not state["failed"], f"another {which} after one that failed with {errno.errorcode[error]}")
        state["interrupted"] = not state["interrupted"]
        if state["interrupted"]:
            return -errno.EINTR
        state["failed"] = moved == at
        return -error if moved == at else at - moved
    return plan


def places(size):
    """Some numbers of bytes up to this one."""
    rng = random.Random(size)
    return sorted({at for at in (0, 1, 2, 7, PAGE - 1, PAGE, PAGE + 1, size, *rng.sample(range(size + 1), 3)) if at <= size})


def errors(case):
    """How many reads and writes failed otherwise than by an interruption. What comes out must then be what the input up to there gives,
    or the beginning of the text that was written up to there."""
    want, count = built_programs.output(case.data, case.program), 0
    for which, size in (("read", len(case.data)), ("write", len(want))):
        for n, at in enumerate(places(size)):
            error = ERRORS[n % len(ERRORS)]
            text = built_programs.output(case.data[:at], case.program) if which == "read" else want[:at]
            got, calls = traced_program.run(case.program, case.data, failing(which, at, error))
            need(got == text, f"{case.name}: a {which} that fails after {at} bytes: wrote {got[-40:]!r}, not {text[-40:]!r}")
            count += (which, -error) in calls
    return count


def main():
    if not traced_program.is_allowed():
        print("test_interrupted: NOT TRIED: this machine lets no program be traced")
        return
    told = []
    for case in cases():
        told.append(f"{case.name} {interruptions(case)}")
        if case.name != "probe":  # it goes on with the other parts of a case; the tests alone use it
            told[-1] += f" and {errors(case)} errors"
    print(f"test_interrupted: interruptions that the programs went on after, and errors that they ended at: {', '.join(told)}")


if __name__ == "__main__":
    main()
