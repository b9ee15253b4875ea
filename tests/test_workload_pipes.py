#!/usr/bin/env python3
"""The load program where its input comes in parts or late, and where its output is read slowly or can't be written. How the eight
bytes come makes no difference, and before the input ends nothing is written; a slow reader gets all of the load; where a write fails,
what came out is a beginning of it, and the program ends soon."""
import fcntl
import os
import random
import subprocess
import tempfile
import time

from models.load_model import Workload, asked
from programs import built_programs
from programs.broken_outputs import LIMIT, PAGE, Source, begin, check, end, in_file, read_some, read_when_full
from programs.explain_tool import need
from programs.load_inputs import VECTORS

LATE = 0.25  # seconds in which a program that doesn't wait would have written
SOON = 10  # seconds within which a program has ended that can't write


# ---- input

def started():
    return subprocess.Popen([built_programs.WORKLOAD], stdin=subprocess.PIPE, stdout=subprocess.PIPE, stderr=subprocess.PIPE, bufsize=0)


def ended(child, name, want):
    """Ends the input. The program must then write this load and end well."""
    got, complaint = child.communicate(timeout=60)
    need((child.returncode, complaint) == (0, b""), f"{name}: status {child.returncode}, {complaint[:200]!r}")
    need(got == want, f"{name}: wrote {got[:40].hex(' ')}, {len(got)} bytes, not {want[:40].hex(' ')}, {len(want)} bytes")


def sent(child, part):
    try:
        child.stdin.write(part)
    except BrokenPipeError:  # it has more than eight bytes already and need not read the others
        pass


def in_parts(parts, pause):
    child = started()
    for part in parts:
        sent(child, part)
        time.sleep(pause)
    data = b"".join(parts)
    ended(child, f"{data[:20].hex(' ')} in {len(parts)} parts", Workload().output(data))


def parts_of_input():
    """Byte by byte, and in two parts; lengths around eight, which alone gives a load. How many inputs that are."""
    count = 0
    for seed, length in ((1, 20), (0x12345678, 300), (0xFEDCBA98, 1000)):
        whole = asked(seed, length) + b"\x00\x01\xff"
        for size in range(6, 12):
            in_parts([bytes([byte]) for byte in whole[:size]], 0.005)
        for size in (7, 8, 9):
            for cut in range(size + 1):
                in_parts([whole[:cut], whole[cut:size]], 0.01)
        count += 6 + 8 + 9 + 10
    return count


def end_awaited():
    """After eight bytes the program waits: for the end, which makes it write, or for a ninth byte, however late."""
    data = asked(1, 5)
    waiting = [(name, late, started()) for name, late in (("end", b""), ("ninth byte", b"\x00"), ("byte after byte", bytes(9)))]
    for _, _, child in waiting:
        sent(child, data)
        os.set_blocking(child.stdout.fileno(), False)
    time.sleep(LATE)
    for name, late, child in waiting:
        need(child.poll() is None and child.stdout.read(1) is None, f"late {name}: it doesn't wait for the end of the input")
        os.set_blocking(child.stdout.fileno(), True)
        for at in range(len(late)):
            sent(child, late[at:at + 1])
        ended(child, f"late {name}", Workload().output(data + late))
    return len(waiting)


def other_inputs(folder):
    """A file, one that is longer, one that never ends, and one that can't be read, which is as an empty one."""
    path = os.path.join(folder, "asked")
    with open(path, "wb") as file:
        file.write(asked(7, 900))
    for name, want in ((path, Workload().output(asked(7, 900))), (built_programs.PROGRAM, b""), ("/dev/zero", b""), (folder, b""),
                       (os.devnull, b"")):
        source = os.open(name, os.O_RDONLY)
        done = subprocess.run([built_programs.WORKLOAD], stdin=source, stdout=subprocess.PIPE, stderr=subprocess.PIPE, timeout=60)
        os.close(source)
        need((done.returncode, done.stdout, done.stderr) == (0, want, b""), f"input {name}: {done.returncode}, {len(done.stdout)} bytes")


# ---- output

def read_in_bits(name, source):
    """What comes out of a pipe of one page that is read a few bytes at a time."""
    rng = random.Random(4)
    reader, writer = os.pipe()
    fcntl.fcntl(writer, fcntl.F_SETPIPE_SZ, PAGE)
    child = begin(source, writer)
    os.close(writer)
    got = b""
    while part := os.read(reader, rng.choice([1, 7, 100, 1000, 3000])):
        got += part
        time.sleep(0.001)
    os.close(reader)
    end(name, child)
    return got


def after_a_failed_write(name, source):
    """What comes out of a pipe that doesn't block and has room for the short last piece of the load, but not for the one before it."""
    reader, writer = os.pipe()
    fcntl.fcntl(writer, fcntl.F_SETPIPE_SZ, PAGE)
    os.set_blocking(writer, False)
    taken = os.write(writer, bytes(3000))
    end(name, begin(source, writer))
    os.close(writer)
    got = b""
    while part := os.read(reader, PAGE):
        got += part
    os.close(reader)
    return got[taken:]


def fails_at_once(name, source, sink):
    """The program with an output to which nothing can be written."""
    first = time.monotonic()
    end(name, begin(source, sink))
    need(time.monotonic() - first < SOON, f"{name}: the program ends late")


def source_of(folder, seed, count):
    file = open(os.path.join(folder, f"{seed} {count}"), "w+b")
    file.write(asked(seed, count))
    file.flush()
    return Source(built_programs.WORKLOAD, file, count)


def outputs(folder):
    """Checks the ways in which the output may be read or fail; how many bytes came out of each."""
    seed, count = VECTORS[-1].seed, VECTORS[-1].count
    source, want = source_of(folder, seed, count), Workload().script(seed, count)
    all_of_it = len(want)
    yield check("load in a file", in_file("load in a file", source), want, all_of_it, all_of_it)
    name = "slow reader"
    yield check(name, read_in_bits(name, source), want, all_of_it, all_of_it)
    name = "slow reader of a pipe that does not block"
    yield check(name, read_when_full(name, source), want, PAGE, all_of_it - 1)
    name = "reader that stops"
    yield check(name, read_some(name, source, 20 * PAGE), want, 20 * PAGE, all_of_it - 1)
    name = "file that may not grow"
    yield check(name, in_file(name, source, LIMIT), want, LIMIT, LIMIT)
    for seed in range(1, 13):
        short, name = Workload().script(seed, 1000), f"load of seed {seed} after a write that failed"
        need(PAGE < len(short) < PAGE + 1000, f"{name}: it has {len(short)} bytes")
        check(name, after_a_failed_write(name, source_of(folder, seed, 1000)), short, 0, PAGE)
    with open("/dev/full", "wb") as full:
        fails_at_once("full device", source, full)
    reader, writer = os.pipe()
    os.close(reader)
    fails_at_once("reader that has closed", source, writer)
    os.close(writer)


def main():
    with tempfile.TemporaryDirectory() as folder:
        count = parts_of_input() + end_awaited()
        other_inputs(folder)
        came = ", ".join(outputs(folder))
    print(f"test_workload_pipes: {count} inputs in parts or late; of the load, in bytes: {came}")


if __name__ == "__main__":
    main()
