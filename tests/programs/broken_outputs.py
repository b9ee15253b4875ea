"""Runs a program whose output is read slowly, is no longer read or can't be written, and holds what comes out to the right text."""
import os
import resource
import select
import signal
import subprocess
import tempfile
import time
from collections import namedtuple

from programs.explain_tool import need

PAGE = 4096
# in the middle of a write of the program, and of a line
LIMIT = 100 * PAGE + 1234

Source = namedtuple("Source", "program file entries")  # a script in a file, the program that runs it, and how many entries it has


def begin(source, sink, size=resource.RLIM_INFINITY):
    """The program, on a script in a file. No file may grow past `size`. It ignores the signals of a broken pipe and of that limit, so
    that the write fails instead of ending it."""
    def writes_fail():
        signal.signal(signal.SIGPIPE, signal.SIG_IGN)
        signal.signal(signal.SIGXFSZ, signal.SIG_IGN)
        resource.setrlimit(resource.RLIMIT_FSIZE, (size, size))
    source.file.seek(0)
    return subprocess.Popen([source.program], stdin=source.file, stdout=sink, stderr=subprocess.PIPE, preexec_fn=writes_fail)


def end(name, child):
    """Waits for the program, which must end by itself and write nothing to standard error."""
    try:
        complaint = child.communicate(timeout=60)[1]
    except subprocess.TimeoutExpired:
        child.kill()
        need(False, f"{name}: the program does not end")
    need(child.returncode == 0 and not complaint, f"{name}: status {child.returncode}, standard error {complaint[:200]!r}")


def in_file(name, source, size=resource.RLIM_INFINITY):
    """What comes out into a file that may grow up to `size`."""
    with tempfile.TemporaryFile() as sink:
        end(name, begin(source, sink, size))
        sink.seek(0)
        return sink.read()


def read_some(name, source, most):
    """What comes out of a pipe that blocks, up to `most` bytes; then nobody reads it any more."""
    reader, writer = os.pipe()
    child = begin(source, writer)
    os.close(writer)
    got = b""
    while len(got) < most and (part := os.read(reader, 16 * PAGE)):
        got += part
        time.sleep(0.001)
    os.close(reader)
    end(name, child)
    return got


def read_when_full(name, source):
    """What comes out of a pipe that doesn't block, of which three pages are read whenever it is full."""
    reader, writer = os.pipe()
    os.set_blocking(writer, False)
    child = begin(source, writer)
    got = b""
    while child.poll() is None:
        if select.select([], [writer], [], 0)[1]:
            time.sleep(0.001)
        else:
            time.sleep(0.005)  # meanwhile a write of the program fails
            got += os.read(reader, 3 * PAGE)
    os.close(writer)
    while part := os.read(reader, 16 * PAGE):
        got += part
    os.close(reader)
    end(name, child)
    return got


def check(name, got, want, least, most):
    """That these bytes are the beginning of the text, and how many they are."""
    if got != want[:len(got)]:
        wrong = next((i for i in range(len(want)) if got[i] != want[i]), len(want))
        need(False, f"{name}: not the beginning of the text: {got[max(wrong - 20, 0):wrong + 20]!r} at byte {wrong}, "
                    f"which has {want[max(wrong - 20, 0):wrong + 20]!r}")
    need(least <= len(got) <= most, f"{name}: {len(got)} of {len(want)} bytes came out")
    return f"{name} {len(got)}"
