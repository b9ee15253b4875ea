#!/usr/bin/env python3
"""The script program and the directory program where their output can't be written: a pipe that doesn't block and whose reader is slow,
a pipe that nobody reads any more, a file that may not grow, a full device. Whatever comes out is the beginning of the right text, and
the program ends: after a write that failed it writes nothing more. On a pipe that blocks a slow reader gets all of the text."""
import os
import sys
import tempfile

from models.free_store import ALLOCATE, ATTACH, READ, STEP, WRITE
from models.table_model import OPEN, ADD, MAKE, JOIN, LIST, LAST
from programs import built_programs, directory_scripts
from programs.broken_outputs import LIMIT, PAGE, Source, begin, check, end, in_file, read_some, read_when_full
from programs.store_scripts import encode

# far more lines than a pipe holds
ENTRIES = 300000
def script():
    turn = [(WRITE, [0, 0, 0, 0xFFFFFFFF]), (READ, [0, 0, 0]), (STEP, [])]
    return [(ATTACH, [0]), (ALLOCATE, [0, 0, 0, 1])] + turn * (ENTRIES // 3)


def directory_script():
    """Long lines: a group of many members, listed again and again, between short ones."""
    people = range(LAST - 200, LAST)
    entries = [(OPEN, []), (MAKE, [1]), *[(ADD, [person]) for person in people], *[(JOIN, [person, 1]) for person in people]]
    return entries + [(LIST, [1, 255]), (STEP, []), (LIST, [1, 40])] * 1500


def sources(folder):
    for name, path, entries, written in (("script program", built_programs.PROGRAM, script(), encode),
                                         ("directory program", built_programs.DIRECTORY, directory_script(), directory_scripts.encode)):
        file = open(os.path.join(folder, name), "w+b")
        file.write(written(entries))
        file.flush()
        yield name, Source(path, file, len(entries))


def lengths(source):
    """Checks every way in which the output may end; how many bytes came out of each."""
    want = in_file("file", source)
    if want.count(b"\n") != source.entries:
        sys.exit(f"test_slow_reader: {want.count(bytes([10]))} lines for {source.entries} entries")
    all_of_it = len(want)
    name = "slow reader"
    yield check(name, read_some(name, source, all_of_it + 1), want, all_of_it, all_of_it)
    name = "slow reader of a pipe that does not block"
    yield check(name, read_when_full(name, source), want, PAGE, all_of_it - 1)
    name = "reader that stops"
    yield check(name, read_some(name, source, 40 * PAGE), want, 40 * PAGE, all_of_it - 1)
    name = "file that may not grow"
    yield check(name, in_file(name, source, LIMIT), want, LIMIT, LIMIT)
    with open("/dev/full", "wb") as full, open("/dev/null", "rb") as empty:
        end("full device", begin(source, full))
        end("full device, empty input", begin(source._replace(file=empty), full))


def main():
    with tempfile.TemporaryDirectory() as folder:
        for name, source in sources(folder):
            print(f"test_slow_reader: {name}: the beginning of the right text, in bytes: {', '.join(lengths(source))}")


if __name__ == "__main__":
    main()
