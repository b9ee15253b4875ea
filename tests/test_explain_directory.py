#!/usr/bin/env python3
"""`tools/explain` on scripts of the directory program: its words read back are the script's entries and the answers of the directory in
Python; bad scripts and answers that can't be the directory's are told; and the demo prints the day that demo/directory-day.txt has."""
import os
import shutil
import subprocess
import sys
import tempfile

from models.free_store import ALLOCATE, PUT, STORE
from models.table_model import OPEN, ADD, JOIN, LEAVE, LIST, MAKE
from programs.directory_scripts import encode, random_script
from programs.explain_tool import DEMO, DIRECTORY_DAY, TOP, Programs, check_day, need, printed, ran
from programs.explain_words import DIRECTORY_REASONS, read_back, refused_in

sys.path.insert(0, DEMO)
import directory_day  # noqa: E402

# global 31 names a record that names itself, or one without fields
RING = [(OPEN, []), (ALLOCATE, [15, 0, 1, 1]), (STORE, [15, 0, 0, 0]), (PUT, [15, 31, 0]), (ADD, [5]), (ALLOCATE, [15, 0, 0, 0]),
        (PUT, [15, 31, 0]), (ADD, [5])]
LISTS = [(OPEN, []), (MAKE, [2]), (LIST, [2, 1]), (ADD, [5]), (JOIN, [5, 2]), (LIST, [2, 0]), (LIST, [2, 1]), (ADD, [6]), (JOIN, [6, 2]),
         (LIST, [2, 1]), (LIST, [2, 255])]
LIST_ROWS = ["3  directory: list group 2, 1 word lent  -> no members", "6  directory: list group 2, 0 words lent  -> 1 member",
             "7  directory: list group 2, 1 word lent  -> 1 member: 5",
             "10  directory: list group 2, 1 word lent  -> 2 members, the first 1: 5",
             "11  directory: list group 2, 255 words lent  -> 2 members: 5, 6"]
GOOD = encode([(OPEN, [])])
BAD_SCRIPTS = [
    (b"\x01\x01\x10", 1, 1, "there is no kind 16"), (GOOD + b"\x01\x0f", 2, 3, "there is no kind 15"),
    (GOOD + b"\x01\x17", 2, 3, "there is no kind 23"), (GOOD + b"\x04\x11" + bytes(3), 2, 3, "the length byte of add is 5, not 4"),
    (GOOD + b"\x05\x16" + bytes(4), 2, 3, "the length byte of list is 6, not 5"),
    (GOOD + b"\x09\x14" + bytes(7), 2, 3, "the script ends inside it, after 8 of 9 bytes")]
# entries, the lines of a program that is none, and what is said of the last of them
LIES = [
    ([(OPEN, [])], "1 6 0", "answered 6 0 to entry 1, directory: open"),
    ([(OPEN, [])], "1 0 1", "answered 0 1 to entry 1, directory: open"),
    ([(ADD, [7])], "1 25 0", "answered 25 0 to entry 1, directory: add person 7"),
    ([(ADD, [7])], "1 15 0", "answered 15 0 to entry 1, directory: add person 7"),
    ([(ADD, [7])], "1 0 0 7", "wrote b'1 0 0 7\\n' where the line of entry 1 was due"),
    ([(LEAVE, [7, 8])], "1 14 0", "answered 14 0 to entry 1, directory: person 7 leaves group 8"),
    ([(LIST, [8, 2])], "1 24 0", "answered 24 0 to entry 1, directory: list group 8, 2 words lent"),
    ([(LIST, [8, 2])], "1 23 1", "answered 23 1 to entry 1, directory: list group 8, 2 words lent"),
    ([(LIST, [8, 2])], "1 23 0 7", "answered 23 0 7 to entry 1, directory: list group 8, 2 words lent"),
    ([(LIST, [8, 2])], "1 0 3 7", "answered 0 3 7 to entry 1, directory: list group 8, 2 words lent"),
    ([(LIST, [8, 2])], "1 0 1 7 7", "answered 0 1 7 7 to entry 1, directory: list group 8, 2 words lent"),
    ([(LIST, [8, 2])], "1 0 3 7 7 7", "wrote b'1 0 3 7 7 7\\n' where the line of entry 1 was due"),
    ([(LIST, [8, 0])], "1 0 4097", "answered 0 4097 to entry 1, directory: list group 8, 0 words lent"),
    ([(LIST, [8, 1])], "1 0 1 4294967296", "answered 0 1 4294967296 to entry 1, directory: list group 8, 1 word lent")]


def words_of_scripts():
    count, refused = 0, set()
    for entries in [random_script(seed).entries for seed in range(6)] + [RING]:
        rows = read_back(entries, printed("-", data=encode(entries)))
        count, refused = count + len(rows), refused | refused_in(rows)
    need(refused >= set(DIRECTORY_REASONS) | {13, 14}, f"only refusals {refused} were shown")
    rows = printed("-", data=encode(LISTS))
    need([row for row in rows if "list" in row] == LIST_ROWS, f"lists are said as {rows}")
    return count


def bad_scripts():
    for data, entry, place, reason in BAD_SCRIPTS:
        done = ran("-", data=data)
        message = f"tools/explain: bad script: entry {entry}, at byte {place}, can't be read: {reason}; nothing after it was run\n"
        need((done.returncode, done.stderr.decode()) == (1, message), f"{data!r} gives {done.returncode}, {done.stderr!r}")


def lies(programs):
    for entries, line, reason in LIES:
        done = ran("-", data=encode(entries), program=programs.writing(line + "\\n"))
        want = f"tools/explain: the directory program {reason}\n"
        need((done.returncode, done.stderr.decode()) == (2, want), f"{line} gives {done.stderr!r}")
    data = encode([(ADD, [7]), (JOIN, [7, 8]), (MAKE, [8]), (ADD, [9])])
    done = ran("--only", "refused", "-", data=data, program=programs.writing("1 12 0\\n2 4 0\\n3 26 0\\n4 17 0\\n"))
    want = ["1  directory: add person 7  -> refused 12, damaged memory",
            "2  directory: person 7 joins group 8  -> refused 4, the control record is damaged",
            "3  directory: make group 8  -> refused 26, a damaged chain without end",
            "4  directory: add person 9  -> refused 17, more than the directory's share"]
    need(done.stdout.decode().splitlines()[:len(want)] == want, f"damage gives {done.stdout!r}")


def unbuilt(folder):
    """The tool in a repository where nothing is built."""
    shutil.copytree(os.path.join(TOP, "tools"), os.path.join(folder, "tools"))
    done = subprocess.run([os.path.join(folder, "tools", "explain"), "-"], input=GOOD, stdout=subprocess.PIPE, stderr=subprocess.PIPE)
    want = b"tools/explain: the directory program crates/directory_main/out/directory_main is not built: run `rt all test` first\n"
    need((done.returncode, done.stdout, done.stderr) == (2, b"", want), f"unbuilt: {done.stderr!r}")


def the_day():
    """The day in words, and the rows of its script without headings."""
    check_day("directory-day", directory_day.files())
    entries = directory_day.directory_day().entries
    with open(DIRECTORY_DAY, "rb") as file:
        rows = read_back(entries, printed("-", data=file.read()))
    refused = [row for row in rows if "refused" in row]
    need(printed("--only", "refused", "-", data=encode(entries))[:len(refused)] == refused, "--only refused prints something else")
    return rows


def main():
    count = words_of_scripts()
    bad_scripts()
    with tempfile.TemporaryDirectory() as folder:
        lies(Programs(folder))
        unbuilt(folder)
    rows = the_day()
    print(f"test_explain_directory: {count} entries read back from their words, {len(BAD_SCRIPTS)} bad scripts, {len(LIES)} programs that "
          f"are none, a day of {len(rows)} entries")


if __name__ == "__main__":
    main()
