#!/usr/bin/env python3
"""`tools/load-checksum`: its number is the CRC-32 of the lines that documents 01 and 02 give for the load in Python, and one changed line
makes it another. What is no seed or count, programs that are not there or fail, and lines that can't be those of the load get a message
and status 2, and no number."""
import os
import random
import re
import shutil
import subprocess
import tempfile
import zlib

from models.load_model import MOST, WORD, Workload
from programs import built_programs
from programs.explain_tool import TOP, Programs, need
from programs.load_inputs import VECTORS
from programs.store_scripts import expected

TOOL = os.path.join(TOP, "tools", "load-checksum")
# of the vectors' lines, by the rules as they stand
NUMBERS = [3485814355, 2491000197, 478963043]
REFUSED = 2


def lines_of(seed, count):
    return expected(Workload().script(seed, count))


def ran(tool, *words, **where):
    """Status, output and error output of the tool with these words."""
    done = subprocess.run([tool, *words], stdout=subprocess.PIPE, stderr=subprocess.PIPE, timeout=120, **where)
    return done.returncode, done.stdout.decode(), done.stderr.decode()


def printed(tool, *words):
    status, out, said = ran(tool, *words)
    need(status == 0 and not said and re.fullmatch("[0-9]+\n", out), f"{words}: status {status}, {out!r}, {said!r}")
    return int(out)


class Boxes:
    """Copies of the tool, each with programs of its own."""

    def __init__(self, folder):
        self.folder, self.count = folder, 0

    def tool(self, workload=built_programs.WORKLOAD, script=built_programs.PROGRAM):
        self.count += 1
        top = os.path.join(self.folder, f"box{self.count}")
        os.makedirs(os.path.join(top, "tools"))
        for name, path in (("workload_main", workload), ("script_main", script)):
            built = os.path.join(top, "crates", name, "out")
            os.makedirs(built)
            if path is not None:
                os.symlink(os.path.abspath(path), os.path.join(built, name))
        return shutil.copy(TOOL, os.path.join(top, "tools"))


def numbers(tool):
    """How many numbers are those of the lines in Python, and how many of them differ."""
    rng = random.Random(6)
    asked_for = [(rng.randrange(1, WORD), rng.randrange(400)) for _ in range(40)] + [(1, 0), (WORD, 0), (1, 1), (WORD, 1), (5, MOST)]
    got = []
    for seed, count in asked_for:
        got.append(printed(tool, str(seed), str(count)))
        need(got[-1] == zlib.crc32(lines_of(seed, count)), f"seed {seed}, count {count}: {got[-1]}")
        need(count or got[-1] == 0, f"the checksum of nothing is {got[-1]}")
    for vector, number in zip(VECTORS, NUMBERS, strict=True):
        got.append(printed(tool, str(vector.seed), str(vector.count)))
        need(got[-1] == number == zlib.crc32(lines_of(vector.seed, vector.count)), f"{vector}: {got[-1]}")
    need(printed(tool, "000000000000000000000000000000001", "00020") == NUMBERS[0], "zeros in front change the number")
    need(len(set(got)) > 40, "most numbers are the same")
    return len(got), len(set(got))


def help_and_links(folder):
    """The example of the help, which is the README's too, with what is built here; from another folder, by a link."""
    status, out, said = ran(TOOL, "--help")
    example = re.search(r"tools/load-checksum (\d+) (\d+)\s+prints (\d+)\.", out)
    need((status, said) == (0, "") and example, f"--help prints {out!r}")
    with open(os.path.join(TOP, "README.md"), encoding="utf-8") as page:
        shown = re.search(r"tools/load-checksum (\d+) (\d+)\n.*?here (\d+)\.", page.read(), re.S)
    need(shown and shown.groups() == example.groups(), "the README has another example")
    link = os.path.join(folder, "link")
    os.symlink(os.path.realpath(TOOL), link)
    for tool in (TOOL, link):
        got = ran(tool, example[1], example[2], cwd=folder)
        need(got == (0, f"{example[3]}\n", ""), f"the example of the help gives {got}")


def kept_script(tool, folder):
    """The load in a file, which tools/explain takes; a file that can't be written gives no number."""
    vector, path = VECTORS[1], os.path.join(folder, "kept.script")
    need(printed(tool, str(vector.seed), str(vector.count), "--script", path) == NUMBERS[1], "keeping the load changes the number")
    with open(path, "rb") as file:
        need(file.read() == Workload().script(vector.seed, vector.count), "the file has another load")
    status, out, said = ran(os.path.join(TOP, "tools", "explain"), "--fold", path)
    need((status, said) == (0, "") and f"\nentries run: {vector.count}\n" in out, f"tools/explain ends with {status} and {said!r}")
    got = ran(tool, "1", "20", "--script", os.path.join(folder, "none", "kept.script"))
    need(got[:2] == (REFUSED, "") and "No such file or directory" in got[2], f"a file that can't be written: {got}")


# ---- refusals

def bad_words(tool):
    """Words that are no seed and count. How many those are."""
    no_numbers = ["", "1_000", "+5", "-5", " 5", "5 ", "5\n", "5.0", "0x5", "1e3", "1,000", "five", "٣", "５", "²"]
    too_far = {"seed": ["0", "000", str(WORD + 1), str(WORD + 2), "9" * 5000], "count": [str(MOST + 1), str(WORD), "9" * 5000]}
    for name, range_of in (("seed", f"1 to {WORD}"), ("count", f"0 to {MOST}")):
        for word in no_numbers + too_far[name]:
            got = ran(tool, *([word, "7"] if name == "seed" else ["7", word]))
            reason = f"{word!r} is no decimal number" if word in no_numbers else f"{word[:40]} is not from {range_of}"
            need(got == (REFUSED, "", f"tools/load-checksum: the {name} {reason}\n"), f"{name} {word[:40]!r}: {got}")
    for words in ((), ("7",), ("7", "7", "7"), ("--none", "7", "7")):
        status, out, said = ran(tool, *words)
        need((status, out) == (REFUSED, "") and said.startswith("usage: tools/load-checksum "), f"{words}: {status}, {out!r}, {said!r}")
    return 2 * len(no_numbers) + sum(map(len, too_far.values())) + 4


def bad_programs(boxes, programs):
    """Programs that are not there, fail, or write what can't be the lines of the load. How many boxes those are."""
    plain = os.path.join(programs.folder, "plain")
    open(plain, "w", encoding="utf-8").close()
    good, before = lines_of(1, 20).decode().splitlines(), boxes.count
    first, last = good[0], good[-1]

    def writing(lines, end="exit 0", cut=0):
        text = "".join(f"{line}\n" for line in lines)
        return {"script": programs.writing(text[:len(text) - cut].replace("\n", "\\n"), end)}

    def wrong(line, entry):
        return f"the script program wrote {line.encode()!r} where the line of entry {entry} was due"
    for changed, reason in (
            ({"workload": None}, "the load program crates/workload_main/out/workload_main is not built: run `rt all test` first"),
            ({"script": None}, "the script program crates/script_main/out/script_main is not built: run `rt all test` first"),
            ({"workload": plain}, "the load program crates/workload_main/out/workload_main can't be started: Permission denied"),
            ({"script": plain}, "the script program crates/script_main/out/script_main can't be started: Permission denied"),
            ({"workload": programs.writing("\\001", "exit 3")}, "the load program ended with status 3"),
            (writing(good, "exit 4"), "the script program ended with status 4"),
            (writing(good, "kill -9 $$"), "the script program ended with status -9"),
            ({"workload": programs.writing("")}, wrong("0 15 0", 1)),
            ({"workload": programs.writing("\\001\\001\\016")}, "the script program wrote 1 lines for 20 entries"),
            ({"workload": programs.writing("\\001\\001\\016\\001\\017")}, wrong("2 15 0", 2)),
            (writing([]), "the script program wrote 0 lines for 20 entries"),
            (writing(good[:-1]), "the script program wrote 19 lines for 20 entries"),
            (writing(good + ["21 0 0"]), "the script program wrote 21 lines for 20 entries"),
            (writing(good, cut=1), "the script program broke off within a line"),
            (writing(good[1:]), wrong(good[1], 1)), (writing([first] + good), wrong(first, 2)),
            (writing([good[1], first] + good[2:]), wrong(good[1], 1)), (writing(good[:-1] + ["20 15 0"]), wrong("20 15 0", 20)),
            (writing(good[:-1] + [f"{last} 0"]), wrong(f"{last} 0", 20)), (writing([f"0{first}"] + good[1:]), wrong(f"0{first}", 1)),
            (writing([f"{first} "] + good[1:]), wrong(f"{first} ", 1)), (writing(["1 0 -1"] + good[1:]), wrong("1 0 -1", 1)),
            (writing(["9" * 5000 + " 0 0"]), wrong("9" * 40, 1)), (writing(["", *good]), wrong("", 1))):
        got = ran(boxes.tool(**changed), "1", "20")
        need(got == (REFUSED, "", f"tools/load-checksum: {reason}\n"), f"{reason}: {got}")
    got = ran(boxes.tool(**writing(good)), "1", str(MOST))  # it reads nothing of a load that no pipe holds
    need(got == (REFUSED, "", f"tools/load-checksum: the script program wrote 20 lines for {MOST} entries\n"), f"an unread load: {got}")
    return boxes.count - before


def bad_outputs(tool):
    for end, reason in (("> /dev/full", "writing the number failed: No space left on device"), (">&-", "standard output is closed")):
        got = ran("bash", "-c", f"'{tool}' 1 20 {end}")
        need(got == (REFUSED, "", f"tools/load-checksum: {reason}\n"), f"{end}: {got}")


# ---- that the number tells boxes apart

def changed_lines(boxes, folder):
    """One line with another refusal number or value makes another number: of each line, and by the tool itself of some. How many."""
    vector, number = VECTORS[1], NUMBERS[1]
    lines = lines_of(vector.seed, vector.count).splitlines(keepends=True)
    count = 0
    for at, line in enumerate(lines):
        entry, refusal, value = (int(word) for word in line.split())
        for other in ((6 if refusal != 6 else 11, 0), (0, value + 1), (0, value ^ 1 << 31)):
            text = b"".join([*lines[:at], b"%d %d %d\n" % (entry, *other), *lines[at + 1:]])
            need(zlib.crc32(text) != number, f"line {at + 1} as {other} gives the same number")
            count += 1
            if count % 300 == 1:
                path = os.path.join(folder, f"lines{count}")
                with open(path, "wb") as file:
                    file.write(text)
                with open(f"{path}.sh", "w", encoding="utf-8") as file:
                    file.write(f"#!/bin/sh\nexec cat '{path}'\n")
                os.chmod(f"{path}.sh", 0o755)
                got = printed(boxes.tool(script=f"{path}.sh"), str(vector.seed), str(vector.count))
                need(got == zlib.crc32(text), f"line {at + 1} as {other}: the tool prints {got}")
    return count


def main():
    with tempfile.TemporaryDirectory() as folder:
        boxes, programs = Boxes(folder), Programs(folder)
        tool = boxes.tool()
        count, different = numbers(tool)
        help_and_links(folder)
        kept_script(tool, folder)
        words, others = bad_words(tool), bad_programs(boxes, programs)
        bad_outputs(tool)
        changed = changed_lines(boxes, folder)
    print(f"test_load_checksum: {count} numbers, {different} different, of the vectors {NUMBERS}; {words} bad words, {others} boxes with "
          f"bad programs, {changed} changed lines")


if __name__ == "__main__":
    main()
