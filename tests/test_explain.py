#!/usr/bin/env python3
"""`tools/explain`: its words read back are the script's entries and the answers of the store in Python, and the demo prints the day that
demo/school-day.txt has, whole and in parts."""
import re
import sys

from models.free_store import ATTACH, ALLOCATE, STEP
from programs.explain_tool import DAY, DEMO, check_day, need, printed, ran
from programs.explain_words import REASONS, read_back, refused_in
from programs.store_scripts import encode, random_script

sys.path.insert(0, DEMO)
import school_day  # noqa: E402

EXAMPLE = "58  session 1: allocate 255 links, 255 words into register 3  -> refused 14, no room"


def words_of_scripts():
    count, kinds, refused = 0, set(), set()
    for seed in range(24):
        script = random_script(seed, 2000)
        rows = read_back(script, printed("-", data=encode(script)))
        count += len(rows)
        kinds |= {kind for kind, _ in script}
        refused |= refused_in(rows)
    need(len(kinds) == 14 and refused == set(REASONS), f"only kinds {kinds} and refusals {refused} were shown")
    full = [(ATTACH, [1])] + [(ALLOCATE, [1, 3, 255, 255])] * 7 + [(STEP, [])] * 49 + [(ALLOCATE, [1, 3, 255, 255])]
    need(printed("-", data=encode(full))[57] == EXAMPLE, "entry 58 is not in the words that were asked for")
    return count


# ---- the demo, and what is printed of it

def the_day():
    check_day("school-day", school_day.files())
    with open(DAY, "rb") as file:
        rows = read_back(school_day.school_day().entries, printed("-", data=file.read()))
    notes = [line for line in printed(DAY) if line and not re.match(r"\d+  ", line)]
    need("by words" in " ".join(notes), "the day has no headings")
    return rows


def parts_of_the_day(rows):
    """The options, on a copy of the script that has no notes beside it."""
    with open(DAY, "rb") as file:
        data = file.read()
    end = printed("--quiet", "-", data=data)
    need(end == printed("-", data=data)[len(rows) + 1:], "--quiet is not the summary alone")
    refused = [row for row in rows if "refused" in row]
    need(len(refused) == 3, f"{len(refused)} entries of the day are refused")
    for words, shown in ((["--only", "refused"], refused), (["--from", "60", "--to", "64"], rows[59:64]), (["--from", "300"], rows[299:]),
                         (["--to", "3"], rows[:3]), (["--only", "refused", "--from", "59", "--to", "303"], refused[1:2]),
                         (["--from", "76", "--to", "79", "--fold"], rows[75:79])):
        need(printed(*words, "-", data=data) == shown + [""] + end, f"{words} prints something else")
    need(printed("--from", "214", "--to", "214", DAY)[1].startswith("One record through its two copies."), "no heading before entry 214")


def progress():
    """Twice in 40,000 entries, and not again for the bad one after them."""
    script = random_script(1, 40000)
    done = ran("--quiet", "-", data=encode(script) + b"\x00")
    said = done.stderr.decode().splitlines()
    need(done.returncode == 1 and len(said) == 3, f"progress is {said}")
    need(all(re.fullmatch(rf"tools/explain: {n}0000 entries, {part} in 100 of the script", line)
             for n, part, line in ((2, "[45].", said[0]), (4, "99", said[1]))), f"progress is {said}")
    need(done.stdout.decode().splitlines()[0] == "entries run: 40000", "the summary counts something else")


def main():
    count = words_of_scripts()
    rows = the_day()
    parts_of_the_day(rows)
    progress()
    print(f"test_explain: {count} entries read back from their words, a day of {len(rows)} entries")


if __name__ == "__main__":
    main()
