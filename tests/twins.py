#!/usr/bin/env python3
"""The twins of the must-fail edits. `python3 tests/twins.py [CRATE...]` proves them.

A must-fail edit (crates/CRATE/must-fail/NAME.edit) shows something only if it is refused for what it says and not for how it is
written. So each edit has a twin: a text of the same form with the right values in it, which must be proved.

Two texts have the same form if they have the same number of tokens and wherever these differ each is a value: a name or a number, but
no word of the language; a field (`.name`) only for a field. Brackets and operators are the same. The whole files are compared,
before and after the edit.

- Where an edit keeps the form of the source, its twin is the source, which every check proves.
- Every other edit has a twin file, tests/twins/CRATE/NAME.edit: the same `file:` and `old:` lines with other `new:` lines. The text
  that it makes must have the form of the one that the edit makes. It is made in a copy of the crate and of those below it, where
  `rt check` must prove it. All twins of a crate are made in one copy, one after another, so that what none of them changes is proved
  once; `rt check` begins there with what checks in other copies on this machine kept.

tests/test_twins.py, one of the tests, looks at all of this, but proves only the twins of the crates in QUICK."""
import functools
import glob
import os
import re
import shutil
import subprocess
import sys
import tempfile

ROOT = os.path.dirname(os.path.dirname(os.path.abspath(__file__)))
QUICK = ("rules", "directory_rules")  # proved in seconds; any other crate takes up to minutes
# a bracket, comma, semicolon or the dots of a range; else all up to the next one or to white space
TOKEN = re.compile(r"[()\[\]{},;]|\.\.=?|(?:(?!\.\.)[^\s()\[\]{},;])+")
PATH = re.compile(r"(?:^|\.)[A-Z]")  # in a name with the module that it stands in
FIELD = re.compile(r"(?<=[\w'])(?=\.[a-z_])")  # where the field of a name begins
VALUE = re.compile(r"(\.?)\w(?:[\w.:'-]*[\w'])?")
WORDS = set("do let in if else match while return record where use as mod module fn mut pub abbrev unfoldable unfolding cond λ".split())


class Bad(Exception):
    """What is wrong with an edit or its twin."""


def read(path):
    """The replacements of an edit file, as rt reads it: (file, old, new)."""
    replacements, file, old = [], None, None
    with open(path, encoding="utf-8") as lines:
        for line in lines.read().split("\n"):
            if line.startswith("file: "):
                file = line[len("file: "):]
            elif line.startswith("old: "):
                old = line[len("old: "):]
            elif line.startswith("new:"):
                replacements.append((file, old, line[len("new:"):].removeprefix(" ")))
                old = None
    if not replacements:
        raise Bad("it has no 'old:' and 'new:' pair")
    return replacements


def edited(crate, replacements):
    """Each file that the replacements name: its text before them and after them."""
    before, after = {}, {}
    for file, old, new in replacements:
        if file not in before:
            with open(os.path.join(ROOT, "crates", crate, file), encoding="utf-8") as text:
                before[file] = after[file] = text.read()
        if not old or after[file].count(old) != 1:
            raise Bad(f"{file} has not exactly one place with: {old}")
        after[file] = after[file].replace(old, new)
    return before, after


def is_exchange(a, b):
    """Whether one token stands for the other as one value for another."""
    kinds = [VALUE.fullmatch(token) for token in (a, b)]
    return all(kinds) and kinds[0][1] == kinds[1][1] and not WORDS & {a, b}


def tokens(text):
    """The tokens of a text; a field of a name is one of its own."""
    return [part for token in TOKEN.findall(text) for part in ([token] if PATH.search(token) else FIELD.split(token))]


def same_form(some, others):
    """Whether two states of the same files differ in values alone."""
    for file in some:
        pair = tokens(some[file]), tokens(others[file])
        if len(pair[0]) != len(pair[1]) or not all(a == b or is_exchange(a, b) for a, b in zip(*pair)):
            return False
    return True


def edit_path(crate, name):
    return os.path.join(ROOT, "crates", crate, "must-fail", name + ".edit")


def twin_of(crate, name):
    """The twin of an edit: None for the source, else the replacements of its twin file."""
    edit = read(edit_path(crate, name))
    path = os.path.join(ROOT, "tests", "twins", crate, name + ".edit")
    source, wrong = edited(crate, edit)
    if wrong == source:
        raise Bad("it changes nothing")
    if same_form(source, wrong):
        if os.path.exists(path):
            raise Bad("it keeps the form of the source and needs no twin file")
        return None
    if not os.path.exists(path):
        raise Bad("it changes the form of the source and has no twin file")
    twin = read(path)
    if [r[:2] for r in twin] != [r[:2] for r in edit]:
        raise Bad("its twin file has other 'file:' or 'old:' lines")
    right = edited(crate, twin)[1]
    if right == wrong or not same_form(right, wrong):
        raise Bad("its twin file is not the same edit with other values")
    return twin


def edits(crates=()):
    """(crate, name) of every must-fail edit, of these crates or of all."""
    paths = sorted(glob.glob(os.path.join(ROOT, "crates", "*", "must-fail", "*.edit")))
    pairs = [(path.split(os.sep)[-3], os.path.basename(path).removesuffix(".edit")) for path in paths]
    return [pair for pair in pairs if not crates or pair[0] in crates]


def strays():
    """The twin files of no edit."""
    paths = glob.glob(os.path.join(ROOT, "tests", "twins", "**"), recursive=True)
    wanted = {os.path.join(ROOT, "tests", "twins", crate, name + ".edit") for crate, name in edits()}
    return sorted(os.path.relpath(path, ROOT) for path in paths if os.path.isfile(path) and path not in wanted)


def below(crate):
    """The crates of the repository that a crate is built on, by crates.txt."""
    with open(os.path.join(ROOT, "crates.txt"), encoding="utf-8") as text:
        asked = dict(re.findall(r"^(\w+):([^#\n]*)", text.read(), re.M))
    names = [name for name in asked[crate].split() if name in asked]
    return {*names, *(lower for name in names for lower in below(name))}


@functools.cache
def copy_of(crate):
    """A copy of a crate and of those below it, with their lines of crates.txt; it goes when this program ends."""
    copy, names = tempfile.TemporaryDirectory(), {crate, *below(crate)}
    with open(os.path.join(ROOT, "crates.txt"), encoding="utf-8") as text, open(os.path.join(copy.name, "crates.txt"), "w", encoding="utf-8") as out:
        out.writelines(line for line in text if line.partition(":")[0] in names)
    for name in names:
        shutil.copytree(os.path.join(ROOT, "crates", name), os.path.join(copy.name, "crates", name), ignore=shutil.ignore_patterns("must-fail", "out"))
    return copy


def write(folder, texts):
    for file, text in texts.items():
        with open(os.path.join(folder, file), "w", encoding="utf-8") as out:
            out.write(text)


def prove(crate, twin):
    """Makes the twin in a copy of its crate and has it proved there; raises Bad with the first error."""
    copy = copy_of(crate).name
    folder = os.path.join(copy, "crates", crate)
    source, right = edited(crate, twin)
    write(folder, right)
    done = subprocess.run(["rt", "check"], cwd=folder, stdout=subprocess.PIPE, stderr=subprocess.STDOUT, text=True)
    write(folder, source)
    if done.returncode != 0:
        lines = [line for line in done.stdout.split("\n") if ": error" in line] or done.stdout.strip().split("\n")[-1:]
        raise Bad("its twin is not proved: " + lines[0].replace(copy + os.sep, "")[:300])


def look(crates=(), proved=None):
    """Says of every edit, of these crates or of all, what its twin is, and proves the twin files of the crates in `proved`, or all; how
    many edits passed and how many failed, and how many twin files were proved."""
    passed = failed = proofs = 0
    for crate, name in edits(crates):
        try:
            twin = twin_of(crate, name)
            proving = twin is not None and (proved is None or crate in proved)
            if proving:
                prove(crate, twin)
        except Bad as bad:
            failed += 1
            print(f"{crate}/{name}: FAILED: {bad}", flush=True)
        else:
            passed, proofs = passed + 1, proofs + proving
            print(f"{crate}/{name}: " + ("the source" if twin is None else "its twin file" + ", proved" * proving), flush=True)
    for stray in strays():
        failed += 1
        print(f"{stray}: FAILED: no edit has this twin file", flush=True)
    return passed, failed, proofs


def main():
    crates = sys.argv[1:]
    for crate in crates:
        if not edits([crate]):
            sys.exit(f"twins: the crate {crate} has no must-fail edit")
    passed, failed, proofs = look(crates)
    print(f"{passed} twins passed, {proofs} of them proved here, {failed} failed")
    sys.exit(1 if failed else 0)


if __name__ == "__main__":
    main()
