#!/usr/bin/env python3
"""The documents name what is there. Of every page but the notes in docs/changes, docs/PORT.md and docs/DESIGN-PASS.md, which tell of
their own time: links, their headings and the names beside them; paths, file names and other names in backquotes or in a command; must-fail edits; points of
docs/DECISIONS.md, which are numbered one after another. That a name or a point is the one that is meant, only a reader sees."""
import os
import re
import sys

TOP = os.path.join(os.path.dirname(os.path.abspath(__file__)), "..")
FOLDERS = ["crates", "docs", "tests", "demo", "bench", "tools"]
OF_THEIR_TIME = ("docs/changes/", "docs/PORT.md", "docs/DESIGN-PASS.md")
ENDINGS = "antt|rt|py|rs|edit|script|txt|notes|md"
NAME = re.compile(r"[^\W\d][\w-]*")
# in the pages' backquotes, but of the kit: its version and what it prints; or for any name
FOREIGN = {"rattle-kit-13f", "logic", "dac8208d650f15bf", "rattle-kit-5b", "axioms", "libc", "rattle_errno", "NAME", "REQUEST"}


def text_of(path):
    with open(os.path.join(TOP, path), encoding="utf-8", errors="replace") as file:
        return file.read()


def tree():
    """The files of the repository's folders, from its top."""
    for folder in FOLDERS:
        for place, folders, files in os.walk(os.path.join(TOP, folder)):
            folders[:] = [name for name in folders if name not in ("__pycache__", "out")]  # what was made here
            for name in files:
                yield os.path.relpath(os.path.join(place, name), TOP)


class Known:
    """What can be named: the files, every word of those that are no pages, and the number of decisions."""

    def __init__(self):
        self.paths = sorted(tree())
        self.files = {os.path.basename(path) for path in self.paths} | {entry.name for entry in os.scandir(TOP) if entry.is_file()}
        self.words = {word for path in self.paths for word in re.split(r"[/.]", path)} | FOREIGN
        for path in self.paths:
            if not path.endswith(".md"):
                self.words.update(NAME.findall(text_of(path)))
        self.edits = [path for path in self.paths if path.endswith(".edit") and "/must-fail/" in path]
        self.edited = {path.split("/")[1] for path in self.edits}  # the crates that have some
        self.decisions = [int(number) for number in re.findall(r"^(\d+)\. ", text_of("docs/DECISIONS.md"), re.M)]


def anchors(text):
    """The links' names of the headings of a page."""
    titles = re.findall(r"^#+ (.*)$", text, re.M)
    return {re.sub(r"[^\w\- ]", "", title.lower()).replace(" ", "-") for title in titles}


def bad_links(page, text):
    for words, target in re.findall(r"\[([^\]]*)\]\(([^)]*)\)", text):
        path, _, anchor = target.partition("#")
        path = os.path.normpath(os.path.join(os.path.dirname(page), path))
        if not os.path.isfile(os.path.join(TOP, path)):
            yield f"no file {path}"
            continue
        if anchor and anchor not in anchors(text_of(path)):
            yield f"no heading {anchor} in {path}"
        for name in re.findall(r"`([^`]*)`", words):
            if name not in NAME.findall(text_of(path)):
                yield f"no {name} in {path}"


def is_there(path):
    """Whether there is such a file or folder; a program that is built counts as there where its crate has a `main`."""
    built = re.fullmatch(r"crates/(\w+)/out/\1", path)
    return os.path.exists(os.path.join(TOP, f"crates/{built[1]}/src/main.rt" if built else path))


def bad_names(text, known):
    for quoted in re.findall(r"`([^`\n]*)`", text) + re.findall(r"^    (\S.*)$", text, re.M):
        for path in re.findall(rf"(?<![\w/.·])(?:{'|'.join(FOLDERS)})/[\w./·+-]+", quoted):
            if "NAME" not in path and not is_there(path.rstrip(".")):
                yield f"no {path}"
        for name in re.findall(rf"(?<![\w/.-])[^\W\d][\w-]*(?:\.(?:{ENDINGS}))?(?![\w/.-])", quoted):
            if name not in known.files and name not in known.words and not name.startswith("NAME."):
                yield f"no {name}"
        for crate, edit in re.findall(r"^([a-z_]+)/([a-z0-9_]+)$", quoted):
            if crate in known.edited and f"crates/{crate}/must-fail/{edit}.edit" not in known.edits:
                yield f"no edit {crate}/{edit}"


def bad_points(page, text, known):
    said = re.findall(r"`docs/DECISIONS\.md` ((?:\d+(?:, | and )?)+)", text)
    if page == "docs/DECISIONS.md":
        said += re.findall(r"\bpoint (\d+)(?! of)", text)
    for numbers in said:
        for number in re.findall(r"\d+", numbers):
            if int(number) not in known.decisions:
                yield f"no point {number} in docs/DECISIONS.md"


def faults(pages, known):
    if known.decisions != list(range(1, len(known.decisions) + 1)):
        yield "docs/DECISIONS.md: its points are not numbered one after another"
    for page in pages:
        text = text_of(page)
        for found in (bad_links(page, text), bad_names(text, known), bad_points(page, text, known)):
            yield from (f"{page}: {fault}" for fault in found)
    named = set(NAME.findall(text_of("docs/WRONG-PROGRAMS.md")))
    for path in known.edits:
        if os.path.splitext(os.path.basename(path))[0] not in named:
            yield f"docs/WRONG-PROGRAMS.md: {path} is not named"


def main():
    known = Known()
    pages = ["README.md"] + [path for path in known.paths if path.endswith(".md") and not path.startswith(OF_THEIR_TIME)]
    found = list(faults(pages, known))
    for fault in found:
        print(f"test_documents: {fault}")
    if found:
        sys.exit(1)
    print(f"test_documents: {len(pages)} pages, {len(known.decisions)} decisions, {len(known.edits)} edits")


if __name__ == "__main__":
    main()
