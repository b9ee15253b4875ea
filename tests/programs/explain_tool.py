"""Runs tools/explain, for the tests of it."""
import os
import subprocess
import sys

TOP = os.path.join(os.path.dirname(os.path.abspath(__file__)), "..", "..")
EXPLAIN = os.path.join(TOP, "tools", "explain")
DEMO = os.path.join(TOP, "demo")
DAY = os.path.join(DEMO, "school-day.script")
DIRECTORY_DAY = os.path.join(DEMO, "directory-day.script")


def ran(*words, data=None, program=None):
    """The ended run of tools/explain with these words."""
    named = [] if program is None else ["--program", program]
    return subprocess.run([EXPLAIN, *named, *words], input=data, stdout=subprocess.PIPE, stderr=subprocess.PIPE, timeout=120, cwd=TOP)


def printed(*words, data=None):
    """The lines that a good script gives."""
    done = ran(*words, data=data)
    need(done.returncode == 0 and not done.stderr, f"explain {words}: status {done.returncode}, {done.stderr[:200]}")
    return done.stdout.decode().splitlines()


def need(holds, words):
    if not holds:
        sys.exit(f"{os.path.basename(sys.argv[0])}: {words}")


class Programs:
    """Programs that write fixed lines, whatever the script."""

    def __init__(self, folder):
        self.folder, self.count = folder, 0

    def writing(self, text, end="exit 0"):
        self.count += 1
        path = os.path.join(self.folder, f"program{self.count}")
        with open(path, "w", encoding="utf-8") as file:
            file.write(f"#!/bin/sh\nprintf '{text}'\n{end}\n")
        os.chmod(path, 0o755)
        return path


def check_day(name, files):
    """That the files of a day are what its Python file writes, and its text what the tool prints."""
    for file_name, data in files.items():
        with open(os.path.join(DEMO, file_name), "rb") as file:
            need(file.read() == data, f"demo/{file_name} is not what its Python file writes")
    with open(os.path.join(DEMO, f"{name}.txt"), encoding="utf-8") as file:
        shown = printed("--fold", os.path.join(DEMO, f"{name}.script"))
        need(shown == file.read().splitlines(), f"the demo prints another day than {name}.txt")
