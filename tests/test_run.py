#!/usr/bin/env python3
"""tests/run itself, with an rt and a python3 that are made up, and made-up tests: it passes only if rt ci and every test do and no must-fail
edit is bad, and its last line is rt ci's verdict. A test that fails, crashes or is killed is named. What the tests print comes whole, in the order of their names.
One test alone goes by its name; of a name that no test has, asked for or in the list of the longest, it says so at once."""
import glob
import itertools
import os
import shutil
import subprocess
import tempfile

from programs.explain_tool import need

HERE = os.path.dirname(os.path.abspath(__file__))
NAMES = sorted(os.path.basename(path).removesuffix(".py").removeprefix("test_") for path in glob.glob(os.path.join(HERE, "test_*.py")))
VERDICT = "7 passed, 0 failed"
# rt ci's line before that, with what it says of the must-fail edits
OK = "rt: ok; handles allowed: none{}; every proof and must-fail edit was done in this run"
# a test, in the words of the made-up python3: it prints its name twice, and in between others might print
GOOD = 'echo "$0"; sleep 0.01; echo "ends $0"'
BAD = {"exits": "echo began; exit 1", "crashes": "echo began; kill -SEGV $$", "is killed": "echo began; kill -KILL $$",
       "can't be read": "echo (", "prints nothing": "exit 3"}


class Made:
    """A folder with tests/run, a made-up test in the place of every real one, a python3 that takes them for scripts of the shell, and an
    rt that says this, all well where `ok` is a line, and ends with this status."""

    def __init__(self, folder, said=VERDICT, status=0, ok=OK.format("; must-fail edits: 5 refused")):
        self.folder = tempfile.mkdtemp(dir=folder)
        os.makedirs(os.path.join(self.folder, "tests"))
        shutil.copy(os.path.join(HERE, "run"), os.path.join(self.folder, "tests", "run"))
        for name in NAMES:
            self.test(name, GOOD)
        self.command("rt", f"printf 'rt: %s\\n{ok}\\n{said}\\n' \"$*\"\nexit {status}")
        self.command("python3", 'exec sh "$1"')

    def command(self, name, text):
        path = os.path.join(self.folder, name)
        with open(path, "w", encoding="utf-8") as file:
            file.write(f"#!/bin/sh\n{text}\n")
        os.chmod(path, 0o755)

    def path(self, name):
        return os.path.join(self.folder, "tests", f"test_{name}.py")

    def test(self, name, text):
        with open(self.path(name), "w", encoding="utf-8") as file:
            file.write(text + "\n")

    def run(self, *words):
        """Exit status, lines of standard output, and standard error."""
        env = {**os.environ, "PATH": self.folder + os.pathsep + os.environ["PATH"]}
        done = subprocess.run(["bash", os.path.join(self.folder, "tests", "run"), *words], stdout=subprocess.PIPE, stderr=subprocess.PIPE,
                              stdin=subprocess.DEVNULL, text=True, timeout=120, env=env)
        return done.returncode, done.stdout.splitlines(), done.stderr


def printed(names):
    """What the good tests of these names print."""
    return [line for name in names for line in (f"tests/test_{name}.py", f"ends tests/test_{name}.py")]


def check_passed(folder):
    """All is well: rt ci first, then every test once, then the verdict. Without rt, on what is built, the same but for it."""
    status, lines, _ = Made(folder).run()
    need(status == 0 and lines[0] == "rt: ci" and lines[2] == VERDICT and lines[-1] == VERDICT, f"all is well: {status}, {lines[:3]}, {lines[-1:]}")
    need(lines[-1 - 2 * len(NAMES):-1] == printed(NAMES), "the tests' lines are not whole and in order")
    timed = sorted(line.rsplit(":", 1)[0] for line in lines[3:-1 - 2 * len(NAMES)])
    need(timed == [f"tests/test_{name}.py" for name in NAMES], f"not every test has run once: {timed}")
    status, lines, _ = Made(folder, "not called", 1).run("--built")
    need(status == 0 and lines[-1 - 2 * len(NAMES):-1] == printed(NAMES), f"on what is built: {status}, {lines}")


def check_failed(folder):
    """A bad test among good ones, in the place of a long or of a short one, is named, and the whole doesn't pass."""
    for (way, text), name in itertools.product(BAD.items(), ("probe", "documents")):
        made = Made(folder)
        made.test(name, text)
        status, lines, _ = made.run()
        need(status == 1 and lines[-1] == f"tests/test_{name}.py: FAILED", f"a test that {way}: {status}, {lines[-1:]}")
        need(sum(line.endswith("FAILED") for line in lines) == 1, f"beside a test that {way} others are said to have failed")
        others = [n for n in NAMES if n != name]
        need([line for line in lines if line in printed(others)] == printed(others), f"beside a test that {way} others are not printed")


def check_left_alone(folder):
    """A test that takes along the shell which waits for it, so that nothing tells how it ended: it is named, with all that didn't run."""
    made = Made(folder)
    made.test("probe", "kill -KILL $PPID")
    status, lines, _ = made.run()
    need(status == 1 and "tests/test_probe.py: FAILED" in lines and lines[-1] != VERDICT, f"no status: {status}, {lines[-1:]}")
    for name in NAMES:
        failed, ended = f"tests/test_{name}.py: FAILED" in lines, f"ends tests/test_{name}.py" in lines
        need(failed != ended, f"{name} beside a test without status: failed {failed}, ended {ended}")


def check_rt(folder):
    """Where rt ci doesn't pass, by its verdict or by its status, or has a bad must-fail edit, no test runs."""
    for said, status in (("6 passed, 1 failed", 1), ("6 passed, 1 failed", 0), (VERDICT, 1), ("rt: killed", 0), (f"{VERDICT}\\nmore", 0),
                         (f"{VERDICT} (some and the crates below alone: not the gate)", 0)):
        ended, lines, _ = Made(folder, said, status).run()
        need(ended != 0 and not any("tests/" in line for line in lines), f"rt says '{said}' with status {status}: {ended}, {lines}")
    for edits, passes in ((", 1 bad", False), (", 2 of them only by a limit, 12 bad", False), (", 0 bad", True), (", 1 of them only by a limit", True)):
        ended, lines, _ = Made(folder, ok=OK.format(f"; must-fail edits: 5 refused{edits}")).run()
        need((ended == 0) == passes == any("tests/" in line for line in lines), f"rt says of the edits '{edits}': {ended}, {lines}")
    ended, lines, _ = Made(folder, ok="").run()
    need(ended != 0 and not any("tests/" in line for line in lines), f"rt doesn't say that all is well: {ended}, {lines}")


def check_names(folder):
    """One test alone, by each form of its name; a name that there isn't; a name in the list of the longest that there isn't."""
    made = Made(folder, "not called", 1)
    made.test("links", "echo alone; exit 3")
    for word in ("links", "test_links", "test_links.py", "tests/test_links.py", made.path("links")):
        need(made.run(word) == (3, ["alone"], ""), f"{word}: {made.run(word)}")
    for words in (["nothing"], [""], ["."], ["twins.py/.."], ["--all"], ["links", "probe"]):
        status, lines, said = made.run(*words)
        need(status == 2 and not lines and "tests/run" in said, f"{words}: {status}, {lines}, {said}")
    os.remove(made.path("probe"))
    for words in ([], ["--built"]):
        status, lines, said = made.run(*words)
        need(status == 2 and not lines and "tests/test_probe.py" in said, f"a list with a test that there isn't: {status}, {lines}, {said}")


def main():
    with tempfile.TemporaryDirectory() as folder:
        for check in (check_passed, check_failed, check_left_alone, check_rt, check_names):
            check(folder)
    print(f"test_run: {len(NAMES)} tests made up, {len(BAD)} ways to fail")


if __name__ == "__main__":
    main()
