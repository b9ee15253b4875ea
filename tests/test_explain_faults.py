#!/usr/bin/env python3
"""`tools/explain` on what can't be explained: bad scripts, files that can't be read, programs that fail or write what can't be the answer,
notes that are none, outputs that can't be written. Each gets its message and its status, and no traceback."""
import os
import shutil
import signal
import subprocess
import tempfile

from models.free_store import ALLOCATE, ATTACH, SAFE, STEP
from programs.explain_tool import DAY, EXPLAIN, TOP, Programs, need, printed, ran
from programs.store_scripts import encode, random_script

GOOD = encode([(ATTACH, [0]), (STEP, [])])
BAD_SCRIPTS = [
    (b"", 0, 0, "the script is empty; it must begin with version byte 1 or 2"),
    (b"\x03\x01\x0e", 0, 0, "the version byte is 3, not 1 or 2"),
    (GOOD + b"\x00", 3, 6, "its length byte is 0, so it has no kind"), (GOOD + b"\x01\x0f" + GOOD, 3, 6, "there is no kind 15"),
    (GOOD + b"\x02\x0e\x00", 3, 6, "the length byte of step is 1, not 2"),
    (GOOD + b"\x09\x08" + bytes(8), 3, 6, "the length byte of write is 8, not 9"),
    (GOOD + b"\x03", 3, 6, "the script ends inside it, after 0 of 3 bytes"),
    (GOOD + b"\x08\x08\x00\x01", 3, 6, "the script ends inside it, after 3 of 8 bytes"),
    (GOOD + b"\x08\x08" + bytes(6), 3, 6, "the script ends inside it, after 7 of 8 bytes")]


def bad_scripts():
    for data, entry, place, reason in BAD_SCRIPTS:
        rows = ["1  session 0: attach  -> done, at level 0", "2  collector step  -> phase 1, PreMark1"] if entry else []
        phase = "phase 1, PreMark1" if entry else "phase 0, Rest"
        want = rows + [f"{entry}  can't be read: {reason}  -> refused 15, bad script", "", f"entries run: {len(rows)}",
                       "refused 15, bad script: 1", "collections that ended: 0", f"the collector is at {phase}"]
        message = (f"tools/explain: bad script: entry {entry}, at byte {place}, can't be read: {reason}; nothing after it was run\n")
        done = ran("-", data=data)
        got = (done.returncode, done.stdout.decode().splitlines(), done.stderr.decode())
        need(got == (1, want, message), f"{data!r} gives {got}")


def failures(programs):
    """A script that can't be read; programs that are not there, break off, or write what can't be the answer."""
    plain = os.path.join(programs.folder, "plain")
    open(plain, "w", encoding="utf-8").close()
    ours = "the script program"
    for script, program, reason in (
            ("no-such.script", None, "the script no-such.script can't be read: No such file or directory"),
            ("demo", None, "the script demo can't be read: Is a directory"),
            (DAY, "/none", f"{ours} /none can't be started: No such file or directory"),
            (DAY, plain, f"{ours} {plain} can't be started: Permission denied"),
            (DAY, programs.writing("1 0 0\\n", "exit 3"), f"{ours} ended with status 3 and wrote no line for entry 2"),
            (DAY, programs.writing("2 0 0\\n", "exec sleep 100"), f"{ours} wrote b'2 0 0\\n' where the line of entry 1 was due"),
            (DAY, programs.writing("1 0 0"), f"{ours} wrote b'1 0 0' where the line of entry 1 was due"),
            (DAY, programs.writing("1 0 0 0\\n"), f"{ours} wrote b'1 0 0 0\\n' where the line of entry 1 was due"),
            (DAY, programs.writing("1 15 0\\n"), f"{ours} answered 15 0 to entry 1, session 0: attach"),
            (DAY, programs.writing("1 13 0\\n"), f"{ours} answered 13 0 to entry 1, session 0: attach"),
            (DAY, programs.writing("1 7 1\\n"), f"{ours} answered 7 1 to entry 1, session 0: attach"),
            (DAY, programs.writing("1 0 1\\n"), f"{ours} answered 0 1 to entry 1, session 0: attach")):
        done = ran(script, program=program)
        need((done.returncode, done.stderr.decode()) == (2, f"tools/explain: {reason}\n"), f"{script}, {program}: {done.stderr!r}")
    for data, text, end, reason in (
            (GOOD, "1 0 0\\n2 0 13\\n", "exit 0", "answered 0 13 to entry 2, collector step"),
            (GOOD, "1 0 0\\n2 0 2\\n", "exit 0", "answered 0 2 to entry 2, collector step"),
            (GOOD, "1 0 0\\n2 0 0\\n", "exit 0", "answered 0 0 to entry 2, collector step"),
            (GOOD, "1 0 0\\n2 14 0\\n", "exit 0", "answered 14 0 to entry 2, collector step"),
            (GOOD, "1 0 0\\n2 0 1\\n3 0 1\\n", "exit 0", "wrote more lines than the script has entries"),
            (GOOD, "1 0 0\\n2 0 1\\n", "exit 4", "ended with status 4"),
            (GOOD + b"\x00", "1 0 0\\n2 0 1\\n3 0 0\\n", "exit 0", "took entry 3, but its length byte is 0, so it has no kind")):
        done = ran("-", data=data, program=programs.writing(text, end))
        need((done.returncode, done.stderr.decode()) == (2, f"tools/explain: {ours} {reason}\n"), f"{text}: {done.stderr!r}")


def unbuilt(folder):
    """The tool in a repository where nothing is built; and by a link from there, as it is here."""
    shutil.copytree(os.path.join(TOP, "tools"), os.path.join(folder, "tools"))
    done = subprocess.run([os.path.join(folder, "tools", "explain"), DAY], stdout=subprocess.PIPE, stderr=subprocess.PIPE, timeout=120)
    want = b"tools/explain: the script program crates/script_main/out/script_main is not built: run `rt all test` first\n"
    need((done.returncode, done.stdout, done.stderr) == (2, b"", want), f"unbuilt: {done.stderr!r}")
    link = os.path.join(folder, "explain")
    os.symlink(EXPLAIN, link)
    need(subprocess.run([link, "--quiet", DAY], stdout=subprocess.DEVNULL, timeout=120).returncode == 0, "a link to the tool doesn't work")


def damage(programs):
    """Answers that the program gives on broken memory alone, or where numbers or a share are used up, which no script can do: they have
    words, and far ones are not folded into one row."""
    data = encode([(STEP, []), (ATTACH, [0]), (STEP, []), (STEP, []), (SAFE, [0])] + [(ALLOCATE, [0, 0, 0, 0])] * 2)
    lines = "1 12 0\\n2 0 0\\n3 12 0\\n4 12 0\\n5 4 0\\n6 16 0\\n7 17 0\\n"
    done = ran("--only", "refused", "--fold", "-", data=data, program=programs.writing(lines))
    want = ["1  collector step  -> refused 12, damaged memory", "3 to 4  2 collector steps  -> refused 12, damaged memory",
            "5  session 0: safe point  -> refused 4, the control record is damaged",
            "6  session 0: allocate 0 links, 0 words into register 0  -> refused 16, no birth number left",
            "7  session 0: allocate 0 links, 0 words into register 0  -> refused 17, more than the session's share", ""]
    need(done.stdout.decode().splitlines()[:len(want)] == want, f"damage gives {done.stdout!r}")


def notes(folder):
    """Two headings of one entry, in their order; one that parts folded steps; what is no note is told; a script is no note."""
    script, path = os.path.join(folder, "some.script"), os.path.join(folder, "some.notes")
    with open(script, "wb") as file:
        file.write(GOOD + encode([(STEP, []), (STEP, [])])[1:])
    parted = "\nZebra\n\nApple\n1  session 0: attach  -> done, at level 0\n2 to 3  2 collector steps  -> phase 1, PreMark1\n\nLater\n4  c"
    for data, status, out in ((b"4 Later\n1 Zebra\n1 Apple\n", 0, parted), (b"1 Morning\nEvening\n", 2, ""), (b"1 \n", 2, ""),
                              (b"1 caf\xe9\n", 2, ""), ("² Morning\n".encode(), 2, ""), (GOOD, 2, "")):
        with open(path, "wb") as file:
            file.write(data)
        done = ran("--fold", script)
        need(done.returncode == status and done.stdout.decode().startswith(out), f"notes {data!r} give {done.returncode}, {done.stdout!r}")
        need(b"Traceback" not in done.stderr and bool(done.stderr) == (status == 2), f"notes {data!r}: {done.stderr!r}")
    need(printed(path)[0] == "1  session 0: attach  -> done, at level 0", "a script that is called .notes is taken for its notes")
    with open(path, "w", encoding="utf-8") as file:
        file.write("1 Un café\n\n")
    done = subprocess.run([EXPLAIN, script], stdout=subprocess.PIPE, timeout=120,
                          env={**os.environ, "PYTHONIOENCODING": "ascii"})
    need(done.stdout.startswith(b"\nUn caf\\xe9\n1  session"), f"in ascii the notes are {done.stdout[:40]!r}")


def outputs():
    """A reader that stops, an output that can't be written, an error output that can't be, which changes nothing else, letters that the
    terminal hasn't, and an input without end, of which no more is copied than needed."""
    long = encode(random_script(2, 21000))
    env = {name: value for name, value in os.environ.items() if name != "PYTHONUNBUFFERED"}
    for words, status, out in (
            ("tools/explain - | head -n 1; exit ${PIPESTATUS[0]}", 128 + signal.SIGPIPE, b"1  "), ("tools/explain - > /dev/full", 2, b""),
            ("tools/explain --quiet - > /dev/full", 2, b""), ("tools/explain - >&-", 2, b""), ("tools/explain - <&-", 2, b""),
            ("tools/explain --quiet - 2> /dev/full", 0, b"entries run: 21000\n"),
            ("tools/explain --quiet - 2>&-", 0, b"entries run: 21000\n"),
            ("tools/explain none 2> /dev/full", 2, b""), ("ulimit -f 9; tools/explain /dev/zero", 1, b"0  can't be read")):
        done = subprocess.run(["bash", "-c", words], input=long, stdout=subprocess.PIPE, stderr=subprocess.PIPE, timeout=120, cwd=TOP,
                              env=env)
        need(done.returncode == status and done.stdout.startswith(out) and b"Traceback" not in done.stderr,
             f"{words}: {done.returncode}, {done.stdout[:80]!r}, {done.stderr!r}")


def main():
    bad_scripts()
    with tempfile.TemporaryDirectory() as folder:
        programs = Programs(folder)
        failures(programs)
        damage(programs)
        unbuilt(folder)
        notes(folder)
    outputs()
    print(f"test_explain_faults: {len(BAD_SCRIPTS)} bad scripts, {programs.count} programs that are none")


if __name__ == "__main__":
    main()
