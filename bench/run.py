#!/usr/bin/env python3
"""The benchmark: the script program against the same rules written the usual way in Rust (plain.rs), on the same scripts.

    python3 bench/run.py

Needs the program built (`rt all test`), rustc, valgrind and GNU time; it says which are missing and how to get them. Both programs must
write the same bytes. For each script it prints, side by side, the best of five times (start of the program included), instructions
per entry (callgrind: the program's own, not the kernel's), peak memory and the share of the Rust program's speed; then the instructions
of a step that scans a session; then, for each script, how the instructions of an entry grow with live records and with the halves'
length. For longer halves it proves and builds the script program once more, in a copy of the repository where the two
arrays and the list of its `main` are longer and nothing else differs (about a minute with an older kit, rattle-kit-5b).
"""
import os
import re
import shutil
import subprocess
import sys
import tempfile
import time

from workloads import SCANS, STEP, WORKLOADS, encode, scan_is_next

ROOT = os.path.join(os.path.dirname(os.path.abspath(__file__)), "..")
OURS = os.path.join(ROOT, "crates", "script_main", "out", "script_main")
PLAIN = os.path.join(ROOT, "target", "bench", "plain")
TIME = "/usr/bin/time"
LONG = 65536
ENTRIES = 120000
# what the benchmark runs, and how to get it
NEEDS = {"rt": "it is the Rattle kit's", OURS: "the script program; rt all test proves and builds it",
         "rustc": "on Debian: apt-get install rustc", "valgrind": "on Debian: apt-get install valgrind",
         TIME: "GNU time; on Debian: apt-get install time"}


def missing(who, needs):
    """Ends with a word on each thing that is needed and not there."""
    lacking = [f"  {os.path.normpath(what)}: {how}" for what, how in needs.items() if not shutil.which(what)]
    if lacking:
        sys.exit("\n".join([f"{who}: missing, or not executable:"] + lacking))


def build():
    os.makedirs(os.path.dirname(PLAIN), exist_ok=True)
    subprocess.run(["rustc", "-O", "-C", "codegen-units=1", "-C", "panic=abort", "-o", PLAIN, os.path.join(ROOT, "bench", "plain.rs")], check=True)


def build_longer(copy):
    """The script program with halves of LONG words, proved and built in a copy of the repository."""
    shutil.copytree(os.path.join(ROOT, "crates"), os.path.join(copy, "crates"), ignore=shutil.ignore_patterns("out"))
    shutil.copy(os.path.join(ROOT, "crates.txt"), copy)
    folder = os.path.join(copy, "crates", "script_main")
    source = os.path.join(folder, "src", "main.rt")
    text = open(source).read()
    for old, new in ((4096, LONG), (1365, LONG // 3)):
        if f"[0u32; {old}]" not in text:
            sys.exit(f"no array of {old} words in the program's main")
        text = text.replace(f"[0u32; {old}]", f"[0u32; {new}]")
    open(source, "w").write(text)
    subprocess.run(["rt", "run"], cwd=folder, stdin=subprocess.DEVNULL, stdout=subprocess.DEVNULL, check=True)
    return os.path.join(folder, "out", "script_main")


def run(command, data):
    with tempfile.TemporaryFile() as source:
        source.write(data)
        source.seek(0)
        began = time.perf_counter()
        done = subprocess.run(command, stdin=source, stdout=subprocess.PIPE, check=True)
        return done.stdout, time.perf_counter() - began


def best_time(command, data, tries=5):
    return min(run(command, data)[1] for _ in range(tries))


def instructions(command, data):
    with tempfile.NamedTemporaryFile() as out:
        tool = ["valgrind", "--tool=callgrind", f"--callgrind-out-file={out.name}"]
        done = subprocess.run(tool + command, input=data, stdout=subprocess.DEVNULL, stderr=subprocess.PIPE, check=True)
    return int(re.search(rb"Collected : (\d+)", done.stderr).group(1))


def peak_kilobytes(command, data):
    done = subprocess.run([TIME, "-f", "%M"] + command, input=data, stdout=subprocess.DEVNULL, stderr=subprocess.PIPE, check=True)
    return int(done.stderr.split()[-1])


def compare(name, entries):
    data = encode(entries)
    if run([OURS], data)[0] != run([PLAIN], data)[0]:
        sys.exit(f"{name}: the two programs write different lines")
    times = [best_time([p], data) for p in (OURS, PLAIN)]
    counts = [instructions([p], data) / len(entries) for p in (OURS, PLAIN)]
    peaks = [peak_kilobytes([p], data) for p in (OURS, PLAIN)]
    print(f"{name:28} {len(entries):7} {times[0] * 1000:8.1f} {times[1] * 1000:8.1f} {counts[0]:8.0f} {counts[1]:8.0f} "
          f"{counts[0] / counts[1]:6.2f} {peaks[0]:7} {peaks[1]:7} {100 * times[1] / times[0]:6.0f}%")


def growth(title, ours, plain, counts):
    """Instructions per entry by the number of live records; the entries that make those records are in the count."""
    print(f"\ninstructions per entry, ours / plain, by live records, {title}")
    for name, make in WORKLOADS.items():
        cells = []
        for live in counts:
            entries = make(40000 + 5 * live, live)
            data = encode(entries)
            if run(ours, data)[0] != run(plain, data)[0]:
                sys.exit(f"{name}, {title}: the two programs write different lines")
            cells.append(f"{live}: {instructions(ours, data) / len(entries):.0f} / {instructions(plain, data) / len(entries):.0f}")
        print(f"{name:28} " + "   ".join(cells))


def scans():
    """Instructions of one step that scans a session: those of a script with it, less those of the script that ends before it."""
    print("\ninstructions of a step that scans a session, ours / plain, by its registers")
    for name, before in SCANS.items():
        if not scan_is_next(before):
            sys.exit(f"{name}: the step after the script is no scan")
        data, up_to = encode([*before, (STEP, [])]), encode(before)
        if run([OURS], data)[0] != run([PLAIN], data)[0]:
            sys.exit(f"{name}: the two programs write different lines")
        print(f"{name:28} " + " / ".join(str(instructions([p], data) - instructions([p], up_to)) for p in (OURS, PLAIN)))


def main():
    missing("bench/run.py", NEEDS)
    build()
    print(f"{'script':28} {'entries':>7} {'ms ours':>8} {'ms plain':>8} {'instr':>8} {'plain':>8} {'ratio':>6} {'KB ours':>7} {'KB':>7} {'speed':>7}")
    for name, make in WORKLOADS.items():
        compare(name, make(ENTRIES))
    scans()
    growth("halves of 4,096 words", [OURS], [PLAIN], (10, 100, 250))
    with tempfile.TemporaryDirectory() as copy:
        growth("halves of 65,536 words", [build_longer(copy)], [PLAIN, str(LONG)], (10, 100, 250, 4000))


if __name__ == "__main__":
    main()
