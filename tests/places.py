#!/usr/bin/env python3
"""Counts, in the sources of a commit, the places that docs/DESIGN-PASS.md lists.

    python3 tests/places.py [COMMIT] [--show POINT]

A count is of lines or functions that a pattern finds, so it holds for any commit; what of them is as it should be stands on the page.
"""
import re
import subprocess
import sys

# of each point: a name, and the pattern of its lines
LINES = {
    "1a enums": r"^ *(pub(\(crate\))? )?enum ",
    "1b fields that are flags": r"^ *(pub(\(crate\))? )?[a-z_0-9]+: bool,",
    "1c refusals by number": r"(Refused|Refusal|Failed|Stopped)\(([0-9]+|[A-Z_]+|n|refusal)\)|refusal [!=]= [0-9]|return [0-9]+;|\{ 0 \} else \{ [0-9]+ \}",
    "1d matches on a number": r"match (kind|k|phase|c\.phase|case\[0\]|register|level)\b",
    "3a loops with a condition": r"^ *('[a-z]+: )?(while|loop)\b",
    "3b loops over an index": r"^ *for [a-z_]+ in [^{]*\.\.",
    "3c loops over items": r"^ *for [^{]* in (?![^{]*\.\.)",
    "4a functions that a library has": r"fn (least|byte|byte_at|number_at|joined|last_byte|high|low|wide|put_word|write_value|count_digits|digits_of|write_pair|write_decimal|put_bytes|is_interrupted|of|registers|value_of|number_of)\(",
    "4b derives": r"#\[derive\(",
    "5a bounds asked of a caller": r"requires .*(Within b|f0 ≤ length|frontier0 ≤ length)",
    "5b the collector's ranges asked of a caller": r"requires .*Ready self",
    "7a what is looked for, or done, by an enum": r"Wanted::|Change::|Touch::",
    "7b closures": r"\|[a-z_&, ]*\| ",
}
FUNCTION = re.compile(r"\bfn (\w+)(?:<[^>]*>)?\(([^{]*?)\)\s*(?:->|\{|requires|ensures|where)", re.S)


def sources(commit):
    names = subprocess.check_output(["git", "ls-tree", "-r", "--name-only", commit, "crates"], text=True).split()
    for name in names:
        if "/src/" in name and name.endswith(".rt"):
            yield name, subprocess.check_output(["git", "show", f"{commit}:{name}"], text=True)


def proofs(commit):
    """How many files of answers and of invariants there are, and how many lines of answers."""
    listed = subprocess.check_output(["git", "ls-tree", "-r", "--name-only", commit, "crates"], text=True).split()
    answers = [name for name in listed if name.endswith("/Answers.antt")]
    lines = sum(subprocess.check_output(["git", "show", f"{commit}:{name}"], text=True).count("\n") for name in answers)
    return len(answers), lines, sum(name.endswith("/Invariants.antt") for name in listed)


def main():
    words = [word for word in sys.argv[1:] if not word.startswith("--")]
    shown = words.pop() if "--show" in sys.argv else None
    commit = words[0] if words else "HEAD"
    found = {point: [] for point in LINES}
    functions = []
    for name, text in sources(commit):
        functions += [(name, *match.groups()) for match in FUNCTION.finditer(text)]
        for number, line in enumerate(text.split("\n"), 1):
            code = line.split("//")[0]
            for point, pattern in LINES.items():
                if re.search(pattern, code):
                    found[point].append(f"{name}:{number}: {line.strip()}")
    for point, lines in found.items():
        print(f"{len(lines):5} {point}")
        if shown and point.startswith(shown):
            print("\n".join(lines))
    both = [it for it in functions if "h0:" in it[2] and "h1:" in it[2]]
    several = {name for _, name, _ in functions if sum(other == name for _, other, _ in functions) > 1}
    print(f"{len(functions):5} functions")
    print(f"{len(several):5} 2 names that several functions have: {', '.join(sorted(several)) if shown == '2' else ''}".rstrip(": "))
    print(f"{len(both):5} 5c functions with both halves as parameters, {sum('list:' in it[2] for it in both)} of them with the list")
    print(f"{sum('f0:' in it[2] or 'b: Bounds' in it[2] for it in both):5} 5d of these with the frontiers or the bounds beside them")
    print(f"{sum('filled:' in it[2] or 'count: usize' in it[2] for it in functions):5} 6 functions with a buffer and how much of it counts")
    print("{:5} 8 files of answers, of {} lines; {} of invariants".format(*proofs(commit)))


if __name__ == "__main__":
    main()
