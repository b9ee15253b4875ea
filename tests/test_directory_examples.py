#!/usr/bin/env python3
"""The directory program on worked examples, line by line: a table filled and asked, a full store that a collection empties while a list
is read again and again, a chain that names itself; and on bad scripts, cut at every byte and at the edges of the input buffer, with
every wrong length and unknown kinds."""
import hashlib
import random
import sys

from models.free_store import ATTACH, SAFE, ALLOCATE, CLEAR, STEP
from models.table_model import OPEN, ADD, REMOVE, MAKE, JOIN, LEAVE, LIST, LAST
from programs import built_programs
from programs.directory_scripts import SIZES, encode, expected, random_script

# a call and what follows the entry number on its line
FIRST = [
    (ADD, [7], "6 0"), (OPEN, [], "0 0"), (OPEN, [], "7 0"), (ADD, [7], "0 0"), (ADD, [3], "0 0"), (ADD, [0], "0 0"),
    (ADD, [LAST], "0 0"), (ADD, [LAST + 1], "23 0"), (ADD, [3], "24 0"), (MAKE, [7], "0 0"), (MAKE, [2], "0 0"), (MAKE, [7], "24 0"),
    (JOIN, [3, 7], "0 0"), (JOIN, [7, 7], "0 0"), (JOIN, [0, 7], "0 0"), (JOIN, [7, 2], "0 0"), (JOIN, [7, 7], "24 0"),
    (JOIN, [5, 7], "23 0"), (JOIN, [3, 9], "23 0"), (LIST, [7, 8], "0 3 3 7 0"), (LIST, [7, 2], "0 3 3 7"), (LIST, [7, 0], "0 3"),
    (LIST, [3, 8], "23 0"), (LEAVE, [3, 2], "25 0"), (LEAVE, [3, 7], "0 0"), (JOIN, [3, 7], "0 0"), (LIST, [7, 8], "0 3 7 0 3")]
# another session takes all words but five and drops its records
FULL = [(ATTACH, [0], "0 0")] + [(ALLOCATE, [0, 0, 0, 255], "0 0")] * 15 + [
    (ALLOCATE, [0, 0, 0, 134], "0 0"), (CLEAR, [0, 0], "0 0"), (ADD, [8], "14 0"), (MAKE, [9], "14 0"), (JOIN, [3, 2], "14 0"),
    (ADD, [3], "24 0"), (LIST, [2, 8], "0 1 7")]
# one whole collection, the list read between its steps; which phase a step answers is left to the sums
ROUND = [(SAFE, [0], "0 0"), (LIST, [7, 8], "0 3 7 0 3"), (STEP, [], None)]
AFTER = [
    (ADD, [8], "0 0"), (JOIN, [3, 2], "0 0"), (LIST, [2, 8], "0 2 7 3"), (REMOVE, [7], "0 0"), (LIST, [7, 8], "0 2 0 3"),
    (LIST, [2, 8], "0 1 3"), (REMOVE, [7], "23 0"), (JOIN, [7, 2], "23 0"), (ADD, [7], "0 0"), (LIST, [7, 8], "0 2 0 3")]
WHOLE = FIRST + FULL + ROUND * 189 + AFTER
STEPS = [50 + 3 * n for n in range(1, 190)]  # their entry numbers
SUMS = [(2678, "262357fe08c0887f43bf8f73f120301ec25cd27c91b87012a4a77ada1f9d1727"),
        (6135, "1a43b2d68d7ed275949cddbb2d3cbd3753c95f09b409bfd93529b423b3a4c043")]
# session 15 itself makes global 31 name a record that names itself, and then one without fields
LOOP = bytes.fromhex("02 0110 051100000001 05040f000101 05060f000000 040d0f1f00 051100000005 09140000000100000005 051300000005"
                     "06160000000501 051200000005 05040f000000 040d0f1f00 051100000005")
LOOP_LINES = ["0 0"] * 5 + ["26 0", "23 0", "0 0", "0 0", "26 0", "0 0", "0 0", "13 0"]
BAD = [("", "0 15 0"), ("01", "0 15 0"), ("03", "0 15 0"), ("02", None), ("02 010f", "1 15 0"), ("02 0411000000", "1 15 0"),
       ("02 0511000000", "1 15 0")]


def need(holds, words):
    if not holds:
        sys.exit(f"test_directory_examples: {words}")


def output(data):
    return built_programs.output(data, built_programs.DIRECTORY)


def numbered(lines):
    return [f"{n} {line}" for n, line in enumerate(lines, 1)]


def the_table():
    """The first example and the second as one script."""
    data = encode([(kind, args) for kind, args, _ in WHOLE])
    out = output(data)
    for n, (line, (_, _, want)) in enumerate(zip(out.decode().splitlines(), WHOLE), 1):
        need(want is None or line == f"{n} {want}", f"entry {n} gives {line!r}, not {want!r}")
    steps = [int(out.split(b"\n")[n - 1].split()[2]) for n in STEPS]
    need(steps[:3] == [1, 2, 3] and steps[-1] == 0, f"the steps answer {steps[:3]} at first and {steps[-1]} at last")
    for text, (size, total) in zip((data, out), SUMS):
        need((len(text), hashlib.sha256(text).hexdigest()) == (size, total), f"another sum than {total}, of {len(text)} bytes")


def bad_inputs():
    whole = encode(random_script(3).entries[:60])
    for cut in range(len(whole) + 1):
        yield f"cut at {cut}", whole[:cut]
    # the longest entry has ten bytes: entries of that length across the edges of the input buffer, whole and cut
    for shift in range(11):
        long = encode([(OPEN, []), (ADD, [5])] + [(SAFE, [15])] * shift + [(JOIN, [2 ** 32 - 1 - n, n]) for n in range(900)])
        yield f"joins {shift}", long
        for cut in [*range(4086, 4108), *range(8172, 8204)] if shift < 2 else []:
            yield f"joins {shift} cut at {cut}", long[:cut]
    start = encode([(OPEN, []), (ADD, [1]), (MAKE, [1])])
    for kind in range(256):
        for length in range(13):
            if kind in SIZES or kind == 15 or length in (0, 1, 5):
                yield f"kind {kind} length {length}", start + bytes([length]) + (bytes([kind]) + bytes(12))[:length] + b"\x01\x0e"
    rng = random.Random(6)
    for n in range(100):
        yield f"random bytes {n}", b"\x02" + bytes(rng.randrange(256) for _ in range(rng.randrange(300)))
        yield f"random bytes after a good start {n}", start + bytes(rng.randrange(24) for _ in range(rng.randrange(200)))


def main():
    the_table()
    need(output(LOOP).decode().splitlines() == numbered(LOOP_LINES), f"the chain that names itself gives {output(LOOP)!r}")
    for words, want in BAD:
        need(output(bytes.fromhex(words)).decode() == (f"{want}\n" if want else ""), f"{words!r} gives {output(bytes.fromhex(words))!r}")
    count = refused = 0
    for name, data in bad_inputs():
        got, want = output(data), expected(data)
        need(got == want, f"{name}: wrote {got[-80:]!r}, not {want[-80:]!r}")
        count, refused = count + 1, refused + want.endswith(b" 15 0\n")
    print(f"test_directory_examples: {len(WHOLE) + len(LOOP_LINES)} entries line by line, {count} inputs, {refused} of them refused "
          "with 15")
    need(refused > 500, "too few inputs are bad")


if __name__ == "__main__":
    main()
