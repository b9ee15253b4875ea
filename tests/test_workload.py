#!/usr/bin/env python3
"""The load program against the load in Python, byte for byte: fixed vectors, thousands of seeds, counts and lengths at their limits,
outputs that end around the edges of the pieces in which they are written. Each load goes through the script program, which must write a
line for each entry, no 15, and what documents 01 and 02 give."""
import hashlib
from collections import Counter

from models.load_model import Workload, asked
from programs import built_programs
from programs.explain_tool import need
from programs.load_inputs import PIECE, VECTORS, edge_seeds, lengths, limits, made, random_seeds
from programs.store_scripts import encode, expected

# input and output in hexadecimal
WORKED = [("00000001 00000005", "01 020201 010e 040c01001a 0409050403 010e"), ("00000001 00000000", "01"), ("", ""),
          # an entry of each kind
          ("00001e00 0000000e", "01 02010f 020205 0409090002 040b010304 02030f 0407060600 08080c040239be3c48 05040f030202 010e "
                                "040c0b0114 030a0007 040d0e1104 050503050703 05060c050104"),
          ("00000001 000000", ""), ("00000001 00000001 00", ""), ("00000000 00000001", ""), ("00000001 000186a1", "")]
LONGEST = 9  # bytes of an entry


def load(data):
    return built_programs.output(data, built_programs.WORKLOAD)


# ---- inputs, each with its name

def piece_edges():
    """Loads that end within an entry's length of the end of a piece, or of the second one: a piece ends where the longest entry may not
    fit any more, at the latest with its last byte."""
    for seed in range(1, 31):
        size = 1
        for count, entry in enumerate(Workload().entries(seed, 2000), 1):
            size += len(encode([entry])) - 1
            if any(-n * LONGEST <= size - n * PIECE <= LONGEST for n in (1, 2)):
                yield made(seed, count)


def inputs():
    for some in (edge_seeds(), random_seeds(3000), limits(), lengths(), piece_edges()):
        yield from some


# ---- the checks

def vectors():
    """That the program, and the load in Python too, gives what was written down for these."""
    for seed, count, size, load_hash, text, lines_hash in VECTORS:
        for whose, script in (("the program's", load(asked(seed, count))), ("Python's", Workload().output(asked(seed, count)))):
            got = len(script), hashlib.sha256(script).hexdigest()
            need(got == (size, load_hash), f"{whose} load of seed {seed}, count {count}: {got}")
        lines = built_programs.output(script)
        got = lines.count(b"\n"), len(lines), hashlib.sha256(lines).hexdigest()
        need(got == (count, text, lines_hash), f"lines of seed {seed}, count {count}: {got}")
    for given, want in WORKED:
        for got in (load(bytes.fromhex(given)), Workload().output(bytes.fromhex(given))):
            need(got == bytes.fromhex(want), f"input {given or 'empty'} gives {got.hex(' ')}")


def check_lines(name, script, count):
    """That the script program takes every entry of this load: lines numbered from 1 to the count, no 15, each as documents 01 and 02
    have it. How often each refusal number comes."""
    text = built_programs.output(script)
    lines = [line.split(b" ") for line in text.split(b"\n")[:-1]]
    need([line[0] for line in lines] == [b"%d" % n for n in range(1, count + 1)], f"{name}: the lines are not 1 to {count}")
    refusals = Counter(int(line[1]) for line in lines)
    need(15 not in refusals, f"{name}: 15 is met")
    need(text == expected(script), f"{name}: the lines are not those of documents 01 and 02")
    return refusals


def again_and_again():
    """The same input gives the same bytes, however often."""
    runs = 0
    for vector in VECTORS:
        data = asked(vector.seed, vector.count)
        need(len({load(data) for _ in range(25)}) == 1, f"seed {vector.seed}: not the same bytes every time")
        runs += 25
    return runs


def main():
    vectors()
    tried = loads = size = 0
    refusals = Counter()
    for name, data in inputs():
        got, want = load(data), Workload().output(data)
        need(got == want, f"{name}: wrote {got[:40].hex(' ')}, {len(got)} bytes, not {want[:40].hex(' ')}, {len(want)} bytes")
        tried, loads, size = tried + 1, loads + bool(got), size + len(got)
        if got:
            refusals += check_lines(name, got, int.from_bytes(data[4:], "big"))
    need(built_programs.output(load(b"")) == b"0 15 0\n", "an empty load is not refused with 15")
    print(f"test_workload: {len(VECTORS)} vectors, {len(WORKED)} worked inputs, {tried} others: {loads} loads of {size} bytes, "
          f"{again_and_again()} runs again")
    print(f"test_workload: {refusals.total()} lines of the script program, refusals {dict(sorted(refusals.items()))}")
    need(loads > 3000 and tried - loads > 70 and {0, 6, 7, 11, 13, 14} <= set(refusals), "the inputs do not show enough")


if __name__ == "__main__":
    main()
