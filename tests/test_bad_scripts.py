#!/usr/bin/env python3
"""The script program on damaged scripts: cut at every byte and at the edges of the input buffer, every kind with every wrong length,
unknown kinds, random bytes. What it must print is the lines of the store in Python, 15 at the first bad entry, and nothing after it."""
import random
import sys

from models.free_store import ALLOCATE, ATTACH, READ, SAFE, STEP, WRITE
from programs import built_programs
from programs.store_scripts import SIZES, encode, expected, random_script

def writes_and_reads(shift):
    """Entries of nine and of five bytes in turn, over several input buffers and from a place that `shift` moves: each number written
    is read back."""
    rng = random.Random(shift)
    entries = [(ATTACH, [0]), (ALLOCATE, [0, 0, 0, 1])] + [(SAFE, [0])] * shift + [(STEP, [])] * (14 - shift)
    for _ in range(900):
        entries += [(WRITE, [0, 0, 0, rng.randrange(1 << 32)]), (READ, [0, 0, 0])]
    return entries


def inputs():
    whole = encode(random_script(7, 60))
    for cut in range(len(whole) + 1):
        yield f"cut at {cut}", whole[:cut]
    # the program's input buffer has 4,096 bytes: entries across its first edge, whole and cut, from each of their bytes on
    for shift in range(14):
        long = encode(writes_and_reads(shift))
        yield f"writes and reads {shift}", long
        for cut in range(4088, 4109):
            yield f"writes and reads {shift} cut at {cut}", long[:cut]
    # what is there of an entry is moved to the front before the program reads on, so the next edge is 4,088 to 4,096 bytes further;
    # the last cuts are around the edge of a buffer of 65,536 bytes
    long = encode(random_script(9, 30000))
    for first, last in ((8170, 8200), (12256, 12296), (16340, 16392), (65528, 65548)):
        for cut in range(first, last + 1):
            yield f"long script cut at {cut}", long[:cut]
    start = encode([(1, [0]), (4, [0, 0, 2, 2])])
    for kind in range(256):
        for length in range(12):
            if kind in SIZES or length in (0, 1, 5):
                yield f"kind {kind} length {length}", start + bytes([length]) + (bytes([kind]) + bytes(11))[:length] + b"\x01\x0e"
    yield "version 2", b"\x02\x01\x0e"
    yield "version alone", b"\x01"
    yield "long entry", start + bytes([255]) + bytes(255)
    rng = random.Random(5)
    for n in range(200):
        yield f"random bytes {n}", bytes(rng.randrange(256) for _ in range(rng.randrange(300)))
        yield f"random bytes after a good start {n}", start + bytes(rng.randrange(16) for _ in range(rng.randrange(200)))


def main():
    count = refused = 0
    for name, data in inputs():
        got, want = built_programs.output(data), expected(data)
        if got != want:
            sys.exit(f"test_bad_scripts: {name}: wrote {got[-80:]!r}, documents 01 and 02 give {want[-80:]!r}")
        count, refused = count + 1, refused + want.rstrip().endswith(b" 15 0")
    print(f"test_bad_scripts: {count} inputs, {refused} of them refused with 15")
    if refused < 500:
        sys.exit("test_bad_scripts: too few inputs are bad")


if __name__ == "__main__":
    main()
