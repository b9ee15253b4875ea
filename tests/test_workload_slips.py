#!/usr/bin/env python3
"""A test of the tests: the load in Python agrees with the load program on the inputs tried, and each mistake that is built into it
gives other bytes on some of them."""
import itertools
import sys

from models.free_store import ALLOCATE, STEP, WRITE
from models.load_model import MOST, WHOLE, WORD, Workload
from programs import built_programs
from programs.load_inputs import edge_seeds, lengths, limits, random_seeds

RIGHT = Workload()
PIN = 15  # a kind that no load has


def slip(**parts):
    """The load with these parts changed."""
    return type("Slip", (Workload,), parts)()


# ---- values

def shifts(*places, word=WORD):
    """Other shifts: to the left, or to the right where negative."""
    def shifted(self, x):
        for by in places:
            x ^= x << by & word if by > 0 else x >> -by
        return x
    return slip(xorshift32=shifted)


def from_the_seed(self, seed):
    while True:
        yield seed
        seed = self.xorshift32(seed)


def signed(self, seed):
    return (x - (x >> 31 << 32) for x in RIGHT.values(seed))


def from_the_kind(self, seed, count):
    """Each entry goes on from the value that gave the last one's kind."""
    entries = []
    for _ in range(count):
        entries.append(self.entry(self.values(seed)))
        seed = self.xorshift32(seed)
    return entries


# ---- entries

def kinds(kind_of, pin=()):
    """Another kind for a value; `pin` has the arguments of kind 15."""
    table = {**Workload.ARGUMENTS, PIN: pin}

    def entry(self, values):
        kind = kind_of(next(values))
        return kind, [next(values) % limit for limit in table[kind]]
    return slip(entry=entry)


def drawn(kind, change):
    """What is made of the arguments of a kind, with the values after them."""
    def entry(self, values):
        got, args = RIGHT.entry(values)
        return got, change(args, values) if got == kind else args
    return slip(entry=entry)


def little_endian(args, _):
    return args[:3] + [int.from_bytes(args[3].to_bytes(4, "big"), "little")]


def byte_by_byte(args, values):
    return args[:3] + [int.from_bytes([x % 256 for x in (args[3], next(values), next(values), next(values))], "big")]


def one_more(args, values):
    next(values)
    return args


def swapped(a, b):
    def change(args, _):
        args[a], args[b] = args[b], args[a]
        return args
    return change


# ---- what is asked

def asks(change):
    """Other bytes of the input."""
    return slip(output=lambda self, data: RIGHT.output(change(data)))


def makes(change):
    """Another count, of an input that gives a load."""
    return slip(entries=lambda self, seed, count: RIGHT.entries(seed, change(count)))


def takes(first_seed, first_count, last_count):
    """Other limits of what gives a load."""
    def output(self, data):
        seed, count = int.from_bytes(data[:4], "big"), int.from_bytes(data[4:], "big")
        return self.script(seed, count) if len(data) == 8 and seed >= first_seed and first_count <= count <= last_count else b""
    return slip(output=output)


SLIPS = {
    "shifts 5, 17, 13": shifts(5, -17, 13), "shifts 17, 13, 5": shifts(-17, 13, 5), "13 to the right": shifts(-13, -17, 5),
    "17 to the left": shifts(13, 17, 5), "5 to the right": shifts(13, -17, -5), "all to the other side": shifts(-13, 17, -5),
    "shifts of 64 bits": shifts(13, -17, 5, word=(1 << 64) - 1),
    "seed as first value": slip(values=from_the_seed), "values signed": slip(values=signed),
    "from the last kind on": slip(entries=from_the_kind),
    "kind mod 15": kinds(lambda x: x % 15 + 1), "15 kinds": kinds(lambda x: x % 15 + 1, Workload.ARGUMENTS[ALLOCATE]),
    "13 kinds": kinds(lambda x: x % 13 + 1), "kind without 1 more, 0 as 14": kinds(lambda x: x % 14 or 14),
    "kind of the high bits": kinds(lambda x: (x * 14 >> 32) + 1),
    "value little-endian": drawn(WRITE, little_endian), "value of four values": drawn(WRITE, byte_by_byte),
    "a step takes a value": drawn(STEP, one_more),
    "count inclusive": makes(lambda count: count + 1), "an entry less": makes(lambda count: max(count - 1, 0)),
    "no version byte": slip(script=lambda self, seed, count: RIGHT.script(seed, count)[1:]),
    "a ninth byte ignored": asks(lambda data: data[:8] if len(data) == 9 else data),
    "all after eight bytes ignored": asks(lambda data: data[:8]),
    "a missing byte as 0": asks(lambda data: data + bytes(len(data) == 7)),
    "seed little-endian": asks(lambda data: data[:4][::-1] + data[4:]),
    "count little-endian": asks(lambda data: data[:4] + data[4:8][::-1] + data[8:]),
    "count before seed": asks(lambda data: data[4:8] + data[:4] + data[8:]),
    "seed 0 taken": takes(0, 0, MOST), "count 0 empty": takes(1, 1, MOST), "100,000 empty": takes(1, 0, MOST - 1),
    "100,001 taken": takes(1, 0, MOST + 1)}


def argument_slips():
    """Each argument of each kind mod half and twice of what it is mod, so a field mod 8; and each two of them in the other order."""
    for kind, table in Workload.ARGUMENTS.items():
        for at, limit in enumerate(table):
            for wrong in (limit // 2, limit * 2):
                if wrong <= WHOLE:
                    yield (f"argument {at} of kind {kind} mod {wrong}",
                           slip(ARGUMENTS={**Workload.ARGUMENTS, kind: [*table[:at], wrong, *table[at + 1:]]}))
        for a, b in itertools.combinations(range(len(table)), 2):
            if WHOLE not in (table[a], table[b]):  # a whole value has no room in a byte
                yield f"arguments {a} and {b} of kind {kind} in the other order", drawn(kind, swapped(a, b))


def written(inputs):
    """What the program writes on these inputs, which is the load in Python."""
    tried = [(name, data, built_programs.output(data, built_programs.WORKLOAD)) for name, data in inputs]
    if unlike(RIGHT, tried):
        sys.exit(f"test_workload_slips: the program's load is not that in Python: {unlike(RIGHT, tried)[0]}")
    return tried


def unlike(load, tried):
    """The inputs on which this load is not the program's."""
    return [name for name, data, got in tried if load.output(data) != got]


def main():
    edges, small, great = written(edge_seeds()), written([*random_seeds(201), *lengths()]), written(limits())
    for words, wrong in SLIPS.items():
        seen = unlike(wrong, edges + small) or unlike(wrong, great)
        if not seen:
            sys.exit(f"test_workload_slips: the slip '{words}' is not seen")
        print(f"test_workload_slips: '{words}' is seen by {len(seen)} inputs, the first {seen[0]}")
    counts = {words: len(unlike(wrong, edges)) for words, wrong in argument_slips()}
    least = min(counts, key=counts.get)
    if not counts[least]:
        sys.exit(f"test_workload_slips: the slip '{least}' is not seen")
    print(f"test_workload_slips: {len(counts)} slips in the arguments are seen, each by {counts[least]} of {len(edges)} inputs or more")


if __name__ == "__main__":
    main()
