"""The test load of document 02 in Python, written from the papers alone: bytes in, a script out.

It is a class, so that a test can build in a mistake by changing one part of it.
"""
from models.free_store import ATTACH, DETACH, SAFE, ALLOCATE, LOAD, STORE, READ, WRITE, MOVE, CLEAR, SAME, GET, PUT, STEP
from programs.store_scripts import encode

MOST = 100000
WORD = 0xFFFFFFFF
# what the value drawn for an argument is taken mod; small ones are fields, r and p, and a write's value stays whole
SESSION, REGISTER, GLOBAL, SMALL, WHOLE = 16, 8, 32, 4, 1 << 32


class Workload:
    # the arguments of each kind, in the script's order
    ARGUMENTS = {
        ATTACH: [SESSION], DETACH: [SESSION], SAFE: [SESSION], ALLOCATE: [SESSION, REGISTER, SMALL, SMALL],
        LOAD: [SESSION, REGISTER, REGISTER, SMALL], STORE: [SESSION, REGISTER, SMALL, REGISTER], READ: [SESSION, REGISTER, SMALL],
        WRITE: [SESSION, REGISTER, SMALL, WHOLE], MOVE: [SESSION, REGISTER, REGISTER], CLEAR: [SESSION, REGISTER],
        SAME: [SESSION, REGISTER, REGISTER], GET: [SESSION, REGISTER, GLOBAL], PUT: [SESSION, GLOBAL, REGISTER], STEP: []}

    def xorshift32(self, x):
        x ^= (x << 13) & WORD
        x ^= x >> 17
        x ^= (x << 5) & WORD
        return x

    def values(self, seed):
        """The values after the seed, without end."""
        while True:
            seed = self.xorshift32(seed)
            yield seed

    def entry(self, values):
        """The next entry: a value for its kind, then one for each argument."""
        kind = next(values) % 14 + 1
        return kind, [next(values) % limit for limit in self.ARGUMENTS[kind]]

    def entries(self, seed, count):
        values = self.values(seed)
        return [self.entry(values) for _ in range(count)]

    def script(self, seed, count):
        return encode(self.entries(seed, count))

    def output(self, data):
        """What the program writes on these bytes."""
        seed, count = int.from_bytes(data[:4], "big"), int.from_bytes(data[4:], "big")
        if len(data) != 8 or seed == 0 or count > MOST:
            return b""
        return self.script(seed, count)


def asked(seed, count):
    """The program's input for a seed and a count."""
    return seed.to_bytes(4, "big") + count.to_bytes(4, "big")
