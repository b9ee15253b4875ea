"""Inputs of the load program, each with its name: edges and thousands of seeds, counts and lengths at their limits. And loads of which
bytes and lines were written down."""
import random
from collections import namedtuple

from models.load_model import MOST, WORD, asked

PIECE = 4096  # bytes that the program writes at once at most
# bytes and SHA-256 of the load, bytes and SHA-256 of the script program's lines on it
Vector = namedtuple("Vector", "seed count size load text lines")
VECTORS = [
    Vector(0x00000001, 20, 93, "57d22eaa5a40199c1375ced1c1f6642369af1562c5f9a92fbeccc112fad90424",
           131, "107e4e24cb84195a503d64afccd513a44d569a1499c676628ca9fa094df8a090"),
    Vector(0x12345678, 1000, 4761, "594b5d020c8b5d25e5da73989b84c71356b407f5c7ba83b0c1d5e01898178a3f",
           8015, "8cac66c76840c941798eee62725c61d127ba20f1aa679320aedcd35539f6baf6"),
    Vector(0xFFFFFFFF, 100000, 478425, "ac91fbe42879d75395d2192e285a63417df2819def5a8e5fb4592c67c622a1e9",
           1006327, "e3ac29585037f3ab1dbf38473a3f5c656f3f10cbf0a0ab7e3eccf9ddbaa2e058")]


def made(seed, count):
    return f"seed {seed}, count {count}", asked(seed, count)


def edge_seeds():
    """1, 2, 2^31 and 2^32 - 1; one bit, all bits but one."""
    for bit in range(32):
        for seed in (1 << bit, WORD - (1 << bit)):
            yield made(seed, 60 + bit)
    yield made(WORD, 200)
    for count in range(4):
        yield made(0, count)


def random_seeds(many):
    rng = random.Random(2)
    for n in range(many):
        yield made(rng.randrange(1, WORD), n % 201)


def limits():
    """Counts around the greatest one, around what fits one and two bytes, and far too great ones."""
    for seed in (1, 0x80000000, WORD, 20261116):
        for count in (0, 1, MOST - 1, MOST, MOST + 1):
            yield made(seed, count)
    for count in (255, 256, 257, 65535, 65536, 65541, 1 << 17, 1 << 24, 5 << 24, 1 << 31, WORD):
        yield made(77, count)
    yield made(0, MOST)


def lengths():
    """Inputs of 0 to 20 bytes and long ones, of which the first eight would do."""
    whole = random.Random(3).randbytes(1 << 17)
    for seed, count, rest in ((1, 5, bytes(12)), (WORD, 40, whole), (0x01020304, 7, asked(1, 5) + bytes(4))):
        for length in range(21):
            yield f"{length} bytes for seed {seed}", (asked(seed, count) + rest)[:length]
    for length in (PIECE - 1, PIECE, PIECE + 1, PIECE + 8, 1 << 16, (1 << 16) + 8, 1 << 17):
        yield f"{length} bytes", (asked(9, 9) + whole)[:length]
