"""Cases for the probe program of the session scan over records that share words, with replicas and without. Each is a name and a store. And
the store that all cases of tests/cases/scan_cases.py set out from."""
import itertools

from cases.ample_shares import wide
from cases.limit_cases import TOP, putting, ref
from models.record_layout import HEADER, least_list, size_of
from models.store_model import Refused, Sapphire

SCAN = 4  # the phase in which a step shades the registers of a session


def listed(turn, n):
    """What a list of n words held before, in turn: nothing, references, anything."""
    return [[0] * n, [ref(i % 2, i) for i in range(n)], [TOP - 7 * i for i in range(n)]][turn % 3]


def stage(halves, ends, registers, room, current, turn):
    """Session 3 is the lowest one without a mark that is attached, and holds these registers. Session 0 is detached, 1 and 2 have been
    scanned, 5 comes after it; they hold other ones. The list has room for so many entries. What else a scan must leave goes by turn."""
    n = len(halves[0])
    store = wide(Sapphire(n, max(least_list(n), room) + turn % 4))
    store.half, store.frontier, store.current, store.phase = [list(words) for words in halves], list(ends), current, SCAN
    store.list, store.head, store.tail = listed(turn, store.capacity), store.capacity - room, store.capacity - room
    store.place, store.field, store.level = turn % (n + 1), turn % 511, [(turn + s) % 7 for s in range(16)]
    store.globals, store.births = [(turn + 3 * i) % 40 for i in range(32)], turn
    store.registers = [[2 + (turn + 5 * s + i) % 24 for i in range(8)] for s in range(16)]
    store.registers[3] = list(registers)
    for s in (1, 2, 3, 5, 15):
        store.attached[s] = True
    store.scanned = [s in (1, 2) or s > 5 and (turn + s) % 3 == 0 for s in range(16)]
    return store


# how two references, or three, stand in the registers
LIKE = ["AB000000", "0A0B0000", "ABABABAB", "AABBAABB", "A000000B", "AAAAAAAB", "00ABB000"]
LIKE_THREE = ["ABC00000", "ABCABCAB", "AABBCCAA", "0A0B0C0C", "A00BB00C"]


def spread(like, references):
    return [references["ABC".index(x)] if x != "0" else 0 for x in like]


def white_there(store, v):
    """Whether a reference names a white record, or None if it can't be followed."""
    try:
        return store.white(v)
    except Refused:
        return None


def mend(store, v, colour):
    """Where the replica word of a record names a word of the other half, a header there that points back."""
    w = store.at(v, 2)
    if w > 1 and w % 2 != v % 2 and (w - 2) // 2 + HEADER <= len(store.half[w % 2]):
        putting((w, 0, store.at(v, 0)), (w, 1, colour), (w, 2, v))(store)


def crowded(name, words, end, registers, h, turn, room=8):
    """A case over these words in half h; the other half has other ones, its frontier at another place. In most cases a replica that it
    has points back."""
    other = [(turn + 5 * i) % 3 for i in range(len(words))]
    halves, ends = [list(words), other], [end, len(words) - turn % 3]
    current = turn // 3 % 2
    store = stage(halves[::-1] if h else halves, ends[::-1] if h else ends, registers, room, current, turn)
    for v in registers:
        if v and turn % 7:
            mend(store, v, turn % 3)
    return f"scan of {name} in half {h}, registers {registers}, current half {current}, frontier {end}, room for {room}", store


def two_apart():
    """Two records, the second one to seven words behind the first, so that the colour of either may be word 0, the replica word or a field
    of the other; in both orders, up to the frontier or a word before it."""
    turns = itertools.count()
    for apart, shape, colours in itertools.product(range(1, 8), (0, 1, 256, 2, 257, 513, 770), [(0, 0), (0, 1), (1, 0), (0, 2), (2, 0)]):
        for order, slack, h in itertools.product((1, -1), (0, 1), (0, 1)):
            turn, at = next(turns), 2
            words = [0] * 21
            words[at], words[at + apart] = shape, turn // 8 % 2
            words[at + 1], words[at + apart + 1] = colours
            end = max(start + size_of(words[start]) for start in (at, at + apart)) + slack
            registers = spread(LIKE[turn % len(LIKE)], [ref(h, at), ref(h, at + apart)][::order])
            yield crowded(f"two records, places {apart} apart, shape {shape}, colours {colours},", words, end, registers, h, turn)


def replicas_apart():
    """Two records, one or both with a replica, the second one to six words behind the first, its replica up to six before or behind the
    other's: a replica word may be word 0 or a field of the other record. Of those that are not right, some."""
    turns = itertools.count()
    for apart, beside, shape, colours, paired, h in itertools.product(range(1, 7), (-6, -4, -3, -2, -1, 1, 2, 3, 5), (0, 1, 256, 257), (
            (0, 0), (0, 1), (2, 0)), ((1, 1), (0, 1), (1, 0)), (0, 1)):
        turn = next(turns)
        v, w = ref(h, turn % 3), ref(1 - h, 7 - turn % 2)
        second, copy = v + 2 * apart, w + 2 * beside
        other = {1: colours[0], 2: w * paired[0]}.get(apart, shape)  # the second one's word 0, which is a word of the first
        store = stage([[0] * 24, [0] * 24], [24 - turn % 4, 24 - turn % 3], [0] * 8, 8, turn // 2 % 2, turn)
        putting((w, 0, shape), (w, 1, turn % 3), (w, 2, v), (copy, 0, other), (copy, 1, (turn + apart) % 3), (copy, 2, second),
                (v, 0, shape), (v, 1, colours[0]), (v, 2, w * paired[0]),
                (second, 0, other), (second, 1, colours[1]), (second, 2, copy * paired[1]))(store)
        store.registers[3] = spread(LIKE[turn % len(LIKE)], [v, second][::turn // 3 % 2 * 2 - 1])
        if turn % 9 == 0 or None not in (white_there(store, v), white_there(store, second)):
            yield (f"scan of two records, {apart} apart, replicas {beside}, shape {shape}, colours {colours}, with a replica {paired}, "
                   f"in half {h}, turn {turn}", store)


def three_neighbours():
    """Records at three words in a row, in every order, with every colour, which is the next one's word 0."""
    turns = itertools.count()
    orders = list(itertools.permutations(range(3)))
    for colours, order, slack, h in itertools.product(itertools.product(range(3), repeat=3), orders, (0, 1), (0, 1)):
        turn = next(turns)
        at = turn % 7
        words = [0] * (at + 1) + [*colours] + [0] * 20
        end = at + 2 + HEADER + colours[1] + slack
        registers = spread(LIKE_THREE[turn % len(LIKE_THREE)], [ref(h, at + i) for i in order])
        yield crowded(f"three in a row, colours {colours},", words, end, registers, h, turn)


def rows():
    """Eight white records at words in a row, or at references in a row, which are of both halves, in several orders; the last one ends at
    the frontier or before it; room for eight or less. And with a register at the end that is damaged."""
    orders = {"upwards": range(8), "downwards": range(7, -1, -1), "outwards": (3, 4, 2, 5, 1, 6, 0, 7), "by twos": (0, 2, 4, 6, 1, 3, 5, 7),
              "equal pairs": (4, 4, 5, 5, 6, 6, 7, 7), "back and forth": (5, 6, 7, 6, 5, 6, 7, 6)}
    for (name, order), step, slack, room, turn in itertools.product(orders.items(), (1, 2), (0, 1, 5), (8, 7, 4, 3, 2), range(4)):
        at, h = 3 * turn, turn % 2
        registers = [ref(h, at) + step * i for i in order]
        words = [0] * 24
        end = min(at + (7 if step == 2 else 3 + h) + HEADER + slack, 24)
        damaged = [[*registers[:7], bad] for bad in (1, ref(h, end - HEADER + 1), ref(1 - h, 24), TOP)] if room == 8 else []
        for held in [registers, *damaged]:
            store = stage([words, words], [end, end], held, room, turn // 2, turn)
            yield f"scan of a row {name}, registers {held}, current half {turn // 2}, frontiers {end}, room for {room}", store


def shared():
    for cases in (two_apart, replicas_apart, three_neighbours, rows):
        yield from cases()
