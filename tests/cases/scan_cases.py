"""Cases for the probe program of the session scan, the step of phase 4 that shades the registers of a session: registers that are equal in
every way, each way of damage at each register, more and less room in the list, other sessions beside the one that is scanned, records
that share words, with replicas and without; and random registers over small words, of which nearly every one begins a record. A case is
a name with the bytes of tests/programs/probe_program.py."""
import itertools
import random

from cases.ample_shares import scatter
from cases.limit_cases import TOP, ref
from cases.random_damage import any_number, cross
from cases.replica_cases import is_pair
from cases.scan_overlap_cases import SCAN, listed, shared, stage, white_there
from models.free_store import STEP
from models.record_layout import HEADER, least_list, size
from models.store_model import Sapphire
from programs.probe_program import ANSWER, decode, encode

FLIP = 11  # the phase in which a step forwards the registers of a session

# The records of both halves, one behind another, by capital letters. A to H are white, X is grey and Y black, Q and R have no such colour,
# S and T no such shape. A letter among the words is the reference of that record, a small one of the same in the other half: most records
# have it for their replica. Those of I, J, P, U, V and Z are wrong. K is white and ends at the frontier; within it begins L, which ends a
# word behind the frontier.
RECORDS = {"A": [0, 0, 0, 1], "B": [1, 0, "b", 2, 5], "C": [256, 0, "c", 3, 7], "D": [0, 0, "d", 4], "E": [258, 0, "e", 0, 2, 0, 4],
           "F": [0, 0, 0, TOP], "G": [2, 0, 0, 5, 1, 1], "H": [512, 0, "h", 6, 1, TOP], "X": [1, 1, "x", 7, 6], "Y": [256, 2, "y", 8, 2],
           "Q": [0, 3, 0, 9], "R": [0, TOP, 0, 10], "S": [65536, 0, 0, 11], "T": [TOP, 0, 0, 12], "I": [0, 0, 1, 13], "J": [0, 0, "J", 14],
           "P": [1, 0, "b", 15, 5], "U": [1, 0, "v", 16, 5], "V": [257, 0, "u", 17, 5, 5], "Z": [0, 0, "a", 18], "K": [5, 0, 0, 19, 0],
           "L": [1, 0, 0, 0]}
WHITES = "ABCDEFGHK"
END, LENGTH = sum(map(len, RECORDS.values())), 120
STARTS = dict(zip(RECORDS, itertools.accumulate(map(len, RECORDS.values()), initial=0)))
PLACES = {**STARTS, "M": END - HEADER + 1, "N": END, "O": LENGTH}  # with a header across the frontier, at it, and past the half
OTHERS = {"0": 0, "1": 1, "8": TOP - 1, "9": TOP}
BAD = "QqRrSsTtIiJjPpUuVvZzLlMmNnOo189"


def named(letters, h):
    """The references of these letters: capital ones are records in half h, small ones the same in the other half."""
    return [OTHERS[x] if x in OTHERS else ref(h if x.isupper() else 1 - h, PLACES[x.upper()]) for x in letters]


def words_in(h):
    """The words of half h."""
    words = [named(word, h)[0] if isinstance(word, str) else word for record in RECORDS.values() for word in record]
    return words + [0] * (LENGTH - END)


HALVES = [words_in(0), words_in(1)]


def lettered(letters, room, h, current, turn):
    """A case of these letters over the records above."""
    store = stage(HALVES, [END, END], named(letters, h), room, current, turn)
    return f"scan of {letters}, capital letters in half {h}, current half {current}, room for {room}, turn {turn}", store


# ---- over records that lie one behind another

def different_whites(letters):
    return len({x for x in letters if x.upper() in WHITES})


def ways(n):
    """Every way in which n registers can be equal: for each the number of the first one that is equal, counted without gaps."""
    if n == 0:
        yield []
        return
    for way in ways(n - 1):
        for i in range(max(way, default=-1) + 2):
            yield [*way, i]


def equal_registers():
    """Eight registers equal in every way, with white, null, grey and black ones among them, just room enough and one less."""
    alphabets = ["ABCDEFGH", "0ABCDEFG", "AX0BYCDE", "AaBbCcDd", "XAYBxCyK"]
    for turn, way in enumerate(ways(8)):
        letters = "".join(alphabets[turn % len(alphabets)][i] for i in way)
        for less in (0, 1):
            room = max(different_whites(letters) - less, 0)
            yield lettered(letters, room, (turn + less) % 2, turn // 2 % 2, turn)


def repeated_registers():
    """Equal ones side by side, apart, all eight, nulls, greys and blacks, in both halves, with room for none to nine."""
    for letters in ["AAAAAAAA", "aaaaaaaa", "XXXXXXXX", "YYYYYYYY", "00000000", "KKKKKKKK", "AABBCCDD", "AAAABBBB", "BAAAAAAA", "AAAAAAAB",
                    "ABCDABCD", "ABCDDCBA", "A000000A", "0A0A0A0A", "0000AAAA", "0000000A", "ABBBBBBA", "AXBYAXBY", "AaAaAaAa", "abABabAB",
                    "ABCDabcd", "XXAXXAXX", "YYAYYAYY", "XYXYXYXY", "XYXYXYXA", "XxYyXxYy", "ABCDEFGH", "HGFEDCBA", "AbCdEfGh", "ABCDEFGK"]:
        for turn, (room, h, current) in enumerate(itertools.product(range(10), (0, 1), (0, 1))):
            yield lettered(letters, room, h, current, turn)


def rooms():
    """So many different white ones of eight, the other registers null, grey, black or equal to one of them, before, between and behind
    them, with room for none to ten."""
    whites = "ABcDeFGh"
    for count, turn, room in itertools.product(range(9), range(3), range(11)):
        few = whites[:count]
        for more in ["0" * 8, "XYxy" * 2, (few or "0") * 8, (few[:1] or "Y") * 8]:
            more = more[:8 - count]
            between = "".join(itertools.chain(*itertools.zip_longest(few, more, fillvalue="")))
            yield lettered([few + more, more + few, between][turn], room, room % 2, (room + turn) % 2, turn + count)


def damage():
    """Each way of damage at each register, the others different white ones, equal ones, nulls, grey and black; room for all and for
    none. And at each register the one that only just is sound."""
    for bad, at, letters in itertools.product(BAD + "Kk", range(8), ["ABCDEFGH", "AAAAAAAA", "abABabAB", "00000000", "XYXYXYXY"]):
        for turn, (room, h) in enumerate([(9, 0), (9, 1), (0, at % 2)]):
            yield lettered(letters[:at] + bad + letters[at + 1:], room, h, (at + turn) % 2, at + turn)
    for turn, (bad, other) in enumerate(itertools.product(BAD, BAD)):
        yield lettered("ABC" + bad + "AD" + other + "E", 8, turn % 2, turn // 2 % 2, turn)


def sessions():
    """Each session as the lowest one without a mark that is attached. Those below it are detached, marked or both, those above it
    anything; all others hold other registers, damaged ones among them."""
    below = {"detached": (False, False), "detached, marked": (False, True), "scanned": (True, True)}
    above = {"attached": (True, False), "detached": (False, False), "scanned": (True, True), "detached, marked": (False, True)}
    for s, (low, under), (high, over), (turn, others) in itertools.product(range(16), below.items(), above.items(), enumerate(
            ("CDEFCDEF", "ABC1CQL9"))):
        name, store = lettered("BAB0XHAY", 4, turn, s % 2, s + turn)
        store.registers = [named(others, n % 2) for n in range(16)]
        store.registers[s] = named("BAB0XHAY", turn)
        pairs = [under] * s + [(True, False)] + [over] * (15 - s)
        store.attached, store.scanned = [a for a, _ in pairs], [m for _, m in pairs]
        yield f"{name}, session {s}, below {low}, above {high}, with {others}", store
    for turn, (attached, scanned) in enumerate([(False, False), (False, True), (True, True)]):  # nobody is left: the phase ends
        name, store = lettered("ABCDEFGH", 8, 0, turn % 2, turn)
        store.attached, store.scanned = [attached] * 16, [scanned] * 16
        yield f"no {name}, attached {attached}, marked {scanned}", store


def lists():
    """The list's place and end anywhere in it, behind any words, and lists that are longer than they must be."""
    for more, turn in itertools.product((0, 1, 9), range(3)):
        capacity = least_list(LENGTH) + more
        for tail in range(capacity + 1):
            name, store = lettered("0ABAYcdX", capacity - tail, tail % 2, turn % 2, turn)
            store.capacity, store.head, store.tail, store.list = capacity, tail, tail, listed(turn, capacity)
            yield f"{name}, list of {capacity}", store


# ---- beside the scan

def scans():
    for cases in (equal_registers, repeated_registers, rooms, damage, sessions, lists, shared):
        for name, store in cases():
            yield name, encode(store, STEP, [])


def beside(cases):
    """Of these cases one in so many: in phase 11, where the registers are forwarded and nothing is shaded; with a list that is not done,
    whose record comes first; and the steps after it up to a refusal."""
    for name, case in cases[::19]:
        store, _, _ = decode(case)
        store.phase = FLIP
        yield f"phase {FLIP}, {name}", encode(store, STEP, [])
    for name, case in cases[5::23]:
        store, _, _ = decode(case)
        if store.head:
            store.head -= 1
            yield f"list from {store.head}, {name}", encode(store, STEP, [])
    for name, case in cases[7::101]:
        store, _, _ = decode(case)
        for i in range(1, 25):
            if store.call(STEP, [])[0]:
                break
            yield f"{i} steps after {name}", encode(store, STEP, [])


def directed():
    cases, found = list(scans()), {}
    for name, case in [*cases, *beside(cases)]:
        found.setdefault(case, name)
    return [(name, case) for case, name in found.items()]  # each once, by its first name


# ---- by chance

SMALL = [[0], [0], [0, 0, 0, 1], [0, 0, 0, 0, 0, 1, 2], range(2), range(3), [0, 0, 0, 0, 1, 2, 2, 256, 257, 512], range(6)]
ODD = [3, 255, 256, 4096, 65535, 65536, TOP]


def any_words(rng, n):
    words = rng.choices(rng.choice(SMALL), k=n)
    for _ in range(rng.choice([0, 0, 0, 1, 2])):
        words[rng.randrange(n)] = rng.choice(ODD)
    return words


def any_references(rng, store):
    """Some that are near each other, most often all of them sound and more of them white, with nulls among them, and now and then one
    that names nothing."""
    width, both = rng.choice([2, 3, 4, 6, 10, 20]), rng.random() < 0.4
    pool, first = [], rng.randrange(2)
    for h in (0, 1) if both else (first,):
        last = max(store.frontier[h] - HEADER, 0)  # where the last record may begin
        start = rng.choice([rng.randrange(last + 1), max(last + 1 - width, 0)])
        pool += [ref(h, k) for k in range(start, start + width)]
    if rng.random() < 0.85:
        pool = [v for v in pool for _ in range({None: 0, False: 1, True: 4}[white_there(store, v)])] or [0]
    pool += [0] * rng.choice([0, 0, 1, 2])
    nothing = rng.choice([1, ref(first, len(store.half[0])), ref(first, max(store.frontier[first] - HEADER + 1, 0)), TOP])
    return pool + [nothing] * (rng.random() < 0.06)


def random_scan(rng):
    n = rng.choice([16, 17, 18, 21, 24])
    store = Sapphire(n, least_list(n) + rng.choice([0, 0, 1, 3, 5]))
    store.half = [any_words(rng, n), any_words(rng, n)]
    store.frontier = [rng.choice([n, n, n - 1, n - rng.randrange(8), rng.randrange(n + 1)]) for _ in (0, 1)]
    crossed = [v for _ in range(rng.choice([0, 1, 2, 3])) for v in cross(rng, store)]
    store.phase, store.current = SCAN if rng.random() < 0.94 else FLIP, rng.randrange(2)
    store.place, store.field, store.level = rng.randrange(n + 1), rng.randrange(511), rng.choices(range(7), k=16)
    store.attached, store.scanned = rng.choices([True, True, False], k=16), rng.choices([True, False], k=16)
    store.births = any_number(rng)
    scatter(rng, store)
    s = rng.randrange(16)
    store.attached[s], store.scanned[s] = True, False
    pool = any_references(rng, store) + [v for v in crossed if is_pair(store, v) or rng.random() < 0.1] * 2
    store.registers = [rng.choices(pool, k=8) for _ in range(16)]
    store.globals, store.list = rng.choices(pool, k=32), rng.choices([*pool, *ODD], k=store.capacity)
    count = len({v for v in store.registers[store.unmarked()] if white_there(store, v)})
    room = rng.choice([count, count, count, count - 1, 8, rng.randrange(store.capacity + 1)])
    store.head = store.tail = store.capacity - min(max(room, 0), store.capacity)
    return store


def random_cases(count, seed=1):
    rng = random.Random(seed)
    for i in range(count):
        yield f"random scan {i} of seed {seed}", encode(random_scan(rng), STEP, [])


# ---- what the cases show

LEAST = {"refused": 2000, "scanned": 2000, "equal": 2000, "paired": 2000, "shared": 2000, "crossed": 1000, "written": 1000}


def traits(case, reply):
    """What is to be counted of a case: whether it is a scan, refused or not, and then whether white registers are equal, whether records
    in the registers have replicas, whether they share words, one with a replica with another too, and whether a colour that is written
    is a word of another one of them."""
    store, _, _ = decode(case)
    n = store.unmarked()
    if store.phase != SCAN or store.head < store.tail or n is None:
        return ["beside"]
    if ANSWER.unpack_from(reply)[0]:
        return ["refused"]
    held = [v for v in store.registers[n] if v]
    whites = [v for v in held if store.white(v)]
    words = {v: set(range(v, v + 2 * size(*store.follow(v)), 2)) for v in held}  # as the references that name them
    pairs = list(itertools.permutations(words, 2))
    paired = {v for v in held if store.at(v, 2)}
    found = {"equal": len(set(whites)) < len(whites), "paired": paired, "shared": any(words[v] & words[w] for v, w in pairs),
             "crossed": any(v in paired and words[v] & words[w] for v, w in pairs),
             "written": any(v in whites and v + 2 in words[w] for v, w in pairs)}
    return ["scanned", *(trait for trait, it_has in found.items() if it_has)]
