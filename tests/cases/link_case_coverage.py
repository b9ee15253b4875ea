"""What cases of the call for several links show: which pair it is refused by, and what a pair sees of those before it. The call is gone
through pair by pair, each planned on the words as the pairs before it have left them and on the words as they came in."""
import itertools

from cases.link_cases import HAVING
from models.collector_model import Refused
from models.free_store import LINKS, MOST_LINKS, pairs_in
from models.planned_links_model import ALL, Plan, store_planned
from models.record_layout import HEADER
from programs.probe_program import ANSWER, CALL, decode, memory

WORDS = ["shape", "colour", "replica word"]
OWN, COPY, COLOUR = "a field", "a replica's field", "a colour"  # what wrote a word
PASSES, REFUSED, OTHERWISE = "done only because of it", "refused only because of it", "refused otherwise because of it"
FULL, SHADED, COUNT, DONE, REPEATED = "the list full", "shaded before", "count", "done", "a field repeated"
REFUSED_BY = "refused by pair"
BLIND_ANSWER, BLIND_WORDS = "answered otherwise by pairs planned on the words as they came in", "other words by such pairs"


def planned(store, s, k, pair, more=0):
    """What a single store would be answered, with so much more room in the list, and its plan."""
    plan = Plan(store, s)
    store.list += [0] * more
    try:
        plan.pair(k, *pair)
        return 0, plan
    except Refused as refusal:
        return refusal.args[0], plan
    finally:
        del store.list[len(store.list) - more:]


def number_of(*asked):
    return planned(*asked)[0]


def word(store, v, j):
    place = (v - 2) // 2 + j
    return store.half[v % 2][place] if v > 1 and place < len(store.half[v % 2]) else 0


# ---- a pair and those before it

def looked_at(store, s, k, pair):
    """The references that a pair may follow, by name: each once, by its first name."""
    regs, found = store.registers[s], {}
    for name, v in [("record", regs[k]), ("stored", regs[pair[1]]), ("old", word(store, regs[k], HEADER + pair[0]))]:
        for about, u in [(name, v), (f"{name}'s replica", word(store, v, 2))]:
            if u > 1 and u not in found.values():
                found[about] = u
    return found


def writer(store, s, k, v, j):
    """What has written word j of v."""
    held = store.registers[s][k]
    fields = range(held + 2 * HEADER, held + 2 * (HEADER + word(store, held, 0) // 256), 2)
    return OWN if v + 2 * j in fields else COPY if store.level[s] > 3 else COLOUR


def seen_by(first, store, s, k, pair):
    """Header words that a pair may look at, and the overwritten reference, where those before it have changed them."""
    held, field = store.registers[s][k], HEADER + pair[0]
    changed = [("old", "itself", writer(store, s, k, held, field))] * (word(first, held, field) != word(store, held, field))
    return changed + [(name, WORDS[j], writer(store, s, k, v, j)) for name, v in looked_at(store, s, k, pair).items() for j in range(3)
                      if word(first, v, j) != word(store, v, j)]


def pair_traits(first, store, s, k, pair):
    """A pair that is answered otherwise than on the words as they came in, both with room in the list, and the one word that makes it so,
    if there is one."""
    now, before = number_of(store, s, k, pair, 2), number_of(first, s, k, pair, 2)
    if now == before:
        return []
    way = PASSES if not now else REFUSED if not before else OTHERWISE
    changed = seen_by(first, store, s, k, pair)
    return [(*changed[0], way, store.level[s]) if len(changed) == 1 else ("several words", way)]


def room_traits(store, s, k, n, pair):
    """Pair n, which is refused: whether that is for the list, and for which of its references."""
    number, plan = planned(store, s, k, pair, 2)
    if number:
        return []
    lacking = plan.listed[len(store.list) - store.tail]
    return [(FULL, store.level[s], n, "stored" if lacking == store.registers[s][pair[1]] else "old")]


def shaded_traits(store, s, k, pair, start):
    """A pair that is done: whether an earlier one has shaded a record that it stores or overwrites; the list ended at `start` then."""
    level = store.level[s]
    some = [store.registers[s][pair[1]]] * (1 <= level <= 3) + [word(store, store.registers[s][k], HEADER + pair[0])] * (2 <= level <= 3)
    return [(SHADED, level)] * any(v in store.list[start:store.tail] for v in some)


# ---- a call

def done_traits(store, s, k, pairs):
    """A call that is done: its level and phase, the current half, and whether it works on a tospace copy; whether a field is repeated."""
    level, in_tospace = store.level[s], store.registers[s][k] % 2 != store.fromspace()
    return [(DONE, level, store.phase, store.current, in_tospace)] + [(REPEATED, level)] * (len({i for i, _ in pairs}) < len(pairs))


def blind_traits(first, number, store, args):
    """Whether pairs that are planned on the words as they came in give another answer, or other words. They change `first`."""
    try:
        store_planned(first, args, ALL)
        other = 0
    except Refused as refusal:
        other = refusal.args[0]
    except IndexError:  # past the end of the list
        other = None
    if other != number:
        return [BLIND_ANSWER]
    return [BLIND_WORDS] * (number == 0 and memory(first) != memory(store))


def traits(case, reply):
    """What is to be counted of a case."""
    if CALL.unpack_from(case)[0] != LINKS:
        return []
    number = ANSWER.unpack_from(reply)[0]
    (store, _, args), (first, _, _) = decode(case), decode(case)
    (s, k, count), start = args[:3], store.tail
    found = [(COUNT, min(count, MOST_LINKS + 1), number)]
    if number in (4, 5, 6, 10) or not count:
        return found
    if number == 0:
        found += done_traits(store, s, k, pairs_in(args))
    for n, pair in enumerate(pairs_in(args), 1):
        refusal = number_of(store, s, k, pair)
        found += pair_traits(first, store, s, k, pair) if max(k, pair[1]) <= 7 else []
        if refusal:
            found += [(REFUSED_BY, n, refusal), *(room_traits(store, s, k, n, pair) if refusal == 12 else [])]
            break
        found += shaded_traits(store, s, k, pair, start)
        store._store(store.registers[s], store.level[s], k, *pair)
    return found + blind_traits(first, number, store, args)


# ---- what the directed cases must have

def seen_words():
    """Every way in which what a pair is answered can depend on one word that an earlier one has written, with the level: a header word of
    what it follows, or the overwritten reference itself. What no case has: a replica's replica word that comes right, as the record that
    must be stored for that could not be followed then."""
    for level in range(1, 7):
        for role in ("stored", "old")[:1 + (level in (2, 3))]:
            for by, (name, word), way in itertools.product((OWN, COPY if level > 3 else COLOUR), itertools.product(
                    (role, f"{role}'s replica"), WORDS), (PASSES, REFUSED)):
                if by == COLOUR and (word == "colour" or word == "replica word" and (way == PASSES or name != role)):
                    continue
                if name == role or word != "replica word" or way == REFUSED:
                    yield name, word, by, way, level
        if level < 4:
            yield from (("record", "replica word", COLOUR, way, level) for way in (REFUSED, OTHERWISE))
        if level in (2, 3):
            yield "old", "itself", OWN, REFUSED, level


TRAITS = [*seen_words(), *((DONE, *having, current, side) for having in HAVING for current in (0, 1) for side in (False, True)),
          *((SHADED, level) for level in (1, 2, 3)), *((REPEATED, level) for level in range(7)),
          *((FULL, level, n, by) for level in (1, 2, 3) for n in range(1, 9) for by in ("stored", "old")[:level]),
          (REFUSED_BY, 1, 11), *((REFUSED_BY, n, number) for n in range(1, 9) for number in (8, 12, 13)),
          *((COUNT, count, number) for count in (*range(9), MOST_LINKS + 1) for number in (4, 5, 6) if count not in range(3, 7)),
          *((COUNT, count, 0) for count in range(9)), (COUNT, MOST_LINKS + 1, 10), BLIND_ANSWER, BLIND_WORDS]
