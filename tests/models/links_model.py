"""The call that stores several links, for the store in Python: single stores in list order on the store itself and, where one of them is
refused, all words and numbers as they were. And what it does where mistakes of tests/mistakes/mistake_names.py are built in."""
from mistakes.mistake_names import (ALL_REGISTERS_FIRST, BEYOND_COUNT, COLOURS_UNSEEN, COPIES_UNSEEN, COUNT_AFTER, COUNT_FIRST, COUNT_LAST,
                                    EIGHT_REFUSED, END_STAYS, END_UNSEEN, EXCHANGED, FIELDS_FIRST, FIELDS_UNSEEN, LAST_PAIR_LEFT,
                                    LAST_REFUSAL, LINK_SLIPS, LIST_STAYS, NINE_ALLOWED, NONE_FIRST, NONE_TESTED, OLD_OF_BEFORE, PAIR_PASSED,
                                    PLANNED_BLIND, RECORD_FIRST, RECORD_ONCE, REPEATED_FIRST, REPEATED_LAST, REVERSED, SHADED_AGAIN,
                                    SHADING_STAYS, STORES_STAY)
from models.collector_model import Refused
from models.free_store import LINKS, MOST_LINKS, pairs_in
from models.planned_links_model import ALL, COLOUR, COPY, END, HEADER, OLD, OWN, WHITENESS, store_planned

# what later pairs do not see of earlier ones
UNSEEN = {PLANNED_BLIND: ALL, END_UNSEEN: {END}, FIELDS_UNSEEN: {OWN}, COPIES_UNSEEN: {COPY}, COLOURS_UNSEEN: {COLOUR},
          SHADED_AGAIN: {WHITENESS}, OLD_OF_BEFORE: {OLD}, RECORD_ONCE: {HEADER}}


def single(store, s, k, pair):
    """One pair, as a single store."""
    store.asked = LINKS, [s, k, *pair]
    store._store(store.registers[s], store.level[s], k, *pair)


def image(store):
    """What stores of links may change."""
    return [list(words) for words in store.half], list(store.list), store.tail, list(store.scanned)


def store_links(store, args):
    if not store.slips.isdisjoint(LINK_SLIPS):
        return store_wrongly(store, args)
    s, k, count = args[:3]
    store.session(s)
    store.need(count <= MOST_LINKS, 10)
    before = image(store)
    try:
        for pair in pairs_in(args):
            single(store, s, k, pair)
    except Refused:
        store.half, store.list, store.tail, store.scanned = before
        raise


# ---- with mistakes

def store_wrongly(store, args):
    slips, (s, k, count) = store.slips, args[:3]
    if COUNT_FIRST in slips:
        store.need(count <= MOST_LINKS, 10)
    if NONE_FIRST in slips and count == 0:
        return
    store.session(s)
    test_count(store, s, k, count)
    unseen = next((UNSEEN[slip] for slip in slips & UNSEEN.keys()), None)
    if unseen is not None:
        return store_planned(store, args, unseen)
    pairs = chosen(slips, args)
    test_first(store, s, k, pairs)
    store_in_turn(store, s, k, pairs)
    store.need(count <= MOST_LINKS or COUNT_LAST not in slips, 10)


def test_record(store, s, k, numbers):
    """Those of the tests of the record in a register that have one of these numbers; its reference fields."""
    for number in numbers:
        if number == 8:
            store.need(k <= 7, 8)
        elif number == 11:
            store.need(store.registers[s][k], 11)
        else:
            store.asked = LINKS, [s, k, 0, k]
            return store.follow(store.registers[s][k])[0]


def test_count(store, s, k, count):
    """The test of the count, and what is tested before it, or after it of a count of 0."""
    slips = store.slips
    for before in (8, 11):
        if COUNT_AFTER[before] in slips and count > MOST_LINKS:
            test_record(store, s, k, range(8, before + 1, 3))
    most = MOST_LINKS + (NINE_ALLOWED in slips) - (EIGHT_REFUSED in slips)
    store.need(count <= most or COUNT_LAST in slips, 10)
    for last in (8, 11, 12):
        if NONE_TESTED[last] in slips and count == 0:
            test_record(store, s, k, [number for number in (8, 11, 12) if number <= last])


def chosen(slips, args):
    """The pairs that are stored, in order."""
    pairs = pairs_in(args)
    if BEYOND_COUNT in slips and pairs:
        pairs = pairs_in([*args[:2], MOST_LINKS, *args[3:]])
    if EXCHANGED in slips:
        pairs = [pair[::-1] for pair in pairs]
    if LAST_PAIR_LEFT in slips:
        pairs = pairs[:-1]
    if REPEATED_FIRST in slips:
        pairs = [pair for n, pair in enumerate(pairs) if pair[0] not in [i for i, _ in pairs[:n]]]
    if REPEATED_LAST in slips:
        pairs = [pair for n, pair in enumerate(pairs) if pair[0] not in [i for i, _ in pairs[n + 1:]]]
    return pairs[::-1] if REVERSED in slips else pairs


def test_first(store, s, k, pairs):
    """What is tested of all pairs before the first is stored."""
    if RECORD_FIRST in store.slips and pairs:
        test_record(store, s, k, (8, 11, 12))
    if ALL_REGISTERS_FIRST in store.slips:
        store.need(all(max(k, source) <= 7 for _, source in pairs), 8)
    if FIELDS_FIRST in store.slips and pairs:
        store.need(max(k, pairs[0][1]) <= 7, 8)
        fields = test_record(store, s, k, (11, 12))
        store.need(all(i < fields for i, _ in pairs), 13)


def store_in_turn(store, s, k, pairs):
    """Single stores, with a mistake where one is refused."""
    before, refused = image(store), None
    for pair in pairs:
        try:
            single(store, s, k, pair)
        except Refused as refusal:
            refused = refusal
            if store.slips.isdisjoint({LAST_REFUSAL, PAIR_PASSED}):
                break
    if refused is None or PAIR_PASSED in store.slips:
        return
    after = image(store)
    if STORES_STAY not in store.slips:
        store.half, store.list, store.tail, store.scanned = before
    if END_STAYS in store.slips:
        store.tail = after[2]
    if LIST_STAYS in store.slips:
        store.list = after[1]
    if SHADING_STAYS in store.slips:
        _, store.list, store.tail, _ = after
        for v in store.list[before[2]:after[2]]:
            store.put(v, 1, 1)
    raise refused
