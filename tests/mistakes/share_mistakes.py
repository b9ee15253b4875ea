"""What the store in Python does with shares and charges where mistakes of tests/mistakes/mistake_names.py are built in."""
from mistakes.mistake_names import (ATTACH_CLEARS, ATTACHED_CLEARED, BOTH_CHARGED, CHARGE_FORGOTTEN, CHARGE_TESTED, CHARGED_BY,
                                    CHARGES_STAY, CLEARED_AFTER_REST, CLEARED_AT_RECLAIM, CLEARED_WAITING, DETACH_CLEARS, DETACH_UNSHARES,
                                    HEADER_FREE, MAKING_KEEPS, NEXT_CHARGED, NUMBERS_BEFORE_SHARE, REFUSED_SHARES, ROOM_BEFORE_SHARE,
                                    SHARE_BEFORE_SHAPE, SHARE_JUST_REFUSED, SHARE_KEPT, SHARE_MODULO, SHELLS_CHARGED)
from models.free_store import ALLOCATE, ATTACH, share_in
from models.record_layout import HEADER, size

WORDS = 1 << 32  # a charge is less
ALREADY = 7      # refusal of an attach
REST, RECLAIM = 0, 12
MOVING = {CLEARED_AT_RECLAIM, CLEARED_AFTER_REST}
ALLOCATING = {CHARGE_FORGOTTEN, SHARE_JUST_REFUSED, SHARE_MODULO, ROOM_BEFORE_SHARE, NUMBERS_BEFORE_SHARE, HEADER_FREE, BOTH_CHARGED,
              NEXT_CHARGED}


def charge(store, s, words):
    store.charge[s] = (store.charge[s] + words) % WORDS


# ---- session calls

def out_of_range(store):
    """Whether a share or a charge is taken for out of its range: they have none."""
    return CHARGE_TESTED in store.slips and any(words > share for words, share in zip(store.charge, store.share))


def attached(store, s, share):
    """The share of a session that is attached with this one."""
    if ATTACH_CLEARS in store.slips:
        store.charge[s] = 0
    return store.share[s] if SHARE_KEPT in store.slips else share


def detached(store, s):
    if DETACH_CLEARS in store.slips:
        store.charge[s] = 0
    if DETACH_UNSHARES in store.slips:
        store.share[s] = 0


def refused(store, kind, args, number):
    """A refused call that changes a share or a charge."""
    if kind == ATTACH and number == ALREADY and REFUSED_SHARES in store.slips:
        store.share[args[0]] = share_in(args[1:])
    if kind == ALLOCATE and CHARGED_BY.get(number) in store.slips:
        charge(store, args[0], size(*args[2:]))


def within_share(store, s, words):
    """The test of 17."""
    total = words if CHARGE_FORGOTTEN in store.slips else store.charge[s] + words
    if SHARE_MODULO in store.slips:
        total %= WORDS
    return total < store.share[s] if SHARE_JUST_REFUSED in store.slips else total <= store.share[s]


def before_shape(store, s, r, p):
    """What an allocation tests before its shape."""
    if SHARE_BEFORE_SHAPE in store.slips:
        store.need(within_share(store, s, size(r, p)), 17)


def admit(store, s, halves, r, p):
    """The number of a new record, refused with 17, 14 or 16, and charged."""
    words = size(r, p) - HEADER * (HEADER_FREE in store.slips)
    tests = [(within_share(store, s, words), 17), (all(store.frontier[h] + size(r, p) <= len(store.half[h]) for h in halves), 14),
             (store.births < store.most_births, 16)]
    later = 2 if NUMBERS_BEFORE_SHARE in store.slips else ROOM_BEFORE_SHARE in store.slips  # tests that come before 17's
    for holds, refusal in tests[1:1 + later] + tests[:1] + tests[1 + later:]:
        store.need(holds, refusal)
    store.births += 1
    if BOTH_CHARGED in store.slips:
        words *= len(halves)
    charge(store, (s + 1) % len(store.charge) if NEXT_CHARGED in store.slips else s, words)
    return store.births


def made(store, new):
    """A store that is made over another one."""
    if MAKING_KEEPS in store.slips:
        new.share, new.charge = list(store.share), list(store.charge)


# ---- steps

def moved_on(store):
    """A step that leaves its phase."""
    if store.phase == REST and CLEARED_AFTER_REST in store.slips or store.phase + 1 == RECLAIM and CLEARED_AT_RECLAIM in store.slips:
        store.charge = [0] * len(store.charge)


def shelled(store, words):
    """A shell of so many words has been made."""
    if SHELLS_CHARGED in store.slips:
        charge(store, 0, words)


def waited(store):
    """A step in Reclaim has waited."""
    if CLEARED_WAITING in store.slips:
        store.charge = [0] * len(store.charge)


def left_charged(store):
    """The charges after the step that ends Reclaim."""
    if CHARGES_STAY in store.slips:
        return store.charge
    return [words * (ATTACHED_CLEARED in store.slips and not there) for words, there in zip(store.charge, store.attached)]
