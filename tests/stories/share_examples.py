"""Examples of shares and charges, worked out by hand from document 02, as cases for the probe program: each a short run from a newly made
store, with what every call must answer and what share and charge a number must have then."""
from cases.limit_cases import TOP
from models.free_store import ALLOCATE, ATTACH, DETACH, PUT, WHOLE_SHARE
from models.record_layout import least_list, size
from models.store_model import SESSIONS, Sapphire
from stories.story import Told

FIRST, SECOND = 0, 1  # sessions
NEW, MORE = 0, 1      # registers
EMPTY, FULL = (0, 0), (6, 6)  # shapes of 4 and of 16 words
REST, COPY = 0, 7     # phases
HALF = 16


def made(*shares, length=HALF):
    """A newly made store with sessions of these shares."""
    told = Told(Sapphire(length, least_list(length)))
    for s, share in enumerate(shares):
        told.holds(s, 0, 0)
        told.do(ATTACH, s, share)
        told.holds(s, share, 0)
    return told


def allocated(told, s, *shapes):
    for shape in shapes:
        told.do(ALLOCATE, s, NEW, *shape)


def refused(told, s, *numbers, shape=EMPTY):
    for number in numbers:
        told.refused(number, ALLOCATE, s, NEW, *shape)


# ---- a share and its edge

def none_at_all():
    """Share 0: 17 at once, also where there is no room; 256 fields are still 10, and register 8 still 8."""
    told = made(0, WHOLE_SHARE)
    refused(told, FIRST, 17)
    allocated(told, SECOND, FULL)
    refused(told, SECOND, 14)
    refused(told, FIRST, 17)
    told.refused(10, ALLOCATE, FIRST, NEW, 256, 0)
    told.refused(10, ALLOCATE, FIRST, NEW, 0, 256)
    told.refused(8, ALLOCATE, FIRST, 8, 0, 0)
    told.holds(FIRST, 0, 0)
    told.holds(SECOND, WHOLE_SHARE, 16)
    return told


def eight():
    """Share 8: twice 4 words fit, 4 more are 17; after a collection they fit again."""
    told = made(8)
    for _ in range(2):
        allocated(told, FIRST, EMPTY, EMPTY)
        refused(told, FIRST, 17)
        told.holds(FIRST, 8, 8)
        told.to(REST)
        told.holds(FIRST, 8, 0)
        told.to(REST)
    return told


def past_all_words():
    """Sums past 2^32 are compared as numbers."""
    told = made(WHOLE_SHARE, length=64)
    for charge, shape, number in [(TOP, EMPTY, 17), (TOP - 5, (0, 1), 0), (TOP - 5, (1, 1), 17), (TOP - 4, EMPTY, 0), (TOP - 3, EMPTY, 17)]:
        told.store.charge[FIRST] = charge
        told.refused(number, ALLOCATE, FIRST, NEW, *shape)
        told.holds(FIRST, TOP, charge + (0 if number else size(*shape)))
    return told


def one_after_another():
    """17 before 14 before 16; an allocation refused with any of them is not charged, and charges and shares are no matter of 4."""
    told = made(20)
    allocated(told, FIRST, EMPTY)
    told.store.births = TOP
    refused(told, FIRST, 17, shape=(6, 7))
    told.holds(FIRST, 20, 4)
    refused(told, FIRST, 14, shape=FULL)
    told.holds(FIRST, 20, 4)
    refused(told, FIRST, 16)
    told.holds(FIRST, 20, 4)
    told.store.births, told.store.share[FIRST] = 1, 3
    refused(told, FIRST, 17)
    told.holds(FIRST, 3, 4)
    return told


def both_halves():
    """A record with r = 1, p = 1 allocated in phase 7 by a session at level 4 moves both frontiers by 6 and the charge by 6."""
    told = made(WHOLE_SHARE, length=64)
    allocated(told, FIRST, EMPTY)
    told.to(COPY)
    told.safe_points()
    before = list(told.store.frontier)
    assert told.store.level[FIRST] == 4
    allocated(told, FIRST, (1, 1))
    assert told.store.frontier == [end + 6 for end in before]
    told.holds(FIRST, WHOLE_SHARE, 10)
    return told


# ---- attach and detach

def coming_back():
    """A session that detaches and attaches keeps its charge, with the same share, a smaller, a larger, none and the whole one."""
    told = made(12)
    allocated(told, FIRST, (2, 2))
    for share, number, charge in [(12, 0, 12), (12, 17, 12), (4, 17, 12), (15, 17, 12), (16, 0, 16), (0, 17, 16), (WHOLE_SHARE, 14, 16)]:
        before = told.store.share[FIRST], told.store.charge[FIRST]
        told.do(DETACH, FIRST)
        told.holds(FIRST, *before)
        told.do(ATTACH, FIRST, share)
        told.holds(FIRST, share, before[1])
        told.refused(number, ALLOCATE, FIRST, NEW, *EMPTY)
        told.holds(FIRST, share, charge)
    return told


def refused_attaches():
    """Refused with 7, 5 or 4, attach changes no share and no charge."""
    told = made(12, 9)
    allocated(told, FIRST, EMPTY)
    told.refused(7, ATTACH, FIRST, 99)
    told.refused(7, ATTACH, SECOND, 0)
    told.refused(5, ATTACH, SESSIONS, 99)
    told.store.phase = 13
    for s in (FIRST, SECOND, 2, SESSIONS):
        told.refused(4, ATTACH, s, 99)
    for s, share, charge in [(FIRST, 12, 4), (SECOND, 9, 0), (2, 0, 0)]:
        told.holds(s, share, charge)
    return told


# ---- the end of Reclaim

def all_cleared():
    """All sixteen charges become 0 in the step that ends Reclaim, and in no other: of sessions that are attached, and of those that are
    not any more."""
    told = made(*[600 + s for s in range(SESSIONS)], length=400)
    for s in range(SESSIONS):
        allocated(told, s, (0, s), EMPTY)
        if s % 3 == 0:
            told.do(DETACH, s)
    told.do(PUT, FIRST + 1, 0, NEW)
    charges = [8 + s for s in range(SESSIONS)]
    while told.store.collections == 0:
        assert told.store.charge == charges, (told.store.phase, told.store.charge)
        told.safe_points()
        told.step()
    for s in range(SESSIONS):
        told.holds(s, 600 + s, 0)
    return told


def attached_alone():
    """Why all sixteen shares count, not those of attached sessions alone: halves of 16, shares of 12 and 12, the second detached at
    Reclaim's end. It attaches again with the same share, and the first allocates 12 words. Then 4 words of the second fit, and 4 more,
    which are within its share, meet 14."""
    told = made(12, 12)
    told.do(DETACH, SECOND)
    told.to(REST)
    assert told.store.frontier == [0, 0] and told.store.share[FIRST] <= HALF < sum(told.store.share)
    told.do(ATTACH, SECOND, 12)
    allocated(told, FIRST, (4, 4))
    allocated(told, SECOND, EMPTY)
    refused(told, SECOND, 14)
    told.holds(SECOND, 12, 4)
    return told


EXAMPLES = [none_at_all, eight, past_all_words, one_after_another, both_halves, coming_back, refused_attaches, all_cleared, attached_alone]
