"""Directed cases for the probe program of the directory with a share: open with any share over any other; calls that allocate around the
edge of a share in every phase, with room and birth numbers and without, beside those that don't allocate. A case is a name with the bytes
of tests/programs/probe_program.py."""
import itertools

from cases.directory_cases import ALLOCATING, FEW, HALF, PHASES, school
from cases.directory_chain_cases import DONE, GROUP, PERSON, named
from cases.limit_cases import TOP, changed
from cases.share_cases import ACCOUNTS, WORDS, account, around
from models.directory_model import MINE
from models.free_store import MOST_BIRTHS
from programs.probe_program import OPEN, MAKE_GROUP, decode, encode


def opens():
    """Open in every phase with each share, over each share and charge, where session 15 is absent and where it is there."""
    for phase in PHASES:
        base = encode(school(phase, 2), OPEN, [])
        for there, (share, charge), words in itertools.product((False, True), ACCOUNTS, WORDS):
            store = changed(decode(base)[0], account(MINE, share, charge))
            store.attached[MINE] = there
            yield f"open with {words} in phase {phase}, there {there}, share {share}, charge {charge}", encode(store, OPEN, [words])


def words_of(kind):
    """What a call that allocates takes."""
    return GROUP if kind == MAKE_GROUP else PERSON


def edges():
    """Calls that allocate, with shares that they fill, pass or leave by a word."""
    for phase, again in itertools.product(PHASES, (False, True)):
        base = encode(school(phase, 2, again), OPEN, [])
        for (kind, args), charge in itertools.product(ALLOCATING, (0, 40, TOP - PERSON, TOP)):
            for share in around(charge, words_of(kind)):
                store = changed(decode(base)[0], account(MINE, share, charge))
                yield (f"{named(kind, args)} in phase {phase}{', roles changed' * again}, share {share}, charge {charge}",
                       encode(store, kind, args))


def orders():
    """Within the share and past it, where there is no room or no number left; and the calls that don't allocate, past it."""
    for phase, again in itertools.product(PHASES, (False, True)):
        base = encode(school(phase, 2, again), OPEN, [])
        for (kind, args), within, full, births in itertools.product(ALLOCATING, (False, True), (False, True), (9, MOST_BIRTHS)):
            store = changed(decode(base)[0], account(MINE, 40 + words_of(kind) - 1 + within, 40))
            store.births = births
            if full:
                store.frontier = [max(end, HALF - PERSON + 1) for end in store.frontier]
            yield f"{named(kind, args)} in phase {phase}, within {within}, full {full}, {births} used", encode(store, kind, args)
        for kind, args in DONE:
            yield f"{named(kind, args)} in phase {phase}, no share", encode(changed(decode(base)[0], account(MINE, 0, 40)), kind, args)


def directed():
    for cases in (opens, edges, orders):
        yield from cases()


def few():
    """Open with a share; a person where the share is filled, and where it would be passed by a word."""
    absent = school(n=FEW)
    absent.attached[MINE] = False
    yield "open with a share", encode(changed(absent, account(MINE, 5, 8)), OPEN, [77])
    yield "open again", encode(school(n=FEW), OPEN, [77])
    for share in (PERSON, PERSON - 1):
        yield f"a person in a share of {share}", encode(changed(school(n=FEW), account(MINE, share, 0)), *ALLOCATING[0])
