"""Shares and charges for stores that are set up by hand: such as nothing that follows passes, and any by chance."""
from models.free_store import ALLOCATE, WHOLE_SHARE
from models.record_layout import size
from models.store_model import SESSIONS

SMALL = 12  # how near to 0 or to the whole share a number by chance may be


def wide(store):
    """Shares that no allocation here passes, and charges; no two are the same, so that a case shows which is whose. The store."""
    store.share = [WHOLE_SHARE - s for s in range(SESSIONS)]
    store.charge = [1000 + 3 * s for s in range(SESSIONS)]
    return store


def any_words(rng):
    """A share or a charge: none, a few words, some, next to all, or anything."""
    return rng.choice([0, rng.randrange(SMALL), rng.randrange(200), WHOLE_SHARE - rng.randrange(SMALL), rng.randrange(WHOLE_SHARE + 1)])


def scatter(rng, store):
    """Any shares and charges, but of four numbers about three with a share that is not soon passed."""
    for s in range(SESSIONS):
        often = rng.random() < 0.75
        store.share[s] = WHOLE_SHARE - rng.randrange(SMALL) if often else any_words(rng)
        store.charge[s] = rng.randrange(200) if often else any_words(rng)


def fit(rng, store, kind, args):
    """One allocation in two gets a share that it just fills, or passes or leaves by a word."""
    if kind != ALLOCATE or args[0] >= SESSIONS or rng.random() < 0.5:
        return
    share = store.charge[args[0]] + size(*args[2:]) + rng.choice([-1, -1, 0, 0, 1])
    if share <= WHOLE_SHARE:
        store.share[args[0]] = share
