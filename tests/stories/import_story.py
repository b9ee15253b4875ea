"""An import that fills its share beside a secretary, as cases for the probe program: used words and shares are together just a half, and in
whichever phase the import has taken all it may, the secretary still allocates up to the last word of the half and never meets 14."""
from models.free_store import ALLOCATE, ATTACH, CLEAR, NO_ROOM, OVER_SHARE, PUT, SAFE, WHOLE_SHARE
from models.record_layout import least_list, size
from models.store_model import LEVELS, SESSIONS, Sapphire
from stories.story import Told

SECRETARY, IMPORT, OTHER = 0, 1, 2     # sessions; the last one is a third, which only a copy of the store has
KEPT, NEW = 0, 1                       # a global, and a register
REST, RECLAIM = 0, 12                  # phases
USED = size(1, 1)                      # words of the record that is kept from before
LARGE, LETTER = (5, 1), (0, 2)         # records of the import, and of the secretary
ENTRIES, LETTERS = 3, 12               # how many each may make
SHARES = {IMPORT: ENTRIES * size(*LARGE), SECRETARY: LETTERS * size(*LETTER)}
LENGTH = USED + sum(SHARES.values())
SMALLEST = (0, 0)                      # a record of no fields


class Day(Told):
    """From the end of a Reclaim on, with one record kept and nothing charged. Each row of `rows` says what a phase has shown."""

    def __init__(self):
        super().__init__(Sapphire(LENGTH, least_list(LENGTH)))
        self.rows = []
        for s, share in SHARES.items():
            self.do(ATTACH, s, share)
        self.do(ALLOCATE, SECRETARY, NEW, 1, 1)
        self.do(PUT, SECRETARY, KEPT, NEW)
        self.do(ALLOCATE, SECRETARY, NEW, *LETTER)
        self.do(CLEAR, SECRETARY, NEW)
        self.do(ALLOCATE, IMPORT, NEW, *LARGE)
        self.do(CLEAR, IMPORT, NEW)
        self.to(REST)
        assert self.used() == USED and not any(self.store.charge)
        assert self.used() + sum(self.store.share) == LENGTH

    def used(self):
        return self.store.frontier[self.store.current]

    def allocate(self, s, shape, want=0):
        """The number of the case: an allocation that must be answered so."""
        return self.ask(self.store, (want, 0), ALLOCATE, [s, NEW, *shape])


# ---- all in one phase

def at_once(phase, behind):
    """The import takes all its share in this phase, the secretary then all of hers, at the phase's level, or, if they are behind, at that
    of the phase before; then the collection ends, and one more, after which both allocate again."""
    day = Day()
    while day.store.phase != phase:
        day.safe_points()
        day.step()
    if not behind:
        day.safe_points()
    for _ in range(ENTRIES):
        day.allocate(IMPORT, LARGE)
    for _ in range(LETTERS):
        for shape in (LARGE, SMALLEST):
            day.allocate(IMPORT, shape, OVER_SHARE)
        day.allocate(SECRETARY, LETTER)
    assert day.used() == LENGTH and max(day.store.frontier) == LENGTH, day.store.frontier
    for s, share in SHARES.items():
        day.holds(s, share, share)
        day.allocate(s, SMALLEST, OVER_SHARE)
    no_room_for_another(day)
    levels = day.store.level[:2]
    collected_again(day)
    return day, levels


def no_room_for_another(day):
    """Aside: a session that nothing bounds finds no room."""
    store = day.aside()
    day.ask(store, (0, 0), ATTACH, [OTHER, WHOLE_SHARE])
    day.ask(store, (NO_ROOM, 0), ALLOCATE, [OTHER, NEW, *SMALLEST])


def collected_again(day):
    """What was charged is charged until Reclaim ends. After it, with all of it dropped and collected, both allocate again."""
    for s in SHARES:
        day.do(CLEAR, s, NEW)
    day.to(REST)
    assert not any(day.store.charge)
    day.to(REST)
    assert day.used() == USED
    for s, shape in ((IMPORT, LARGE), (SECRETARY, LETTER)):
        day.allocate(s, shape)
        day.holds(s, SHARES[s], size(*shape))


def days():
    """In every phase; behind where the level is another one than before."""
    for phase in range(RECLAIM + 1):
        yield f"phase {phase}", *at_once(phase, False)
        if LEVELS[phase] != LEVELS[phase - 1]:
            yield f"phase {phase}, behind", *at_once(phase, True)


# ---- from phase to phase

def tries(day):
    """The secretary comes to her safe point, before the import, which tries to make a record; she makes one, the last before Reclaim with
    the last word of the half. The row."""
    store = day.store
    if store.level[SECRETARY] != LEVELS[store.phase]:
        day.do(SAFE, SECRETARY)
    within = store.charge[IMPORT] < SHARES[IMPORT]
    imported = day.allocate(IMPORT, LARGE, 0 if within else OVER_SHARE)
    written = day.allocate(SECRETARY, LETTER, 0 if store.phase < RECLAIM else OVER_SHARE)
    free = LENGTH - day.used()
    day.rows.append((store.phase, store.level[:2], imported, written, store.charge[:2], list(store.frontier), store.current, free))


def whole_day():
    """Tries at the start of every phase and, Reclaim having ended, once more."""
    day = Day()
    for phase in range(RECLAIM + 1):
        assert day.store.phase == phase
        tries(day)
        while day.store.phase == phase:
            day.safe_points()
            day.step()
    assert day.rows[RECLAIM - 1][-1] == 0 and day.store.charge == [0] * SESSIONS
    tries(day)
    return day
