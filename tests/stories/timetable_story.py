"""A school's timetable, a record with eight links to lessons, that is changed whole by one call while a collection runs: in every phase and
after every number of steps, by a session at the phase's level or at that of before. Calls on a store in Python as cases for the probe
program. Each session answer is the collector-free store's.

A session has seven registers beside the one of the timetable, so of eight links the first and the last name the same lesson."""
import itertools

from cases.limit_cases import records
from models.free_store import ALLOCATE, ATTACH, BIRTH, CLEAR, GET, LINKS, LOAD, MOST_LINKS, PUT, READ, SAFE, STEP, WRITE, Model, fed
from models.record_layout import NUMBER, least_list, size
from models.store_model import LEVELS, Sapphire
from stories.story import Told

OFFICE, BOARD = 0, 1  # sessions: the one that makes changes, and one that reads
TABLE = 3             # the global that names the timetable
HELD, FOUND = 0, 1    # registers: the timetable, and what the board has loaded; the office has new lessons in its registers 1 to 7
LOADED, NOTHING = 1, 7  # registers of the office where it has no new lessons: an old one, and null
LESSONS = 7           # of a timetable
REST, ALLOCATING, RECLAIM = 0, 5, 12  # phases
SHAPE, LESSON = (MOST_LINKS, 1), (0, 1)  # of the timetable and of a lesson
USED = size(*SHAPE) + LESSONS * size(*LESSON)  # words of a timetable with its lessons


def pairs(first=0, wrong=()):
    """The eight links, from this one on, with their registers; with wrong pairs in the place of the last ones."""
    links = [(first + n) % MOST_LINKS for n in range(MOST_LINKS)]
    good = [(link, 1 + link % LESSONS) for link in links]
    return [number for pair in [*good[:MOST_LINKS - len(wrong)], *wrong] for number in pair]


class School(Told):
    """`taught` are the numbers of the lessons that the timetable names, by their links, `numbers` the birth numbers of the timetable and of
    them. With `quiet` only calls for several links are cases. `slip` builds a mistake into the store."""

    def __init__(self, length, quiet=False, slip=None):
        super().__init__(Sapphire(length, least_list(length), slip))
        self.model, self.quiet, self.made, self.rows = Model(), quiet, 0, []
        self.do(ATTACH, OFFICE)
        self.do(ATTACH, BOARD)
        self.do(ALLOCATE, OFFICE, HELD, *SHAPE)
        self.do(PUT, OFFICE, TABLE, HELD)
        self.taught, self.numbers = [], []
        self.prepare()
        self.change()

    def ask(self, store, want, kind, args):
        found = super().ask(store, want, kind, args)
        if store is self.store and kind not in (SAFE, STEP):
            assert self.model.call(kind, args, fed(kind, want[0])) == want, (kind, args, want)
        if self.quiet and kind != LINKS:
            self.cases.pop()
        return found

    def step(self):
        super().step()
        if self.quiet:
            self.cases.pop()

    # ---- what the office does

    def prepare(self):
        """Seven new lessons, with numbers that no others have, in its registers."""
        for k in range(1, 1 + LESSONS):
            self.made += 1
            self.do(ALLOCATE, OFFICE, k, *LESSON)
            self.do(WRITE, OFFICE, k, 0, 100 + self.made)

    def change(self):
        """All eight links by one call: the number of its case, and how many records it has shaded."""
        before = self.store.tail
        self.do(LINKS, OFFICE, HELD, MOST_LINKS, *pairs(self.made % MOST_LINKS))
        last = 100 + self.made
        self.taught = [last - LESSONS + 1 + n % LESSONS for n in range(MOST_LINKS)]
        self.numbers = [self.model.registers[OFFICE][k] for k in (HELD, *range(1, 1 + LESSONS))]
        return len(self.cases) - 1, self.store.tail - before

    def fail(self):
        """A change whose last pair, or last but one, has a link or a register that there is not: the numbers of the cases."""
        return [self.refused(number, LINKS, OFFICE, HELD, MOST_LINKS, *pairs(self.made % MOST_LINKS, wrong))
                for number, wrong in ((13, [(MOST_LINKS, 1)]), (8, [(0, MOST_LINKS), (MOST_LINKS, 1)]))]

    def forget(self):
        """The lessons in its registers are dropped."""
        for k in range(1, 1 + LESSONS):
            self.do(CLEAR, OFFICE, k)

    # ---- what the board reads

    def read(self):
        """Every lesson that the timetable names, by the board: they are those that the office has stored last."""
        self.do(GET, BOARD, HELD, TABLE)
        for n, lesson in enumerate(self.taught):
            self.do(LOAD, BOARD, FOUND, HELD, n)
            self.do(READ, BOARD, FOUND, 0, value=lesson)
        self.do(BIRTH, BOARD, FOUND, value=self.numbers[1])
        for k in (HELD, FOUND):
            self.do(CLEAR, BOARD, k)

    def held(self):
        """The birth numbers of the records of the current half."""
        h = self.store.current
        return sorted(self.store.half[h][at + NUMBER] for at, _, _ in records(self.store, h))

    def end(self):
        """To the end of the collection, and through the next one: then there is the timetable with its lessons, and nothing else."""
        if self.store.phase != REST:
            self.to(REST)
        kept = self.held()
        assert set(self.numbers) <= set(kept), (self.numbers, kept)
        self.read()
        self.to(REST)
        self.read()
        assert self.held() == sorted(self.numbers) and self.store.frontier == [USED * (h == self.store.current) for h in (0, 1)]
        return len(kept) - len(self.numbers)  # those that the first collection has kept though nothing names them


# ---- a change after every number of steps

def waiting(store):
    """Whether a step does nothing before the office comes to its safe point."""
    if store.level[OFFICE] == LEVELS[store.phase]:
        return False
    return store.phase in (1, 2, 6, 8, 9, RECLAIM) or store.phase == ALLOCATING and store.place >= store.frontier[store.current]


def advance(school, behind):
    """One step. Both sessions come to their safe points before it; behind, the office only where it is waited for."""
    if not behind or waiting(school.store):
        school.safe_points()
    elif school.store.level[BOARD] != LEVELS[school.store.phase]:
        school.do(SAFE, BOARD)
    school.step()


def changed_after(steps, behind, slip=None):
    """New lessons are there before a collection begins; so many steps on the timetable is changed, and the registers of the office are
    cleared, so that the timetable alone names them. The school, the level and phase of the change, and how many records that nothing names
    this collection has kept; None where there are not so many steps."""
    school = School(2 * USED + LESSONS * size(*LESSON), True, slip)
    school.forget()
    school.to(REST)
    school.prepare()
    for n in range(steps):
        if n and school.store.phase == REST:
            return None
        advance(school, behind)
    if not behind:
        school.safe_points()
    school.fail()
    school.read()
    having = school.store.level[OFFICE], school.store.phase
    school.change()
    school.forget()
    return school, having, school.end()


def every_change(behind, slip=None):
    """A change after each number of steps of a collection, from none on."""
    steps = itertools.count()
    return itertools.takewhile(bool, (changed_after(n, behind, slip) for n in steps))


def dropped_after(steps, link, slip=None):
    """The timetable is named by the office's register alone. So many steps into a collection the office loads a lesson and drops all eight
    links by one call: the lesson stays, and the others are gone after the next collection. The phase; None where there are not so many
    steps."""
    school = School(2 * USED, True, slip)
    school.forget()
    school.do(PUT, OFFICE, TABLE, NOTHING)
    for n in range(steps):
        if n and school.store.phase == REST:
            return None
        advance(school, False)
    school.safe_points()
    phase = school.store.phase
    school.do(LOAD, OFFICE, LOADED, HELD, link)
    school.do(LINKS, OFFICE, HELD, MOST_LINKS, *(number for n in range(MOST_LINKS) for number in (n, NOTHING)))
    for _ in range(2):
        school.to(REST)
        school.do(READ, OFFICE, LOADED, 0, value=school.taught[link])
    assert school.held() == sorted([school.numbers[0], school.numbers[1 + link % LESSONS]])
    return school, phase


def every_drop(link, slip=None):
    """The same of dropped links."""
    steps = itertools.count()
    return itertools.takewhile(bool, (dropped_after(n, link, slip) for n in steps))


# ---- from phase to phase

def changed_in_phase(school):
    """The office comes to its safe point, before the board. Changes that are refused, and one that is done; the board reads the lessons
    after either. Then the office makes those for the next change. The row."""
    store = school.store
    if store.level[OFFICE] != LEVELS[store.phase]:
        school.do(SAFE, OFFICE)
    before, failed = school.taught, school.fail()
    school.read()
    changed, shaded = school.change()
    school.read()
    school.rows.append((store.phase, store.level[:2], before, failed, school.taught, changed, shaded, list(store.frontier), store.current))
    school.prepare()


def whole_story():
    """A change at the start of every phase and, after that collection and the next one, once more. The school, and how many records that
    nothing names the first of them has kept."""
    school = School(15 * LESSONS * size(*LESSON) + USED)
    school.prepare()
    for phase in range(RECLAIM + 1):
        assert school.store.phase == phase
        changed_in_phase(school)
        while school.store.phase == phase:
            school.safe_points()
            school.step()
    school.forget()
    kept = school.end()
    school.prepare()
    changed_in_phase(school)
    return school, kept
