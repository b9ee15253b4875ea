"""The life of one record as cases for the probe program: a run from a newly made store through two collections, in which two sessions work
on the record at once and ask for its number in every phase, through both copies. The store in Python gives the state before each call.

What no run has is done aside, on a copy of the store: a register is set to the copy that no session holds, or the count is set near its
end."""
from models.free_store import ALLOCATE, ATTACH, BIRTH, CLEAR, GET, MOST_BIRTHS, PUT, READ, SAFE, SAME, STEP, WRITE
from models.record_layout import NUMBER, least_list
from models.store_model import LEVELS, Sapphire
from programs.probe_program import MAKE, encode
from stories.story import Told

OFFICE, IMPORT = 0, 1     # the two sessions
OURS, KEPT = 0, 1         # globals that name the record and another one
HELD, NEW, TWIN = 0, 2, 3  # registers: the record, what is allocated in each phase, and the record's other copy
FROM, TO = "fromspace copy", "tospace copy"
ALLOCATING, TURNING = 5, (9, 10, 11)  # phases: in the latter a session may hold both copies
LENGTH = 160
REFUSED = [(8, [8, 1, 1]), (10, [NEW, 256, 0]), (10, [NEW, 0, 256]), (14, [NEW, 0, LENGTH])]  # register and shape of allocations


class Story(Told):
    """Each row of `rows` says in words and by the numbers of cases what they show."""

    def __init__(self):
        super().__init__(Sapphire(LENGTH, least_list(LENGTH)))
        self.store.half = [[(7 * k + h) % 5 for k in range(LENGTH)] for h in (0, 1)]
        self.rows, self.used, self.ours = [], 0, None
        self.cases.append(("making", encode(self.aside(births=99, phase=7), MAKE, [])))

    def allocated(self, session, register, r, p):
        """A new record, which gets the next number: the number of the case that asks for it."""
        self.do(ALLOCATE, session, register, r, p)
        self.used += 1
        return self.do(BIRTH, session, register, value=self.used)

    def refused_all(self, session):
        """Refused allocations, which use no number."""
        for number, args in REFUSED:
            self.refused(number, ALLOCATE, session, *args)

    def copies(self):
        """The references of the record's copies, by name."""
        v = self.store.registers[OFFICE][HELD]
        both = {v % 2: v, 1 - v % 2: self.store.at(v, 2)}
        source = self.store.fromspace()
        return {name: both[h] for name, h in ((FROM, source), (TO, 1 - source)) if both[h]}

    def by_hand(self, v):
        """The number of a copy, put in a register of both sessions by hand: the number of the last case."""
        for session in (OFFICE, IMPORT):
            store = self.aside()
            store.registers[session][TWIN] = v
            asked = self.ask(store, (0, self.ours), BIRTH, [session, TWIN])
        return asked


# ---- the run

def begin(story):
    """A record that is dropped, the record of the story, another one that is dropped, and one that the other session keeps."""
    story.do(ATTACH, OFFICE)
    story.do(ATTACH, IMPORT)
    story.allocated(OFFICE, HELD, 0, 2)
    story.allocated(OFFICE, HELD, 1, 1)
    story.ours = story.used
    story.do(PUT, OFFICE, OURS, HELD)
    story.do(GET, IMPORT, HELD, OURS)
    story.allocated(OFFICE, NEW, 2, 0)
    story.refused_all(OFFICE)
    story.allocated(IMPORT, NEW, 1, 0)
    story.do(PUT, IMPORT, KEPT, NEW)


def work(story):
    """The office comes to its safe point, before the import. Both work on the record and ask for its number, and for that of every copy;
    refused allocations and a good one. The row."""
    story.do(SAFE, OFFICE)
    phase, levels = story.store.phase, story.store.level[:2]
    word = 100 + len(story.rows)
    story.do(WRITE, OFFICE, HELD, 0, word)
    row = {"office": story.do(BIRTH, OFFICE, HELD, value=story.ours), "import": story.do(BIRTH, IMPORT, HELD, value=story.ours)}
    story.do(READ, IMPORT, HELD, 0, value=word)
    copies = story.copies()
    row.update({name: story.by_hand(v) for name, v in copies.items()})
    story.refused_all(IMPORT)
    row["new"] = story.allocated(OFFICE, NEW, 0, 0)
    story.do(CLEAR, OFFICE, NEW)
    story.rows.append((phase, levels, copies, row))


def two_references(story):
    """At level 6 a put forwards: the office then holds both copies itself, and both have the number."""
    story.do(PUT, OFFICE, OURS, HELD)
    story.do(GET, OFFICE, TWIN, OURS)
    assert story.store.registers[OFFICE][HELD] != story.store.registers[OFFICE][TWIN]
    story.do(SAME, OFFICE, HELD, TWIN, value=1)
    for register in (HELD, TWIN):
        story.do(BIRTH, OFFICE, register, value=story.ours)
    story.do(CLEAR, OFFICE, TWIN)


def step(story):
    """The import's safe point, with the number asked for after it, and a step."""
    if story.store.level[IMPORT] != LEVELS[story.store.phase]:
        story.do(SAFE, IMPORT)
        story.do(BIRTH, OFFICE, HELD, value=story.ours)
    story.step()


def collect(story):
    """A collection, with work at the start of every phase, and once more when Allocate has made the record's second copy."""
    for phase in range(13):
        work(story)
        if phase in TURNING:
            two_references(story)
        while story.store.phase == phase:
            copies = len(story.copies())
            step(story)
            if phase == ALLOCATING and len(story.copies()) > copies:
                work(story)
            story.do(BIRTH, OFFICE, HELD, value=story.ours)
            story.do(BIRTH, IMPORT, HELD, value=story.ours)
    assert story.store.phase == 0


def last_numbers(story):
    """Aside, with the count near its end, at the level of each phase: the last number is given, then comes 16, and 14 where there is no
    room either. The row of the last of them."""
    for phase, level in enumerate(LEVELS):
        store = story.aside(births=MOST_BIRTHS - 1)
        store.phase, store.level[OFFICE] = phase, level
        row = {"last": story.ask(store, (0, 0), ALLOCATE, [OFFICE, NEW, 0, 1]),
               "its number": story.ask(store, (0, MOST_BIRTHS), BIRTH, [OFFICE, NEW]),
               "then": story.ask(store, (16, 0), ALLOCATE, [OFFICE, NEW, 0, 1]),
               "without room": story.ask(store, (14, 0), ALLOCATE, [OFFICE, NEW, 0, LENGTH]),
               "still": story.ask(store, (0, story.ours), BIRTH, [OFFICE, HELD])}
    return row


# ---- document 02's examples

def examples():
    """In 16 words two records with r = 1, p = 1 fit, the third: 14; 12 and 4 words fit; an empty store takes 77 steps. As cases, with what
    each must be answered."""
    rows = [[(ATTACH, [0], 0)] + [(ALLOCATE, [0, k, 1, 1], number) for k, number in enumerate((0, 0, 14))],
            [(ATTACH, [0], 0), (ALLOCATE, [0, 0, 4, 4], 0), (ALLOCATE, [0, 1, 0, 0], 0), (ALLOCATE, [0, 2, 0, 0], 14)],
            [(STEP, [], 0)] * 77]
    for calls in rows:
        store = Sapphire(16, least_list(16))
        for n, (kind, args, number) in enumerate(calls, 1):
            yield f"example, call {n} of {len(calls)}", encode(store, kind, args), number
            store.call(kind, args)
        assert store.collections == (kind == STEP) and store.phase == 0
    for capacity, number in ((4, 0), (3, 3)):
        yield f"example, making with a list of {capacity}", encode(Sapphire(16, capacity), MAKE, []), number


def whole_story():
    """The story, its last row, and where the record lay before, between and after the collections."""
    story = Story()
    begin(story)
    places = [story.store.registers[OFFICE][HELD]]
    for _ in range(2):
        collect(story)
        places.append(story.store.registers[OFFICE][HELD])
    work(story)
    assert all(a != b for a, b in zip(places, places[1:])), places
    assert story.store.at(places[-1], NUMBER) == story.ours and story.store.collections == 2
    return story, last_numbers(story), places
