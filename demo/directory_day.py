#!/usr/bin/env python3
"""Writes directory-day.script, a day of the school directory as a script for the directory program, and directory-day.notes, the headings
of its parts.

Each entry is also played on the directory in Python of tests/, so that a part can let the collector work until it has come to a phase,
and the headings can say how much room there is and where a record lies.
"""
import itertools
import os
import sys

HERE = os.path.dirname(os.path.abspath(__file__))
sys.path.insert(0, os.path.join(HERE, "..", "tests"))
from models.directory_model import ROOT  # noqa: E402
from programs.directory_scripts import Played, encode  # noqa: E402
from models.record_layout import size  # noqa: E402
from models.free_store import ATTACH, DETACH, SAFE, ALLOCATE, LOAD, STORE, READ, WRITE, MOVE, CLEAR, GET, PUT, STEP  # noqa: E402
from models.table_model import OPEN, ADD, REMOVE, MAKE, JOIN, LEAVE, LIST, LAST  # noqa: E402

IMPORT, CATALOGUE = 1, 0  # the import's session, and the global that names its newest record
ANNA, BEN, CARA, DAN, EVE = range(20260001, 20260006)
CARETAKER = 7             # a person may have the number of a class
SEVEN, EIGHT = 7, 8       # classes
LENT = 8                  # words that the office lends for a list
FREE = 5                  # words that the import leaves free
PERSON = size(1, 1)       # words of a person, and of a membership
NOT_OPEN, NO_ROOM, UNKNOWN, ALREADY, ABSENT = 6, 14, 23, 24, 25
REST, PREMARK1, COPY, PREFLIP1 = 0, 1, 7, 8  # phases


class Day(Played):
    def __init__(self):
        super().__init__()
        self.notes = []

    def note(self, words):
        """A heading of the part that begins with the next entry."""
        self.notes.append((len(self.entries) + 1, words))

    def answers(self, entry, *line):
        """Does an entry, which must be answered so."""
        answer = self.do(entry)
        assert answer == line, (entry, answer)

    def done(self, *entries):
        for entry in entries:
            self.answers(entry, 0, 0)

    def members(self, group, *people):
        """The list of a group, with these members."""
        self.answers((LIST, [group, LENT]), 0, len(people), *people)

    def first(self):
        """Where the record of the first class lies, which global 31 names."""
        reference = self.store.globals[ROOT]
        return f"word {(reference - 2) // 2} of half {reference % 2}"


def morning(day):
    day.note("Morning. Before the directory is open every call of it is refused: 6. It is opened once; from then on session 15 is its own.")
    day.answers((ADD, [ANNA]), NOT_OPEN, 0)
    day.done((OPEN, []))
    day.note("The office adds four pupils and the caretaker, who has number 7, and makes classes 7 and 8. People and classes have numbers of "
             "their own: person 7 and class 7 are two things.")
    day.done(*[(ADD, [person]) for person in (ANNA, BEN, CARA, DAN, CARETAKER)], (MAKE, [SEVEN]), (MAKE, [EIGHT]))
    day.note("The pupils join their classes. A list has them in the order in which they joined.")
    day.done((JOIN, [CARA, SEVEN]), (JOIN, [ANNA, SEVEN]), (JOIN, [BEN, SEVEN]), (JOIN, [BEN, EIGHT]), (JOIN, [DAN, EIGHT]))
    day.members(SEVEN, CARA, ANNA, BEN)
    day.members(EIGHT, BEN, DAN)
    day.note("A screen with room for two names lends two words and is still told how many there are; with none it only asks how many.")
    day.answers((LIST, [SEVEN, 2]), 0, 3, CARA, ANNA)
    day.answers((LIST, [SEVEN, 0]), 0, 3)


def mistakes(day):
    day.note("Mistakes change nothing: a pupil or a class that isn't there (23), a number with nine digits (23), who is there already (24), "
             "who isn't in that class (25).")
    day.answers((JOIN, [EVE, SEVEN]), UNKNOWN, 0)
    day.answers((JOIN, [ANNA, 9]), UNKNOWN, 0)
    day.answers((ADD, [LAST + 1]), UNKNOWN, 0)
    day.answers((ADD, [ANNA]), ALREADY, 0)
    day.answers((JOIN, [BEN, EIGHT]), ALREADY, 0)
    day.answers((LEAVE, [ANNA, EIGHT]), ABSENT, 0)
    day.members(SEVEN, CARA, ANNA, BEN)


def book(day, number, links, words):
    """The import makes a record in register 0, linked to the one before, which is in register 1, and moves it there."""
    day.done((ALLOCATE, [IMPORT, 0, links, words]), (WRITE, [IMPORT, 0, 0, number]), (STORE, [IMPORT, 0, 0, 1]), (MOVE, [IMPORT, 1, 0]))


def importing(day):
    day.note("An import works beside the directory, in session 1: the library's catalogue, large records, each with a link to the one before; "
             "global 0 names the newest. It leaves five words free. A person or a membership takes six, a class seven.")
    day.done((ATTACH, [IMPORT]))
    numbers = itertools.count(5001)
    while (room := day.room(IMPORT) - FREE) > size(100, 255):
        book(day, next(numbers), 100, 255)
    book(day, next(numbers), 1, room - size(1, 0))
    day.done((PUT, [IMPORT, CATALOGUE, 1]), (CLEAR, [IMPORT, 0]), (CLEAR, [IMPORT, 1]))
    assert day.room(IMPORT) == FREE < PERSON
    day.note("So there is no room for a pupil, a class or a membership: 14, and the directory is as before. Who is there already is still "
             "told 24, and lists need no room.")
    day.answers((ADD, [EVE]), NO_ROOM, 0)
    day.answers((MAKE, [9]), NO_ROOM, 0)
    day.answers((JOIN, [CARETAKER, SEVEN]), NO_ROOM, 0)
    day.answers((ADD, [ANNA]), ALREADY, 0)
    day.members(SEVEN, CARA, ANNA, BEN)


def leaver(day):
    day.note(f"Ben ({BEN}) leaves the school. One call takes him out of the directory and out of both his classes.")
    day.done((REMOVE, [BEN]))
    day.members(SEVEN, CARA, ANNA)
    day.members(EIGHT, DAN)
    day.answers((JOIN, [BEN, SEVEN]), UNKNOWN, 0)
    day.note("His words are not free yet: they come back with the next collection. Until then there is no room, 14 again.")
    day.answers((ADD, [EVE]), NO_ROOM, 0)


def waits(day):
    day.note("A collection begins. It waits until every session has come to a safe point, the directory too: nobody calls it, and the "
             "collector stands still.")
    day.do(*[(STEP, [])] * 3, (SAFE, [IMPORT]), *[(STEP, [])] * 3)
    assert day.store.phase == PREMARK1
    day.note("Any call of the directory is its safe point, even one that is refused. With it the collector goes on.")
    day.answers((ADD, [LAST + 1]), UNKNOWN, 0)
    day.do((STEP, []))
    assert day.store.phase == PREMARK1 + 1


def collect(day, phase, steps):
    """Collector steps up to this phase; after every so many the office reads class 7, and both sessions come to their safe points."""
    while day.store.phase != phase:
        for _ in range(steps):
            day.do((STEP, []))
            if day.store.phase == phase:
                break
        day.members(SEVEN, CARA, ANNA)
        day.done((SAFE, [IMPORT]))


def moving(day):
    day.note("It marks what can still be reached and gives each such record a second copy in the other half. Between its steps the office "
             "reads class 7, and gets the same list every time.")
    collect(day, COPY, 160)
    day.note("The fields are copied, one a step, the import's as well. The list stays as it is, and so does what the import reads.")
    collect(day, PREFLIP1, 900)
    day.done((GET, [IMPORT, 2, CATALOGUE]), (LOAD, [IMPORT, 3, 2, 0]))
    assert day.do((READ, [IMPORT, 3, 0])) == (0, 5011)
    day.note("While every record has two copies, Dan leaves class 8. The next list says so.")
    day.done((LEAVE, [DAN, EIGHT]))
    day.members(EIGHT)


def turning(day, before):
    day.note("All is turned to the new copies, and the old half is given up.")
    collect(day, REST, 40)
    day.note(f"The records have moved: that of class 7 lay at {before} and lies at {day.first()}. No answer shows it.")
    day.members(SEVEN, CARA, ANNA)


def evening(day):
    assert day.room(IMPORT) == FREE + 3 * PERSON
    day.note("Evening. Ben's removal has given back six words for him and six for each of his two classes. So three records fit: Eve is "
             "added, Ben comes back, and he joins class 7 again. He is in no class before that, and comes last in the list.")
    day.done((ADD, [EVE]), (ADD, [BEN]))
    day.members(SEVEN, CARA, ANNA)
    day.done((JOIN, [BEN, SEVEN]))
    day.members(SEVEN, CARA, ANNA, BEN)
    day.note("For a fourth there is no room. Dan left class 8 when the collection had already marked his membership; its words come back with "
             "the one after it.")
    day.answers((JOIN, [DAN, EIGHT]), NO_ROOM, 0)
    day.members(EIGHT)
    day.done((DETACH, [IMPORT]))


def directory_day():
    day = Day()
    for part in (morning, mistakes, importing, leaver):
        part(day)
    before = day.first()
    waits(day)
    moving(day)
    turning(day, before)
    evening(day)
    return day


def files():
    """The script and its notes, as bytes, by file name."""
    day = directory_day()
    notes = "".join(f"{number} {words}\n" for number, words in day.notes)
    return {"directory-day.script": encode(day.entries), "directory-day.notes": notes.encode()}


if __name__ == "__main__":
    for name, data in files().items():
        with open(os.path.join(HERE, name), "wb") as out:
            out.write(data)
