#!/usr/bin/env python3
"""Writes school-day.script, a day at a school as a script for the script program, and school-day.notes, the headings of its parts.

Each entry is also played on the store in Python of tests/, so that a part can let the collector work until it has come to a phase,
and the headings can say which references two registers hold.
"""
import os
import sys

HERE = os.path.dirname(os.path.abspath(__file__))
sys.path.insert(0, os.path.join(HERE, "..", "tests"))
from models.free_store import ATTACH, DETACH, SAFE, ALLOCATE, LOAD, STORE, READ, WRITE, CLEAR, SAME, GET, PUT, STEP  # noqa: E402
from models.store_model import WORDS_COMPARED, Sapphire  # noqa: E402
from programs.store_scripts import encode  # noqa: E402

OFFICE, IMPORT = 0, 1            # the secretary's session and the import's
PUPILS, CLASS, LEAVER = 0, 1, 2  # globals: the newest pupil, the class, the pupil who leaves
REST, PREMARK1, PREMARK2, ALLOCATING, PRECOPY, PREFLIP1, PREFLIP2, RECLAIM = 0, 1, 2, 5, 6, 8, 9, 12  # phases

# A pupil is a record with one link (to the pupil before) and one word; a class has two links and one word.
LARGE = (ALLOCATE, [OFFICE, 2, 255, 255])
NULL_REGISTER, NO_ROOM = 11, 14


class Day:
    def __init__(self):
        self.entries, self.notes = [], []
        self.store = Sapphire()
        self.by_words = Sapphire(slip=WORDS_COMPARED)  # the store that compares references as words at levels 5 and 6

    def next(self):
        return len(self.entries) + 1

    def note(self, words, first=None):
        """A heading of the part that begins with the next entry, or with this one."""
        self.notes.append((first or self.next(), words))

    def do(self, *entries):
        """Refusal number and value of the last of these entries."""
        for kind, args in entries:
            self.entries.append((kind, args))
            answer = self.store.call(kind, args)
            self.answer_by_words = self.by_words.call(kind, args)
        return answer

    def collect(self, phase):
        """Collector steps up to this phase, and one more in it, which in a phase that waits for the sessions changes nothing."""
        while self.store.phase != phase:
            self.do((STEP, []))
        if phase != REST:
            self.do((STEP, []))


def pupil(number):
    """The import makes a pupil in register 0, linked to the pupil before, and keeps it in global PUPILS."""
    return [(ALLOCATE, [IMPORT, 0, 1, 1]), (WRITE, [IMPORT, 0, 0, number]), (GET, [IMPORT, 1, PUPILS]),
            (STORE, [IMPORT, 0, 0, 1]), (PUT, [IMPORT, PUPILS, 0])]


def rename(number):
    """The office renames the class and reads its name back."""
    return [(GET, [OFFICE, 6, CLASS]), (WRITE, [OFFICE, 6, 0, number]), (READ, [OFFICE, 6, 0])]


def morning(day):
    day.note("Morning. The office is session 0, the import session 1.")
    day.do((ATTACH, [OFFICE]), (ATTACH, [IMPORT]))
    day.note("The import makes three pupils, 1001 to 1003. Each has a link to the pupil before; global 0 names the newest.")
    for number in (1001, 1002, 1003):
        day.do(*pupil(number))
    day.note("The office makes class 7, with a link to the newest pupil. Global 1 names the class.")
    day.do((ALLOCATE, [OFFICE, 2, 2, 1]), (WRITE, [OFFICE, 2, 0, 7]), (GET, [OFFICE, 3, PUPILS]), (STORE, [OFFICE, 2, 0, 3]),
           (PUT, [OFFICE, CLASS, 2]))


def leaver(day):
    day.note("A pupil gets seven large files, each with a link to the one before; global 2 names the newest. For an eighth there is no "
             "room: 14, and nothing is changed.")
    for number in range(1990, 1997):
        day.do((GET, [OFFICE, 5, LEAVER]), (ALLOCATE, [OFFICE, 4, 255, 255]), (WRITE, [OFFICE, 4, 0, number]),
               (STORE, [OFFICE, 4, 0, 5]), (PUT, [OFFICE, LEAVER, 4]))
    assert day.do(LARGE) == (NO_ROOM, 0)
    day.note("The pupil leaves: nothing names the files any more. But their memory is not free before a collection has ended: 14 again.")
    assert day.do((CLEAR, [OFFICE, 4]), (CLEAR, [OFFICE, 5]), (PUT, [OFFICE, LEAVER, 5]), LARGE) == (NO_ROOM, 0)


def edits(day, number):
    """The office and the import edit on, and each comes to its safe point in its own time."""
    day.do((SAFE, [OFFICE]), *pupil(2000 + number))
    assert day.do(*rename(70 + number)) == (0, 70 + number)
    day.do((SAFE, [IMPORT]))


def marking(day):
    day.note("A collection begins and works between the calls. Here and there it waits until every session has come to a safe point; "
             "meanwhile both go on: the import adds a pupil, the office renames the class and reads the new name back.")
    day.collect(PREMARK1)
    edits(day, 1)
    day.collect(PREMARK2)
    edits(day, 2)
    day.note("It marks what globals, registers and links reach. Then each marked record gets a second copy in the other half, empty at "
             "first. The leaver's files are not marked and get none.")
    day.collect(ALLOCATING)
    edits(day, 3)
    day.collect(PRECOPY)


def copying(day):
    day.note("The fields are copied. From level 4 on, what a session writes to a record goes to both its copies.")
    edits(day, 4)
    day.collect(PREFLIP1)


def compared(day, session, level):
    """One record's two copies, in registers 6 and 7, compared: the store says yes, words would say no. The two references."""
    six, seven = day.store.registers[session][6:]
    assert day.store.level[session] == level and six != seven
    assert day.do((SAME, [session, 6, 7])) == (0, 1) and day.answer_by_words == (0, 0)
    return six, seven


def two_copies(day):
    day.note("Both copies of a record say the same now, the new one with links to the new copies. Both sessions take the class into "
             "register 6.")
    day.do((SAFE, [OFFICE]), (SAFE, [IMPORT]), (GET, [OFFICE, 6, CLASS]), (GET, [IMPORT, 6, CLASS]))
    day.collect(PREFLIP2)

    first = day.next()
    day.do((SAFE, [OFFICE]), (PUT, [OFFICE, CLASS, 6]), (GET, [OFFICE, 7, CLASS]))
    six, seven = compared(day, OFFICE, 6)
    day.note("One record through its two copies. The office comes to level 6 and puts the class back into its global, which now names the "
             f"other copy. So register 6 holds reference {six} and register 7 reference {seven}, of one class. The store says yes, the same "
             f"record. A store that compares references by words would have said no: {six} is not {seven}.", first)

    first = day.next()
    day.do((GET, [IMPORT, 7, CLASS]))
    six, seven = compared(day, IMPORT, 5)
    day.note(f"The import is still at level 5, with reference {six} in register 6 and {seven} in register 7, and is told yes as well. By "
             "words it would have been no here too.", first)

    day.note("What the import writes through one copy, the office reads through the other. Two records stay two: class and pupil, no.")
    assert day.do((WRITE, [IMPORT, 7, 0, 99]), (READ, [OFFICE, 6, 0])) == (0, 99)
    assert day.do((GET, [OFFICE, 5, PUPILS]), (SAME, [OFFICE, 5, 7])) == (0, 0)
    day.do((SAFE, [IMPORT]))


def flip_and_reclaim(day):
    day.note("Globals and registers are turned to the new copies, and the old half is given up, the leaver's files with it.")
    day.collect(RECLAIM)
    edits(day, 5)
    day.collect(REST)


def evening(day):
    day.note("Evening. The office reads the last name of the class, its pupil, and all pupils from the newest on. The link of the "
             "oldest is null, so the read after it is refused with 11.")
    day.do((GET, [OFFICE, 0, CLASS]), (READ, [OFFICE, 0, 0]), (LOAD, [OFFICE, 1, 0, 0]), (READ, [OFFICE, 1, 0]), (GET, [OFFICE, 1, PUPILS]))
    while day.do((READ, [OFFICE, 1, 0])) != (NULL_REGISTER, 0):
        day.do((LOAD, [OFFICE, 1, 1, 0]))
    day.note("The large record that found no room in the morning fits: the collection has freed the leaver's words.")
    assert day.do(LARGE) == (0, 0)
    day.do((DETACH, [IMPORT]), (DETACH, [OFFICE]))


def school_day():
    day = Day()
    for part in (morning, leaver, marking, copying, two_copies, flip_and_reclaim, evening):
        part(day)
    return day


def files():
    """The script and its notes, as bytes, by file name."""
    day = school_day()
    notes = "".join(f"{number} {words}\n" for number, words in day.notes)
    return {"school-day.script": encode(day.entries), "school-day.notes": notes.encode()}


if __name__ == "__main__":
    for name, data in files().items():
        with open(os.path.join(HERE, name), "wb") as out:
            out.write(data)
