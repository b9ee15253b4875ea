"""The whole directory over the store in Python: its records, and each call as the store calls of session 15 that it makes.

It is the second opinion on every line of the directory program: where room is lacking, and what is answered on chains that were damaged
from outside. It counts the store calls. `slip` builds in a mistake, so that the tests can show that they would see it.

A person is a record with one link, to the next entry, and one word, its number. A group has two links, to the next entry and to its
first member, and its number plus 100,000,000 for a word. A member is a record with one link, to the next member, and a person's number.
Global 31 names the first entry: the groups come first, then the people.
"""
from collections import namedtuple

from models.free_store import ATTACH, SAFE, ALLOCATE, LOAD, STORE, READ, WRITE, MOVE, CLEAR, GET, PUT
from models.store_model import Refused, Sapphire
from models.table_model import OPEN, ADD, REMOVE, MAKE, JOIN, LEAVE, LIST, LAST, NO_NUMBER, NO_ROOM, OVER_SHARE, UNKNOWN, ALREADY, ABSENT

MINE, ROOT = 15, 31  # the directory's session and global
MARK = LAST + 1      # what tells a group's word from a person's
NULL, TOO_LONG = 11, 26
REGISTERS = {ADD: 2, REMOVE: 5, MAKE: 3, JOIN: 3, LEAVE: 3, LIST: 3}  # how many a call uses, from 0
GROUP, BEFORE, PERSON = 2, 3, 4  # registers; 0 and 1 have the record at hand and the one before it, in turn

# what names the record at hand: the one before it, the group in its register, or the global
NEXT, FIRST, TOP = "next", "first", "top"
Place = namedtuple("Place", "found at via left")

ALLOCATES_FIRST, NO_MARK, LAST_OF_ALL, JOINS_FIRST = "tests 24 last", "group words like people's", "groups behind people", "joins first"
ONE_GROUP, NO_SAFE_POINT, REGISTERS_KEPT = "leaves one group", "no safe point", "registers kept"
SLIPS = [ALLOCATES_FIRST, NO_MARK, LAST_OF_ALL, JOINS_FIRST, ONE_GROUP, NO_SAFE_POINT, REGISTERS_KEPT]
# those that only damage shows
ENDS_AT_DAMAGE, GROUP_MORE, WRITES_EARLY = "a chain ends at damage", "remove passes one group more", "list writes while it counts"
CLEARS_PASSED = "a refused call clears no register"
DAMAGE_SLIPS = [ENDS_AT_DAMAGE, GROUP_MORE, WRITES_EARLY, CLEARS_PASSED]
# those that show where no birth number is left
SAYS_NO_ROOM, LINKS_ANYWAY = "16 told as 14", "a call refused with 16 goes on"
NUMBER_SLIPS = [SAYS_NO_ROOM, LINKS_ANYWAY]
# those that show where session 15 has a share that can be passed
OPENS_WHOLE, SWALLOWS_SHARE, SHARE_AS_ROOM = "open ignores its share", "17 told as done", "17 told as 14"
LINKS_OVER_SHARE = "a call refused with 17 goes on"
SHARE_SLIPS = [OPENS_WHOLE, SWALLOWS_SHARE, SHARE_AS_ROOM, LINKS_OVER_SHARE]
# of these an allocation's refusal: its number, and what is told in its place; None where the call goes on
MISTOLD = {SAYS_NO_ROOM: (NO_NUMBER, NO_ROOM), LINKS_ANYWAY: (NO_NUMBER, None), SWALLOWS_SHARE: (OVER_SHARE, 0),
           SHARE_AS_ROOM: (OVER_SHARE, NO_ROOM), LINKS_OVER_SHARE: (OVER_SHARE, None)}


def need(holds, number):
    if not holds:
        raise Refused(number)


class Directory:
    def __init__(self, store=None, slip=None):
        self.store = store or Sapphire()
        self.slip = slip
        self.calls = 0  # store calls that the last directory call made
        self.written = []  # what it wrote to the words lent for a list
        self.mark = 0 if slip == NO_MARK else MARK

    def call(self, kind, args):
        """The refusal number or 0, the value, and the members that a list writes; calls of the store are handed on to it."""
        if kind < OPEN:
            return self.store.call(kind, args)
        self.calls, self.written = 0, []
        try:
            self._begin(kind, args)
        except Refused as refusal:
            return refusal.args[0], 0
        number = 0
        try:
            return self._work(kind, args) or (0, 0)
        except Refused as refusal:
            number = refusal.args[0]
            return number, 0
        finally:
            if not (number and self.slip == CLEARS_PASSED):
                self._clear(kind)

    # ---- store calls

    def ask(self, kind, *args):
        """A store call of session 15; its refusal is the directory's."""
        self.calls += 1
        number, value = self.store.call(kind, [MINE, *args])
        need(not number, number)
        return value

    def _begin(self, kind, args):
        if kind == OPEN:
            self.ask(ATTACH, *args if self.slip != OPENS_WHOLE else [])
        elif self.slip != NO_SAFE_POINT:
            self.ask(SAFE)

    def _clear(self, kind):
        for register in range(REGISTERS.get(kind, 0) if self.slip != REGISTERS_KEPT else 0):
            self.calls += 1
            self.store.call(CLEAR, [MINE, register])

    # ---- walks

    def word(self, at):
        """The word of the record in a register, or None where the register is null: the end of a chain."""
        try:
            return self.ask(READ, at, 0)
        except Refused as refusal:
            need(refusal.args[0] == NULL or self.slip == ENDS_AT_DAMAGE, refusal.args[0])
            return None

    def seek(self, left, at, via, key, least=0):
        """From the record in register `at` on: the first whose word is the key, or one below `least`, or the end."""
        while (word := self.word(at)) is not None:
            need(left, TOO_LONG)
            if word == key or word < least:
                return Place(word == key, at, via, left)
            self.ask(LOAD, 1 - at, at, 0)
            left, at, via = left - 1, 1 - at, NEXT
        return Place(False, at, via, left)

    def entries(self, key, least=0):
        self.ask(GET, 0, ROOT)
        return self.seek(self.store.length[0], 0, TOP, key, least)

    def members(self, person):
        """Where the person stands among the members of the group in its register."""
        self.ask(LOAD, 0, GROUP, 1)
        return self.seek(self.store.length[0], 0, FIRST, person)

    def link(self, place, source):
        """What names the record at hand names what this register holds."""
        if place.via == NEXT:
            self.ask(STORE, 1 - place.at, 0, source)
        elif place.via == FIRST:
            self.ask(STORE, GROUP, 1, source)
        else:
            self.ask(PUT, ROOT, source)

    def cut(self, place):
        self.ask(LOAD, place.at, place.at, 0)
        self.link(place, place.at)

    def append(self, place, number):
        """A new person or member, last in its chain."""
        self.fresh(place.at, 1, number)
        self.link(place, place.at)

    def fresh(self, register, links, word):
        try:
            self.ask(ALLOCATE, register, links, 1)
        except Refused as refusal:
            number, told = MISTOLD.get(self.slip, (None, None))
            if refusal.args[0] != number:
                raise
            if told is None:
                return
            raise Refused(told)
        self.ask(WRITE, register, 0, word)

    # ---- the calls

    def _work(self, kind, args):
        numbers = args[:{OPEN: 0, LIST: 1}.get(kind, len(args))]  # of people and groups
        need(all(number <= LAST for number in numbers), UNKNOWN)
        work = {ADD: self._add, REMOVE: self._remove, MAKE: self._make, JOIN: self._join, LEAVE: self._leave, LIST: self._list}
        return work[kind](*args) if kind in work else None

    def _add(self, person):
        place = self.entries(person)
        if self.slip == ALLOCATES_FIRST:
            self.fresh(GROUP, 1, person)
        need(not place.found, ALREADY)
        self.append(place, person)

    def _make(self, group):
        place = self.entries(self.mark + group, 0 if self.slip == LAST_OF_ALL else self.mark)
        need(not place.found, ALREADY)
        self.fresh(GROUP, 2, self.mark + group)
        self.ask(STORE, GROUP, 0, place.at)
        self.link(place, GROUP)

    def _group(self, group):
        """The group in its register; where the walk found it."""
        place = self.entries(self.mark + group, self.mark)
        need(place.found, UNKNOWN)
        self.ask(MOVE, GROUP, place.at)
        return place

    def _pair(self, person, group):
        """The group in its register, and where the person stands among its members."""
        place = self._group(group)
        known = self.seek(place.left, place.at, place.via, person)  # goes on: the people come after the groups
        need(known.found, UNKNOWN)
        return self.members(person)

    def _join(self, person, group):
        place = self._pair(person, group)
        need(not place.found, ALREADY)
        if self.slip == JOINS_FIRST:
            return self._join_first(person)
        self.append(place, person)

    def _join_first(self, person):
        self.ask(LOAD, 0, GROUP, 1)
        self.fresh(1, 1, person)
        self.ask(STORE, 1, 0, 0)
        self.ask(STORE, GROUP, 1, 1)

    def _leave(self, person, group):
        place = self._pair(person, group)
        need(place.found, ABSENT)
        self.cut(place)

    def _remove(self, person):
        place = self.entries(person)
        need(place.found, UNKNOWN)
        if place.via == NEXT:
            self.ask(MOVE, BEFORE, 1 - place.at)
        self.ask(MOVE, PERSON, place.at)
        self.ask(GET, GROUP, ROOT)
        self._leave_all(person)
        self.ask(LOAD, PERSON, PERSON, 0)
        if place.via == NEXT:
            self.ask(STORE, BEFORE, 0, PERSON)
        else:
            self.ask(PUT, ROOT, PERSON)

    def _leave_all(self, person):
        """The person leaves the group in its register and all after it, up to the first person."""
        left = self.store.length[0] + (self.slip == GROUP_MORE)
        while (word := self.word(GROUP)) is not None:
            need(left, TOO_LONG)
            if word < self.mark:
                return
            place = self.members(person)
            if place.found:
                self.cut(place)
                if self.slip == ONE_GROUP:
                    return
            self.ask(LOAD, GROUP, GROUP, 0)
            left -= 1

    def _list(self, group, lent):
        self._group(group)
        self.ask(LOAD, 0, GROUP, 1)
        count = self._count(lent)
        self._first(min(count, lent))
        return 0, count, *self.written

    def _count(self, lent):
        count = 0
        while (word := self.word(0)) is not None:
            need(count < self.store.length[0], TOO_LONG)
            self.ask(LOAD, 0, 0, 0)
            count += 1
            if self.slip == WRITES_EARLY and count <= lent:
                self.written.append(word)
        return count

    def _first(self, count):
        """Writes the words of the first members of the group in its register."""
        if count:
            self.ask(LOAD, 0, GROUP, 1)
        self.written = []
        for _ in range(count):
            self.written.append(self.ask(READ, 0, 0))
            self.ask(LOAD, 0, 0, 0)
