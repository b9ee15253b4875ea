"""The plain table of people, groups and pairs, written from the words of document 02 alone.

It is fed the directory calls of a run in order and, for each, whether the run answered it with 14, 16 or 17, the refusals of its
allocation. A pair says that a person is a member of a group; people, groups and pairs are kept in the order in which they came. The share
that open takes is nothing to it.
"""
from models.free_store import NO_ROOM, OVER_SHARE

OPEN, ADD, REMOVE, MAKE, JOIN, LEAVE, LIST = range(16, 23)  # the kinds of their entries in a script
LAST = 99999999  # the last eight-digit number
NOT_OPEN, OPEN_ALREADY, NO_NUMBER, UNKNOWN, ALREADY, ABSENT = 6, 7, 16, 23, 24, 25


def fed(number):
    """What the table is fed of a call that was answered with this number."""
    return number if number in (NO_ROOM, NO_NUMBER, OVER_SHARE) else 0


class Table:
    def __init__(self):
        self.opened = False
        self.people, self.groups, self.pairs = [], [], []

    def members(self, group):
        """In joining order."""
        return [person for person, of in self.pairs if of == group]

    def call(self, kind, args, allocation=0):
        """The refusal number or 0, the value, which is how many members a list has, and the members that are written. `allocation` is
        the number with which its allocation was refused, or 0."""
        refusal = self._refusal(kind, args)
        if not refusal and kind in (ADD, MAKE, JOIN):
            refusal = allocation
        if refusal:
            return refusal, 0
        if kind == LIST:
            group, lent = args
            return 0, len(self.members(group)), *self.members(group)[:lent]
        self._change(kind, args)
        return 0, 0

    def _refusal(self, kind, args):
        if kind == OPEN:
            return OPEN_ALREADY if self.opened else 0
        if not self.opened:
            return NOT_OPEN
        if self._unknown(kind, args):
            return UNKNOWN
        if kind == ADD and args[0] in self.people or kind == MAKE and args[0] in self.groups:
            return ALREADY
        if kind == JOIN and tuple(args) in self.pairs:
            return ALREADY
        return ABSENT if kind == LEAVE and tuple(args) not in self.pairs else 0

    def _unknown(self, kind, args):
        """Whether a number is too high, or a person or group is not known that must be."""
        person = args[0] if kind in (ADD, REMOVE, JOIN, LEAVE) else None
        group = {MAKE: args[0], LIST: args[0], JOIN: args[-1], LEAVE: args[-1]}.get(kind)
        if max(person or 0, group or 0) > LAST:
            return True
        if kind not in (ADD, MAKE, LIST) and person not in self.people:
            return True
        return kind in (JOIN, LEAVE, LIST) and group not in self.groups

    def _change(self, kind, args):
        if kind == OPEN:
            self.opened = True
        elif kind == ADD:
            self.people.append(args[0])
        elif kind == REMOVE:
            self.people.remove(args[0])
            self.pairs = [pair for pair in self.pairs if pair[0] != args[0]]
        elif kind == MAKE:
            self.groups.append(args[0])
        elif kind == JOIN:
            self.pairs.append(tuple(args))
        elif kind == LEAVE:
            self.pairs.remove(tuple(args))
