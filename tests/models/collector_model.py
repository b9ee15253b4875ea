"""The collector's part of the store in Python (tests/models/store_model.py): what a step does in each phase."""
from mistakes import birth_mistakes, share_mistakes
from mistakes.mistake_names import (ALLOCATE_ENDS_EARLY, COUNT_RECLAIMED, FIRST_LEFT, IN_TURN, LAST_FIRST, PASSED_OVER, PAST_BY_3,
                                    RECLAIM_CLEARS, ROOM_FOR_EIGHT, SCAN_ALONE, TESTED_LATE, UNMARKED)
from models.record_layout import HEADER, NUMBER, size

PHASES = "Rest PreMark1 PreMark2 RootMark HeapMark Allocate PreCopy Copy PreFlip1 PreFlip2 RootFlip StackFlip Reclaim".split()
LEVELS = [0, 1, 2, 2, 2, 3, 4, 4, 5, 6, 6, 6, 0]  # of each phase
WHITE, GREY, BLACK = 0, 1, 2
SESSIONS = 16


class Refused(Exception):
    pass


class Collector:
    """The steps, by the memory, the numbers and the shading of the store that this is a part of."""

    def have_level(self):
        wanted = LEVELS[self.phase]
        return all(level == wanted for level, there in zip(self.level, self.attached) if there)

    def move_on(self):
        if self.slips & share_mistakes.MOVING:
            share_mistakes.moved_on(self)
        self.phase = (self.phase + 1) % 13
        self.place = self.field = 0
        self.scanned = [False] * 16
        self.first_frontier = self.frontier[self.current]

    def unmarked(self):
        return next((n for n in range(16) if self.attached[n] and not self.scanned[n]), None)

    def walked(self):
        v = 2 * self.place + 2 + self.current
        r, p = self.follow(v)
        return v, r, p

    def past(self, r, p):
        self.place += size(r, p) - (PAST_BY_3 in self.slips)
        self.field = 0

    def _step(self):
        self.WORK[self.phase](self)

    def _handshake(self):
        if self.have_level():
            self.move_on()

    def _rest(self):
        self.head = self.tail = 0
        self.move_on()

    def _root_mark(self):
        if self.place >= 32:
            return self.move_on()
        for v in self.shade_all([self.globals[self.place]]):
            self.shade(v)
        self.place += 1

    def _heap_mark(self):
        if self.head < self.tail:
            v = self.list[self.head]
            r, _ = self.follow(v)
            if self.field < r:
                for w in self.shade_all([self.at(v, HEADER + self.field)]):
                    self.shade(w)
                self.field += 1
            else:
                self.put(v, 1, BLACK)
                self.head += 1
                self.field = 0
            return
        n = self.unmarked()
        if n is None:
            return self.move_on()
        self._scan(n)

    def _scan(self, n):
        if self.slips & SCAN_ALONE:
            return self._scan_wrongly(n)
        whites = self.shade_all(self.registers[n])
        self.scanned[n] = True
        for v in whites:
            self.shade(v)

    def _scan_wrongly(self, n):
        """The scan with a mistake of its own."""
        registers = self.registers[n]
        if FIRST_LEFT in self.slips:
            registers = registers[1:]
        if LAST_FIRST in self.slips:
            registers = registers[::-1]
        whites = [] if IN_TURN in self.slips else self.shade_all(registers)
        if ROOM_FOR_EIGHT in self.slips:
            self.room_for(8)
        if self.slips & TESTED_LATE:
            whites = self._shade_in_turn(registers)
        self.scanned[n] = UNMARKED not in self.slips
        for v in whites:
            self.shade(v)

    def _shade_in_turn(self, registers):
        """Each register is tested in the memory as those before it have left it, and shaded. What is left to shade after that: nothing."""
        tail = self.tail
        for v in registers:
            try:
                if self.white(v):
                    self.room_for(1)
                    self.shade(v)
            except Refused:
                if PASSED_OVER not in self.slips:
                    self.tail = tail  # the control record comes back as it was: only the words show the mistake
                    raise
        return []

    def _shells(self):
        end = self.frontier[self.current]
        if ALLOCATE_ENDS_EARLY in self.slips:
            end = min(end, self.first_frontier)
        if self.place >= end:
            return self._handshake()
        v, r, p = self.walked()
        if self.at(v, 1) != WHITE and self.at(v, 2) == 0:
            other = 1 - self.current
            at = self.frontier[other]
            if at + size(r, p) > len(self.half[other]):
                raise Refused(12)
            number = birth_mistakes.shell_number(self) if self.slips & birth_mistakes.SHELLS else self.at(v, NUMBER)
            self._append(other, r, p, WHITE, v, number)
            if self.slips:
                share_mistakes.shelled(self, size(r, p))
            self.put(v, 2, 2 * at + 2 + other)
        self.past(r, p)

    def _copy(self):
        if self.place >= self.frontier[self.current]:
            return self.move_on()
        v, r, p = self.walked()
        t = self.at(v, 2)
        if t == 0 or self.field >= r + p:
            return self.past(r, p)
        tr, tp = self.follow(t)
        if self.field < r:
            self.need(self.field < tr, 12)
            self.put(t, HEADER + self.field, self.forward(self.at(v, HEADER + self.field)))
        else:
            i = self.field - r
            self.need(i < tp, 12)
            self.put(t, HEADER + tr + i, self.at(v, HEADER + r + i))
        if self.slips & birth_mistakes.COPYING:
            birth_mistakes.copied(self, v, t)
        self.field += 1

    def _root_flip(self):
        if self.place >= 32:
            return self.move_on()
        self.globals[self.place] = self.forward(self.globals[self.place])
        self.place += 1

    def _stack_flip(self):
        n = self.unmarked()
        if n is None:
            to = 1 - self.fromspace()
            self.move_on()
            self.current = to
            return
        self.registers[n] = [self.forward(v) for v in self.registers[n]]
        self.scanned[n] = True

    def _reclaim(self):
        if not self.have_level():
            return share_mistakes.waited(self)
        if self.place < self.frontier[self.current]:
            v, r, p = self.walked()
            self.put(v, 2, 0)
            if RECLAIM_CLEARS in self.slips:
                self.put(v, NUMBER, 0)
            return self.past(r, p)
        self.frontier[1 - self.current] = 0
        self.charge = share_mistakes.left_charged(self) if self.slips else [0] * SESSIONS
        if COUNT_RECLAIMED in self.slips:
            self.births = 0
        self.move_on()
        self.collections += 1

    # the unit of each phase, in their order
    WORK = [_rest, _handshake, _handshake, _root_mark, _heap_mark, _shells, _handshake, _copy, _handshake, _handshake, _root_flip,
            _stack_flip, _reclaim]
