"""The whole store of documents 01 and 02 in Python, words and all, written from the papers alone.

It is the second opinion on what the script program must print, collector steps and allocations without room included, and on what
a call does to any control record and any words: a store may be set up with numbers out of range, other lengths than those that are
lent, and damaged memory. `slip` builds in a mistake of tests/mistakes/mistake_names.py, or several together, so that the tests can show
that they would see it. `most_births` is how many birth numbers there are, which tests may lower. What a collector step does stands in
tests/models/collector_model.py, the call that stores several links in tests/models/links_model.py.
"""
import functools

from mistakes import birth_mistakes, share_mistakes
from mistakes.following_mistakes import passes
from mistakes.mistake_names import (ATTACHED_SCANNED, ATTACHED_UNSCANNED, BLACK_EARLY, COLOUR_THREE, COMPANION_BLIND, COPY_UNNUMBERED,
                                    COUNT_TESTED, DETACH_UNMARKS, FOLLOWING_SLIPS, FULL_LIST_SLIPS, LEVELS_ATTACHED, LIST_BY_3,
                                    LISTED_TWICE, MAKING_COUNTS_ON, MARK_OF_BEFORE, MARKS_CLEARED, NUMBER_TESTED, OLD_AT_1, OLD_IN_4_ALONE,
                                    OLD_LEFT, OLD_LEFT_AT_3, OLD_LEFT_BY_PUT, OLD_LEFT_IN_4, OLD_READ_LATE, OTHER_ORDER, PLACE_IN_HALF,
                                    PUT_AS, SOUND_BY_3, STORED_AS, STORED_LEFT, STRETCH_EARLY, WORDS_COMPARED)
from models import links_model
from models.collector_model import BLACK, GREY, LEVELS, SESSIONS, WHITE, Collector, Refused
from models.free_store import (ATTACH, DETACH, SAFE, ALLOCATE, LOAD, STORE, READ, WRITE, MOVE, CLEAR, SAME, GET, PUT, STEP, STRETCH,
                               COMPANION, BIRTH, LINKS, MOST_BIRTHS, share_in)
from models.record_layout import HEADER, NUMBER, least_list, size


@functools.cache
def refused_lengths(length0, length1, capacity, slips=frozenset()):
    """What making answers to these lengths: 1, 2, 3, or 0."""
    if not (16 <= length0 <= 1048576 and 16 <= length1 <= 1048576):
        return 1
    if length0 != length1:
        return 2
    return 3 if capacity < (length0 // 3 if LIST_BY_3 in slips else least_list(length0)) else 0


class Sapphire(Collector):
    def __init__(self, length=4096, capacity=1365, slip=None, most_births=MOST_BIRTHS):
        self.half = [[0] * length, [0] * length]
        self.list = [0] * capacity
        self.length, self.capacity = [length, length], capacity  # the lengths in the control record
        self.frontier = [0, 0]
        self.current = self.phase = self.place = self.field = self.head = self.tail = 0
        self.globals = [0] * 32
        self.attached, self.scanned, self.level = [False] * 16, [False] * 16, [0] * 16
        self.registers = [[0] * 8 for _ in range(16)]
        self.share, self.charge = [0] * SESSIONS, [0] * SESSIONS  # in words, of each session number, attached or not
        self.births, self.most_births = 0, most_births  # birth numbers used, and how many there are
        self.slips = frozenset([slip] if isinstance(slip, str) else slip or [])
        self.collections = 0
        self.first_frontier = 0
        self.asked = None  # kind and arguments of the call at hand

    # ---- memory
    def at(self, v, j):
        return self.half[v % 2][(v - 2) // 2 + j]

    def put(self, v, j, x):
        self.half[v % 2][(v - 2) // 2 + j] = x

    def sound(self, v):
        """r and p of a reference that names a record below its half's frontier; else refusal 12. This is document 01's test."""
        if v < 2:
            raise Refused(12)
        k, h = (v - 2) // 2, v % 2
        end = self.frontier[h] + (SOUND_BY_3 in self.slips)
        if k + HEADER > end:
            raise Refused(12)
        shape, colour = self.half[h][k], self.half[h][k + 1]
        r, p = shape // 256, shape % 256
        if shape > 65535 or colour > (3 if COLOUR_THREE in self.slips else 2) or k + size(r, p) > end:
            raise Refused(12)
        if NUMBER_TESTED in self.slips and self.at(v, NUMBER) > self.births:
            raise Refused(12)
        return r, p

    def follow(self, v):
        """r and p of a sound reference whose replica word is 0 or names a sound record in the other half, with equal word 0, whose replica
        word names this one; else refusal 12."""
        shape, w = self.sound(v), self.at(v, 2)
        if self.slips & FOLLOWING_SLIPS:
            self.need(passes(self, v), 12)
        elif w:
            self.sound(w)
            self.need(w % 2 != v % 2 and self.at(w, 0) == self.at(v, 0) and self.at(w, 2) == v, 12)
        return shape

    def fromspace(self):
        return 1 - self.current if self.phase == 12 else self.current

    def is_in(self, half, v):
        return v >= 2 and v % 2 == half

    def copy_of(self, v):
        self.follow(v)
        return self.at(v, 2) or v

    def forward(self, v):
        if v == 0 or self.is_in(1 - self.fromspace(), v):
            return v
        return self.copy_of(v)

    # ---- shading
    def white(self, v):
        if v == 0:
            return False
        self.follow(v)
        return self.at(v, 1) == WHITE

    def room_for(self, n):
        if self.tail + n > len(self.list):
            raise Refused(12)

    def shade(self, v):
        self.put(v, 1, GREY)
        self.list[self.tail] = v
        self.tail += 1
        if MARKS_CLEARED in self.slips:
            self.scanned = [False] * 16

    def shade_all(self, vs):
        """What there is to shade of references: the white ones, each once, in the order met, with room in the list for them."""
        met = [v for v in vs if self.white(v)]
        whites = list(dict.fromkeys(met))
        self.room_for(len(met if self.slips.intersection(FULL_LIST_SLIPS) else whites))
        return met if LISTED_TWICE in self.slips else whites

    def barrier(self, level, old, stored, by_put=False):
        """What a store or a put of one reference over another shades, in order: at levels 2 and 3 the overwritten one, at levels 1 to 3
        the stored one. All that it can be refused for comes here, before anything is written."""
        whites = self.shade_all([old] * self.shades_old(level, by_put) + [stored] * self.shades_stored(level))
        if OLD_READ_LATE in self.slips and level in (2, 3):
            whites = self.shade_all([stored]) * 2
            self.room_for(len(whites))
        return whites[::-1] if OTHER_ORDER in self.slips else whites

    def shades_old(self, level, by_put):
        if self.slips:
            left = {OLD_LEFT: level == 2, OLD_LEFT_AT_3: level == 3, OLD_LEFT_BY_PUT: by_put,
                    OLD_LEFT_IN_4: level == 2 and self.phase == 4, OLD_IN_4_ALONE: level == 2 and self.phase != 4}
            if any(left[slip] for slip in self.slips & left.keys()):
                return False
        return 2 <= level <= 3 or level == 1 and OLD_AT_1 in self.slips

    def shades_stored(self, level):
        return 1 <= level <= 3 and not (level == 2 and STORED_LEFT in self.slips)

    def acts_as(self, level, others):
        """The level by which a store or a put goes: that of its session, or another one by a slip."""
        return next((other for (own, other), slip in others.items() if own == level and slip in self.slips), level)

    def marked_when_attached(self, s):
        """Attached in phase 4 a session counts as scanned, in any other phase it does not."""
        if MARK_OF_BEFORE in self.slips and self.phase == 4:
            return self.scanned[s]
        return self.phase == 4 and ATTACHED_UNSCANNED not in self.slips or ATTACHED_SCANNED in self.slips

    # ---- session calls
    def session(self, s):
        if s > 15:
            raise Refused(5)
        if not self.attached[s]:
            raise Refused(6)

    def need(self, ok, number):
        if not ok:
            raise Refused(number)

    def make(self):
        """Making over the lent words: its refusal number or 0, and the new store."""
        lengths = [len(self.half[0]), len(self.half[1]), len(self.list)]
        number = refused_lengths(*lengths, self.slips)
        made = Sapphire(0, 0, self.slips, self.most_births)
        made.births = self.births if MAKING_COUNTS_ON in self.slips else 0
        share_mistakes.made(self, made)
        made.half, made.list = self.half, self.list
        if not number:
            made.length, made.capacity = lengths[:2], lengths[2]
        return number, made

    def in_range(self):
        """Whether the lent lengths are those of the control record, and its numbers in their ranges: refusal 4."""
        n = self.length[0]
        if self.length != [len(self.half[0]), len(self.half[1])] or self.capacity != len(self.list):
            return False
        if refused_lengths(*self.length, self.capacity, self.slips) or COUNT_TESTED in self.slips and self.births >= self.most_births:
            return False
        if self.slips and share_mistakes.out_of_range(self):
            return False
        levels = self.level
        if LEVELS_ATTACHED in self.slips:
            levels = [l * a for l, a in zip(levels, self.attached)]
        most = 32 if self.phase in (3, 10) and not (PLACE_IN_HALF in self.slips and n < 32) else n
        return (self.current <= 1 and max(self.frontier) <= n and self.phase <= 12 and max(levels) <= 6 and self.place <= most
                and self.field <= 510 and self.head <= self.tail <= self.capacity)

    def stretch(self, s, k):
        """The plain fields of the record in a register; refused, none."""
        self.asked = STRETCH, [s, k]
        try:
            self.need(self.in_range(), 4)
            self.session(s)
            return self._plain_fields(self.registers[s], k)
        except Refused:
            return []

    def call(self, kind, args):
        """The refusal number or 0, and the value."""
        self.asked = kind, args
        try:
            self.need(self.in_range(), 4)
            return 0, self._call(kind, args) or 0
        except Refused as refusal:
            if self.slips:
                birth_mistakes.refused(self, kind, refusal.args[0])
                share_mistakes.refused(self, kind, args, refusal.args[0])
            return refusal.args[0], 0

    def _call(self, kind, args):
        if kind == STEP:
            self._step()
            return self.phase
        s = args[0]
        if kind == ATTACH:
            return self._attach(s, share_in(args[1:]))
        if kind == LINKS:
            return links_model.store_links(self, args)
        self.session(s)
        regs, level = self.registers[s], self.level[s]
        if kind == DETACH:
            self.attached[s], self.level[s], self.registers[s] = False, 0, [0] * 8
            self.scanned[s] = self.scanned[s] and DETACH_UNMARKS not in self.slips
            share_mistakes.detached(self, s)
        elif kind == SAFE:
            self.level[s] = LEVELS[self.phase]
        elif kind == ALLOCATE:
            self._allocate(*args)
        elif kind == LOAD:
            to, k, i = args[1:]
            self.need(to <= 7 and k <= 7, 8)
            self.need(regs[k], 11)
            r, _ = self.follow(regs[k])
            self.need(i < r, 13)
            regs[to] = self.at(regs[k], HEADER + i)
        elif kind == STORE:
            self._store(regs, level, *args[1:])
        elif kind == READ:
            k, i = args[1:]
            self.need(k <= 7, 8)
            self.need(regs[k], 11)
            r, p = self.follow(regs[k])
            self.need(i < p, 13)
            return self.at(regs[k], HEADER + r + i)
        elif kind == WRITE:
            self._write(regs, level, *args[1:])
        elif kind == MOVE:
            to, source = args[1:]
            self.need(to <= 7 and source <= 7, 8)
            regs[to] = regs[source]
        elif kind == CLEAR:
            self.need(args[1] <= 7, 8)
            regs[args[1]] = 0
        elif kind == SAME:
            a, b = args[1:]
            self.need(a <= 7 and b <= 7, 8)
            return int(self._same(level, regs[a], regs[b]))
        elif kind == GET:
            to, g = args[1:]
            self.need(to <= 7, 8)
            self.need(g <= 31, 9)
            regs[to] = self.globals[g]
        elif kind == PUT:
            self._put(regs, level, *args[1:])
        elif kind == COMPANION:
            self._companion(regs, args[1])
        elif kind == BIRTH:
            return self._birth(regs, args[1])
        return 0

    def _attach(self, s, share):
        self.need(s <= 15, 5)
        self.need(not self.attached[s], 7)
        self.attached[s], self.scanned[s] = True, self.marked_when_attached(s)
        self.level[s], self.registers[s] = LEVELS[self.phase], [0] * 8
        self.share[s] = share_mistakes.attached(self, s, share) if self.slips else share

    def _plain_fields(self, regs, k):
        self.need(k <= 7, 8)
        v = regs[k]
        self.need(v, 11)
        r, p = self.follow(v)
        first = HEADER if STRETCH_EARLY in self.slips else HEADER + r
        return [self.at(v, first + i) for i in range(p)]

    def _companion(self, regs, k):
        try:
            self._plain_fields(regs, k)
        except Refused as refusal:
            if COMPANION_BLIND not in self.slips or refusal.args[0] != 12:
                raise

    def _birth(self, regs, k):
        self.need(k <= 7, 8)
        v = regs[k]
        self.need(v, 11)
        if self.slips & birth_mistakes.ASKING:
            return birth_mistakes.asked(self, v)
        self.follow(v)
        return self.at(v, NUMBER)

    def _take_number(self, halves, r, p):
        """The number of a new record of this shape in these halves: refused with 14 where it has no room, with 16 where none is left."""
        if self.slips & birth_mistakes.ALLOCATING:
            return birth_mistakes.take(self, halves, r, p)
        self.need(all(self.frontier[h] + size(r, p) <= len(self.half[h]) for h in halves), 14)
        self.need(self.births < self.most_births, 16)
        self.births += 1
        return self.births

    def _admit(self, s, halves, r, p):
        """The number of a new record of this shape, which is charged to the session: refused with 17 where it would pass its share."""
        if self.slips & share_mistakes.ALLOCATING:
            return share_mistakes.admit(self, s, halves, r, p)
        self.need(self.charge[s] + size(r, p) <= self.share[s], 17)
        number = self._take_number(halves, r, p)
        self.charge[s] += size(r, p)
        return number

    def _allocate(self, s, k, r, p):
        regs, level = self.registers[s], self.level[s]
        self.need(k <= 7, 8)
        if self.slips:
            share_mistakes.before_shape(self, s, r, p)
        self.need(r <= 255 and p <= 255, 10)
        number = self._admit(s, [self.current] if level <= 2 else [0, 1], r, p)
        refs = [2 * self.frontier[h] + 2 + h for h in (0, 1)]
        black_from = 1 if BLACK_EARLY in self.slips else 2
        if level <= 2:
            self._append(self.current, r, p, BLACK if level >= black_from else WHITE, 0, number)
            regs[k] = refs[self.current]
        else:
            source = self.fromspace()
            self._append(source, r, p, BLACK, refs[1 - source], number)
            self._append(1 - source, r, p, WHITE, refs[source], 0 if COPY_UNNUMBERED in self.slips else number)
            regs[k] = refs[source] if level <= 5 else refs[1 - source]

    def _append(self, h, r, p, colour, replica, number):
        at = self.frontier[h]
        self.half[h][at:at + size(r, p)] = [256 * r + p, colour, replica, number] + [0] * (r + p)
        self.frontier[h] = at + size(r, p)

    def _store(self, regs, level, k, i, source):
        self.need(k <= 7 and source <= 7, 8)
        v, q = regs[k], regs[source]
        self.need(v, 11)
        r, _ = self.follow(v)
        self.need(i < r, 13)
        if self.slips:
            level = self.acts_as(level, STORED_AS)
        shaded = self.barrier(level, self.at(v, HEADER + i), q)
        replica = self.at(v, 2) if level >= 4 else 0
        if replica:
            self.need(i < self.follow(replica)[0], 12)
        own = self._own_word(level, v, q)
        copy = 0
        if replica:
            if level == 5:
                copy = self.copy_of(q) if self.is_in(v % 2, q) else q
            else:
                copy = self.forward(q)
        for w in shaded:
            self.shade(w)
        self.put(v, HEADER + i, own)
        if replica:
            self.put(replica, HEADER + i, copy)

    def _own_word(self, level, v, q):
        if level == 6:
            return self.forward(q)
        if level == 5 and self.is_in(1 - self.fromspace(), v) and self.is_in(self.fromspace(), q):
            return self.copy_of(q)
        return q

    def _write(self, regs, level, k, i, value):
        self.need(k <= 7, 8)
        v = regs[k]
        self.need(v, 11)
        r, p = self.follow(v)
        self.need(i < p, 13)
        replica = self.at(v, 2) if level >= 4 else 0
        if replica:
            rr, rp = self.follow(replica)
            self.need(i < rp, 12)
        self.put(v, HEADER + r + i, value)
        if replica:
            self.put(replica, HEADER + rr + i, value)

    def _same(self, level, a, b):
        if level <= 4 or a == b or WORDS_COMPARED in self.slips:
            return a == b
        for p, q in ((a, b), (b, a)):
            if self.is_in(self.fromspace(), p):
                self.follow(p)
                return self.at(p, 2) == q
        return False

    def _put(self, regs, level, g, source):
        self.need(source <= 7, 8)
        self.need(g <= 31, 9)
        q = regs[source]
        if self.slips:
            level = self.acts_as(level, PUT_AS)
        shaded = self.barrier(level, self.globals[g], q, by_put=True)
        own = self._own_word(level, 0, q)
        for v in shaded:
            self.shade(v)
        self.globals[g] = own
