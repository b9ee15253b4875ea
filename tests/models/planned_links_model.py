"""Another way to store several links: every pair is planned before anything is written, on the words as the pairs before it are going to
leave them. It reads and follows by itself and shares nothing with the rules in tests/models/store_model.py, which write pair after pair
and put all back where one is refused. `unseen` builds in mistakes: what the later pairs do not see of what the earlier ones are going to
do."""
from models.collector_model import Refused
from models.free_store import MOST_LINKS, pairs_in

OWN, COPY, COLOUR, END = "own", "copy", "colour", "end"  # words of fields, of replicas' fields and of colours, and the list's end
OLD, HEADER = "old", "header"  # overwritten references; what the first pair has found out about the record and its replica
WHITENESS = "whiteness"  # that a record is grey now, where it is shaded; its colour is seen where it is a word of something else
ALL = frozenset([OWN, COPY, COLOUR, END, OLD, HEADER])


def need(holds, number=12):
    if not holds:
        raise Refused(number)


class Plan:
    """`writes` are the words to write, in order, each by half and place, `words` those of them that later pairs see, `listed` the entries
    that go to the list."""

    def __init__(self, store, s, unseen=frozenset()):
        self.store, self.registers, self.level, self.unseen = store, store.registers[s], store.level[s], unseen
        self.writes, self.words, self.listed, self.found = [], {}, [], None

    def at(self, v, j):
        place = v % 2, v // 2 - 1 + j
        return self.words[place] if place in self.words else self.store.half[place[0]][place[1]]

    def write(self, what, v, j, word):
        place = v % 2, v // 2 - 1 + j
        self.writes.append((place, word))
        if what not in self.unseen:
            self.words[place] = word

    def links(self, v):
        """The reference fields of a sound record."""
        end = self.store.frontier[v % 2]
        need(v > 1 and v // 2 + 3 <= end)
        shape = self.at(v, 0)
        need(shape < 1 << 16 and self.at(v, 1) < 3 and v // 2 + 3 + shape // 256 + shape % 256 <= end)
        return shape // 256

    def follow(self, v):
        """The reference fields of a record and its replica, or 0."""
        links, w = self.links(v), self.at(v, 2)
        if w:
            self.links(w)
            need((v + w) % 2 and self.at(w, 0) == self.at(v, 0) and self.at(w, 2) == v)
        return links, w

    def followed_record(self, v):
        if self.found is None or HEADER not in self.unseen:
            self.found = self.follow(v)
        return self.found

    def other(self, v):
        """The other copy of a record; itself where it has none."""
        return self.follow(v)[1] or v

    def to_shade(self, v, i, q):
        """The white ones among the overwritten and the stored reference, each once, for which there is room in the list."""
        old = self.at(v, 4 + i)
        if OLD in self.unseen:
            old = self.store.half[v % 2][v // 2 + 3 + i]
        some = {0: [], 1: [q], 2: [old, q], 3: [old, q]}.get(self.level, [])
        whites = []
        for u in some:
            if u:
                self.follow(u)
                if u not in whites and (self.at(u, 1) == 0 or WHITENESS in self.unseen and u in self.listed):
                    whites.append(u)
        ahead = 0 if END in self.unseen else len(self.listed)
        need(self.store.tail + ahead + len(whites) <= len(self.store.list))
        return whites

    def words_for(self, v, w, q):
        """The word for the record's own field and, if there is a replica, the one for its field."""
        tospace = self.store.current if self.store.phase == 12 else 1 - self.store.current
        def forwarded():
            return q if q == 0 or q > 1 and q % 2 == tospace else self.other(q)
        if self.level < 4:
            return q, None
        if self.level == 4:
            return q, forwarded() if w else None
        if self.level == 6:
            return forwarded(), forwarded() if w else None
        own = self.other(q) if v % 2 == tospace and q > 1 and q % 2 != tospace else q
        if not w:
            return own, None
        return own, self.other(q) if q > 1 and q % 2 == v % 2 else q

    def pair(self, k, i, source):
        """One pair, by document 01's order of tests."""
        need(k < 8 and source < 8, 8)
        v, q = self.registers[k], self.registers[source]
        need(v, 11)
        links, w = self.followed_record(v)
        need(i < links, 13)
        whites, (own, copy) = self.to_shade(v, i, q), self.words_for(v, w, q)
        for u in whites:
            self.write(COLOUR, u, 1, 1)
        self.listed += whites
        self.write(OWN, v, 4 + i, own)
        if copy is not None:
            self.write(COPY, w, 4 + i, copy)

    def carry_out(self):
        for (h, at), word in self.writes:
            self.store.half[h][at] = word
        for v in self.listed:
            self.store.list[self.store.tail] = v
            self.store.tail += 1


def store_planned(store, args, unseen=frozenset()):
    """The call, after the test of the control record: refused before anything is written, or done."""
    s, k, count = args[:3]
    need(s < 16, 5)
    need(store.attached[s], 6)
    need(count <= MOST_LINKS, 10)
    plan = Plan(store, s, unseen)
    for i, source in pairs_in(args):
        plan.pair(k, i, source)
    plan.carry_out()
