"""The collector-free store of documents 01 and 02, written from the papers alone.

It is fed the session calls of a run in order and, for each allocation, whether the run had room for it (fitted), refused it for room (14)
or refused it for its session's share (17). That all birth numbers are used, 16, it finds by the length of its list. It keeps which sessions
are attached, their registers, the globals and a list of records, but no shares; a register, global or reference field holds 0 for null or a
record's place in the list, from 1.

An attach has a session and a share. In a script, and in the tests' entries of that form, it has the session alone, and its share is whole.
A call for several links has a session, the register of the record, a count, and up to eight pairs of field number and register.
"""

ATTACH, DETACH, SAFE, ALLOCATE, LOAD, STORE, READ, WRITE, MOVE, CLEAR, SAME, GET, PUT, STEP = range(1, 15)
STRETCH, COMPANION, BIRTH, LINKS = 15, 16, 17, 18  # after the kinds of the script, which has none of them; the last stores several links
MOST_BIRTHS = (1 << 32) - 1  # birth numbers that there are, from 1
WHOLE_SHARE = (1 << 32) - 1  # the share, in words, of an attach that names none
FITTED, NO_ROOM, OVER_SHARE = 0, 14, 17  # what is fed for an allocation
MOST_LINKS = 8  # pairs that one call may store


def share_in(args):
    """The share that an attach asks for, by its arguments without the session, or an open of the directory by all of its own."""
    return args[0] if args else WHOLE_SHARE


def pairs_in(args):
    """The pairs of a call for several links that its count takes, field number and register of each."""
    return list(zip(args[3::2], args[4::2]))[:args[2]]


def fed(kind, number):
    """What the collector-free store is fed of a call that the run answered with this number."""
    return number if kind == ALLOCATE and number in (NO_ROOM, OVER_SHARE) else FITTED


class Model:
    """`most_births` is how many birth numbers there are, which tests may lower."""

    def __init__(self, most_births=MOST_BIRTHS):
        self.most_births = most_births
        self.attached = [False] * 16
        self.registers = [[0] * 8 for _ in range(16)]
        self.globals = [0] * 32
        self.records = []  # (reference fields, plain fields)

    def _session(self, s):
        if s > 15:
            return 5
        return 0 if self.attached[s] else 6

    def call(self, kind, args, allocation=FITTED):
        """The refusal number or 0, and the value. `allocation` is what is fed for it."""
        s = args[0]
        if kind == ATTACH:
            if s > 15:
                return 5, 0
            if self.attached[s]:
                return 7, 0
            self.attached[s] = True
            self.registers[s] = [0] * 8
            return 0, 0
        refusal = self._session(s)
        if refusal:
            return refusal, 0
        regs = self.registers[s]
        if kind == DETACH:
            self.attached[s] = False
            self.registers[s] = [0] * 8
            return 0, 0
        if kind == ALLOCATE:
            k, r, p = args[1:]
            if k > 7:
                return 8, 0
            if r > 255 or p > 255:
                return 10, 0
            if allocation:
                return allocation, 0
            if len(self.records) >= self.most_births:
                return 16, 0
            self.records.append(([0] * r, [0] * p))
            regs[k] = len(self.records)
            return 0, 0
        if kind in (LOAD, STORE, READ, WRITE):
            return self._field(kind, regs, args)
        if kind == LINKS:
            return self._links(regs, args)
        if kind == BIRTH:
            return self._birth(regs, args[1])
        if kind == MOVE:
            to, source = args[1:]
            if to > 7 or source > 7:
                return 8, 0
            regs[to] = regs[source]
            return 0, 0
        if kind == CLEAR:
            if args[1] > 7:
                return 8, 0
            regs[args[1]] = 0
            return 0, 0
        if kind == SAME:
            a, b = args[1:]
            if a > 7 or b > 7:
                return 8, 0
            return 0, int(regs[a] == regs[b])
        if kind == GET:
            to, g = args[1:]
            if to > 7:
                return 8, 0
            if g > 31:
                return 9, 0
            regs[to] = self.globals[g]
            return 0, 0
        g, source = args[1:]
        if source > 7:
            return 8, 0
        if g > 31:
            return 9, 0
        self.globals[g] = regs[source]
        return 0, 0

    def _links(self, regs, args):
        """Single stores in list order. Where one is refused the record's links are put back."""
        s, k, count = args[:3]
        if count > MOST_LINKS:
            return 10, 0
        refs = self.records[regs[k] - 1][0] if k <= 7 and regs[k] else []
        before = list(refs)
        for i, source in pairs_in(args):
            answer = self._field(STORE, regs, [s, k, i, source])
            if answer[0]:
                refs[:] = before
                return answer
        return 0, 0

    def _birth(self, regs, k):
        """A record's birth number is its place in the list."""
        if k > 7:
            return 8, 0
        return (0, regs[k]) if regs[k] else (11, 0)

    def _field(self, kind, regs, args):
        if kind == LOAD:
            to, k, i = args[1:]
        elif kind == STORE:
            k, i, to = args[1:]
        else:
            k, i, to = args[1], args[2], 0
        if k > 7 or to > 7:
            return 8, 0
        if regs[k] == 0:
            return 11, 0
        refs, plains = self.records[regs[k] - 1]
        if kind in (LOAD, STORE):
            if i >= len(refs):
                return 13, 0
            if kind == LOAD:
                regs[to] = refs[i]
            else:
                refs[i] = regs[to]
            return 0, 0
        if i >= len(plains):
            return 13, 0
        if kind == READ:
            return 0, plains[i]
        plains[i] = args[3]
        return 0, 0
