"""The rules of docs/STORE.md, written a second time and plainly.

This file owes nothing to the Rattle code, so that the two can be held against each other. Where a rule is a walk, it is
written as a recursion. `Box.call` makes a call and then tests what every store promises, in ways that the rules do not
use: what is reachable is searched for from the held records, and links are counted one by one.
"""
import sys

NOT_HELD, NO_FIELD, FULL, TOO_MANY = 3, 4, 5, 6
MOST_HOLDS = 1000

# a walk goes down as many records as a store has
sys.setrecursionlimit(100000)


class Refused(Exception):
    pass


class Box:
    """A store of n records with so many links and bytes."""

    def __init__(self, n, links, bytes_):
        self.n, self.p, self.width = n, links, bytes_
        self.free = list(range(1, n + 1))
        self.list = []
        # of each record in use
        self.holds, self.count, self.colour, self.waiting, self.links, self.bytes = {}, {}, {}, {}, {}, {}
        # what the answers so far say
        self.makes, self.given = 0, 0

    # ---- one call, and the tests after it

    def call(self, name, *values):
        """Makes the call and answers; a refusal is raised."""
        before = self.reachable() if name == "collect" else None
        result = getattr(self, name)(*values)
        if name == "make":
            self.makes += 1
        if name in ("link", "drop", "collect"):
            self.given += result
        assert self.makes == len(self.holds) + self.given
        if name == "collect":
            self.test_collected(before)
        return result

    def reachable(self):
        """The records that are reachable, with their holds, links and bytes."""
        found, ahead = set(), [r for r in self.holds if self.holds[r] > 0]
        while ahead:
            r = ahead.pop()
            if r not in found:
                found.add(r)
                ahead += [t for t in self.links[r] if t != 0]
        return {r: (self.holds[r], tuple(self.links[r]), bytes(self.bytes[r])) for r in found}

    def test_collected(self, before):
        """In use is exactly what was reachable, as it was; counts are holds and links; the rest is free, each once."""
        assert self.reachable() == before
        assert set(self.holds) == set(before)
        named = [t for r in self.links for t in self.links[r]]
        for r in self.holds:
            assert self.count[r] == self.holds[r] + named.count(r)
            assert self.colour[r] == "black" and not self.waiting[r]
        assert self.list == []
        assert sorted(self.free + list(self.holds)) == list(range(1, self.n + 1))

    # ---- parts of calls

    def held(self, r):
        if self.holds.get(r, 0) == 0:
            raise Refused(NOT_HELD)

    def below(self, i, limit):
        if i >= limit:
            raise Refused(NO_FIELD)

    def targets(self, r):
        return [t for t in self.links[r] if t != 0]

    def blank(self, r):
        self.links[r], self.bytes[r] = [0] * self.p, [0] * self.width

    def give_up(self, r):
        for table in (self.holds, self.count, self.colour, self.waiting, self.links, self.bytes):
            del table[r]
        self.free.insert(0, r)

    def raise_(self, r):
        self.count[r] += 1
        self.colour[r] = "black"

    def lower(self, r):
        """Answers the give-ups."""
        if r == 0:
            return 0
        self.count[r] -= 1
        if self.count[r] > 0:
            self.colour[r] = "purple"
            if not self.waiting[r]:
                self.waiting[r] = True
                self.list.append(r)
            return 0
        given = sum([self.lower(t) for t in self.targets(r)])
        self.blank(r)
        self.colour[r] = "black"
        if self.waiting[r]:
            return given
        self.give_up(r)
        return given + 1

    def more(self, r, answer):
        if self.holds[r] >= MOST_HOLDS:
            raise Refused(TOO_MANY)
        self.raise_(r)
        self.holds[r] += 1
        return answer

    # ---- the walks of a collection

    def mark(self, r):
        if self.colour[r] == "gray":
            return
        self.colour[r] = "gray"
        for t in self.targets(r):
            self.count[t] -= 1
            self.mark(t)

    def scan(self, r):
        if self.colour[r] != "gray":
            return
        if self.count[r] > 0:
            self.restore(r)
            return
        self.colour[r] = "white"
        for t in self.targets(r):
            self.scan(t)

    def restore(self, r):
        self.colour[r] = "black"
        for t in self.targets(r):
            self.count[t] += 1
            if self.colour[t] != "black":
                self.restore(t)

    def gather(self, r):
        """Answers the give-ups. What this collection has given up already is free, and passed: it has no colour here."""
        if self.colour.get(r) != "white" or self.waiting[r]:
            return 0
        self.colour[r] = "black"
        given = sum([self.gather(t) for t in self.targets(r)])
        self.blank(r)
        self.give_up(r)
        return given + 1

    # ---- the calls

    def make(self):
        if not self.free:
            raise Refused(FULL)
        r = self.free.pop(0)
        self.holds[r], self.count[r], self.colour[r], self.waiting[r] = 1, 1, "black", False
        self.blank(r)
        return r

    def hold(self, r):
        self.held(r)
        return self.more(r, self.holds[r] + 1)

    def load(self, r, l):
        self.held(r)
        self.below(l, self.p)
        t = self.links[r][l]
        return "none" if t == 0 else self.more(t, t)

    def link(self, r, l, t):
        self.held(r)
        if t != 0:
            self.held(t)
        self.below(l, self.p)
        if t != 0:
            self.raise_(t)
        old, self.links[r][l] = self.links[r][l], t
        return self.lower(old)

    def byte(self, r, b, v):
        self.held(r)
        self.below(b, self.width)
        self.bytes[r][b] = v
        return None

    def look(self, r, b):
        self.held(r)
        self.below(b, self.width)
        return self.bytes[r][b]

    def drop(self, r):
        self.held(r)
        self.holds[r] -= 1
        return self.lower(r)

    def collect(self):
        given, listed, self.list = 0, self.list, []
        for r in listed:
            if self.colour[r] == "purple":
                self.mark(r)
                self.list.append(r)
            elif self.colour[r] == "black" and self.count[r] == 0:
                self.give_up(r)
                given += 1
            else:
                self.waiting[r] = False
        for r in self.list:
            self.scan(r)
        listed, self.list = self.list, []
        for r in listed:
            self.waiting[r] = False
            given += self.gather(r)
        return given

    def tally(self):
        return len(self.holds)
