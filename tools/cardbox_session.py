#!/usr/bin/env python3
"""Writes the session that the gate runs `cardbox` on, and the output that the rules ask for.

The rules are those of docs/STORE.md and docs/KEYBOARD.md, written here a second time and plainly: this file owes
nothing to the Rattle code, so that the two can be held against each other. Run it at the top of the repository; it
writes crates/cardbox/stdin and crates/cardbox/stdout.
"""
import random
import re
import sys
from pathlib import Path

NOT_HELD, NO_FIELD, FULL, TOO_MANY, BAD_LINE = 3, 4, 5, 6, 14


class Refused(Exception):
    pass


class Box:
    """A store of n records with so many links and bytes."""

    def __init__(self, n, links, bytes_):
        self.n, self.p, self.width = n, links, bytes_
        self.free = list(range(1, n + 1))
        self.list = []
        # of each record in use
        self.holds, self.count, self.purple, self.waiting, self.links, self.bytes = {}, {}, {}, {}, {}, {}

    def held(self, r):
        if self.holds.get(r, 0) == 0:
            raise Refused(NOT_HELD)

    def below(self, i, limit):
        if i >= limit:
            raise Refused(NO_FIELD)

    def blank(self, r):
        self.links[r], self.bytes[r] = [0] * self.p, [0] * self.width

    def raise_(self, r):
        self.count[r] += 1
        self.purple[r] = False

    def lower(self, r):
        """Answers the give-ups."""
        if r == 0:
            return 0
        self.count[r] -= 1
        if self.count[r] > 0:
            self.purple[r] = True
            if not self.waiting[r]:
                self.waiting[r] = True
                self.list.append(r)
            return 0
        given = sum([self.lower(t) for t in list(self.links[r])])
        self.blank(r)
        self.purple[r] = False
        if self.waiting[r]:
            return given
        for table in (self.holds, self.count, self.purple, self.waiting, self.links, self.bytes):
            del table[r]
        self.free.insert(0, r)
        return given + 1

    def more(self, r, answer):
        if self.holds[r] >= 1000:
            raise Refused(TOO_MANY)
        self.raise_(r)
        self.holds[r] += 1
        return answer

    def make(self):
        if not self.free:
            raise Refused(FULL)
        r = self.free.pop(0)
        self.holds[r], self.count[r], self.purple[r], self.waiting[r] = 1, 1, False, False
        self.blank(r)
        return r

    def hold(self, r):
        self.held(r)
        return self.more(r, self.holds[r] + 1)

    def load(self, r, l):
        self.held(r)
        self.below(l, self.p)
        t = self.links[r][l]
        return "none" if t == 0 else self.more(t, t)

    def link(self, r, l, t):
        self.held(r)
        if t != 0:
            self.held(t)
        self.below(l, self.p)
        if t != 0:
            self.raise_(t)
        old, self.links[r][l] = self.links[r][l], t
        return self.lower(old)

    def byte(self, r, b, v):
        self.held(r)
        self.below(b, self.width)
        self.bytes[r][b] = v
        return None

    def look(self, r, b):
        self.held(r)
        self.below(b, self.width)
        return self.bytes[r][b]

    def drop(self, r):
        self.held(r)
        self.holds[r] -= 1
        return self.lower(r)

    def tally(self):
        return len(self.bytes)


FORMS = {"make": 0, "hold": 1, "load": 2, "link": 3, "byte": 3, "look": 2, "drop": 1, "tally": 0}
NUMBER = re.compile(rb"0|[1-9][0-9]{0,4}")


def answer(box, line):
    words = line.split(b" ")
    name = words[0].decode("latin-1")
    numbers = words[1:]
    fits = len(line) <= 80 and name in FORMS and len(numbers) == FORMS[name] and all(NUMBER.fullmatch(w) for w in numbers)
    values = [int(w) for w in numbers] if fits else []
    if not fits or (name == "byte" and values[2] > 255):
        return b"refused %d\n" % BAD_LINE
    try:
        result = getattr(box, name)(*values)
    except Refused as no:
        return b"refused %d\n" % no.args[0]
    return b"ok\n" if result is None else b"ok %s\n" % str(result).encode()


def lines_of(typed):
    parts = typed.split(b"\n")
    return parts[:-1] + ([parts[-1]] if parts[-1] else [])


def session():
    yield from [b"tally", b"look 1 0", b"hold 1", b"byte 1 0 4", b"hold 0", b"make", b"make", b"make", b"tally"]
    # marks hole by hole, read back
    yield from [b"byte 1 %d %d" % (h, 3 + h % 4) for h in range(18)]
    yield from [b"look 1 %d" % h for h in range(18)]
    yield from [b"byte 2 17 255", b"look 2 17", b"look 2 16", b"look 1 17", b"byte 2 17 0", b"look 2 17"]
    # no such byte, no such record, and which of the two is said first
    yield from [b"look 1 18", b"byte 1 18 1", b"look 1 256", b"byte 1 99999 0", b"look 4 0", b"look 4 99", b"byte 201 99 1"]
    yield from [b"hold 200", b"hold 201", b"hold 4095", b"hold 4096", b"hold 65537", b"hold 99999", b"look 65537 0"]
    # outside the forms
    yield from [b"", b" ", b"make ", b" make", b"make 1", b"Make", b"makes", b"mak", b"tally 0", b"hold", b"hold 1 1"]
    yield from [b"hold 01", b"hold 00", b"hold 0", b"hold 000001", b"hold 100000", b"hold -1", b"hold +1", b"hold 1x", b"hold x"]
    yield from [b"hold  1", b"hold 1 ", b"hold\t1", b"hold 1\r", b"hold\x001", b"\x00", b"\xff\xfe", b"hold \xb1", b"look 1"]
    yield from [b"look 1 0 0", b"byte 1 2", b"byte 1 2 256", b"byte 1 2 99999", b"byte 1 2 03", b"byte 1 2 3 4", b"byte 999 2 256"]
    yield from [b"load 1", b"load 1 0 0", b"link 1 0", b"link 1 0 2 3", b"drop", b"drop 1 1", b"collect", b"1", b"0", b"1 make"]
    # 80 bytes, 81, and many more: each is one line
    yield from [b"hold " + b"1" * 75, b"hold " + b"1" * 76, b"make" + b" " * 76, b"x" * 80, b"x" * 81, b"x" * 5000, b"make" * 3000]
    yield from [b"tally", b"look 1 5"]
    # holds up to the most that are allowed
    yield from [b"hold 3"] * 1000
    yield from [b"look 3 0", b"hold 1"]
    # links, loads and drops: refusals first, then self links, shared targets, a spent record
    yield from [b"load 1 3", b"load 4 0", b"load 4 9", b"load 1 0", b"link 1 3 2", b"link 1 9 4", b"link 4 0 1", b"link 0 0 0", b"drop 4", b"drop 0"]
    yield from [b"link 1 0 2", b"load 1 0", b"link 1 0 2", b"link 1 1 1", b"link 2 2 1", b"link 2 1 3", b"load 2 1", b"drop 2", b"drop 2", b"drop 2"]
    yield from [b"load 1 0", b"link 1 0 0", b"load 1 0", b"tally", b"link 1 1 0", b"link 2 2 0", b"link 2 1 0", b"drop 2", b"drop 2", b"tally"]
    yield from [b"drop 1", b"drop 1", b"drop 1", b"tally", b"make", b"make", b"make", b"tally", b"drop 3", b"hold 3", b"look 3 0"]
    # every record, and one more
    yield from [b"make"] * 198
    yield from [b"tally", b"make", b"look 200 17", b"byte 200 17 9", b"look 200 17", b"look 199 17", b"hold 200", b"tally", b"drop 200"]


def play():
    """A long session of makes, links, loads and drops that looks like nobody drew it, then chains of many cards."""
    box = Box(200, 3, 18)
    rng = random.Random(1913)

    def say(line):
        answer(box, line)
        return line

    for line in session():
        yield say(line)
    for _ in range(4000):
        held = [r for r, h in box.holds.items() if h] or [1]
        r, t = rng.choice(held), rng.choice(held + [0, rng.randrange(0, 203)])
        form = rng.choice(["make", "link", "link", "link", "load", "load", "drop", "hold", "byte", "look", "tally"])
        numbers = {"link": [r, rng.randrange(0, 4), t], "load": [r, rng.randrange(0, 4)], "drop": [r], "hold": [r], "byte": [r, rng.randrange(0, 19), rng.randrange(0, 256)], "look": [r, rng.randrange(0, 19)]}
        yield say(" ".join([form] + [str(x) for x in numbers.get(form, [])]).encode())
    # all that is held is chained by its last link, and dropped from the end to the head
    chain = sorted(r for r, h in box.holds.items() if h)
    for a, b in zip(chain, chain[1:]):
        yield say(b"link %d 2 %d" % (a, b))
    for r in reversed(chain):
        while box.holds.get(r):
            yield say(b"drop %d" % r)
        yield say(b"tally")
    yield say(b"make")


def main():
    typed = b"\n".join(play()) + b"\nlook 1 17"
    box = Box(200, 3, 18)
    crate = Path("crates/cardbox")
    (crate / "stdin").write_bytes(typed)
    (crate / "stdout").write_bytes(b"".join(answer(box, line) for line in lines_of(typed)))


sys.setrecursionlimit(10000)
main()
