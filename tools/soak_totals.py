#!/usr/bin/env python3
"""Writes crates/soak/stdout: the totals that `soak` must print, from a second writing of its rounds over box_model.py.

Every call is also tested by the model itself: what a collection leaves is searched for from the held records. Run it at
the top of the repository.
"""
from pathlib import Path

from box_model import Box, Refused

RECORDS, ROUNDS = 240, 2000
WORD = 2**64


class Dice:
    def __init__(self, seed):
        self.state = seed

    def roll(self, sides):
        self.state = (self.state * 6364136223846793005 + 1442695040888963407) % WORD
        return (self.state >> 32) % sides if sides else 0


class Host:
    """A store, and what its answers come to."""

    def __init__(self, links, bytes_, seed):
        self.box, self.dice = Box(RECORDS, links, bytes_), Dice(seed)
        self.calls = self.makes = self.given = self.checks = self.balanced = self.survived = self.emptied = 0
        self.digest = 14695981039346656037

    def call(self, name, *values):
        """Answers a number, "none", None for done, or a Refused."""
        try:
            reply = self.box.call(name, *values)
        except Refused as no:
            reply = no
        if isinstance(reply, Refused):
            code = 4 * reply.args[0] + 3
        else:
            code = 2 if reply is None else 1 if reply == "none" else 4 * reply
        self.calls += 1
        self.digest = (self.digest ^ code) * 1099511628211 % WORD
        if isinstance(reply, int):
            self.makes += name == "make"
            self.given += reply if name in ("link", "drop", "collect") else 0
        return reply

    def mark(self, r, number):
        return r % self.box.width, (31 * r + number) % 256

    def make_marked(self, number):
        reply = self.call("make")
        r = reply if isinstance(reply, int) else 0
        self.call("byte", r, *self.mark(r, number))
        return r

    def is_marked(self, r, number):
        b, v = self.mark(r, number)
        return self.call("look", r, b) == v

    def collect(self):
        self.call("collect")
        in_use = self.call("tally")
        self.checks += 1
        self.balanced += self.makes == in_use + self.given
        return in_use


def shaped(dice, n):
    """For each of n places, from a drawn shape, a function to the place that it links to, given a drawn one."""
    shape = dice.roll(4)
    if shape == 0:
        return lambda i, drawn: (i + 1) % n
    if shape == 1:
        size = max(1, dice.roll(12))
        rings = [list(range(first, min(first + size, n))) for first in range(0, n, size)]
        after = {a: b for ring in rings for a, b in zip(ring, ring[1:] + ring[:1])}
        return lambda i, drawn: after[i]
    if shape == 2:
        return lambda i, drawn: (i - 1) // 2 if i else n - 1
    return lambda i, drawn: drawn


def tie(host, made):
    n = len(made)
    target = shaped(host.dice, n)
    for i, r in enumerate(made):
        drawn = host.dice.roll(n)
        host.call("link", r, 0, made[target(i, drawn)])
    if host.dice.roll(2) == 0:
        for r in made:
            if host.dice.roll(3) == 0:
                l = host.dice.roll(host.box.p)
                host.call("link", r, l, made[host.dice.roll(n)])


def stroll(host, outside, steps, number):
    host.call("hold", outside)
    at, marked = outside, host.is_marked(outside, number)
    for _ in range(steps):
        l = host.dice.roll(host.box.p) if host.dice.roll(4) == 0 else 0
        t = host.call("load", at, l)
        if isinstance(t, int):
            marked = host.is_marked(t, number) and marked
            host.call("drop", at)
            at = t
    host.call("drop", at)
    return marked


def play_round(host, number):
    size = host.dice.roll(RECORDS)
    outside = host.make_marked(number)
    made = [host.make_marked(number) for _ in range(size)]
    for i in range(size):
        j = host.dice.roll(size)
        made[i], made[j] = made[j], made[i]
    tie(host, made)
    inside = 0
    if host.dice.roll(8) != 0:
        place = host.dice.roll(size)
        inside = made[place] if made else 0
    host.call("link", outside, 0, inside)
    for r in made:
        host.call("drop", r)
        if host.dice.roll(32) == 0:
            host.collect()
    host.collect()
    host.survived += stroll(host, outside, size, number)
    host.call("drop", outside)
    host.emptied += host.collect() == 0


def soak(links, bytes_, seed):
    host = Host(links, bytes_, seed)
    for number in range(ROUNDS):
        play_round(host, number)
    # each total that must add up, does
    assert host.balanced == host.checks and host.survived == host.emptied == ROUNDS
    yield f"rounds {ROUNDS}"
    yield f"calls {host.calls}"
    yield f"makes accepted {host.makes}"
    yield f"give-ups reported {host.given}"
    yield f"in use at the end {host.box.tally()}"
    yield f"makes were records in use and give-ups {host.balanced} times of {host.checks}"
    yield f"rounds that left no record in use {host.emptied}"
    yield f"rounds in which what was held from outside had its bytes {host.survived}"
    yield f"digest of the replies {host.digest}"


def main():
    lines = ["cards", *soak(3, 18, 1), "pairs", *soak(2, 1, 2)]
    Path("crates/soak/stdout").write_text("\n".join(lines) + "\n")


if __name__ == "__main__":
    main()
