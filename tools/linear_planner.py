#!/usr/bin/env python3
"""Works out the figures of a table by plain linear searches: a second opinion, slow and simple.

Usage: tools/linear_planner.py FILE

It follows docs/MODEL.md and shares no code with the proved crates. FILE has one item a line,
'#' starts a comment, and the streams stand in table order:
    hub M_LEAST M_MOST
    line NUMBER in|out CELL_TIME PROPAGATION PLACES
    stream NUMBER PRIORITY IN OUT DEADLINE message PERIOD JITTER CELLS GAP
    stream NUMBER PRIORITY IN OUT DEADLINE bucket BURST INTERVAL
It prints the figures of each stream and line, `no 27 STREAM` or `no 29 LINE` where a figure is
missing, and `no table` where the items make none.
"""
import sys
from collections import namedtuple
from functools import lru_cache

HORIZON = 200_000
LONGEST_WINDOW = 1_000_000

Line = namedtuple("Line", "side cell propagation places")
Stream = namedtuple("Stream", "number priority inbound outbound deadline kind")


class NoFigure(Exception):
    """A refusal: its number, and whom it names."""


def message_bound(period, jitter, cells, gap):
    sound = (1 <= period <= 200_000 and 0 <= jitter <= 100_000 and 1 <= cells <= 256
             and 1 <= gap <= 200_000 and cells * gap <= period)
    if not sound:
        period, jitter, cells, gap = 1, 0, 1, 1

    def bound(w):
        if w == 0:
            return 0
        x = w + jitter
        return (x // period) * cells + min(cells, -(-(x % period) // gap))
    return bound


def bucket_bound(burst, interval):
    if not (1 <= burst <= 4_096 and 1 <= interval <= 200_000):
        burst, interval = 1, 1

    def bound(w):
        return 0 if w == 0 else burst + (w - 1) // interval
    return bound


def delayed(bound, by):
    def later(w):
        return 0 if w == 0 else bound(min(w + by, LONGEST_WINDOW))
    return later


def total_of(bounds):
    """The sum of some bounds at a window; each window is worked out once."""
    bounds = list(bounds)

    @lru_cache(maxsize=None)
    def together(w):
        return sum(bound(w) for bound in bounds)
    return together


def least(low, high, holds):
    """The least number from low to high that holds, or None."""
    for n in range(low, high + 1):
        if holds(n):
            return n
    return None


def port_delay(cell, own, higher):
    """The port delay, or None. No bound falls, so w_k and e_k do not: each search goes on from the last."""
    delay = wait = early = k = 0
    while True:
        wait = least(wait, HORIZON, lambda w: w == (cell - 1) + k * cell + cell * higher(w + 1))
        if wait is None:
            return None
        early = least(early, LONGEST_WINDOW, lambda d: own(d + 1) >= k + 1)
        delay = max(delay, wait - early)
        if own(wait + 1) <= k + 1:
            return delay
        k += 1


def port_need(cell, load):
    """The need, or None."""
    until = least(1, HORIZON, lambda u: load(u) <= max(u + 1 - cell, 0) // cell)
    if until is None:
        return None
    return max(max(load(u) - max(u - cell, 0) // cell, 0) for u in range(1, until + 1))


class Plan:
    def __init__(self, text):
        self.shortest = self.longest = 0
        self.lines = {}
        self.streams = []
        for row in text.splitlines():
            words = row.partition("#")[0].split()
            if words and words[0] == "hub":
                self.shortest, self.longest = int(words[1]), int(words[2])
            elif words and words[0] == "line":
                self.lines[int(words[1])] = Line(words[2], int(words[3]), int(words[4]), int(words[5]))
            elif words and words[0] == "stream":
                numbers = [int(n) for n in words[7:]]
                kind = {"message": message_bound, "bucket": bucket_bound}[words[6]](*numbers)
                self.streams.append(Stream(*[int(n) for n in words[1:6]], kind))

    def is_table(self):
        def on(number, side):
            return number in self.lines and self.lines[number].side == side

        order = [256] + [s.priority for s in self.streams]
        return (self.shortest <= self.longest <= 1_000
                and all(1 <= n <= 16 and 1 <= l.cell <= 1_000 and 0 <= l.propagation <= 10_000
                        for n, l in self.lines.items())
                and len(self.streams) <= 64
                and all(a > b for a, b in zip(order, order[1:]))
                and all(on(s.inbound, "in") and on(s.outbound, "out") for s in self.streams))

    def delays(self):
        """q1 and q2, each by the stream's number."""
        q1 = {}
        for s in self.streams:
            higher = total_of(z.kind for z in self.streams if z.inbound == s.inbound and z.priority > s.priority)
            q1[s.number] = port_delay(self.lines[s.inbound].cell, s.kind, higher)
            if q1[s.number] is None:
                raise NoFigure(27, s.number)
        spread = self.longest - self.shortest
        late = {s.number: delayed(s.kind, q1[s.number] + spread) for s in self.streams}
        q2 = {}
        for s in self.streams:
            higher = total_of(late[z.number] for z in self.streams
                              if z.outbound == s.outbound and z.priority > s.priority)
            q2[s.number] = port_delay(self.lines[s.outbound].cell, late[s.number], higher)
            if q2[s.number] is None:
                raise NoFigure(27, s.number)
        return q1, q2, late

    def total(self, s, q1, q2):
        first = self.lines[s.inbound]
        second = self.lines[s.outbound]
        return q1 + first.cell + first.propagation + self.longest + q2 + second.cell + second.propagation

    def need(self, number, late):
        line = self.lines[number]
        if line.side == "in":
            load = total_of(s.kind for s in self.streams if s.inbound == number)
        else:
            load = self.hub_load(number, late)
        need = port_need(line.cell, load)
        if need is None:
            raise NoFigure(29, number)
        return need

    def hub_load(self, number, late):
        spread = self.longest - self.shortest

        def from_line(i, queued):
            return lambda u: min((u - 1 + spread) // self.lines[i].cell + 1, queued(u))

        sources = sorted({s.inbound for s in self.streams if s.outbound == number})
        return total_of(from_line(i, total_of(late[s.number] for s in self.streams
                                              if s.inbound == i and s.outbound == number)) for i in sources)


def main():
    with open(sys.argv[1], encoding="utf-8") as file:
        plan = Plan(file.read())
    if not plan.is_table():
        print("no table")
        return
    try:
        q1, q2, late = plan.delays()
        needs = {number: plan.need(number, late) for number in sorted(plan.lines)}
    except NoFigure as fault:
        print("no", *fault.args)
        return
    for s in plan.streams:
        a, b = q1[s.number], q2[s.number]
        print(f"stream {s.number} q1 {a} q2 {b} total {plan.total(s, a, b)}")
    for number, need in needs.items():
        print(f"line {number} need {need} of {plan.lines[number].places}")


if __name__ == "__main__":
    main()
