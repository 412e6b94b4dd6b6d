#!/usr/bin/env python3
"""Prints the listing of a plan file, by plain linear searches: a second opinion, slow and simple.

Usage: tools/linear_plan.py < FILE

It follows docs/FORMAT.md and docs/REFUSALS.md, takes the figures from linear_planner.py, and shares no
code with the proved crates.
"""
import sys
from collections import namedtuple

from linear_planner import Line, NoFigure, Plan, Stream, bucket_bound, message_bound

# The code of each record, and the widths of its fields.
FIELDS = {
    1: (2, 2),
    2: (1, 1, 2, 2, 2),
    3: (2, 1, 1, 1, 4, 4, 4, 2, 4),
    4: (2, 1, 1, 1, 4, 2, 4),
    5: (2,),
    6: (1, 2),
}

MOST_STREAMS = 64

Record = namedtuple("Record", "code fields")


class Stop(Exception):
    """A fault of the input: its number."""


class Refusal(Exception):
    """A fault of the state: its number, and whom it names."""


def record_of(data):
    """The record that these bytes are."""
    if not data or data[0] not in FIELDS or len(data) - 1 != sum(FIELDS[data[0]]):
        raise Stop(4)
    fields, at = [], 1
    for width in FIELDS[data[0]]:
        fields.append(int.from_bytes(data[at:at + width], "big"))
        at += width
    return Record(data[0], fields)


def limited(*checks):
    if not all(low <= value <= high for value, low, high in checks):
        raise Stop(6)


def stream_of(code, fields):
    number, priority, inbound, outbound, deadline = fields[:5]
    limited((number, 1, 60_000), (priority, 1, 255), (inbound, 1, 16), (outbound, 1, 16), (deadline, 1, 500_000))
    if code == 4:
        burst, interval = fields[5:]
        limited((burst, 1, 4_096), (interval, 1, 200_000))
        return Stream(number, priority, inbound, outbound, deadline, bucket_bound(burst, interval))
    period, jitter, cells, gap = fields[5:]
    limited((period, 1, 200_000), (jitter, 0, 100_000), (cells, 1, 256), (gap, 1, 200_000))
    if cells * gap > period:
        raise Stop(7)
    return Stream(number, priority, inbound, outbound, deadline, message_bound(period, jitter, cells, gap))


class Session:
    def __init__(self, memory):
        self.plan = Plan("")
        self.most = min(memory, MOST_STREAMS)
        self.has_hub = False
        self.is_closed = False

    def take(self, record):
        if (record.code == 1) == self.has_hub or (record.code == 2 and self.is_closed):
            raise Stop(5)
        if record.code >= 3:
            self.is_closed = True
        if record.code in (3, 4):
            self.request(stream_of(record.code, record.fields))
        else:
            {1: self.hub, 2: self.line, 5: self.withdraw, 6: self.places}[record.code](*record.fields)

    def hub(self, shortest, longest):
        limited((shortest, 0, longest), (longest, 0, 1_000))
        self.has_hub = True
        self.plan.shortest, self.plan.longest = shortest, longest

    def line(self, number, side, cell, propagation, places):
        limited((number, 1, 16), (side, 0, 1), (cell, 1, 1_000), (propagation, 0, 10_000), (places, 1, 4_000))
        if number in self.plan.lines:
            raise Refusal(21, number)
        self.plan.lines[number] = Line(("in", "out")[side], cell, propagation, places)

    def request(self, stream):
        lines, streams = self.plan.lines, self.plan.streams
        for number, side in ((stream.inbound, "in"), (stream.outbound, "out")):
            if number not in lines or lines[number].side != side:
                raise Refusal(22, number)
        if any(s.number == stream.number for s in streams):
            raise Refusal(23, stream.number)
        for holder in streams:
            if holder.priority == stream.priority:
                raise Refusal(24, holder.number)
        if len(streams) >= self.most:
            raise Refusal(25, stream.number)
        self.plan.streams = sorted(streams + [stream], key=lambda s: -s.priority)
        try:
            self.check()
        except Refusal:
            self.plan.streams = streams
            raise

    def withdraw(self, number):
        limited((number, 1, 60_000))
        left = [s for s in self.plan.streams if s.number != number]
        if len(left) == len(self.plan.streams):
            raise Refusal(26, number)
        self.plan.streams = left

    def places(self, number, places):
        limited((number, 1, 16), (places, 1, 4_000))
        if number not in self.plan.lines:
            raise Refusal(22, number)
        before = self.plan.lines[number]
        self.plan.lines[number] = before._replace(places=places)
        try:
            self.check()
        except Refusal:
            self.plan.lines[number] = before
            raise

    def check(self):
        plan = self.plan
        try:
            q1, q2, late = plan.delays()
            for s in plan.streams:
                if plan.total(s, q1[s.number], q2[s.number]) > s.deadline:
                    raise Refusal(28, s.number)
            for number in sorted(plan.lines):
                if plan.need(number, late) > plan.lines[number].places:
                    raise Refusal(30, number)
        except NoFigure as fault:
            raise Refusal(*fault.args) from None

    def figures(self):
        plan = self.plan
        q1, q2, late = plan.delays()
        for s in plan.streams:
            a, b = q1[s.number], q2[s.number]
            yield f"stream {s.number} q1 {a} q2 {b} total {plan.total(s, a, b)}"
        for number in sorted(plan.lines):
            yield f"line {number} need {plan.need(number, late)} of {plan.lines[number].places}"


def listing(data, memory=MOST_STREAMS):
    """The lines of the listing, with memory for so many streams."""
    if len(data) > 8_000:
        yield "stop 0 1"
        return
    if data[:1] != b"\x01":
        yield "stop 0 2"
        return
    session, at = Session(memory), 1
    while at < len(data):
        length = int.from_bytes(data[at:at + 2], "big")
        try:
            if at + 2 + length > len(data):
                raise Stop(3)
            session.take(record_of(data[at + 2:at + 2 + length]))
            yield f"at {at} ok"
        except Stop as fault:
            yield f"stop {at} {fault.args[0]}"
            return
        except Refusal as fault:
            yield f"at {at} no {fault.args[0]} {fault.args[1]}"
        at += 2 + length
    yield from session.figures()


if __name__ == "__main__":
    for text in listing(sys.stdin.buffer.read()):
        print(text)
