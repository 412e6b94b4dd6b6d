#!/usr/bin/env python3
"""Writes the cases of crates/cases: small plan files, each with the listing that is expected.

Usage: tools/make_cases.py            writes crates/cases/data/*.txt and crates/cases/stdout anew
       tools/make_cases.py --check    says whether they are as it would write them

The expected texts come from linear_plan.py, which shares no code with the proved crates, and never from a
proved program. What is known of a text by hand stands here too, as `says`: each of those lines, in their order, has
to be in the text of the second planner, or nothing is written. Where `says` is a list that ends with WHOLE,
it is the whole text. In `says`, {0}, {1} .. is the place of the file's first record, its second, ..; {last} that of the
last. It always gives the same bytes, and needs Python 3 alone.

crates/cases/src/reading.rt says how a case is written down.
"""
import os
import sys
from itertools import accumulate

from linear_plan import listing

ROOT = os.path.dirname(os.path.dirname(os.path.abspath(__file__)))
LONGEST_LISTING = 151_110
MOST_STREAMS = 64
WHOLE = object()

IN, OUT = 0, 1


# Records, each as a list of its fields' bytes, the length first.

def record(code, *fields):
    parts = [code.to_bytes(1, "big")] + [value.to_bytes(width, "big") for value, width in fields]
    return [sum(map(len, parts)).to_bytes(2, "big")] + parts


def hub(m, M):
    return record(1, (m, 2), (M, 2))


def line(number, side, C, p, places):
    return record(2, (number, 1), (side, 1), (C, 2), (p, 2), (places, 2))


def common(stream, priority, inbound, outbound, D):
    return (stream, 2), (priority, 1), (inbound, 1), (outbound, 1), (D, 4)


def message(stream, priority, inbound, outbound, D, T, J, N, g):
    return record(3, *common(stream, priority, inbound, outbound, D), (T, 4), (J, 4), (N, 2), (g, 4))


def bucket(stream, priority, inbound, outbound, D, sigma, interval):
    return record(4, *common(stream, priority, inbound, outbound, D), (sigma, 2), (interval, 4))


def withdrawal(stream):
    return record(5, (stream, 2))


def places(number, count):
    return record(6, (number, 1), (count, 2))


def raw(text):
    """Bytes as they stand, given in hexadecimal digits."""
    return [bytes.fromhex(text)]


def relong(parts, by):
    """The record with `by` bytes more at its end, or fewer, and a length that says so."""
    body = b"".join(parts[1:])
    body = body + bytes(by) if by > 0 else body[:len(body) + by]
    return [len(body).to_bytes(2, "big"), body]


def size(parts):
    return sum(map(len, parts))


def cut(records, length):
    """The first bytes of the records."""
    left = []
    for parts in records:
        short = []
        for part in parts:
            short.append(part[:length])
            length -= len(short[-1])
        left.append([part for part in short if part])
    return [parts for parts in left if parts]


class Group:
    """The cases of one file."""

    def __init__(self, name, about):
        self.name, self.about, self.count, self.rows, self.names = name, about, 0, [], set()

    def add(self, name, *records, says=(), version="01", memory=MOST_STREAMS, room=None, long=None):
        """Adds a case, and gives the length of its text. `long` is the length of its file, where that matters."""
        head = bytes.fromhex(version)
        data = head + b"".join(b"".join(parts) for parts in records)
        assert long in (None, len(data)), (name, len(data))
        starts = list(accumulate([len(head)] + [size(parts) for parts in records]))[:-1]
        text = list(listing(data, memory))
        self.hold(name, text, [says] if isinstance(says, str) else list(says), starts)
        self.write(name, [[head]] + list(records), memory, room, text)
        return sum(len(row) + 1 for row in text)

    def hold(self, name, text, says, starts):
        """Holds the text to what is known of it by hand."""
        assert name not in self.names, name
        self.names.add(name)
        is_whole = bool(says) and says[-1] is WHOLE
        known = [row.format(*starts, last=starts[-1] if starts else 0) for row in says if row is not WHOLE]
        rows = iter(text)
        if (text != known) if is_whole else not all(row in rows for row in known):
            sys.exit(f"{self.name}: {name}: known by hand: {known}, the second planner: {text}")

    def write(self, name, parts, memory, room, text):
        self.count += 1
        self.rows += [f"case {name}"]
        self.rows += ["file " + "  ".join(part.hex(" ") for part in fields) for fields in parts if size(fields)]
        self.rows += [f"memory {memory}"] * (memory != MOST_STREAMS)
        self.rows += [f"room {room}"] * (room is not None)
        length = sum(len(row) + 1 for row in text)
        is_refused = length > (LONGEST_LISTING if room is None else room)
        self.rows += ["refused"] if is_refused else ["text " + row for row in text]
        self.rows += ["end", ""]

    def content(self):
        return "\n".join(["# " + self.about, ""] + self.rows)


# The worked network: its hub and lines, at 1, 8 and 19, and its streams, at 30 and 56.
HUB = hub(1, 3)
LINE_1 = line(1, IN, 2, 5, 8)
LINE_2 = line(2, OUT, 1, 5, 8)
DRAFT = (HUB, LINE_1, LINE_2)
STREAM_10 = message(10, 2, 1, 2, 18, 20, 0, 3, 2)
STREAM_11 = bucket(11, 1, 1, 2, 30, 2, 10)
WORKED = DRAFT + (STREAM_10, STREAM_11)
DRAFTED = ["at 1 ok", "at 8 ok", "at 19 ok"]
FIGURES = ["stream 10 q1 1 q2 1 total 18", "stream 11 q1 9 q2 5 total 30", "line 1 need 4 of 8", "line 2 need 2 of 8"]
LISTED = DRAFTED + ["at 30 ok", "at 56 ok"] + FIGURES
ONLY_10 = ["stream 10 q1 1 q2 1 total 18", "line 1 need 2 of 8", "line 2 need 2 of 8"]
ONLY_11 = ["stream 11 q1 3 q2 1 total 20", "line 1 need 2 of 8", "line 2 need 2 of 8"]
EMPTY = ["line 1 need 0 of 8", "line 2 need 0 of 8"]

# A network with a light touch: one tick for a cell, no ways, all the places that there are.
FAST = (hub(0, 0), line(1, IN, 1, 0, 4_000), line(2, OUT, 1, 0, 4_000),
        line(16, IN, 1, 0, 4_000), line(15, OUT, 1, 0, 4_000))
LATEST = 500_000


def small(stream, priority, inbound=1, outbound=2, D=LATEST):
    """A stream that needs hardly anything."""
    return bucket(stream, priority, inbound, outbound, D, 1, 200_000)


def worked_group():
    g = Group("worked", "The worked plan, and plans that differ from it in one thing. "
              "What comes of each record is known by hand.")
    g.add("the worked plan", *WORKED, says=LISTED + [WHOLE])
    g.add("stream 10 alone", *DRAFT, STREAM_10, says=DRAFTED + ["at 30 ok"] + ONLY_10 + [WHOLE])
    g.add("stream 11 alone", *DRAFT, STREAM_11, says=DRAFTED + ["at 30 ok"] + ONLY_11 + [WHOLE])
    g.add("stream 11 filed first", *DRAFT, STREAM_11, STREAM_10,
          says=DRAFTED + ["at 30 ok", "at 48 ok"] + FIGURES + [WHOLE])
    g.add("no stream", *DRAFT, says=DRAFTED + EMPTY + [WHOLE])
    g.add("D 17 for stream 10", *DRAFT, message(10, 2, 1, 2, 17, 20, 0, 3, 2), STREAM_11,
          says=DRAFTED + ["at 30 no 28 10", "at 56 ok"] + ONLY_11 + [WHOLE])
    g.add("D 29 for stream 11", *DRAFT, STREAM_10, bucket(11, 1, 1, 2, 29, 2, 10),
          says=DRAFTED + ["at 30 ok", "at 56 no 28 11"] + ONLY_10 + [WHOLE])
    g.add("D 29 for stream 11, filed first", *DRAFT, bucket(11, 1, 1, 2, 29, 2, 10), STREAM_10,
          says=DRAFTED + ["at 30 ok", "at 48 no 28 11"] + ONLY_11 + [WHOLE])
    g.add("line 1 with 4 places", HUB, line(1, IN, 2, 5, 4), LINE_2, STREAM_10, STREAM_11,
          says=LISTED[:7] + ["line 1 need 4 of 4", "line 2 need 2 of 8", WHOLE])
    g.add("line 1 with 3 places", HUB, line(1, IN, 2, 5, 3), LINE_2, STREAM_10, STREAM_11,
          says=DRAFTED + ["at 30 ok", "at 56 no 30 1", ONLY_10[0], "line 1 need 2 of 3", "line 2 need 2 of 8", WHOLE])
    g.add("line 2 with 2 places", HUB, LINE_1, line(2, OUT, 1, 5, 2), STREAM_10, STREAM_11,
          says=LISTED[:8] + ["line 2 need 2 of 2", WHOLE])
    g.add("line 2 with 1 place", HUB, LINE_1, line(2, OUT, 1, 5, 1), STREAM_10, STREAM_11,
          says=DRAFTED + ["at 30 no 30 2", "at 56 no 30 2", "line 1 need 0 of 8", "line 2 need 0 of 1", WHOLE])
    g.add("N 3 g 2 fits into T 6", *FAST, message(10, 2, 1, 2, 18, 6, 0, 3, 2), says="at {last} ok")
    g.add("N 3 g 2 does not fit into T 5", *FAST, message(10, 2, 1, 2, 18, 5, 0, 3, 2), says="stop {last} 7")
    g.add("N 3 g 2 T 6 passes 7 and fills line 1", *DRAFT, message(10, 2, 1, 2, 100, 6, 0, 3, 2),
          says="at 30 no 29 1")
    g.add("T 2 fills line 1", *DRAFT, message(12, 2, 1, 2, 100, 2, 0, 1, 1),
          says=DRAFTED + ["at 30 no 29 1"] + EMPTY + [WHOLE])
    g.add("T 3 leaves room on line 1", *DRAFT, message(12, 2, 1, 2, 100, 3, 0, 1, 1), says="at 30 ok")
    g.add("T 3 twice, the second below the first", *DRAFT, message(12, 2, 1, 2, 100, 3, 0, 1, 1),
          message(13, 1, 1, 2, 100, 3, 0, 1, 1), says=["at 30 ok", "at 56 no 27 13"])
    g.add("T 3 twice, the second above the first", *DRAFT, message(12, 2, 1, 2, 100, 3, 0, 1, 1),
          message(13, 3, 1, 2, 100, 3, 0, 1, 1), says=["at 30 ok", "at 56 no 27 12"])
    g.add("two messages T 2 at ports with C 1", *FAST, message(1, 2, 1, 2, 100, 2, 0, 1, 1),
          message(2, 1, 1, 15, 100, 2, 0, 1, 1),
          says=["stream 1 q1 0 q2 0 total 2", "stream 2 q1 1 q2 0 total 3"])
    return g


def opening_group():
    g = Group("opening", "Whole files: version, length, the first records.")
    g.add("a file of no bytes", version="", says=["stop 0 2", WHOLE])
    g.add("a version byte alone", says=[WHOLE])
    for version in ("00", "02", "ff"):
        g.add(f"version {version} alone", version=version, says=["stop 0 2", WHOLE])
        g.add(f"version {version} before a good record", HUB, version=version, says=["stop 0 2", WHOLE])
    g.add("version 2 before a cut record", raw("00"), version="02", says=["stop 0 2", WHOLE])
    g.add("version in two bytes", HUB, version="00 01", says=["stop 0 2", WHOLE])
    g.add("a hub alone", HUB, says=["at 1 ok", WHOLE])
    g.add("a hub and a line", HUB, LINE_2, says=["at 1 ok", "at 8 ok", "line 2 need 0 of 8", WHOLE])
    g.add("lines in falling order", HUB, *[line(n, n % 2, n, n, n) for n in range(16, 0, -1)],
          says=["at 1 ok"] + [f"at {8 + 11 * k} ok" for k in range(16)]
          + [f"line {n} need 0 of {n}" for n in range(1, 17)] + [WHOLE])
    return g


def long_files_group():
    g = Group("long", "Files of about 8,000 bytes.")
    absent = [withdrawal(60_000)]
    g.add("8,000 bytes", *DRAFT, *absent * 1_594, long=8_000,
          says=DRAFTED + [f"at {30 + 5 * k} no 26 60000" for k in range(1_594)] + EMPTY + [WHOLE])
    g.add("8,000 bytes: as many records as there can be, then a length alone", HUB, *absent * 1_598, raw("00 03"),
          long=8_000,
          says=["at 1 ok"] + [f"at {8 + 5 * k} no 26 60000" for k in range(1_598)] + ["stop 7998 3", WHOLE])
    # 306 streams of 26 bytes each, on a line that is missing: 7,986 bytes.
    lost = DRAFT + (message(10, 2, 3, 2, 18, 20, 0, 3, 2),) * 306
    refused = DRAFTED + [f"at {30 + 26 * k} no 22 3" for k in range(306)]
    g.add("7,999 bytes, cut in the last record", *lost, raw("00 18 03" + "00" * 10), long=7_999,
          says=refused + ["stop 7986 3", WHOLE])
    g.add("8,001 bytes, cut in the last record", *lost, raw("00 18 03" + "00" * 12), long=8_001,
          says=["stop 0 1", WHOLE])
    g.add("8,001 bytes, whole records", *lost, *absent * 3, long=8_001, says=["stop 0 1", WHOLE])
    g.add("8,001 bytes of another version", *lost, *absent * 3, version="02", long=8_001, says=["stop 0 1", WHOLE])
    g.add("8,000 bytes of another version", *lost, raw("00" * 14), version="02", long=8_000, says=["stop 0 2", WHOLE])
    changes = [places(1, 8), places(2, 7), places(1, 3), places(2, 4_000)]
    g.add("many changes of places", *WORKED, *changes * 20, says=["at {last} ok", "line 2 need 2 of 4000"])
    again = [withdrawal(11), STREAM_11, withdrawal(10), STREAM_10]
    g.add("many withdrawals and refilings", *WORKED, *again * 5, says=["at {last} ok"] + FIGURES)
    return g


def cut_group():
    g = Group("cut", "The worked file, cut at each of its bytes.")
    starts = [1, 8, 19, 30, 56, 74]
    after = {1: [], 8: [], 19: ["line 1 need 0 of 8"], 30: EMPTY, 56: ONLY_10}
    for length in range(74):
        whole = [at for at, end in zip(starts, starts[1:]) if end <= length]
        said = [f"at {at} ok" for at in whole]
        if length == 0:
            said = ["stop 0 2"]
        elif length in after:
            said += after[length]
        else:
            said.append(f"stop {starts[len(whole)]} 3")
        version = "01" if length else ""
        g.add(f"cut at {length}", *cut(WORKED, max(length - 1, 0)), version=version, says=said + [WHOLE])
    return g


def limits_group():
    g = Group("limits", "Each field of each record: at its limits, one below and one past them.")
    ok, six = "at {last} ok", "stop {last} 6"
    for m, M, said in ((0, 0, ok), (0, 1_000, ok), (1_000, 1_000, ok), (999, 1_000, ok), (1, 0, six), (1_000, 999, six),
                       (0, 1_001, six), (1_001, 1_001, six), (1_001, 1_000, six), (65_535, 65_535, six),
                       (256, 255, six), (1, 256, ok)):
        g.add(f"hub m {m} M {M}", hub(m, M), says=said)

    def fields(what, make, base, rows):
        for key, value, said in rows:
            values = dict(base)
            values[key] = value
            g.add(f"{what} {key} {value}", *make(values), says=said)

    fields("line", lambda v: (HUB, line(**v)), dict(number=3, side=IN, C=2, p=5, places=8), (
        ("number", 0, six), ("number", 1, ok), ("number", 16, ok), ("number", 17, six), ("number", 255, six),
        ("side", 0, ok), ("side", 1, ok), ("side", 2, six), ("side", 255, six),
        ("C", 0, six), ("C", 1, ok), ("C", 1_000, ok), ("C", 1_001, six), ("C", 65_535, six),
        ("p", 0, ok), ("p", 10_000, ok), ("p", 10_001, six), ("p", 65_535, six),
        ("places", 0, six), ("places", 1, ok), ("places", 4_000, ok), ("places", 4_001, six), ("places", 65_535, six)))
    shared = (
        ("stream", 0, six), ("stream", 1, ok), ("stream", 60_000, ok), ("stream", 60_001, six), ("stream", 65_535, six),
        ("priority", 0, six), ("priority", 1, ok), ("priority", 255, ok),
        ("inbound", 0, six), ("inbound", 1, ok), ("inbound", 16, ok), ("inbound", 17, six), ("inbound", 255, six),
        ("outbound", 0, six), ("outbound", 2, ok), ("outbound", 15, ok), ("outbound", 17, six), ("outbound", 255, six),
        ("D", 0, six), ("D", 1, "at {last} no 28 7"), ("D", 2, ok), ("D", 500_000, ok), ("D", 500_001, six),
        ("D", 2 ** 32 - 1, six))
    base = dict(stream=7, priority=3, inbound=1, outbound=2, D=2)
    fields("message", lambda v: FAST + (message(**v),), dict(base, T=20, J=0, N=1, g=1), shared + (
        ("T", 0, six), ("T", 1, ok), ("T", 200_000, ok), ("T", 200_001, six), ("T", 2 ** 32 - 1, six),
        ("J", 100_001, six), ("J", 2 ** 32 - 1, six),
        ("N", 0, six), ("N", 257, six), ("N", 65_535, six),
        ("g", 0, six), ("g", 20, ok), ("g", 21, "stop {last} 7"), ("g", 200_001, six), ("g", 2 ** 32 - 1, six)))
    fields("message of a long period", lambda v: FAST + (message(**v),),
           dict(base, D=LATEST, T=200_000, J=0, N=1, g=1), (
        ("J", 0, ok), ("J", 1, ok), ("J", 99_999, ok), ("J", 100_000, ok), ("J", 100_001, six),
        ("N", 1, ok), ("N", 255, ok), ("N", 256, ok), ("N", 257, six),
        ("g", 1, ok), ("g", 199_999, ok), ("g", 200_000, ok), ("g", 200_001, six)))
    fields("message of N 256", lambda v: FAST + (message(**v),), dict(base, D=LATEST, T=200_000, J=0, N=256, g=1), (
        ("g", 781, ok), ("g", 782, "stop {last} 7"), ("T", 256, ok), ("T", 255, "stop {last} 7")))
    fields("bucket", lambda v: FAST + (bucket(**v),), dict(base, sigma=1, interval=100), shared + (
        ("sigma", 0, six), ("sigma", 1, ok), ("sigma", 4_097, six), ("sigma", 65_535, six),
        ("interval", 0, six), ("interval", 1, ok), ("interval", 200_000, ok), ("interval", 200_001, six),
        ("interval", 2 ** 32 - 1, six)))
    fields("bucket with time", lambda v: FAST + (bucket(**v),), dict(base, D=LATEST, sigma=1, interval=200_000), (
        ("sigma", 2, ok), ("sigma", 4_000, ok), ("sigma", 4_001, "at {last} no 30 1"),
        ("sigma", 4_096, "at {last} no 30 1"), ("sigma", 4_097, six)))
    turned = (hub(0, 0), line(1, OUT, 1, 0, 9), line(16, OUT, 1, 0, 9), line(8, IN, 1, 0, 9))
    for outbound in (1, 16):
        g.add(f"message to line {outbound}", *turned, message(7, 3, 8, outbound, 2, 20, 0, 1, 1), says=ok)
        g.add(f"bucket to line {outbound}", *turned, bucket(7, 3, 8, outbound, 2, 1, 100), says=ok)
    g.add("numbers of two bytes and more", hub(0x0102, 0x0203), line(1, IN, 2, 0x0203, 0x0304),
          line(2, OUT, 3, 0x0302, 0x0403), message(0x0405, 3, 1, 2, 0x060708, 0x030201, 0x010203, 0x0100, 0x0203),
          bucket(0x0504, 2, 1, 2, 0x070605, 0x0102, 0x020304), withdrawal(0x0404), places(2, 0x0504),
          says=["at 30 ok", "at 56 ok", "at 74 no 26 1028", "at 79 ok"])
    g.add("a cell time of two bytes", HUB, line(1, IN, 0x0102, 5, 8), line(2, OUT, 0x0203, 5, 8), small(10, 2), says=ok)
    for stream in (1, 60_000):
        g.add(f"withdrawal of stream {stream}, which is there", *FAST, small(stream, 3), withdrawal(stream), says=ok)
    for stream, said in ((0, six), (1, "at {last} no 26 1"), (7, ok), (60_000, "at {last} no 26 60000"), (60_001, six),
                         (65_535, six)):
        g.add(f"withdrawal of stream {stream}", *FAST, small(7, 3), withdrawal(stream), says=said)
    for number, count, said in ((0, 9, six), (1, 9, ok), (16, 9, ok), (17, 9, six), (255, 9, six), (1, 0, six),
                                (1, 1, ok), (1, 4_000, ok), (1, 4_001, six), (1, 65_535, six), (2, 256, ok)):
        g.add(f"places of line {number}, {count}", *FAST, places(number, count), says=said)
    return g


def shapes_group():
    g = Group("shapes", "Records of another code or length than there are.")
    four = "stop {last} 4"
    good = {"hub": HUB, "line": LINE_1, "message": STREAM_10, "bucket": STREAM_11, "withdrawal": withdrawal(10),
            "places": places(1, 8)}
    for name, parts in good.items():
        before = () if name == "hub" else DRAFT[:1] if name == "line" else WORKED
        for by, what in ((-1, "a byte short"), (1, "a byte long")):
            g.add(f"{name}, {what}", *before, relong(parts, by), says=four)
        g.add(f"{name}, its code alone", *before, relong(parts, 1 - size(parts[1:])), says=four)
    for code in (0, 7, 8, 128, 255):
        g.add(f"code {code}, alone", HUB, record(code), says=four)
        g.add(f"code {code}, as long as a withdrawal", *WORKED, record(code, (10, 2)), says=four)
    g.add("a record of no bytes", *WORKED, raw("00 00"), says=DRAFTED + ["at 30 ok", "at 56 ok", "stop 74 4", WHOLE])
    g.add("a record of no bytes in the draft", HUB, raw("00 00"), LINE_1, says=["at 1 ok", "stop 8 4", WHOLE])
    g.add("a message with a bucket's length", *DRAFT, relong(STREAM_10, -8), says=four)
    g.add("a bucket with a message's length", *DRAFT, relong(STREAM_11, 8), says=four)
    g.add("a withdrawal that begins as a hub's length", *DRAFT, raw("05 00 05 00 0a"), says="stop {last} 3")
    g.add("the longest length", *DRAFT, raw("ff ff 05 00 0a"), says="stop {last} 3")
    g.add("a length of 256 with three bytes behind it", *DRAFT, raw("01 00 05 00 0a"), says="stop {last} 3")
    g.add("the length's first byte alone", *WORKED, raw("00"), says=LISTED[:5] + ["stop 74 3", WHOLE])
    g.add("the length alone", *WORKED, raw("00 03"), says=LISTED[:5] + ["stop 74 3", WHOLE])
    return g


def order_group():
    g = Group("order", "Records out of their order, and what closes the draft.")
    five = "stop {last} 5"
    for name, parts in (("line", LINE_1), ("message", STREAM_10), ("bucket", STREAM_11),
                        ("withdrawal", withdrawal(10)), ("places record", places(1, 8))):
        g.add(f"a {name} first", parts, says=["stop 1 5", WHOLE])
    g.add("a line first, then the hub", LINE_1, HUB, says=["stop 1 5", WHOLE])
    g.add("two hubs", HUB, HUB, says=["at 1 ok", "stop 8 5", WHOLE])
    g.add("another hub after a line", HUB, LINE_1, hub(0, 0), says=five)
    g.add("another hub after a stream", *WORKED, HUB, says=five)
    g.add("another hub after a withdrawal", *DRAFT, withdrawal(10), HUB, says=five)
    more = line(3, IN, 1, 1, 1)
    for name, said, closing in (
            ("a stream", "at 30 ok", STREAM_10),
            ("a bucket", "at 30 ok", STREAM_11),
            ("a stream on a missing line", "at 30 no 22 3", message(10, 2, 3, 2, 18, 20, 0, 3, 2)),
            ("a stream with too short a deadline", "at 30 no 28 10", message(10, 2, 1, 2, 17, 20, 0, 3, 2)),
            ("a withdrawal", "at 30 no 26 10", withdrawal(10)),
            ("places", "at 30 ok", places(1, 9)),
            ("places of a missing line", "at 30 no 22 3", places(3, 9))):
        g.add(f"a line after {name}", *DRAFT, closing, more, says=DRAFTED + [said, five, WHOLE])
        g.add(f"a line before {name}, and none after", *DRAFT, more, closing, says="at 30 ok")
    g.add("the draft goes on after a line that is refused", HUB, LINE_1, LINE_1, LINE_2, STREAM_10,
          says=["at 1 ok", "at 8 ok", "at 19 no 21 1", "at 30 ok", "at 41 ok"] + ONLY_10 + [WHOLE])
    g.add("a stream before the lines", HUB, STREAM_10, LINE_1, LINE_2,
          says=["at 1 ok", "at 8 no 22 1", "stop 34 5", WHOLE])
    g.add("no line", HUB, withdrawal(10), says=["at 1 ok", "at 8 no 26 10", WHOLE])
    g.add("nothing is read behind a stop", HUB, hub(2, 1), LINE_1, says=["at 1 ok", "stop 8 5", WHOLE])
    g.add("nothing is listed behind a stop", *WORKED, withdrawal(0), says=LISTED[:5] + ["stop 74 6", WHOLE])
    return g


def state_group():
    g = Group("state", "Faults of the state, 21 to 30, and whom each names.")
    g.add("21: two in-bound lines", HUB, LINE_1, line(1, IN, 9, 9, 9),
          says=["at 1 ok", "at 8 ok", "at 19 no 21 1", "line 1 need 0 of 8", WHOLE])
    g.add("21: the other side", HUB, line(16, OUT, 1, 5, 8), line(16, IN, 1, 5, 8), says="at 19 no 21 16")
    g.add("21: three times", HUB, LINE_1, LINE_1, LINE_1, says=["at 19 no 21 1", "at 30 no 21 1"])
    g.add("22: the in-bound line is missing", *DRAFT, small(5, 5, 3, 2), says="at 30 no 22 3")
    g.add("22: the out-bound line is missing", *DRAFT, small(5, 5, 1, 3), says="at 30 no 22 3")
    g.add("22: the in-bound line is out-bound", *DRAFT, small(5, 5, 2, 2), says="at 30 no 22 2")
    g.add("22: the out-bound line is in-bound", *DRAFT, small(5, 5, 1, 1), says="at 30 no 22 1")
    g.add("22: the lines are exchanged", *DRAFT, small(5, 5, 2, 1), says="at 30 no 22 2")
    g.add("22: both lines are missing", *DRAFT, small(5, 5, 7, 6), says="at 30 no 22 7")
    g.add("22: a missing in-bound line before an out-bound line on the wrong side", *DRAFT, small(5, 5, 9, 1),
          says="at 30 no 22 9")
    g.add("22: an in-bound line on the wrong side before a missing out-bound line", *DRAFT, small(5, 5, 2, 9),
          says="at 30 no 22 2")
    g.add("22: places of a missing line", *DRAFT, places(16, 5), says="at 30 no 22 16")
    g.add("23: the number is taken", *WORKED, small(11, 9), says="at {last} no 23 11")
    g.add("23: the same record again", *WORKED, STREAM_10, says="at {last} no 23 10")
    g.add("24: the priority is taken", *WORKED, small(5, 1), says="at {last} no 24 11")
    g.add("24: the holder is named", *WORKED, small(60_000, 2), says="at {last} no 24 10")
    g.add("24: on other lines", *FAST, small(5, 9), small(6, 9, 16, 15), says="at {last} no 24 5")
    g.add("26: an empty table", *DRAFT, withdrawal(10), says="at 30 no 26 10")
    g.add("26: another number", *WORKED, withdrawal(12), says=["at 74 no 26 12"] + FIGURES)
    g.add("26: withdrawn already", *WORKED, withdrawal(10), withdrawal(10),
          says=["at 74 ok", "at 79 no 26 10"] + ONLY_11)
    # A message of T 2 leaves no time to others on a line with C 2. Where its cells come late it has no delay there
    # itself.
    full = (HUB, line(1, IN, 2, 5, 8), line(2, OUT, 2, 5, 8), line(3, IN, 2, 5, 8), line(4, OUT, 2, 5, 8))
    hog = message(1, 9, 1, 2, LATEST, 2, 0, 1, 1)
    g.add("27: the newcomer has no q1", *DRAFT, message(12, 2, 1, 2, 100, 3, 0, 1, 1),
          message(13, 1, 1, 2, 100, 3, 0, 1, 1), says="at 56 no 27 13")
    g.add("27: a stream below the newcomer has no q1", *full, small(6, 3, 1, 4), hog, says="at {last} no 27 6")
    g.add("27: the newcomer has no q2", *full, small(5, 4, 3, 2), hog, says="at {last} no 27 1")
    sharp = (hub(3, 3), line(1, IN, 1, 5, 8)) + full[2:]
    g.add("27: a stream below the newcomer has no q2", *sharp, small(5, 4, 3, 2), hog, says="at {last} no 27 5")
    g.add("27: the first in table order", *full, small(6, 3, 1, 4), small(7, 4, 1, 4), hog, says="at {last} no 27 7")
    g.add("27: all q1 before any q2", *full, small(5, 4, 3, 2), small(6, 3, 1, 4), hog,
          says=["at 52 ok", "at 70 ok", "at 88 no 27 6"])
    g.add("27: the first q2 in table order", *sharp, small(5, 4, 3, 2), small(6, 5, 3, 2), hog,
          says="at {last} no 27 6")
    g.add("28: the newcomer", *DRAFT, message(10, 2, 1, 2, 17, 20, 0, 3, 2), says="at 30 no 28 10")
    g.add("28: a stream below the newcomer", *DRAFT, bucket(11, 1, 1, 2, 29, 2, 10), STREAM_10, says="at 48 no 28 11")
    g.add("28: the first in table order", *DRAFT, small(21, 2, D=17), small(20, 1, D=20),
          message(10, 3, 1, 2, 18, 20, 0, 3, 2), says=["at 30 ok", "at 48 ok", "at 66 no 28 21"])
    g.add("28: a stream above the newcomer keeps its total", *DRAFT, message(10, 200, 1, 2, 18, 20, 0, 3, 2),
          small(9, 100), says=["at 56 ok", "stream 10 q1 1 q2 1 total 18"])
    g.add("29: the in-bound line", *DRAFT, message(12, 2, 1, 2, 100, 2, 0, 1, 1), says="at 30 no 29 1")
    g.add("29: the out-bound line", hub(3, 3), line(3, IN, 1, 5, 8), line(4, OUT, 2, 5, 8),
          message(12, 2, 3, 4, 100, 2, 0, 1, 1), says="at 30 no 29 4")
    g.add("29: an out-bound line below an in-bound one", hub(3, 3), line(1, OUT, 2, 5, 8), line(2, IN, 1, 5, 8),
          message(12, 2, 2, 1, 100, 2, 0, 1, 1), says="at 30 no 29 1")
    g.add("30: the in-bound line", HUB, line(1, IN, 2, 5, 1), LINE_2, STREAM_10, says="at 30 no 30 1")
    g.add("30: the out-bound line", HUB, LINE_1, line(2, OUT, 1, 5, 1), STREAM_10, says="at 30 no 30 2")
    g.add("30: the lower number of two", HUB, line(1, IN, 2, 5, 1), line(2, OUT, 1, 5, 1), STREAM_10,
          says="at 30 no 30 1")
    g.add("30: an out-bound line below an in-bound one", HUB, line(3, OUT, 1, 5, 1), line(4, IN, 2, 5, 1),
          message(10, 2, 4, 3, 18, 20, 0, 3, 2), says="at 30 no 30 3")
    return g


def pairs_group():
    g = Group("pairs", "Two faults in one record: the one with the lower number is told.")
    bad_message = message(10, 2, 1, 2, 0, 20, 0, 3, 2)
    tight = message(10, 2, 1, 2, 18, 5, 0, 3, 2)
    g.add("3 before 4: a cut record of an unknown code", *DRAFT, raw("00 03 07 00"), says="stop 30 3")
    g.add("3 before 4: a cut withdrawal with a hub's length", *DRAFT, raw("00 05 05 00 0a"), says="stop 30 3")
    g.add("3 before 5: a cut hub after the hub", HUB, raw("00 05 01 00 01 00"), says="stop 8 3")
    g.add("3 before 6: a cut line with a bad number", HUB, raw("00 09 02 00"), says="stop 8 3")
    g.add("4 before 5: an unknown code first", record(7), says=["stop 1 4", WHOLE])
    g.add("4 before 5: a record of no bytes first", raw("00 00"), says=["stop 1 4", WHOLE])
    g.add("4 before 5: a long hub after the hub", HUB, relong(HUB, 1), says="stop 8 4")
    g.add("4 before 5: a short line after a stream", *WORKED, relong(LINE_1, -1), says="stop 74 4")
    g.add("4 before 6: a short withdrawal of stream 0", *DRAFT, raw("00 02 05 00"), says="stop 30 4")
    g.add("5 before 6: a line first, with C 0", line(1, IN, 0, 5, 8), says=["stop 1 5", WHOLE])
    g.add("5 before 6: a stream first, with D 0", bad_message, says=["stop 1 5", WHOLE])
    g.add("5 before 6: a withdrawal first, of stream 0", withdrawal(0), says=["stop 1 5", WHOLE])
    g.add("5 before 6: places first, of line 0", places(0, 8), says=["stop 1 5", WHOLE])
    g.add("5 before 6: a second hub with m above M", HUB, hub(2, 1), says="stop 8 5")
    for key, bad in (("number 0", line(0, IN, 2, 5, 8)), ("side 2", line(3, 2, 2, 5, 8)), ("C 0", line(3, IN, 0, 5, 8)),
                     ("p 10,001", line(3, IN, 2, 10_001, 8)), ("no places", line(3, IN, 2, 5, 0))):
        g.add(f"5 before 6: a line after a stream, with {key}", *WORKED, bad, says="stop 74 5")
    g.add("5 before 7: a stream first, with N x g above T", tight, says=["stop 1 5", WHOLE])
    g.add("5 before 21: a line after a stream, with a number that is taken", *WORKED, LINE_1, says="stop 74 5")
    g.add("5 before 26: a withdrawal first", withdrawal(10), says=["stop 1 5", WHOLE])
    wide = dict(stream=10, priority=2, inbound=1, outbound=2, D=18, T=5, J=0, N=3, g=2)
    for key, value in (("stream", 0), ("stream", 60_001), ("priority", 0), ("inbound", 0), ("inbound", 17),
                       ("outbound", 0), ("outbound", 17), ("D", 0), ("D", 500_001), ("T", 0), ("J", 100_001),
                       ("N", 257), ("g", 200_001)):
        g.add(f"6 before 7: {key} {value} where N x g is above T", *DRAFT, message(**dict(wide, **{key: value})),
              says="stop 30 6")
    for key, bad in (("side 2", line(1, 2, 2, 5, 8)), ("C 1,001", line(1, IN, 1_001, 5, 8)),
                     ("no places", line(1, IN, 2, 5, 0))):
        g.add(f"6 before 21: a line whose number is taken, with {key}", HUB, LINE_1, bad, says="stop 19 6")
    g.add("6 before 22: in-bound line 17", *DRAFT, small(5, 5, 17, 2), says="stop 30 6")
    g.add("6 before 22: a missing in-bound line and out-bound line 0", *DRAFT, small(5, 5, 3, 0), says="stop 30 6")
    g.add("6 before 22: a missing line and D 0", *DRAFT, small(5, 5, 3, 2, 0), says="stop 30 6")
    g.add("6 before 22: a missing line and a burst of 0", *DRAFT, bucket(5, 5, 3, 2, 18, 0, 10), says="stop 30 6")
    g.add("6 before 22: no places for a missing line", *DRAFT, places(3, 0), says="stop 30 6")
    g.add("6 before 23: a taken number and an interval of 0", *WORKED, bucket(10, 9, 1, 2, 18, 1, 0), says="stop 74 6")
    g.add("6 before 24: a taken priority and J 100,001", *WORKED, message(9, 2, 1, 2, 18, 20, 100_001, 3, 2),
          says="stop 74 6")
    g.add("6 before 25: no memory, and D 0", *DRAFT, small(5, 5, D=0), memory=0, says="stop 30 6")
    g.add("7 before 22: a missing line", *DRAFT, message(10, 2, 3, 2, 18, 5, 0, 3, 2), says="stop 30 7")
    g.add("7 before 23: a taken number", *WORKED, tight, says="stop 74 7")
    g.add("7 before 24: a taken priority", *WORKED, message(9, 2, 1, 2, 18, 5, 0, 3, 2), says="stop 74 7")
    g.add("7 before 25: no memory", *DRAFT, tight, memory=0, says="stop 30 7")
    g.add("7 before 28: a deadline of 1", *DRAFT, message(10, 2, 1, 2, 1, 5, 0, 3, 2), says="stop 30 7")
    g.add("22 before 22: in-bound before out-bound", *DRAFT, small(5, 5, 8, 7), says="at 30 no 22 8")
    g.add("22 before 23: a taken number on a missing line", *WORKED, small(10, 9, 1, 3), says="at 74 no 22 3")
    g.add("22 before 24: a taken priority on a missing line", *WORKED, small(9, 2, 3, 2), says="at 74 no 22 3")
    g.add("22 before 25: no memory, and a missing line", *DRAFT, small(5, 5, 3, 2), memory=0, says="at 30 no 22 3")
    g.add("22 before 28: a missing line and a deadline of 1", *DRAFT, small(5, 5, 1, 1, 1), says="at 30 no 22 1")
    g.add("22 before all that can follow", *WORKED, small(10, 2, 1, 3, 1), memory=2, says="at 74 no 22 3")
    g.add("23 before 24: number and priority of one stream", *WORKED, small(10, 2), says="at 74 no 23 10")
    g.add("23 before 24: the number of one stream, the priority of another", *WORKED, small(11, 2),
          says="at 74 no 23 11")
    g.add("23 before 25: a full table", *WORKED, small(10, 9), memory=2, says="at 74 no 23 10")
    g.add("23 before 28: a deadline of 1", *WORKED, small(10, 9, D=1), says="at 74 no 23 10")
    g.add("24 before 25: a full table", *WORKED, small(9, 2), memory=2, says="at 74 no 24 10")
    g.add("24 before 27: a stream that would fill line 1", *WORKED, message(9, 2, 1, 2, 100, 2, 0, 1, 1),
          says="at 74 no 24 10")
    g.add("24 before 28: a deadline of 1", *WORKED, small(9, 1, D=1), says="at 74 no 24 11")
    g.add("25 before 27: a stream that would fill line 1", *WORKED, message(9, 9, 1, 2, 100, 2, 0, 1, 1), memory=2,
          says="at 74 no 25 9")
    g.add("25 before 28: a deadline of 1", *WORKED, small(9, 9, D=1), memory=2, says="at 74 no 25 9")
    g.add("25 before 30: a burst of 4,096", *WORKED, bucket(9, 9, 1, 2, LATEST, 4_096, 200_000), memory=2,
          says="at 74 no 25 9")
    g.add("27 before 28: the first total would be late too", *DRAFT, small(11, 1), message(9, 9, 1, 2, 1, 2, 0, 1, 1),
          says="at 48 no 27 11")
    g.add("27 before 29: line 1 is never clear", *DRAFT, small(11, 1), message(9, 9, 1, 2, 100, 2, 0, 1, 1),
          says="at 48 no 27 11")
    g.add("28 before 29: line 1 is never clear", *DRAFT, message(9, 9, 1, 2, 1, 2, 0, 1, 1), says="at 30 no 28 9")
    g.add("28 before 30: line 1 has one place", HUB, line(1, IN, 2, 5, 1), LINE_2,
          message(10, 2, 1, 2, 17, 20, 0, 3, 2), says="at 30 no 28 10")
    # The message of T 2 is never through a line with C 2.
    g.add("29 before 30: line 1 never clear, line 2 short of places", HUB, line(1, IN, 2, 5, 8), line(2, OUT, 1, 5, 1),
          message(12, 2, 1, 2, 100, 2, 0, 1, 1), says="at 30 no 29 1")
    g.add("30 of a lower line before 29: line 1 short of places, line 2 never clear", hub(3, 3), line(1, IN, 1, 5, 1),
          line(2, OUT, 2, 5, 8), line(4, OUT, 1, 5, 8), small(5, 4, 1, 4), message(1, 9, 1, 2, LATEST, 2, 0, 1, 1),
          says=["at 41 ok", "at 59 no 30 1"])
    return g


def changes_group():
    g = Group("changes", "Withdrawals, streams that are filed again, and other places.")
    g.add("withdraw the first of the table", *WORKED, withdrawal(10),
          says=LISTED[:5] + ["at 74 ok"] + ONLY_11 + [WHOLE])
    g.add("withdraw the last of the table", *WORKED, withdrawal(11), says=LISTED[:5] + ["at 74 ok"] + ONLY_10 + [WHOLE])
    g.add("withdraw both", *WORKED, withdrawal(11), withdrawal(10), says=["at 74 ok", "at 79 ok"] + EMPTY)
    three = FAST + (small(3, 30), small(1, 10), small(2, 20))
    g.add("table order is not the order of filing", *three, says=[
        "stream 3 q1 0 q2 0 total 2", "stream 2 q1 1 q2 1 total 4", "stream 1 q1 2 q2 2 total 6"])
    g.add("withdraw the middle of the table", *three, withdrawal(2), says=[
        "stream 3 q1 0 q2 0 total 2", "stream 1 q1 1 q2 1 total 4"])
    g.add("withdraw, and file again as it was", *WORKED, withdrawal(10), STREAM_10,
          says=LISTED[:5] + ["at 74 ok", "at 79 ok"] + FIGURES + [WHOLE])
    g.add("withdraw, and file again with another priority", *three, withdrawal(3), small(3, 1), says=[
        "stream 2 q1 0 q2 0 total 2", "stream 1 q1 1 q2 1 total 4", "stream 3 q1 2 q2 2 total 6"])
    g.add("withdraw, and give its priority to another", *WORKED, withdrawal(11), small(12, 1),
          says=["at 74 ok", "at 79 ok"])
    g.add("a refusal changes nothing", *WORKED, small(12, 200), STREAM_10, small(13, 2), withdrawal(14), places(1, 3),
          places(9, 3), small(15, 50, 2, 2),
          says=["at 74 no 28 10", "at 92 no 23 10", "at 118 no 24 10", "at 136 no 26 14", "at 141 no 30 1",
                "at 147 no 22 9", "at 153 no 22 2"] + FIGURES)
    g.add("a stream that is refused once passes after a withdrawal", *DRAFT, message(12, 2, 1, 2, 100, 3, 0, 1, 1),
          message(13, 1, 1, 2, 100, 3, 0, 1, 1), withdrawal(12), message(13, 1, 1, 2, 100, 3, 0, 1, 1),
          says=["at 56 no 27 13", "at 82 ok", "at 87 ok"])
    g.add("a stream that is refused for its places passes with more", *DRAFT, STREAM_10, places(1, 3), STREAM_11,
          places(1, 4), STREAM_11, says=["at 30 ok", "at 56 ok", "at 62 no 30 1", "at 80 ok", "at 86 ok"]
          + FIGURES[:2] + ["line 1 need 4 of 4", "line 2 need 2 of 8"])
    for number, need in ((1, 4), (2, 2)):
        for count in (need, need + 1, 4_000):
            g.add(f"line {number} to {count} places", *WORKED, places(number, count),
                  says=["at 74 ok"] + FIGURES[:2] + [f"line {number} need {need} of {count}"])
        g.add(f"line {number} to {need - 1} places, one below its need", *WORKED, places(number, need - 1),
              says=[f"at 74 no 30 {number}"] + FIGURES)
    g.add("line 1 to one place", *WORKED, places(1, 1), says=["at 74 no 30 1"] + FIGURES)
    g.add("places down, then one below, then up", *WORKED, places(1, 4), places(1, 3), places(1, 5),
          says=["at 74 ok", "at 80 no 30 1", "at 86 ok", "line 1 need 4 of 5"])
    g.add("places of an idle line", *FAST, places(16, 1), says=["at 52 ok", "line 16 need 0 of 1"])
    g.add("line 1 at its need, line 2 below it", HUB, line(1, IN, 2, 5, 4), LINE_2, STREAM_10, STREAM_11, places(2, 1),
          says="at 74 no 30 2")
    return g


def full_group():
    g = Group("full", "Full tables: 64 streams, and memory for fewer.")
    # Four in-bound and four out-bound lines, sixteen streams on each.
    rack = (hub(0, 2),) + tuple(line(n, IN if n <= 4 else OUT, 1, n, 200) for n in range(1, 9))

    def light(k):
        return bucket(k, 200 - k, 1 + k % 4, 5 + k // 4 % 4, LATEST, 1, 5_000)
    sixty_four = [light(k) for k in range(1, 65)]
    g.add("64 streams", *rack, *sixty_four, says=["at {last} ok", "stream 1 q1 0 q2 0 total 11"])
    g.add("64 streams, filed in rising order", *rack, *sixty_four[::-1],
          says=["at {last} ok", "stream 1 q1 0 q2 0 total 11"])
    g.add("a 65th stream", *rack, *sixty_four, light(65), says="at {last} no 25 65")
    g.add("a 65th stream, with memory for 80", *rack, *sixty_four, light(65), memory=80, says="at {last} no 25 65")
    g.add("64 streams, with memory for 63", *rack, *sixty_four, memory=63, says="at {last} no 25 64")
    g.add("a 65th stream after a withdrawal", *rack, *sixty_four, withdrawal(30), light(65), light(30),
          says=["at {last} no 25 30"])
    g.add("a withdrawal from 64 streams", *rack, *sixty_four, withdrawal(1), says="at {last} ok")
    for memory, says in ((0, ["at 30 no 25 10", "at 56 no 25 11"] + EMPTY),
                         (1, ["at 30 ok", "at 56 no 25 11"] + ONLY_10), (2, ["at 30 ok", "at 56 ok"] + FIGURES),
                         (3, ["at 30 ok", "at 56 ok"] + FIGURES)):
        g.add(f"the worked plan, with memory for {memory}", *WORKED, memory=memory, says=DRAFTED + says + [WHOLE])
    g.add("memory for one, used again", *DRAFT, STREAM_10, STREAM_11, withdrawal(10), STREAM_11, memory=1,
          says=["at 30 ok", "at 56 no 25 11", "at 74 ok", "at 79 ok"] + ONLY_11)
    g.add("no memory, and places and withdrawals", *DRAFT, places(1, 9), withdrawal(10), memory=0,
          says=["at 30 ok", "at 36 no 26 10", "line 1 need 0 of 9"])
    return g


def room_group():
    g = Group("room", "Buffers that are long enough to the byte, one byte short, one byte longer, and of no length.")
    for name, version, records, length in (
            ("an empty listing", "01", (), 0),
            ("a hub", "01", (HUB,), 8),
            ("a bad version", "02", (), 9),
            ("a refused record", "01", (HUB, withdrawal(10)), 8 + 14),
            ("a stop at 74", "01", WORKED + (raw("00"),), 43 + 10),
            ("the worked plan", "01", WORKED, 43 + 29 + 29 + 19 + 19)):
        for room, what in ((length, "room for it"), (length + 1, "a byte more"), (length - 1, "a byte less"),
                           (0, "no room")):
            if room < 0 or (length, what) == (0, "no room"):
                continue
            told = g.add(f"{name}, {what}", *records, version=version, room=room)
            assert told == length, (name, told)
    full = FAST + tuple(small(k, 100 + k, 1 + 15 * (k % 2), 2 + 13 * (k % 2)) for k in range(1, 21))
    length = sum(len(row) + 1 for row in listing(b"\x01" + b"".join(b"".join(parts) for parts in full)))
    for room in (length, length - 1, 100, 1):
        g.add(f"twenty streams, {length} bytes into {room}", *full, room=room)
    return g


class Dice:
    """Numbers that look drawn at random, the same everywhere and always."""

    def __init__(self, seed):
        self.state = seed

    def roll(self, low, high):
        self.state = (self.state * 6364136223846793005 + 1442695040888963407) % 2 ** 64
        return low + (self.state >> 33) % (high - low + 1)

    def pick(self, items):
        return items[self.roll(0, len(items) - 1)]


def drawn_stream(dice, inbound, outbound):
    head = dice.roll(1, 30), dice.roll(1, 60), dice.pick(inbound), dice.pick(outbound), dice.roll(30, 600)
    if dice.roll(0, 1):
        return bucket(*head, dice.roll(1, 4), dice.roll(8, 70))
    cells, gap = dice.roll(1, 4), dice.roll(1, 6)
    return message(*head, cells * gap + dice.roll(2, 70), dice.roll(0, 25), cells, gap)


def drawn_plan(seed):
    dice = Dice(seed)
    most = dice.roll(0, 6)
    inbound, outbound = [1, 2, 5][:dice.roll(1, 3)], [3, 4, 6][:dice.roll(1, 3)]
    yield hub(dice.roll(0, most), most)
    for side, numbers in ((OUT, outbound), (IN, inbound)):
        for number in numbers:
            yield line(number, side, dice.roll(1, 4), dice.roll(0, 9), dice.roll(6, 30))
    for _ in range(dice.roll(8, 18)):
        what = dice.roll(0, 9)
        if what == 0:
            yield withdrawal(dice.roll(1, 30))
        elif what == 1:
            yield places(dice.pick(inbound + outbound), dice.roll(2, 30))
        else:
            yield drawn_stream(dice, inbound, outbound)


def drawn_group():
    g = Group("drawn", "Plans of several lines with drawn numbers.")
    for seed in range(1, 41):
        g.add(f"drawn plan {seed}", *drawn_plan(seed))
    return g


GROUPS = (worked_group, opening_group, long_files_group, cut_group, limits_group, shapes_group, order_group,
          state_group, pairs_group, changes_group, full_group, room_group, drawn_group)


def main():
    folder = os.path.join(ROOT, "crates", "cases")
    files, rows = {}, []
    for make in GROUPS:
        group = make()
        files[os.path.join(folder, "data", group.name + ".txt")] = group.content()
        rows.append(f"{group.name}.txt: {group.count} of {group.count} agree")
        print(f"{group.name}: {group.count}", file=sys.stderr)
    count = sum(int(row.split()[1]) for row in rows)
    files[os.path.join(folder, "stdout")] = "\n".join(rows + [f"{count} of {count} agree", ""])
    for path, content in files.items():
        if sys.argv[1:] == ["--check"]:
            with open(path, encoding="utf-8") as file:
                if file.read() != content:
                    sys.exit(f"{path} is not as this script would write it")
        else:
            with open(path, "w", encoding="utf-8") as file:
                file.write(content)


if __name__ == "__main__":
    main()
