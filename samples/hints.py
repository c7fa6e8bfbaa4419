#!/usr/bin/env python3
"""Tries the hint that `inspect` gives beside position 0: messages with one fault in the header, each in both byte orders, and for each the
refusal, the hint and the byte in brackets, worked out here from where the fields were laid. Says nothing where all are as written.

Each message follows one that is whole, so that places in the message and in the stream differ.

usage: samples/hints.py [PROGRAM]      PROGRAM is `inspect`, built: .ci/run gives the one that rt ci has just built and run. Else tools/program builds it.
"""
import os
import re
import struct
import subprocess
import sys

sys.dont_write_bytecode = True
from make import CALL, ERROR, HERE, MEMBER, PATH, REPLY, SIGNAL, message

INSPECT = sys.argv[1:2] or [os.path.join(HERE, "../tools/program"), "inspect"]
BEFORE = message("l", CALL, 1, [(PATH, "/a"), (MEMBER, "M")])


class Table:
    """A table of header fields, laid field by field: where each begins and ends in the message."""

    def __init__(self, mark):
        self.mark, self.data, self.begins, self.ends = mark, b"", [], []

    def number(self, value):
        return struct.pack(("<" if self.mark == "l" else ">") + "I", value)

    def text(self, text, states=None):
        return self.number(len(text) if states is None else states) + text + b"\0"

    def field(self, code, form, value, padding=None):
        """One field; `padding` in place of zeros before it."""
        self.data += bytes(-len(self.data) % 8) if padding is None else padding
        self.begins.append(16 + len(self.data))
        self.data += bytes([code, len(form)]) + form + b"\0" + value
        self.ends.append(16 + len(self.data))
        return self

    def path(self):
        return self.field(1, b"o", self.text(b"/a/b"))

    def member(self, name=b"Member"):
        return self.field(3, b"s", self.text(name))

    def whole(self, kind, padding=None, body=b""):
        head = self.mark.encode() + bytes([kind, 0, 1]) + self.number(len(body)) + self.number(7) + self.number(len(self.data)) + self.data
        return head + (bytes(-len(head) % 8) if padding is None else padding) + body


def at(byte):
    return "look at byte %d of the message (byte %d of the stream), " % (byte, len(BEFORE) + byte)


def inside(byte, field, begin):
    look = "look from byte %d of the message (byte %d of the stream) on, " % (byte, len(BEFORE) + byte)
    return look + ("where the header field %s begins" % field if byte == begin else "in the header field %s that begins at byte %d of the message" % (field, begin))


def in_third_field(mark, refusal, code, form, value, name, byte):
    """A call whose third field is faulty, at that byte of it."""
    table = Table(mark).path().member()
    table.field(code, form, value(table))
    begin = table.begins[2]
    return table.whole(CALL), refusal, inside(begin + byte, name, begin), begin + byte


def fields(mark):
    """One field of the table is refused."""
    third = lambda *rest: in_third_field(mark, *rest)
    yield third(8, 6, b"s", lambda t: t.text(b":1.7", 3), "destination (code 6)", 4)
    yield third(2, 6, b"s", lambda t: t.text(b":1.7", 300), "destination (code 6)", 4)
    yield third(6, 6, b"s", lambda t: t.text(b"\xff"), "destination (code 6)", 4)
    yield third(7, 6, b"s", lambda t: t.text(b"a\0b"), "destination (code 6)", 4)
    yield third(10, 8, b"g", lambda t: b"\2a(\0", "signature (code 8)", 4)
    yield third(15, 9, b"s", lambda t: t.text(b"x"), "unix fds (code 9)", 0)
    yield third(19, 7, b"ss", lambda t: t.text(b"x"), "sender (code 7)", 0)
    yield third(20, 0, b"s", lambda t: t.text(b"x"), "with the code 0", 0)
    yield third(5, 200, b"b", lambda t: t.number(2), "with the code 200", 4)
    yield third(4, 10, b"x", lambda t: b"\0\0\1\0" + bytes(8), "with the code 10", 6)
    yield third(3, 10, b"ay", lambda t: bytes(3) + t.number(99), "with the code 10", 12)
    yield third(5, 99, b"v", lambda t: b"\1b\0\0" + t.number(3), "with the code 99", 8)


def tables(mark):
    """The table as a whole, what stands between the fields, and what follows them."""
    absent = "the header field %s is absent, which a message of the type %s needs"
    yield Table(mark).path().whole(CALL), 21, absent % ("member (code 3)", "method call"), 0
    yield Table(mark).member().member().whole(CALL), 21, absent % ("path (code 1)", "method call"), 0
    yield Table(mark).path().whole(REPLY), 21, absent % ("reply serial (code 5)", "method return"), 0
    yield Table(mark).path().whole(ERROR), 21, absent % ("error name (code 4)", "error"), 0
    yield Table(mark).path().member().whole(SIGNAL), 21, absent % ("interface (code 2)", "signal"), 0
    twice = Table(mark).path().member().path()
    yield twice.whole(CALL), 21, at(twice.begins[2]) + "where the header field path (code 1) begins a second time", twice.begins[2]
    gap = Table(mark).path().member(b"M")
    place = gap.ends[1] + 1
    yield gap.whole(CALL, b"\0\3\0\0\0\0"), 4, at(place) + "which is not zero in the padding between the header fields and the body", place
    yield gap.field(7, b"s", gap.text(b"x"), b"\0\3\0\0\0\0").whole(CALL), 4, at(place) + "which is not zero in the padding before a header field", place
    late = Table(mark).path().member()
    late.data += b"\0"
    yield late.whole(CALL), 2, at(late.ends[1]) + "where the table of header fields goes on but ends before another field can begin", late.ends[1]
    yield Table(mark).path().member().whole(5), 18, at(1) + "which states the message's type", 1
    body = Table(mark).path().member().field(8, b"g", b"\1b\0").whole(CALL, body=b"\2\0\0\2")
    yield body, 5, None, len(body) - 4


def said(data):
    """The refusal's number, the hint, and the place in the message of the byte in brackets, as `inspect` says them."""
    out = subprocess.run(INSPECT, input=BEFORE + data, stdout=subprocess.PIPE, check=True).stdout.decode()
    number = re.search(r"^    refusal (\d+),", out, re.M)
    hint = re.search(r"^    hint, not part of the proved answer: (.*)$", out, re.M)
    row = re.search(r"^ *(\d+) +\d+ (( [0-9a-f]{2})*)\[", out, re.M)
    return int(number.group(1)), hint and hint.group(1), int(row.group(1)) + len(row.group(2)) // 3


def main():
    order = Table("l").path().member().whole(CALL)
    cases = [(b"x" + order[1:], 17, at(0) + "which states the byte order", 0)]
    for mark in "lB":
        cases += list(fields(mark)) + list(tables(mark))
    wrong = 0
    for data, *expected in cases:
        found = said(data)
        if found != tuple(expected):
            print("%s\n  expected %s\n  said     %s" % (data.hex(), expected, found))
            wrong += 1
    sys.exit(1 if wrong else 0)


if __name__ == "__main__":
    main()
