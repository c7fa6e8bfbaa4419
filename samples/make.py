#!/usr/bin/env python3
"""Makes the sample captures: faulty.dbus, which is also what the gate runs `inspect` on (crates/inspect/stdin), with a fault in a body, and
header.dbus, with one in a header.

A stream is messages back to back, as `dbus-monitor --binary` writes them and as one read may bring them.
"""
import os
import struct

HERE = os.path.dirname(os.path.abspath(__file__))
CALL, REPLY, ERROR, SIGNAL = 1, 2, 3, 4
PATH, INTERFACE, MEMBER, ERROR_NAME, REPLY_SERIAL, DESTINATION, SENDER, SIGNATURE, UNIX_FDS = range(1, 10)
FIELD_TYPES = {PATH: "o", REPLY_SERIAL: "u", SIGNATURE: "g", UNIX_FDS: "u"}  # the others are strings


class Bytes:
    """Bytes in one byte order, with padding counted from the first."""

    def __init__(self, mark):
        self.mark, self.data = mark, b""

    def pad(self, to):
        self.data += bytes(-len(self.data) % to)

    def number(self, form, value):
        self.pad(struct.calcsize(form))
        self.data += struct.pack(("<" if self.mark == "l" else ">") + form, value)

    def string(self, text):
        self.number("I", len(text.encode()))
        self.data += text.encode() + b"\0"

    def signature(self, text):
        self.data += bytes([len(text)]) + text.encode() + b"\0"


def message(mark, kind, serial, fields, body=b"", flags=0, version=1):
    table = Bytes(mark)
    for code, value in fields:
        form = FIELD_TYPES.get(code, "s")
        table.pad(8)
        table.data += bytes([code])
        table.signature(form)
        if form == "u":
            table.number("I", value)
        elif form == "g":
            table.signature(value)
        else:
            table.string(value)
    out = Bytes(mark)
    out.data = mark.encode() + bytes([kind, flags, version])
    out.number("I", len(body))
    out.number("I", serial)
    out.number("I", len(table.data))
    out.data += table.data
    out.pad(8)
    return out.data + body


def kerning(mark, pairs):
    """The body `a(qqn)`: pairs of glyphs, and how much closer they stand."""
    contents = Bytes(mark)
    for left, right, kern in pairs:
        contents.pad(8)
        contents.number("H", left)
        contents.number("H", right)
        contents.number("h", kern)
    out = Bytes(mark)
    out.number("I", len(contents.data))
    out.pad(8)
    return out.data + contents.data


def kern_signal(serial, pairs, mark="l"):
    return message(
        mark,
        SIGNAL,
        serial,
        [
            (PATH, "/org/example/Fonts/Serif"),
            (INTERFACE, "org.example.Fonts"),
            (MEMBER, "KerningChanged"),
            (SENDER, ":1.7"),
            (SIGNATURE, "a(qqn)"),
        ],
        kerning(mark, pairs),
    )


def text_body(mark, text):
    out = Bytes(mark)
    out.string(text)
    return out.data


def conversation():
    """A call and its reply, in both byte orders, and an error."""
    return [
        message("l", CALL, 1, [(PATH, "/org/freedesktop/DBus"), (DESTINATION, "org.freedesktop.DBus"), (INTERFACE, "org.freedesktop.DBus"), (MEMBER, "Hello")]),
        message("l", REPLY, 1, [(DESTINATION, ":1.7"), (REPLY_SERIAL, 1), (SIGNATURE, "s"), (SENDER, "org.freedesktop.DBus")], text_body("l", ":1.7"), flags=1),
        message("B", CALL, 258, [(PATH, "/org/example/Fonts"), (MEMBER, "Kerning"), (DESTINATION, ":1.7"), (SENDER, ":1.9"), (SIGNATURE, "s")], text_body("B", "Serif"), flags=2),
        message("B", ERROR, 259, [(ERROR_NAME, "org.example.Error.NoSuchFont"), (REPLY_SERIAL, 258), (DESTINATION, ":1.9"), (SENDER, ":1.7"), (SIGNATURE, "s")], text_body("B", "no font of that name")),
    ]


def kernings():
    """Three kerning messages in one read: the first ends at its own length, or the other two are lost."""
    return [
        kern_signal(2, [(65, 86, -80), (84, 111, -60)]),
        kern_signal(3, [(76, 84, -40)], mark="B"),
        kern_signal(4, []),
    ]


def faulty():
    """A kerning message whose array states 13 bytes, where its two pairs take 14: the last kern ends past the array."""
    whole = kern_signal(5, [(65, 86, -80), (84, 111, -60)])
    body = len(whole) - 22
    return whole[:body] + struct.pack("<I", 13) + whole[body + 4 :]


def faulty_header():
    """The third message of the conversation, but its destination, of four bytes, states three: the byte after the text is not zero."""
    whole = conversation()[2]
    text = whole.index(b":1.7")
    return whole[: text - 4] + struct.pack(">I", 3) + whole[text:]


def write(path, messages):
    with open(os.path.join(HERE, path), "wb") as file:
        file.write(b"".join(messages))


if __name__ == "__main__":
    # the same bytes for the gate, which takes no link
    for path in "faulty.dbus", "../crates/inspect/stdin":
        write(path, conversation() + kernings() + [faulty(), kern_signal(6, [(87, 97, -20)])])
    write("header.dbus", conversation()[:2] + [faulty_header()] + conversation()[3:])
