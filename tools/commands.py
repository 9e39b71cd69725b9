#!/usr/bin/env python3
"""Command lines as document 01 (Listing) and docs/DECISIONS.md, The listing have them, and what crates/command_lines writes of them.

Shares no code with the proved crates: fields by bytes.split-like rules of its own, numbers by Python's integers.
`commands.py < TEXT` writes what the program should write.
"""
import re
import sys

ROOM = 128  # the program's buffer: a line and its line feed fit in it
TYPES = {"i16": (-2**15, 2**15 - 1), "i32": (-2**31, 2**31 - 1), "i64": (-2**63, 2**63 - 1), "u64": (0, 2**64 - 1)}
COMMANDS = {
    b"init": ("name", "i32", "i64"),
    b"add": ("name", "i64", "i16", "u64", "i64"),
    b"end": ("name", "i64", "i16", "u64", "i64"),
    b"tick": ("i64",),
    b"flush": (),
    b"put": ("name", "i64", "i16", "u64", "i32", "u64"),
    b"carry": ("u64",),
    b"read": ("u64",),
    b"cut": ("u64",),
    b"left": ("u64",),
}
NUMBER = re.compile(rb"-?[0-9]+\Z")


def fields(line):
    """Each field with its place: parted by single tabs or spaces."""
    found, start = [], 0
    for place in range(len(line) + 1):
        if place == len(line) or line[place] in b"\t ":
            found.append((start, line[start:place]))
            start = place + 1
    return found


def parse(line):
    """(word, values), where a name is (place, length); None for a line that is no command."""
    found = fields(line)
    word = found[0][1]
    kinds = COMMANDS.get(word)
    if kinds is None or len(found) != 1 + len(kinds):
        return None
    values = []
    for kind, (place, text) in zip(kinds, found[1:]):
        if kind == "name":
            values.append((place, len(text)))
            continue
        if not NUMBER.match(text):
            return None
        low, high = TYPES[kind]
        value = int(text)
        if not low <= value <= high:
            return None
        values.append(value)
    return word, values


def shown(word, number, first, second, results):
    return b"\t".join([word, number] + [str(n).encode() for n in [first, second] + results]) + b"\n"


def described(line):
    """What command_lines writes of a line."""
    command = parse(line) if len(line) < ROOM else None
    if command is None:
        return shown(b"?", b"-", 1, 2**64 - 1, [])
    word, v = command
    if word == b"flush":
        return shown(word, b"22", 1, 2**64 - 1, [])
    if word in (b"tick", b"carry", b"read", b"cut", b"left"):
        return shown(word, b"0", 0, 0, [v[0], v[0]])
    place, length = v[0]
    if word == b"init":
        return shown(word, b"0", place, length, v[1:])
    if word == b"put":
        return shown(word, b"0", place, length, [v[1], v[2], v[4]]) + shown(word, b"0", place, length, [v[3], v[5]])
    return shown(word, b"0", place, length, [v[1], v[2], v[4]]) + shown(word, b"0", place, length, [v[3], 0])


def lines(text):
    """Lines end at a line feed; a last one needs none."""
    parts = text.split(b"\n")
    return parts if parts[-1] else parts[:-1]


def output(text):
    return b"".join(described(line) for line in lines(text))


if __name__ == "__main__":
    sys.stdout.buffer.write(output(sys.stdin.buffer.read()))
