#!/usr/bin/env python3
"""Says what rigrun should answer to a script, from document 01, docs/DECISIONS.md, The listing, and document 02, 11, and not from the proved code.

    tools/rigrun.py < SCRIPT

A line is a word and its fields, parted by one tab or one space each. A number is decimal digits, with a `-` before them if it is negative.
A line that does not fit the program's buffer is no command.
"""
import re
import sys

from fields import I16, I32, I64, U64, values_of
from model import ENTRY, Partition, Refused, opening, refuse

CATALOGUE = b"scan\t2\ncert\t1\n"
POSITIONS = (0, 1, 8)
ROOM, ENTRIES, FIRST, LAST = 8192, 64, 1000, 1999
LINE_ROOM = 65536  # a line with its line feed
LAST_COORDINATOR = 2**31 - 1

# the fields behind each word: the name, or a number
FIELDS = {b"init": ("bytes", I32, I64), b"add": ("bytes", I64, I16, U64, I64), b"end": ("bytes", I64, I16, U64, I64), b"tick": (I64,),
          b"flush": (), b"put": ("bytes", I64, I16, U64, I32, U64), b"carry": (U64,), b"read": (U64,), b"cut": (U64,), b"left": (U64,)}
NO_RESULTS = {b"init", b"tick", b"carry", b"read"}  # those that write `-` for none


def parsed(line):
    """The word and the values of a command line, or nothing if it is none."""
    word, *fields = re.split(rb"[\t ]", line)
    if len(line) >= LINE_ROOM or word not in FIELDS:
        return None
    values = values_of(FIELDS[word], fields)
    return None if values is None else (word, values)


class Session:
    def __init__(self):
        self.log, self.words = bytearray(ROOM), {p: [0] * (ENTRY * ENTRIES) for p in POSITIONS}
        self.partitions = {p: Partition(ENTRY * ENTRIES) for p in POSITIONS}
        self.coordinator = opening(CATALOGUE, self.log, 0, 1, FIRST, LAST)

    def init(self, *values):
        return self.coordinator.init(self.log, *values)

    def add(self, *values):
        return self.coordinator.add(self.log, *values)

    def end(self, *values):
        return self.coordinator.end_transaction(self.log, *values)

    def tick(self, time):
        return self.coordinator.tick(self.log, time)

    def flush(self):
        return self.coordinator.flush(self.coordinator.end)

    def put(self, name, pid, epoch, position, sequence, payload):
        own = position if position in POSITIONS else POSITIONS[0]
        return self.partitions[own].produce(self.coordinator, self.words[own], name, pid, epoch, position, sequence, payload)

    def carry(self, up):
        order = self.coordinator.order(up)
        if not order:
            return []
        place, pid, epoch, verdict, position, coordinator = order
        self.partitions[position].marker(self.words[position], place, pid, epoch, verdict, coordinator)
        self.coordinator.ack(self.log, place, pid, epoch, position)
        return [place, position, verdict]

    def read(self, position):
        refuse(3, position not in POSITIONS)
        payloads = [0] * ENTRIES
        count, _ = self.partitions[position].read(self.words[position], 0, payloads)
        return payloads[:count]

    def cut(self, kept):
        left = self.coordinator.flushed + kept
        refuse(7, left > self.coordinator.end or self.coordinator.epoch == LAST_COORDINATOR)
        self.coordinator = opening(CATALOGUE, self.log, left, self.coordinator.epoch + 1, FIRST, LAST)
        return []

    def left(self, place):
        return self.coordinator.left(place)

    def answer(self, line):
        """The output line of a command line, both without their LF."""
        command = parsed(line)
        if command is None:
            return b"?\t-\t%d\t%d" % (self.coordinator.end, self.coordinator.flushed)
        word, values = command
        try:
            number, results = 0, getattr(self, word.decode())(*values)
        except Refused as refusal:
            number, results = refusal.args[0], []
        fields = [b"%d" % r for r in results] or ([b"-"] if number == 0 and word in NO_RESULTS else [])
        return b"\t".join([word, b"%d" % number, b"%d" % self.coordinator.end, b"%d" % self.coordinator.flushed] + fields)


def main():
    session = Session()
    for line in sys.stdin.buffer.read().removesuffix(b"\n").split(b"\n"):
        sys.stdout.buffer.write(session.answer(line) + b"\n")


if __name__ == "__main__":
    main()
