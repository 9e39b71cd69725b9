#!/usr/bin/env python3
"""Says what crates/call_script must print for a script, from document 01 and not from the proved code.

    tools/calls.py < SCRIPT

A line is a word and its fields, parted by one space each; a number is decimal digits, with a `-` before them if it is negative. LENT is how
many bytes of the log store, or words of a partition's store, are lent to the call.

    # ANYTHING                                        copied; so is an empty line
    catalogue TEXT                                    the text for later openings; `:` is a tab and `,` a line feed
    bytes AT HEX                                      bytes of the log store
    epoch PLACE EPOCH                                 the id at that place then holds that epoch, 0 to 32766
    sequence INDEX PLACE SEQUENCE                     the producer at that place of a partition then has that last sequence, 0 to 2147483647
    open LENT LENGTH EPOCH FIRST LAST                 a refused one leaves the coordinator as it was
    init LENT NAME TIMEOUT TIME
    add LENT NAME PID EPOCH SET TIME
    end LENT NAME PID EPOCH VERDICT TIME
    tick LENT TIME
    flush LENGTH
    order SET
    ack LENT PLACE PID EPOCH POSITION
    partition INDEX LENT                              opens the partition of that index, 0 to 2
    produce INDEX LENT NAME PID EPOCH POSITION SEQUENCE PAYLOAD
    marker INDEX LENT PLACE PID EPOCH VERDICT COORDINATOR
    read INDEX LENT FROM ROOM                         ROOM words are lent as out, each 7777 before the call
    log FROM COUNT                                    bytes of the log store
    words INDEX FROM COUNT                            words of a partition's store

`epoch` and `sequence` put there what calls would take too many lines to reach; the log and the words stay as they are.
A call answers with its word, 0 or the number of the refusal, its results (`-` for none of an accepted init, tick or order), and what is then held:
of the coordinator the log's end, the flushed length and the clock, of a partition its end, its coordinator epoch and its stable end. Behind that
`read` has all the words of out. A line that is none of these, that has a number past its type or asks for a part that no store has or for an id or a
producer that is not held, gets `?`.

At the start all the stores are zeros, the catalogue is `scan:2,cert:1,`, an empty log is opened with 8192 bytes, coordinator epoch 1 and the pids
1000 to 1999, and each partition is opened with 256 words.
"""
import re
import sys

from fields import I16, I32, I64, U64, values_of
from frames import EPOCH_LAST
from model import Partition, Refused, opening

LOG_ROOM, WORDS_ROOM, OUT_ROOM, TEXT_ROOM, PARTITIONS = 8192, 256, 64, 256, 3
LINE_ROOM = 32768  # a line with its line feed
UNTOUCHED = 7777

FIELDS = {b"catalogue": ("bytes",), b"bytes": (U64, "bytes"), b"epoch": (U64, I16), b"sequence": (U64, U64, I32), b"open": (U64, U64, I32, I64, I64),
          b"init": (U64, "bytes", I32, I64), b"add": (U64, "bytes", I64, I16, U64, I64), b"end": (U64, "bytes", I64, I16, U64, I64),
          b"tick": (U64, I64), b"flush": (U64,), b"order": (U64,), b"ack": (U64, U64, I64, I16, U64),
          b"partition": (U64, U64), b"produce": (U64, U64, "bytes", I64, I16, U64, I32, U64),
          b"marker": (U64, U64, U64, I64, I16, U64, I32), b"read": (U64, U64, U64, U64), b"log": (U64, U64), b"words": (U64, U64, U64)}
DASH = {b"init", b"tick", b"order"}  # those that write `-` for none


class NoLine(Exception):
    """A line that is answered with `?`."""


def part(store, start, count):
    """The bounds of a part of a store."""
    if start + count > len(store):
        raise NoLine
    return slice(start, start + count)


class Stores:
    def __init__(self):
        self.log, self.text = bytearray(LOG_ROOM), b"scan\t2\ncert\t1\n"
        self.words, self.out = [[0] * WORDS_ROOM for _ in range(PARTITIONS)], []
        self.partitions = [Partition(WORDS_ROOM) for _ in range(PARTITIONS)]
        self.coordinator = opening(self.text, self.log, 0, 1, 1000, 1999)

    # ---- Lines that are no calls: what stands behind the word.

    def catalogue(self, text):
        if len(text) > TEXT_ROOM:
            raise NoLine
        self.text = text.replace(b":", b"\t").replace(b",", b"\n")
        return []

    def bytes(self, start, digits):
        if not re.fullmatch(rb"([0-9a-f]{2})*", digits):
            raise NoLine
        self.log[part(self.log, start, len(digits) // 2)] = bytes.fromhex(digits.decode())
        return []

    def epoch(self, place, epoch):
        if place >= len(self.coordinator.ids) or not 0 <= epoch <= EPOCH_LAST:
            raise NoLine
        self.coordinator.ids[place]["epoch"] = epoch
        return []

    def sequence(self, index, place, sequence):
        if index >= PARTITIONS or place not in self.partitions[index].producers or sequence < 0:
            raise NoLine
        self.partitions[index].producers[place]["last"] = sequence
        return []

    def shown_log(self, start, count):
        return [self.log[part(self.log, start, count)].hex()]

    def shown_words(self, index, start, count):
        if index >= PARTITIONS:
            raise NoLine
        return self.words[index][part(self.words[index], start, count)]

    # ---- Calls of the coordinator.

    def lent(self, count):
        return memoryview(self.log)[part(self.log, 0, count)]

    def opened(self, lent, length, epoch, first, last):
        self.coordinator = opening(self.text, self.lent(lent), length, epoch, first, last)
        return []

    def coordinator_call(self, word, values):
        c = self.coordinator
        if word == b"open":
            return self.opened(*values)
        if word in (b"flush", b"order"):
            return getattr(c, word.decode())(*values)
        return getattr(c, "end_transaction" if word == b"end" else word.decode())(self.lent(values[0]), *values[1:])

    def coordinator_holds(self):
        return [self.coordinator.end, self.coordinator.flushed, self.coordinator.clock]

    # ---- Calls of a partition.

    def reading(self, p, words, start, room):
        if room > OUT_ROOM:
            raise NoLine
        self.out = [UNTOUCHED] * room
        return p.read(words, start, self.out)

    def partition_call(self, word, index, lent, *values):
        self.out = []
        if index >= PARTITIONS:
            raise NoLine
        bounds = part(self.words[index], 0, lent)
        p, words, results = self.partitions[index], self.words[index][bounds], []
        if word == b"partition":
            self.partitions[index] = Partition(lent)
        elif word == b"produce":
            results = p.produce(self.coordinator, words, *values)
        elif word == b"marker":
            results = p.marker(words, *values)
        else:
            results = self.reading(p, words, *values)
        self.words[index][bounds] = words
        return results

    def partition_holds(self, index):
        p = self.partitions[index]
        return [p.end, p.coordinator, p.stable_end()] + self.out

    # ---- All of them.

    def called(self, word, values):
        """0 or the number of the refusal, the results, and what is then held."""
        own = word in (b"partition", b"produce", b"marker", b"read")
        try:
            results = self.partition_call(word, *values) if own else self.coordinator_call(word, values)
            answer = [0] + (results or ["-"] * (word in DASH))
        except Refused as refusal:
            answer = list(refusal.args)
        return answer + (self.partition_holds(values[0]) if own else self.coordinator_holds())

    def answer(self, line):
        """The output line of a line, both without their LF."""
        word, *fields = line.split(b" ")
        if len(line) >= LINE_ROOM:
            return b"?"
        if line[:1] in (b"", b"#"):
            return line
        values = values_of(FIELDS[word], fields) if word in FIELDS else None
        shown = {b"catalogue": self.catalogue, b"bytes": self.bytes, b"epoch": self.epoch, b"sequence": self.sequence, b"log": self.shown_log, b"words": self.shown_words}
        try:
            if values is None:
                raise NoLine
            answer = shown[word](*values) if word in shown else self.called(word, values)
        except NoLine:
            return b"?"
        return b"\t".join([word] + [str(field).encode() for field in answer])


def lines_of(text):
    """The lines of a text, of which the last may have no line feed."""
    lines = text.split(b"\n")
    return lines[:-1] if lines[-1] == b"" else lines


def main():
    stores = Stores()
    for line in lines_of(sys.stdin.buffer.read()):
        sys.stdout.buffer.write(stores.answer(line) + b"\n")


if __name__ == "__main__":
    main()
