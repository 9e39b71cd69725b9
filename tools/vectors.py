#!/usr/bin/env python3
"""Writes what crates/vectors should print, from document 01 and not from the proved code.

    tools/vectors.py > crates/vectors/stdout
"""
from frames import NAME_MAX, STATUS, catalogue, frame, frame_at, positions


def show_catalogue(text):
    topics = catalogue(text)
    print("catalogue", 5 if topics is None else 0, 0 if topics is None else positions(topics))


def show_reading(answer):
    if answer[0] != "whole":
        print(answer[0])
        return
    r = answer[1]
    fields = [r["pid"], r["epoch"], r["timeout"], r["status"], r["joined"], r["updated"], r["start"]]
    print("whole", answer[2], r["name"].ljust(NAME_MAX, b"\0").hex(), *fields)


def show_frame(topics, r):
    data = frame(topics, r)
    print("frame", len(data), data.hex())
    show_reading(frame_at(topics, data))


def letters(answers):
    print("".join(answer[0][0] for answer in answers))


def show_changes(topics, r):
    data = frame(topics, r)
    letters(frame_at(topics, data[:k]) for k in range(len(data) + 1))
    for i in range(len(data)):
        letters(frame_at(topics, data[:i] + bytes([b]) + data[i + 1:]) for b in range(256))


def record(name, **fields):
    r = {"name": name, "pid": 1000, "epoch": 0, "timeout": 60000, "status": 1, "joined": 0, "updated": 110, "start": 110}
    r.update(fields)
    return r


def main():
    small = catalogue(b"scan\t2\ncert\t1\n")
    full = [(b"topic-%d-aaaaaaaa" % t, 8) for t in range(8)]
    for text in (b"scan\t2\ncert\t1\n", b"".join(b"%c\t8\n" % b for b in b"abcdefgh"), b"Az09._-ABCDEFGHI\t1\n", b"",
                 b"scan\t2\ncert\t1", b"scan\t2\r\n", b"".join(b"%c\t1\n" % b for b in b"abcdefghi"), b"scan\t0\n",
                 b"scan\t9\n", b"ABCDEFGHIJKLMNOPQ\t1\n", b"\t1\n", b"scan\t1\nscan\t2\n", b"sc/n\t1\n"):
        show_catalogue(text)
    empty = record(b"rig7", status=STATUS["EMPTY"], updated=100, start=-1)
    least = record(b"!", pid=0, epoch=-32768, timeout=1, status=STATUS["PREPARE_COMMIT"], joined=2, updated=0, start=-2**63)
    greatest = record(b"~", pid=2**63 - 1, epoch=32767, timeout=900000, status=STATUS["PREPARE_ABORT"], joined=259,
                      updated=2**63 - 1, start=2**63 - 1)
    begun = record(b"rig7", joined=257)
    half, longest = b"building-07.line-0002.rig-00419.", b"building-07.line-0002.rig-00419.quadrupole-3.detector-bench-B-04"
    for r in (empty, record(b"rig7", joined=1), begun, least, greatest, record(half, joined=257), record(half + b"q", joined=257), record(longest, joined=257)):
        show_frame(small, r)
    for name in (half, longest):
        show_frame(full, record(name, joined=2**64 - 1))
    show_changes(small, begun)
    print("end")


main()
