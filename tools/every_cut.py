#!/usr/bin/env python3
"""Says what every_cut should print for a script, from document 01 and not from the proved code.

    tools/every_cut.py < SCRIPT

The script is run as rigrun runs it. Then its log is cut at every length from the flushed one to the end, each time on a copy of everything, opened
and carried to the end with all partitions up. A line has the length and what is read at each position; the last one has how many lengths and outcomes.
"""
import copy
import sys

from frames import STATUS
from model import PREPARES
from rigrun import POSITIONS, Session

ALL_UP = 2**64 - 1
COMPLETES = (STATUS["COMPLETE_COMMIT"], STATUS["COMPLETE_ABORT"])


def followed(coordinator):
    """The names whose latest flushed record is a prepare: it is their latest record, or their complete record behind it is not flushed."""
    return [r["name"] for r in coordinator.ids if r["status"] in (COMPLETES if coordinator.unflushed(r) else PREPARES)]


def carried(session, left):
    """The session after a cut that leaves so many bytes past the flushed length, with everything carried."""
    after = copy.deepcopy(session)
    after.cut(left)
    while after.carry(ALL_UP):
        after.flush()
    return after


def report(session):
    """The output lines, without their LF."""
    names, flushed = followed(session.coordinator), session.coordinator.flushed
    lines, outcomes = [], set()
    for length in range(flushed, session.coordinator.end + 1):
        after = carried(session, length - flushed)
        statuses = {r["name"]: r["status"] for r in after.coordinator.ids}
        outcomes.add(tuple(statuses[name] for name in names))
        fields = [length] + [field for p in POSITIONS for field in [p] + (after.read(p) or ["-"])]
        lines.append("\t".join(map(str, fields)))
    return lines + [f"lengths\t{len(lines)}\toutcomes\t{len(outcomes)}"]


def run(lines):
    """The session after the lines of a script."""
    session = Session()
    for line in lines:
        session.answer(line)
    return session


def main():
    print("\n".join(report(run(sys.stdin.buffer.read().split(b"\n")))))


if __name__ == "__main__":
    main()
