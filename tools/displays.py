"""Displays of what is left of a prepare (document 02, 11) in random scripts of rigrun, for the scripts beside this file."""
from collections import Counter

from model import PREPARES
from rigrun import parsed


def some_display(chance, coordinator):
    """A line that asks for what is left at a place, mostly at one with a prepare."""
    held = len(coordinator.ids)
    prepared = [place for place, r in enumerate(coordinator.ids) if r["status"] in PREPARES]
    return b"left %d" % chance.choice(prepared * 6 + list(range(held)) + [held, chance.choice((31, 32, 2**32, 2**64 - 1))])


class Displays:
    """Counts displays, and those among them that a wrong count would answer otherwise."""

    def __init__(self):
        self.asked, self.prepares, self.remembered = 0, Counter(), {}

    def note(self, line, coordinator):
        """Looks at a line of a script before it is answered."""
        prepares = {place: r for place, r in enumerate(coordinator.ids) if r["status"] in PREPARES}
        # by place, what is acknowledged for one who trusts acknowledgements from before a cut
        self.remembered = {place: self.remembered.get(place, 0) | r["acknowledged"] for place, r in prepares.items()}
        word, values = parsed(line) or (None, [])
        if word != b"left":
            return
        self.asked += 1
        for place in prepares.keys() & set(values):
            r = prepares[place]
            self.prepares.update(all=1, unflushed=coordinator.unflushed(r), begun=r["acknowledged"] != 0, forgotten=r["acknowledged"] != self.remembered[place])

    def __str__(self):
        n = self.prepares
        return (f"{self.asked} displays, {n['all']} of them nonzero: {n['unflushed']} before the prepare's flush, {n['begun']} below the number of partitions "
                f"listed, {n['forgotten']} above what acknowledgements from before a cut would leave")


def completed_as_told(lines):
    """How many transactions the last of exactly as many orders completed as the latest display had told, with no cut between, up to the first line
    of which this is not so; and the number of that line, or nothing."""
    told, length, completed = {}, 0, 0
    for at, (line, answer) in enumerate(lines, 1):
        word, number, log, _, *results = answer.split(b"\t")
        grown, length = int(log) > length, int(log)
        place = int(results[0]) if word == b"carry" and results not in ([], [b"-"]) else None
        if word == b"left":
            told[parsed(line)[1][0]] = int(results[0])
        elif (word, number) == (b"cut", b"0"):
            told.clear()
        elif told.get(place):
            told[place] -= 1
            if grown != (told[place] == 0):
                return completed, at
            completed += grown
    return completed, None
