#!/usr/bin/env python3
"""Says what rigrace should answer, from document 02, 14, and not from the proved code: every move of both sides is tried, over the set of partitions.

    tools/race.py < LINES           # the answer line of each line
    tools/race.py --boards          # the lines of all boards inside the numbers
    tools/race.py --rule NAME       # how many answers change where one rule of the game is another; NAME is one of RULES

A line is `race N T R B`: partitions, rounds until the timeout, rounds and blocks. Fields and numbers are as in the lines of rigrun.
"""
import re
import sys
from functools import cache
from itertools import product
from typing import NamedTuple

from commands import lines
from fields import U64, values_of
from rigrun import LINE_ROOM

PARTITIONS, COUNTS = range(1, 7), range(13)
LOG, NO_BLOCK = "log", "no block"  # what the line may choose in a round, beside a partition


class Position(NamedTuple):
    """Where a play stands when a round begins: so many rounds are left in all, and so many until the timeout, fewer than 0 behind it."""
    partitions: int
    unserved: frozenset
    ended: bool
    rounds: int
    until: int
    blocks: int
    blocked_before: object = NO_BLOCK  # what the last round blocked, where a rule asks for it


class Move(NamedTuple):
    """What the bench does in a round: it ends the run, carries an order to a partition, or neither."""
    ends: bool = False
    carries: int | None = None


# ---- The game.

class Game:
    """The rules of document 02, 14. Each class below changes one of them."""

    def start(self, partitions, timeout, rounds, blocks):
        return Position(partitions, frozenset(range(partitions)), False, rounds, timeout, blocks)

    def choices(self, p):
        """What the line may choose: "may spend one block on the log or on one partition"."""
        return [NO_BLOCK, LOG, *range(p.partitions)] if p.blocks > 0 else [NO_BLOCK]

    def blocked(self, p, choice):
        """What is blocked in the round: "for that round"."""
        return {choice}

    def may_end(self, p):
        """The rounds "from 0, below the timeout"; a run that is not ended by then is aborted, and the bench can only wait."""
        return not p.ended and p.until > 0

    def may_carry(self, p):
        """Orders are carried "once ended"."""
        return p.ended

    def moves(self, p):
        """The moves of the bench where nothing is blocked."""
        ends = [Move(ends=True)] if self.may_end(p) else []
        carries = [Move(carries=partition) for partition in p.unserved] if self.may_carry(p) else []
        return [Move(), *ends, *carries]

    def allowed(self, p, choice, move):
        """Whether a move needs nothing that is blocked: "log unblocked", "an unblocked partition"."""
        blocked = self.blocked(p, choice)
        return not (move.ends and LOG in blocked) and move.carries not in blocked

    def after(self, p, choice, move):
        """The position behind a round."""
        return p._replace(unserved=p.unserved - {move.carries}, ended=p.ended or move.ends, rounds=p.rounds - 1, until=p.until - 1,
                          blocks=p.blocks - (choice != NO_BLOCK))

    def round_forced(self, p):
        """Whether the bench can force a commit from a round on: for each choice of the line it has a move."""
        return all(any(self.forced(self.after(p, choice, move)) for move in self.moves(p) if self.allowed(p, choice, move)) for choice in self.choices(p))

    @cache
    def forced(self, p):
        """Whether the bench can force a completed commit in the rounds left."""
        return p.ended and not p.unserved if p.rounds == 0 else self.round_forced(p)

    def answer(self, board):
        return self.forced(self.start(*board))


# ---- One rule changed.

class EndInTheRoundOfTheTimeout(Game):
    def may_end(self, p):
        return not p.ended and p.until >= 0


class EndAndCarryInOneRound(Game):
    def moves(self, p):
        both = [Move(ends=True, carries=partition) for partition in p.unserved] if self.may_end(p) else []
        return super().moves(p) + both


class BlockThatLasts(Game):
    """A block is for the next round too."""

    def blocked(self, p, choice):
        return {choice, p.blocked_before}

    def after(self, p, choice, move):
        return super().after(p, choice, move)._replace(blocked_before=choice)


class LogThatCannotBeBlocked(Game):
    def choices(self, p):
        return [choice for choice in super().choices(p) if choice != LOG]


class LastRoundIgnored(Game):
    def start(self, partitions, timeout, rounds, blocks):
        return super().start(partitions, timeout, max(rounds - 1, 0), blocks)


class BenchMovesFirst(Game):
    """The bench's move must be allowed whatever the line then chooses."""

    def round_forced(self, p):
        safe = [move for move in self.moves(p) if all(self.allowed(p, choice, move) for choice in self.choices(p))]
        return any(all(self.forced(self.after(p, choice, move)) for choice in self.choices(p)) for move in safe)


class BenchMovesFirstAndMayLose(Game):
    """The bench may try any move, and one that the line then blocks is lost."""

    def after(self, p, choice, move):
        return super().after(p, choice, move if self.allowed(p, choice, move) else Move())

    def round_forced(self, p):
        return any(all(self.forced(self.after(p, choice, move)) for choice in self.choices(p)) for move in self.moves(p))


class CarryBeforeTheEnd(Game):
    def may_carry(self, p):
        return True


class BlockNotUsedUp(Game):
    def after(self, p, choice, move):
        return super().after(p, choice, move)._replace(blocks=p.blocks)


RULES = {
    "end_in_the_round_of_the_timeout": EndInTheRoundOfTheTimeout,
    "end_and_carry_in_one_round": EndAndCarryInOneRound,
    "block_that_lasts": BlockThatLasts,
    "log_that_cannot_be_blocked": LogThatCannotBeBlocked,
    "last_round_ignored": LastRoundIgnored,
    "bench_moves_first": BenchMovesFirst,
    "bench_moves_first_and_may_lose": BenchMovesFirstAndMayLose,
    "carry_before_the_end": CarryBeforeTheEnd,
    "block_not_used_up": BlockNotUsedUp,
}


# ---- Boards and lines.

def boards():
    """All boards inside the numbers."""
    return product(PARTITIONS, COUNTS, COUNTS, COUNTS)


def board_line(board):
    return b"race %d %d %d %d" % tuple(board)


def board_of(line):
    """The four numbers of a line, or nothing if it is no request."""
    word, *fields = re.split(rb"[\t ]", line)
    return values_of((U64,) * 4, fields) if len(line) < LINE_ROOM and word == b"race" else None


def answer(game, line):
    """The output line of a line, both without their LF."""
    board = board_of(line)
    if board is None:
        return b"?\t-"
    partitions, *counts = board
    if partitions not in PARTITIONS or any(count not in COUNTS for count in counts):
        return b"race\t30"
    return b"race\t0\t%d" % game.answer(board)


def output(text):
    """What rigrace should write for a text."""
    game = Game()
    return b"".join(answer(game, line) + b"\n" for line in lines(text))


def changes(name):
    """How many answers are others where a rule is another, and the first board with another answer."""
    true, other = Game(), RULES[name]()
    changed = [board for board in boards() if true.answer(board) != other.answer(board)]
    won = sum(other.answer(board) for board in changed)
    first = f", the first at {board_line(changed[0]).decode()}" if changed else ""
    return f"{name}: {len(changed)} of {len(list(boards()))} answers change, {won} to yes and {len(changed) - won} to no{first}"


def main():
    match sys.argv[1:]:
        case []:
            sys.stdout.buffer.write(output(sys.stdin.buffer.read()))
        case ["--boards"]:
            sys.stdout.buffer.write(b"".join(board_line(board) + b"\n" for board in boards()))
        case ["--rule", name] if name in RULES:
            print(changes(name))
        case _:
            sys.exit(f"{__doc__}\nRULES: {', '.join(RULES)}")


if __name__ == "__main__":
    main()
