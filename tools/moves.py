#!/usr/bin/env python3
"""Writes what crates/print_moves should print, from document 01 and not from the proved code.

    tools/moves.py > crates/print_moves/stdout
"""
NAMES = ["EMPTY", "BEGIN", "PREPARE_COMMIT", "PREPARE_ABORT", "COMPLETE_COMMIT", "COMPLETE_ABORT"]
WIDTH = 19


def after(held):
    """The statuses that may follow, by document 01's "Succession for one name"."""
    if held in (0, 4, 5):
        return {0, 1}
    if held == 1:
        return {1, 2, 3}
    return {4} if held == 2 else {5}


def line(cells):
    print("".join(cell.rjust(WIDTH) for cell in cells))


def main():
    headings = [f"{code} {name}" for code, name in enumerate(NAMES)]
    line(["", *headings])
    for held, heading in enumerate(headings):
        line([heading, *("may follow" if new in after(held) else "-" for new in range(len(NAMES)))])


if __name__ == "__main__":
    main()
