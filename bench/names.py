#!/usr/bin/env python3
"""Pipes requests through the built program beside no named ranges and beside as many as a spreadsheet can have,
and prints the time of each with their ratios: a row inserted and deleted at the top, by itself and in a batch of a
hundred.

    ./sheets run < examples/first.http    # builds the program
    python3 bench/names.py
"""

from batch import DELETED, INSERTED
from client import batch, seconds

NAMES = 2_000


def named(number):
    """A request that adds a named range with an id and a name of its own, on one of the sheet's first rows."""
    row = number % 900 + 10
    return {
        "addNamedRange": {
            "namedRange": {
                "namedRangeId": f"own{number}",
                "name": f"name{number}",
                "range": {"startRowIndex": row, "endRowIndex": row + 1},
            }
        }
    }


def beside(name, request, count, each):
    """Prints what a thing takes of which the request does so many, beside no named ranges and beside all."""
    most = batch(*(named(number) for number in range(NAMES)))
    figures = [seconds(before, request, count) / (count * each) for before in (b"", most)]
    print(
        f"{name}: {figures[0] * 1e6:.1f} microseconds beside none, {figures[1] * 1e6:.1f} beside {NAMES}:"
        f" ratio {figures[1] / figures[0]:.1f}"
    )


def main():
    beside("a row inserted at the top and deleted", batch(INSERTED, DELETED), 1_000, 1)
    beside("the same in a batch of 100", batch(*[INSERTED, DELETED] * 100), 20, 100)


if __name__ == "__main__":
    main()
