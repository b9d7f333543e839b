#!/usr/bin/env python3
"""Pipes batches through the built program and prints what a request of a batch takes, with ratios: updates of
one cell in a full sheet, in a long batch and in a short one, and inserted rows beside few and many cells and
formulas.

    ./sheets run < examples/first.http    # builds the program
    python3 bench/batch.py
"""

from client import COLUMNS, batch, filled, put, seconds

INSERTED = {
    "insertDimension": {"range": {"sheetId": 0, "dimension": "ROWS", "startIndex": 0, "endIndex": 1}}
}
DELETED = {
    "deleteDimension": {"range": {"sheetId": 0, "dimension": "ROWS", "startIndex": 0, "endIndex": 1}}
}
ROWS_MORE = {"appendDimension": {"sheetId": 0, "dimension": "ROWS", "length": 3_000}}
UPDATES = 100_000
ROWS = 1_000
CHANGES = 1_000
FOLLOWED = 50


def updated(number, apart):
    """A request that writes a number to one cell of its own, in every row that is so far from the one before."""
    place = number * apart
    return {
        "updateCells": {
            "start": {"sheetId": 0, "rowIndex": place % ROWS, "columnIndex": place // ROWS % COLUMNS},
            "rows": [{"values": [{"userEnteredValue": {"numberValue": number}}]}],
            "fields": "userEnteredValue",
        }
    }


def update(full, count, apart):
    """How many seconds an update of one cell takes in batches of so many."""
    asked = batch(*(updated(number, apart) for number in range(count)))
    return seconds(full, asked, UPDATES // count) / UPDATES


def updates(long, short):
    """Prints what an update of one cell takes in a long batch and in a short one, in a sheet of 26,000 cells:
    with the cells of both spread over all of its rows, and with those of the short one in its first rows alone,
    which share what is copied for them."""
    full = filled("A1:Z1000", ROWS)
    spread = update(full, long, ROWS // long)
    few = update(full, short, ROWS // short)
    close = update(full, short, 1)
    print(
        f"an update of one cell: {spread * 1e6:.1f} microseconds in a batch of {long}, {few * 1e6:.1f} in one of"
        f" {short} that is spread as far: ratio {spread / few:.2f}"
    )
    print(
        f"the same beside a batch of {short} in the first rows: {close * 1e6:.1f} microseconds: ratio"
        f" {spread / close:.2f}"
    )


def insertions():
    """Prints what a row takes that is inserted at the top of a sheet of 1,000 cells and of one of 100,000, and is
    deleted again."""
    few = filled("A1:Z38", 38)
    many = batch(ROWS_MORE) + filled("A1:Z3846", 3_846)
    figures = [seconds(before, batch(INSERTED, DELETED), CHANGES) / CHANGES for before in (few, many)]
    print(
        f"a row inserted and deleted: {figures[0] * 1e6:.0f} microseconds beside 988 cells, {figures[1] * 1e6:.0f}"
        f" beside 99996: ratio {figures[1] / figures[0]:.1f}"
    )


def followed():
    """Prints the same beside 1,000 and 10,000 formulas of the sheet that read its first column."""
    figures = []
    for columns in (1, 10):
        end = "BCDEFGHIJK"[columns - 1]
        formulas = [[f"=A{row + 1}"] * columns for row in range(1_000)]
        before = put(f"B1:{end}1000", formulas, option="USER_ENTERED")
        figures.append(seconds(before, batch(INSERTED, DELETED), FOLLOWED) / FOLLOWED)
    print(
        f"the same: {figures[0] * 1e6:.0f} microseconds beside 1000 formulas, {figures[1] * 1e6:.0f} beside 10000:"
        f" ratio {figures[1] / figures[0]:.1f}"
    )


def main():
    updates(1_000, 10)
    insertions()
    followed()


if __name__ == "__main__":
    main()
