#!/usr/bin/env python3
"""Pipes requests through the built program beside no protected ranges and beside as many as a spreadsheet can
have, and prints the time of each with their ratios: a user's write of one cell that none of them has, the same
where each covers it but leaves it open among many unprotected ranges, and a row inserted and deleted. Then it prints
what it takes to find that a user may edit an area all of whose cells are unprotected, with few ranges and with many
that don't overlap, and with such that cross.

    ./sheets run < examples/first.http    # builds the program
    python3 bench/protections.py
"""

from batch import DELETED, INSERTED
from client import COLUMNS, OWNER, batch, put, seconds

PROTECTIONS = 500
OPENED = 40
USER = "bob"
COLUMNS_MORE = {"appendDimension": {"sheetId": 0, "dimension": "COLUMNS", "length": 474}}
BATCHES = 10


def of_row(row):
    """A protected range of one row."""
    return {"range": {"startRowIndex": row, "endRowIndex": row + 1}}


def opened(row):
    """A protected range of a whole sheet that leaves the first cell open, and rows of the last column."""
    ranges = [{"startRowIndex": 0, "endRowIndex": 1, "startColumnIndex": 0, "endColumnIndex": 1}]
    for number in range(1, OPENED):
        place = (row + number) % 999
        ranges.append(
            {"startRowIndex": place, "endRowIndex": place + 1, "startColumnIndex": 25, "endColumnIndex": 26}
        )
    return {"range": {"sheetId": 0}, "unprotectedRanges": ranges}


def added(shape):
    """A batch that adds all protected ranges of the shape."""
    rows = range(1, PROTECTIONS + 1)
    return batch(*({"addProtectedRange": {"protectedRange": shape(row)}} for row in rows))


def beside(name, shape, request, count, each):
    """Prints what a thing takes of which the request does so many, beside no protected ranges and beside all."""
    figures = [seconds(before, request, count) / (count * each) for before in (b"", added(shape))]
    print(
        f"{name}: {figures[0] * 1e6:.1f} microseconds beside none, {figures[1] * 1e6:.1f} beside {PROTECTIONS}:"
        f" ratio {figures[1] / figures[0]:.1f}"
    )


def tiles(count):
    """So many unprotected ranges that don't overlap, ten in a row, and the area that they make."""
    edges = [COLUMNS * tenth // 10 for tenth in range(11)]
    ranges = [
        {"startRowIndex": row, "endRowIndex": row + 1, "startColumnIndex": start, "endColumnIndex": end}
        for row in range(count // 10)
        for start, end in zip(edges, edges[1:])
    ]
    return ranges, {"startRowIndex": 0, "endRowIndex": count // 10, "startColumnIndex": 0, "endColumnIndex": COLUMNS}


def crossing(count):
    """So many unprotected ranges, one half of them columns and the other half every second row, each of which crosses
    all columns, and the area that they make."""
    half = count // 2
    tall = [{"startColumnIndex": col, "endColumnIndex": col + 1} for col in range(half)]
    wide = [
        {"startRowIndex": 2 * row, "endRowIndex": 2 * row + 1, "startColumnIndex": 0, "endColumnIndex": half}
        for row in range(half)
    ]
    return tall + wide, {"startRowIndex": 0, "endRowIndex": 2 * half, "startColumnIndex": 0, "endColumnIndex": half}


def denial(shape, count, each):
    """How many seconds it takes to find that so many unprotected ranges have all cells of their area: what a batch
    of so many requests that change nothing in it takes a user who is no editor, less what it takes the owner."""
    ranges, area = shape(count)
    protected = {"protectedRange": {"range": {"sheetId": 0}, "unprotectedRanges": ranges}}
    before = batch(COLUMNS_MORE, {"addProtectedRange": protected})
    asked = [{"unmergeCells": {"range": area}}] * each
    figures = [seconds(before, batch(*asked, user=user), BATCHES) for user in (USER, OWNER)]
    return (figures[0] - figures[1]) / (BATCHES * each)


def denials(name, shape, *asked):
    """Prints what a look at unprotected ranges takes, for each count of them with so many looks in a batch, and its
    ratio to what the first count takes."""
    first = None
    for count, each in asked:
        figure = denial(shape, count, each)
        first = first or figure
        ratio = figure / first
        print(f"a look at {count} unprotected ranges {name}: {figure * 1e6:.1f} microseconds: ratio {ratio:.1f}")


def main():
    write = put("A1", [[7]], user=USER)
    beside("a write of one cell beside rows that are protected", of_row, write, 10_000, 1)
    beside(f"the same beside sheets with {OPENED} unprotected ranges", opened, write, 1_000, 1)
    beside("a row inserted at the top and deleted", of_row, batch(INSERTED, DELETED), 1_000, 1)
    beside("the same in a batch of 100", of_row, batch(*[INSERTED, DELETED] * 100), 20, 100)
    denials("that don't overlap", tiles, (100, 1_000), (1_000, 100), (10_000, 20))
    denials("that cross", crossing, (100, 200), (1_000, 5))


if __name__ == "__main__":
    main()
