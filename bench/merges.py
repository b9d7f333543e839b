#!/usr/bin/env python3
"""Pipes requests through the built program beside no merges and beside as many as a sheet can have, and prints
the time of each with their ratios: a row inserted and deleted, a write of one cell, an update of one cell in a
batch of a thousand, and cells that are merged and unmerged, by themselves and in a batch of a thousand.

    ./sheets run < examples/first.http    # builds the program
    python3 bench/merges.py
"""

from batch import DELETED, INSERTED
from client import batch, put, seconds

MERGES = 10_000
TALL = {"appendDimension": {"sheetId": 0, "dimension": "ROWS", "length": MERGES - 1_000}}
PAIRS = {"mergeCells": {"range": {"startColumnIndex": 0, "endColumnIndex": 2}, "mergeType": "MERGE_ROWS"}}
# one of them less, so that another one can be made
LEFT = {
    "unmergeCells": {
        "range": {
            "startRowIndex": MERGES - 1,
            "endRowIndex": MERGES,
            "startColumnIndex": 0,
            "endColumnIndex": 2,
        }
    }
}
PAIR = {"startRowIndex": 0, "endRowIndex": 1, "startColumnIndex": 3, "endColumnIndex": 5}
MERGED = {"mergeCells": {"range": PAIR, "mergeType": "MERGE_ALL"}}
UNMERGED = {"unmergeCells": {"range": PAIR}}
UPDATED = {
    "updateCells": {
        "start": {"sheetId": 0, "rowIndex": 0, "columnIndex": 3},
        "rows": [{"values": [{"userEnteredValue": {"numberValue": 7}}]}],
        "fields": "userEnteredValue",
    }
}


def beside(name, request, count, each):
    """Prints what a thing takes of which the request does so many, beside no merges and beside all."""
    figures = []
    for before in (batch(TALL), batch(TALL, PAIRS, LEFT)):
        figures.append(seconds(before, request, count) / (count * each))
    print(
        f"{name}: {figures[0] * 1e6:.1f} microseconds beside no merges, {figures[1] * 1e6:.1f} beside"
        f" {MERGES - 1}: ratio {figures[1] / figures[0]:.1f}"
    )


def main():
    beside("a row inserted at the top and deleted", batch(INSERTED, DELETED), 1_000, 1)
    beside("the same in a batch of 100", batch(*[INSERTED, DELETED] * 100), 20, 100)
    beside("a write of one cell", put("D1", [[7]]), 10_000, 1)
    beside("an update of one cell in a batch of 1000", batch(*[UPDATED] * 1_000), 50, 1_000)
    beside("cells merged and unmerged", batch(MERGED, UNMERGED), 1_000, 1)
    beside("the same in a batch of 500", batch(*[MERGED, UNMERGED] * 500), 4, 500)


if __name__ == "__main__":
    main()
