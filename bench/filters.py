#!/usr/bin/env python3
"""Pipes requests through the built program and prints what a look at the rows takes that a basic filter hides, beside
few hidden values and beside many, in few rows and in many, and by a condition with a short text and with a long one, with
the ratios.

    ./sheets run < examples/first.http    # builds the program
    python3 bench/filters.py
"""

from client import BOOK, OWNER, batch, filled, head, numbers, put, seconds

ROWS = 1_000
TALL = 100_000
SHORT = 5
LONG = 50_000
LOOK = f"GET {BOOK}?includeGridData=true {head(OWNER)}\r\n".encode()


def filter_of(rows, criterion):
    """A batch that sets a filter on so many rows with the criterion for its first column."""
    area = {"startRowIndex": 0, "endRowIndex": rows, "startColumnIndex": 0, "endColumnIndex": 1}
    return batch({"setBasicFilter": {"filter": {"range": area, "criteria": {"0": criterion}}}})


def hiding(values):
    """A criterion that hides so many values, none of which a cell shows."""
    return {"hiddenValues": [f"v{number}" for number in range(values)]}


def asking(kind, length):
    """A criterion whose condition is of the kind, with a text of so many letters, which no cell shows."""
    return {"condition": {"type": kind, "values": [{"userEnteredValue": "A" * length}]}}


def tall_sheet():
    """Writes to a sheet that has a number in the first cell of each of many rows then."""
    size = {"properties": {"gridProperties": {"rowCount": TALL}}, "fields": "gridProperties.rowCount"}
    return batch({"updateSheetProperties": size}) + put(f"A1:A{TALL}", numbers(TALL, 1))


def look(rows, values):
    """How many seconds a look takes."""
    count = 2_000_000 // (values + 10_000)
    return seconds(filled(f"A1:Z{ROWS}", ROWS) + filter_of(rows, hiding(values)), LOOK, count) / count


def tall_look(kind, length):
    """How many seconds a look at the tall sheet takes whose filter has a condition of the kind."""
    count = 10
    return seconds(tall_sheet() + filter_of(TALL, asking(kind, length)), LOOK, count) / count


def main():
    few = look(ROWS, 10)
    for values in (1_000, 100_000):
        many = look(ROWS, values)
        print(
            f"{ROWS} rows: {few * 1e3:.2f} milliseconds beside 10 hidden values, {many * 1e3:.2f} beside {values}:"
            f" ratio {many / few:.1f}"
        )
    short = look(100, 1_000)
    tall = look(ROWS, 1_000)
    print(f"1,000 hidden values: {short * 1e3:.2f} milliseconds in 100 rows, {tall * 1e3:.2f} in {ROWS}: ratio {tall / short:.1f}")
    for kind in ("TEXT_CONTAINS", "TEXT_NOT_CONTAINS"):
        short = tall_look(kind, SHORT)
        long = tall_look(kind, LONG)
        print(
            f"{TALL} rows, {kind}: {short * 1e3:.2f} milliseconds beside a text of {SHORT} bytes, {long * 1e3:.2f} beside"
            f" one of {LONG}: ratio {long / short:.1f}"
        )


if __name__ == "__main__":
    main()
