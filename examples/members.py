#!/usr/bin/env python3
"""A list from a CSV file into a spreadsheet and back to CSV, by Python's standard library.

Values are written RAW, so each field stays the text that it is: a phone number keeps its leading zero. Another member
is appended on the server; then the list is printed as CSV.

Start the server first, then run this in another terminal:

    ./sheets serve --port 8080 --limit 100
    python3 examples/members.py [URL [FILE]]    # http://127.0.0.1:8080 and examples/members.csv where not given
"""

import csv
import sys
from pathlib import Path

from client import LOCAL, User, expect

NEW = ["Turing, Alan", "alan@example.com", "", "2026-02-02", "30"]


def filled(rows):
    """Rows as long as the first one: a read leaves out the empty fields at the end of a row."""
    return [row + [""] * (len(rows[0]) - len(row)) for row in rows]


def main(base=LOCAL, file=str(Path(__file__).with_name("members.csv"))):
    with open(file, newline="", encoding="utf-8") as source:
        rows = [row for row in csv.reader(source) if row]
    clerk = User(base, "clerk")
    book = clerk.create("Members", "List")
    if len(rows) >= 1000:
        size = {"sheetId": 0, "gridProperties": {"rowCount": len(rows)}}
        clerk.batch(book, {"updateSheetProperties": {"properties": size, "fields": "gridProperties.rowCount"}})
    clerk.write(book, "List!A1", rows, "RAW")
    clerk.append(book, "List", [NEW], "RAW")

    back = filled(clerk.read(book, "List"))
    csv.writer(sys.stdout, lineterminator="\n").writerows(back)
    expect(back, filled([*rows, NEW]))


if __name__ == "__main__":
    main(*sys.argv[1:])
