#!/usr/bin/env python3
"""An office's budget in whole numbers, by Python's standard library.

The treasurer makes a list of items with named ranges over its columns, and formulas that sum them. A batch that inserts
an item is refused whole, since one of its amounts has a fraction. With whole amounts it is made whole: the named ranges
and the sums follow.

Start the server first, then run this in another terminal:

    ./sheets serve --port 8080 --limit 100
    python3 examples/budget.py [URL]        # URL is http://127.0.0.1:8080 where it isn't given
"""

import sys

from client import LOCAL, User, cells, expect, show

ITEMS = [["Hall", 400, 380], ["Band", 600, 650], ["Food", 300, 240]]


def column(at):
    """The rows of the items in a column, as a GridRange."""
    return {"sheetId": 0, "startRowIndex": 1, "endRowIndex": 4, "startColumnIndex": at, "endColumnIndex": at + 1}


def new_item(name, planned, spent):
    """The two requests that insert an item below the third row and enter its values."""
    return (
        {"insertDimension": {"range": {"sheetId": 0, "dimension": "ROWS", "startIndex": 3, "endIndex": 4}}},
        {
            "updateCells": {
                "start": {"sheetId": 0, "rowIndex": 3},
                "rows": cells([name, planned, spent]),
                "fields": "userEnteredValue",
            }
        },
    )


def main(base=LOCAL):
    treasurer = User(base, "treasurer")
    book = treasurer.create("Budget", "Items", "Sums")
    treasurer.write(book, "Items!A1", [["Item", "Planned", "Spent"], *ITEMS])
    treasurer.batch(
        book,
        {"addNamedRange": {"namedRange": {"name": "planned", "range": column(1)}}},
        {"addNamedRange": {"namedRange": {"name": "spent", "range": column(2)}}},
    )
    treasurer.write(
        book,
        "Sums!A1",
        [
            ["Planned", "=SUM(planned)"],
            ["Spent", "=SUM(spent)"],
            ["Left", "=B1-B2"],
            ["Dearest", "=INDEX(Items!A2:A,MATCH(MAX(spent),spent,0))"],
            ["State", '=IF(B3<0,"over","within")'],
        ],
    )
    print("The sums:")
    sums = treasurer.read(book, "Sums")
    show(sums)
    expect([row[1] for row in sums], ["1300", "1270", "30", "Band", "within"])

    refused = treasurer.refusal(treasurer.batch, book, *new_item("Posters", 49.5, 0))
    print("A batch with a fraction in it:", refused)
    expect(refused, "400 requests[1]: BadNumber")
    items = treasurer.read(book, "Items", "UNFORMATTED_VALUE")
    expect(items[1:], ITEMS)
    print("Nothing of it was made: the list has", len(items) - 1, "items.")

    treasurer.batch(book, *new_item("Posters", 50, 0))
    expect(treasurer.read(book, "Items", "UNFORMATTED_VALUE")[3], ["Posters", 50, 0])
    print("With whole amounts it was made, and the sums follow:")
    sums = treasurer.read(book, "Sums")
    show(sums)
    expect([row[1] for row in sums], ["1350", "1270", "80", "Band", "within"])
    expect(treasurer.read(book, "planned"), [["400"], ["600"], ["50"], ["300"]])


if __name__ == "__main__":
    main(*sys.argv[1:])
