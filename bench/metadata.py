#!/usr/bin/env python3
"""Pipes requests through the built program beside few items of developer metadata and beside as many as a
spreadsheet can have, and prints the time of each with their ratios: a search by a key that one item has, alone and
as each of ten filters, a look at one item by its id, a row inserted and deleted at the top, and an item created and
deleted again.

    ./sheets run < examples/first.http    # builds the program
    python3 bench/metadata.py
"""

from batch import DELETED, INSERTED
from client import BOOK, OWNER, batch, head, seconds, sent

FEW = 100
MOST = 10_000


def item(number):
    """A request that creates an item with a key of its own, on one of the sheet's first rows."""
    row = number % 900 + 10
    rows = {"sheetId": 0, "dimension": "ROWS", "startIndex": row, "endIndex": row + 1}
    return {
        "createDeveloperMetadata": {
            "developerMetadata": {
                "metadataId": number,
                "metadataKey": f"key{number}",
                "location": {"dimensionRange": rows},
                "visibility": "DOCUMENT",
            }
        }
    }


def items(count):
    """A batch that creates so many items; none where it is none."""
    return batch(*(item(number) for number in range(1, count + 1))) if count else b""


def by_key(key):
    """A filter that finds the items with the key."""
    return {"developerMetadataLookup": {"metadataKey": key}}


def search(*keys):
    """A search for the items with the keys."""
    return sent("POST", f"{BOOK}/developerMetadata:search", {"dataFilters": [by_key(key) for key in keys]})


def look(number):
    """A look at the item with the id."""
    return f"GET {BOOK}/developerMetadata/{number} {head(OWNER)}\r\n".encode()


def beside(name, request, count, few, most, each=1):
    """Prints what a thing takes of which the request does so many, beside few items and beside many."""
    figures = [seconds(items(number), request, count) / (count * each) for number in (few, most)]
    print(
        f"{name}: {figures[0] * 1e6:.1f} microseconds beside {few}, {figures[1] * 1e6:.1f} beside {most}:"
        f" ratio {figures[1] / figures[0]:.1f}"
    )


def main():
    gone = {"deleteDeveloperMetadata": {"dataFilter": by_key("key0")}}
    beside("a search by a key that one item has", search("key50"), 1_000, FEW, MOST)
    beside("a search by ten such keys", search(*(f"key{number}" for number in range(1, 11))), 200, FEW, MOST)
    beside("a look at an item", look(50), 10_000, FEW, MOST)
    beside("a row inserted at the top and deleted", batch(INSERTED, DELETED), 1_000, 0, MOST)
    beside("the same in a batch of 100", batch(*[INSERTED, DELETED] * 100), 20, 0, MOST, 100)
    beside("an item created with its id and deleted", batch(item(0), gone), 200, 0, MOST - 1)


if __name__ == "__main__":
    main()
