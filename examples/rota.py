#!/usr/bin/env python3
"""A club's rota, by Python's standard library.

The secretary makes a spreadsheet of duties and of sign-ups and protects its headers. Two members sign up at once: both
are kept. A member who writes into a header is refused. A duty is inserted, and the formulas below it follow.

Start the server first, then run this in another terminal:

    ./sheets serve --port 8080 --limit 100
    python3 examples/rota.py [URL]          # URL is http://127.0.0.1:8080 where it isn't given
"""

import sys
import threading

from client import LOCAL, User, cells, expect, show


def state(row):
    """The formulas of a duty in a row: how many members signed up for it, and whether it is full."""
    return [f"=COUNTIF('Sign-ups'!A:A,A{row})", f'=IF(D{row}<C{row},"open","full")']


def sign_up(base, book, duty, members):
    """Each member signs up on a connection of their own, all at the same moment; the ranges that were written."""
    written, ready = [], threading.Barrier(len(members))

    def one(member):
        user = User(base, member)
        ready.wait()
        written.append(user.append(book, "'Sign-ups'!A:B", [[duty, member]]))

    threads = [threading.Thread(target=one, args=(member,)) for member in members]
    for thread in threads:
        thread.start()
    for thread in threads:
        thread.join()
    return sorted(written)


def main(base=LOCAL):
    secretary = User(base, "secretary")
    book = secretary.create("Rota", "Rota", "Sign-ups")
    secretary.write(book, "Rota!A1", [["Duty", "Day", "Needed", "Signed up", "State"]])
    secretary.write(book, "Rota!A2", [["Bar", "Sat 6 June", 2, *state(2)], ["Gate", "Sun 7 June", 1, *state(3)]])
    secretary.write(book, "Rota!A4", [["All", None, "=SUM(C2:C3)", "=SUM(D2:D3)"]])
    secretary.write(book, "'Sign-ups'!A1", [["Duty", "Member"]])
    secretary.batch(
        book,
        *(
            {"addProtectedRange": {"protectedRange": {"range": {"sheetId": sheet, "endRowIndex": 1}}}}
            for sheet in (0, 1)
        ),
    )

    written = sign_up(base, book, "Bar", ["ben", "cleo"])
    print("Two members signed up at once, in", " and ".join(written))
    expect(written, ["'Sign-ups'!A2:B2", "'Sign-ups'!A3:B3"])
    expect(sorted(secretary.read(book, "'Sign-ups'!B2:B")), [["ben"], ["cleo"]])

    ben = User(base, "ben")
    refused = ben.refusal(ben.write, book, "Rota!A1", [["Chore"]])
    print("ben writes into the header:", refused)
    expect(refused, "403 Protected 1")

    secretary.batch(
        book,
        {"insertDimension": {"range": {"sheetId": 0, "dimension": "ROWS", "startIndex": 2, "endIndex": 3}}},
        {
            "updateCells": {
                "start": {"sheetId": 0, "rowIndex": 2},
                "rows": cells(["Tidy up", "Sat 6 June", 1, *state(3)]),
                "fields": "userEnteredValue",
            }
        },
    )
    print("A duty was inserted, and the formulas below it follow:")
    formulas = secretary.read(book, "Rota!C4:E5", "FORMULA")
    show([[str(value) for value in row] for row in formulas])
    expect(formulas, [[1, *state(4)], ["=SUM(C2:C4)", "=SUM(D2:D4)"]])
    print("The rota:")
    rota = secretary.read(book, "Rota")
    show(rota)
    expect(
        rota[1:],
        [
            ["Bar", "Sat 6 June", "2", "2", "full"],
            ["Tidy up", "Sat 6 June", "1", "0", "open"],
            ["Gate", "Sun 7 June", "1", "0", "open"],
            ["All", "", "4", "2"],
        ],
    )


if __name__ == "__main__":
    main(*sys.argv[1:])
