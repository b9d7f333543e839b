#!/usr/bin/env python3
"""Four requests by Python's standard library on one connection: bo appends a row to the table in the columns A to C,
reads the table, and protects its first row; ada may not write into that row, and is refused.

Start the server first, then run this in another terminal:

    ./sheets serve --port 8080 --limit 1
    python3 examples/serve.py [URL]    # URL is http://127.0.0.1:8080 where it isn't given

After the connection the server prints three lines and ends.
"""

import http.client
import json
import sys
from urllib.parse import urlsplit

BOOK = "/v4/spreadsheets/book1"


def ask(connection, wanted, user, method, target, value=None):
    """Prints the status and the value that a user's request is answered with; the status has to be the wanted one."""
    body = None if value is None else json.dumps(value)
    connection.request(method, BOOK + target, body, {"Authorization": "Bearer " + user})
    response = connection.getresponse()
    print(response.status, json.load(response))
    if response.status != wanted:
        sys.exit(f"wanted: status {wanted}")


def main(base="http://127.0.0.1:8080"):
    connection = http.client.HTTPConnection(urlsplit(base).netloc)
    row = {"sheetId": 0, "startRowIndex": 0, "endRowIndex": 1}
    protect = {"requests": [{"addProtectedRange": {"protectedRange": {"range": row}}}]}
    append = "/values/Sheet1!A:C:append?valueInputOption=RAW"
    ask(connection, 200, "bo", "POST", append, {"values": [["Cy", 3, 7]]})
    ask(connection, 200, "bo", "GET", "/values/Sheet1!A:C")
    ask(connection, 200, "bo", "POST", ":batchUpdate", protect)
    ask(connection, 403, "ada", "PUT", "/values/Sheet1!A1?valueInputOption=RAW", {"values": [["Ada"]]})
    connection.close()


if __name__ == "__main__":
    main(*sys.argv[1:])
