"""A small client of the server, in Python's standard library, for the examples beside it."""

import http.client
import json
import sys
from urllib.parse import quote, urlsplit

LOCAL = "http://127.0.0.1:8080"


class Refused(Exception):
    """A response that isn't 200: its status and its message, as 403 and `Protected 1`."""

    def __init__(self, status, message):
        super().__init__(f"{status} {message}")


class User:
    """One user's connection. Without a file of users a token is its user's name."""

    def __init__(self, base, token):
        self.connection = http.client.HTTPConnection(urlsplit(base).netloc, timeout=20)
        self.fields = {"Authorization": "Bearer " + token}

    def ask(self, method, target, value=None):
        """The value that a request is answered with."""
        body = None if value is None else json.dumps(value)
        self.connection.request(method, "/v4/spreadsheets" + target, body, self.fields)
        response = self.connection.getresponse()
        answer = json.load(response)
        if response.status != 200:
            raise Refused(response.status, answer["error"]["message"])
        return answer

    def create(self, title, *sheets):
        """Makes a spreadsheet with these sheets, which get the ids 0, 1 and so on; its id."""
        given = [{"properties": {"title": sheet}} for sheet in sheets]
        return self.ask("POST", "", {"properties": {"title": title}, "sheets": given})["spreadsheetId"]

    def read(self, book, area, render="FORMATTED_VALUE"):
        """The rows of an area, as texts, or by another value of valueRenderOption."""
        answer = self.ask("GET", f"/{book}/values/{quote(area, safe='')}?valueRenderOption={render}")
        return answer.get("values", [])

    def write(self, book, area, rows, option="USER_ENTERED"):
        """Writes rows from the first cell of an area on, as they would be typed, or RAW; the range that was written."""
        target = f"/{book}/values/{quote(area, safe='')}?valueInputOption={option}"
        return self.ask("PUT", target, {"values": rows})["updatedRange"]

    def append(self, book, area, rows, option="USER_ENTERED"):
        """Writes rows below the table in an area; the range that was written."""
        target = f"/{book}/values/{quote(area, safe='')}:append?valueInputOption={option}"
        return self.ask("POST", target, {"values": rows})["updates"]["updatedRange"]

    def batch(self, book, *requests):
        """Makes all of the requests, or none of them; their replies."""
        return self.ask("POST", f"/{book}:batchUpdate", {"requests": requests})["replies"]

    def refusal(self, call, *given):
        """What a call of this user is refused with, as a text."""
        try:
            return f"answered: {call(*given)}"
        except Refused as refused:
            return str(refused)


def cells(*rows):
    """Rows of values as RowData, as the requests updateCells and appendCells have them."""
    return [{"values": [{"userEnteredValue": entered(value)} for value in row]} for row in rows]


def entered(value):
    """A value as an ExtendedValue."""
    if isinstance(value, str):
        return {"formulaValue" if value.startswith("=") else "stringValue": value}
    return {"numberValue": value}


def show(rows):
    """Prints rows with their columns below one another."""
    widths = [max(len(row[at]) for row in rows if at < len(row)) for at in range(max(map(len, rows)))]
    for row in rows:
        print("   ", "  ".join(cell.ljust(width) for cell, width in zip(row, widths)).rstrip())


def expect(got, wanted):
    """Ends the program where an answer isn't the one that is wanted."""
    if got != wanted:
        sys.exit(f"wanted: {wanted}\ngot:    {got}")
