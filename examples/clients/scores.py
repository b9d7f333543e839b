#!/usr/bin/python3
"""Google's client for Python (Debian: python3-googleapi) with this server.

The client builds its calls from a description of the API. Debian's package has none, so sheets.json has the calls that
this server answers. What to set: `rootUrl`, and a token, which without a file of users is the user's name.

    ./sheets serve --port 8080 --limit 100
    /usr/bin/python3 examples/clients/scores.py [URL]    # URL is http://127.0.0.1:8080 where it isn't given
"""

import json
import sys
from pathlib import Path

from google.oauth2.credentials import Credentials
from googleapiclient.discovery import build_from_document
from googleapiclient.errors import HttpError


def sheets_of(base, token):
    """The calls of the API, made by the user of a token."""
    described = json.loads(Path(__file__).with_name("sheets.json").read_text())
    described["rootUrl"] = base + "/"
    return build_from_document(described, credentials=Credentials(token)).spreadsheets()


def expect(got, wanted):
    """Ends the program where an answer isn't the one that is wanted."""
    if got != wanted:
        sys.exit(f"wanted: {wanted}\ngot:    {got}")


def main(base="http://127.0.0.1:8080"):
    ada, bo = sheets_of(base, "ada"), sheets_of(base, "bo")
    book = ada.create(body={"properties": {"title": "Scores"}}).execute()["spreadsheetId"]

    rows = {"values": [["Ada", 1, 12], ["Bo", 2, "=C1-3"]]}
    where = {"spreadsheetId": book, "range": "Sheet1!A:C", "valueInputOption": "USER_ENTERED"}
    written = ada.values().append(**where, body=rows).execute()["updates"]["updatedRange"]
    print("written:", written)
    expect(written, "Sheet1!A1:C2")

    values = ada.values().get(spreadsheetId=book, range="Sheet1!A:C").execute()["values"]
    print("read:", ", ".join(" ".join(row) for row in values))
    expect(values, [["Ada", "1", "12"], ["Bo", "2", "9"]])

    protect = {"addProtectedRange": {"protectedRange": {"range": {"sheetId": 0, "endRowIndex": 1}}}}
    replies = ada.batchUpdate(spreadsheetId=book, body={"requests": [protect]}).execute()["replies"]
    number = replies[0]["addProtectedRange"]["protectedRange"]["protectedRangeId"]
    print("protected range:", number)
    expect(number, 1)

    try:
        where = {"spreadsheetId": book, "range": "Sheet1!A1", "valueInputOption": "RAW"}
        bo.values().update(**where, body={"values": [["Bo"]]}).execute()
        refusal = "none"
    except HttpError as refused:
        refusal = f"{refused.resp.status} {json.loads(refused.content)['error']['message']}"
    print("bo is refused:", refusal)
    expect(refusal, "403 Protected 1")


if __name__ == "__main__":
    main(*sys.argv[1:])
