#!/usr/bin/python3
"""The club's rota of rota.py by Google's client for Python (Debian: python3-googleapi).

Two members sign up at once: both are kept. A member who writes into the header is refused. A duty is inserted, and the
formulas below it follow. The calls are those that a script makes at Google; only the address and the token differ.

Start the server first, then run this in another terminal:

    ./sheets serve --port 8080 --limit 100
    /usr/bin/python3 examples/rota_google.py [URL]    # URL is http://127.0.0.1:8080 where it isn't given
"""

import json
import sys
from concurrent.futures import ThreadPoolExecutor
from pathlib import Path

from google.oauth2.credentials import Credentials
from googleapiclient.discovery import build_from_document
from googleapiclient.errors import HttpError

from client import LOCAL, cells, expect, show


def sheets_of(base, token):
    """The calls of the API, made by the user of a token on a connection of their own."""
    described = json.loads(Path(__file__).with_name("clients").joinpath("sheets.json").read_text())
    described["rootUrl"] = base + "/"
    return build_from_document(described, credentials=Credentials(token)).spreadsheets()


def state(row):
    """The formulas of a duty in a row: how many members signed up for it, and whether it is full."""
    return [f"=COUNTIF('Sign-ups'!A:A,A{row})", f'=IF(C{row}<B{row},"open","full")']


def main(base=LOCAL):
    secretary = sheets_of(base, "secretary")
    titles = [{"properties": {"title": title}} for title in ("Rota", "Sign-ups")]
    book = secretary.create(body={"properties": {"title": "Rota"}, "sheets": titles}).execute()["spreadsheetId"]
    data = [
        {"range": "Rota!A1", "values": [["Duty", "Needed", "Signed up", "State"]]},
        {"range": "Rota!A2", "values": [["Bar", 2, *state(2)], ["Gate", 1, *state(3)]]},
        {"range": "'Sign-ups'!A1", "values": [["Duty", "Member"]]},
    ]
    body = {"valueInputOption": "USER_ENTERED", "data": data}
    secretary.values().batchUpdate(spreadsheetId=book, body=body).execute()
    header = {"addProtectedRange": {"protectedRange": {"range": {"sheetId": 0, "endRowIndex": 1}}}}
    secretary.batchUpdate(spreadsheetId=book, body={"requests": [header]}).execute()

    def sign_up(member):
        where = {"spreadsheetId": book, "range": "'Sign-ups'!A:B", "valueInputOption": "USER_ENTERED"}
        added = sheets_of(base, member).values().append(**where, body={"values": [["Bar", member]]}).execute()
        return added["updates"]["updatedRange"]

    with ThreadPoolExecutor() as threads:
        written = sorted(threads.map(sign_up, ["ben", "cleo"]))
    print("Two members signed up at once, in", " and ".join(written))
    expect(written, ["'Sign-ups'!A2:B2", "'Sign-ups'!A3:B3"])

    try:
        where = {"spreadsheetId": book, "range": "Rota!A1", "valueInputOption": "RAW"}
        sheets_of(base, "ben").values().update(**where, body={"values": [["Chore"]]}).execute()
        refusal = "none"
    except HttpError as refused:
        refusal = f"{refused.resp.status} {json.loads(refused.content)['error']['message']}"
    print("ben writes into the header:", refusal)
    expect(refusal, "403 Protected 1")

    lines = {"sheetId": 0, "dimension": "ROWS", "startIndex": 2, "endIndex": 3}
    update = {"start": {"sheetId": 0, "rowIndex": 2}, "rows": cells(["Tidy up", 1, *state(3)]), "fields": "*"}
    requests = [{"insertDimension": {"range": lines}}, {"updateCells": update}]
    secretary.batchUpdate(spreadsheetId=book, body={"requests": requests}).execute()
    print("A duty was inserted, and the formulas below it follow:")
    where = {"spreadsheetId": book, "range": "Rota!A4:D4"}
    formulas = secretary.values().get(**where, valueRenderOption="FORMULA").execute()["values"]
    show([[str(value) for value in row] for row in formulas])
    expect(formulas, [["Gate", 1, *state(4)]])
    print("The rota:")
    rota = secretary.values().get(spreadsheetId=book, range="Rota").execute()["values"]
    show(rota)
    expect(rota[1:], [["Bar", "2", "2", "full"], ["Tidy up", "1", "0", "open"], ["Gate", "1", "0", "open"]])


if __name__ == "__main__":
    main(*sys.argv[1:])
