#!/usr/bin/env python3
"""Google's Python client (Debian's python3-googleapi) asks the built program, as scripts of a spreadsheet do.

The client reads a description of the API; Debian's package has none, so the lines of the calls that are made here stand
below as the API's own description has them. It begins `sheets serve` for one connection, appends, reads, inserts a row
in a batch, reads again and is refused a sheet that isn't there.

Usage: /usr/bin/python3 bench/google_client.py [PORT]   (default: 18099)
"""

import json
import subprocess
import sys
import time

import httplib2
from googleapiclient.discovery import build_from_document
from googleapiclient.errors import HttpError

from client import PROGRAM

ID = {"spreadsheetId": {"type": "string", "required": True, "location": "path"}}
RANGE = {"range": {"type": "string", "required": True, "location": "path"}}
QUERY = {
    name: {"type": "string", "location": "query"}
    for name in ("valueInputOption", "valueRenderOption", "majorDimension", "insertDataOption")
}


def method(verb, path, order, parameters, has_body=False):
    """A method as the description of an API has it."""
    told = {
        "id": f"sheets.{path}",
        "path": path,
        "flatPath": path,
        "httpMethod": verb,
        "parameters": parameters,
        "parameterOrder": order,
    }
    return {**told, "response": {"$ref": "Body"}, **({"request": {"$ref": "Body"}} if has_body else {})}


def api(port):
    """The description of the calls that are made here."""
    values = "v4/spreadsheets/{spreadsheetId}/values/{range}"
    both = ["spreadsheetId", "range"]
    on_values = {**ID, **RANGE, **QUERY}
    return {
        "name": "sheets",
        "version": "v4",
        "rootUrl": f"http://127.0.0.1:{port}/",
        "baseUrl": f"http://127.0.0.1:{port}/",
        "servicePath": "",
        "batchPath": "batch",
        "parameters": {"alt": {"type": "string", "location": "query", "default": "json"}},
        "schemas": {"Body": {"id": "Body", "type": "object", "properties": {}}},
        "resources": {
            "spreadsheets": {
                "methods": {
                    "batchUpdate": method(
                        "POST", "v4/spreadsheets/{spreadsheetId}:batchUpdate", ["spreadsheetId"], ID, True
                    )
                },
                "resources": {
                    "values": {
                        "methods": {
                            "get": method("GET", values, both, on_values),
                            "update": method("PUT", values, both, on_values, True),
                            "append": method("POST", values + ":append", both, on_values, True),
                        }
                    }
                },
            }
        },
    }


class User(httplib2.Http):
    """A user's calls, under his token."""

    def request(self, uri, method="GET", body=None, headers=None, **others):
        return super().request(uri, method, body, {**(headers or {}), "authorization": "Bearer ada"}, **others)


def main(port=18099):
    server = subprocess.Popen(
        [PROGRAM, "serve", "--port", str(port), "--limit", "1"], stdout=subprocess.PIPE, stderr=subprocess.STDOUT
    )
    try:
        time.sleep(0.5)
        user = User()
        sheets = build_from_document(api(port), http=user).spreadsheets()
        book = {"spreadsheetId": "book1"}
        rows = {"values": [["Ada", 1], ["Bo", "=B1+1"]]}
        print(
            sheets.values().append(**book, range="Sheet1!A:B", valueInputOption="USER_ENTERED", body=rows).execute()
        )
        print(sheets.values().get(**book, range="Sheet1!A1:B2").execute())
        lines = {"sheetId": 0, "dimension": "ROWS", "startIndex": 0, "endIndex": 1}
        requests = {"requests": [{"insertDimension": {"range": lines}}]}
        print(sheets.batchUpdate(**book, body=requests).execute())
        print(sheets.values().get(**book, range="Sheet1!A1:B3", valueRenderOption="FORMULA").execute())
        try:
            sheets.values().get(**book, range="Nowhere!A1").execute()
        except HttpError as refusal:
            print(refusal.resp.status, json.loads(refusal.content)["error"]["message"])
        for connection in user.connections.values():
            connection.close()
        print(server.communicate(timeout=10)[0].decode().strip())
    finally:
        server.kill()


if __name__ == "__main__":
    main(*map(int, sys.argv[1:]))
