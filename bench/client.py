"""Requests as the measurements send them, and the built program that answers them."""

import json
import os
import subprocess
import sys
import tempfile
import time

PROGRAM = os.path.join(os.path.dirname(os.path.abspath(__file__)), "..", "crates", "sheets", "out", "sheets")
BOOK = "/v4/spreadsheets/book1"
COLUMNS = 26
HEAD = "HTTP/1.1\r\nHost: localhost\r\n"
OWNER = "owner"
ROUNDS = 3


def head(user):
    """What stands behind the target of a user's request."""
    return f"{HEAD}Authorization: Bearer {user}\r\n"


def get(area, sheet="Sheet1"):
    """A read of an area."""
    return f"GET {BOOK}/values/{sheet}!{area} {head(OWNER)}\r\n".encode()


def sent(method, target, value, user=OWNER):
    """A request with a JSON value as its body."""
    body = json.dumps(value, separators=(",", ":"))
    return f"{method} {target} {head(user)}Content-Length: {len(body)}\r\n\r\n{body}".encode()


def put(area, values, sheet="Sheet1", option="RAW", user=OWNER):
    """A write of values to an area."""
    target = f"{BOOK}/values/{sheet}!{area}?valueInputOption={option}"
    return sent("PUT", target, {"values": values}, user)


def batch(*requests, user=OWNER):
    """A batch of requests."""
    return sent("POST", f"{BOOK}:batchUpdate", {"requests": requests}, user)


def numbers(rows, columns=COLUMNS):
    """So many rows of different numbers."""
    return [[row * columns + column for column in range(columns)] for row in range(rows)]


def filled(area, rows, columns=COLUMNS):
    """A write of numbers to a whole area."""
    return put(area, numbers(rows, columns))


def seconds(before, request, count):
    """How long the program takes for so many of the request behind those before, less the time for these
    alone: the least of some rounds."""
    return max(best(before, request, count) - best(before, b"", 0), 1e-9)


def best(before, request, count):
    """The least time of some rounds."""
    return min(run(before, request, count) for _ in range(ROUNDS))


def run(before, request, count):
    """The time of one run, which must answer each request with the status 200."""
    with tempfile.TemporaryFile() as source, tempfile.TemporaryFile() as sink:
        source.write(before)
        source.write(request * count)
        source.seek(0)
        begin = time.monotonic()
        status = subprocess.call([PROGRAM, "run"], stdin=source, stdout=sink)
        taken = time.monotonic() - begin
        sink.seek(0)
        asked = before.count(HEAD.encode()) + count * request.count(HEAD.encode())
        if status != 0 or sink.read().count(b"HTTP/1.1 200 OK\r\n") != asked:
            sys.exit("a request was not answered")
        return taken
