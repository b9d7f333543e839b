#!/usr/bin/env python3
"""Measures the built program with a journal: the time that `replay` takes for an entry of a long journal and of one ten
times as short, and how many writes a second a server answers without a journal, with one, and with one for eight
connections, beside SQLite with synchronous=FULL and one INSERT a transaction in the same folder, by turns.

    ./sheets run < examples/first.http    # builds the program
    python3 bench/journal.py FOLDER
"""

import http.client
import os
import sqlite3
import struct
import subprocess
import sys
import threading
import time

from client import PROGRAM
from kill import wait_for

SECONDS = 2
ROUNDS = 3
TARGET = "/v4/spreadsheets/book1/values/{}?valueInputOption=RAW"


def cell(number):
    """A cell by its number, row by row of 26 columns; behind the last row the first comes again."""
    return f"{chr(65 + number % 26)}{number // 26 % 1000 + 1}"


def field(text):
    """A field of an entry."""
    return struct.pack(">I", len(text)) + text


def write_journal(path, count):
    """Writes a journal with so many entries, each of which writes a cell."""
    with open(path, "wb") as journal:
        journal.write(b"SHEETJ01")
        for number in range(count):
            target = f"PUT {TARGET.format(cell(number))}".encode()
            body = b'{"values":[[%d]]}' % number
            fields = [b"owner", b"", target, body]
            journal.write(struct.pack(">I", 1) + b"".join(field(text) for text in fields))


def replay(path, count):
    """Microseconds for an entry of a journal of so many."""
    start = time.perf_counter()
    subprocess.run([PROGRAM, "replay", "--journal", path], check=True, stdout=subprocess.DEVNULL)
    return (time.perf_counter() - start) / count * 1e6


def write(port, end, counts, number):
    """Writes one cell after another on one connection until that moment."""
    connection = http.client.HTTPConnection("127.0.0.1", port)
    while time.perf_counter() < end:
        target = TARGET.format(cell(counts[number]))
        connection.request("PUT", target, '{"values":[[1]]}', {"Authorization": "Bearer owner"})
        connection.getresponse().read()
        counts[number] += 1
    connection.close()


def served(connections, port, journal):
    """Writes a second that a server answers on so many connections."""
    words = ["serve", "--port", str(port), "--limit", str(connections + 1)]
    named = ["--journal", journal] if journal else []
    server = subprocess.Popen([PROGRAM, *words, *named], stdout=subprocess.DEVNULL)
    wait_for(port)
    counts, end = [0] * connections, time.perf_counter() + SECONDS
    clients = [threading.Thread(target=write, args=(port, end, counts, it)) for it in range(connections)]
    for client in clients:
        client.start()
    for client in clients:
        client.join()
    server.wait()
    return sum(counts) / SECONDS


def inserted(path):
    """Inserts a second into a table of SQLite."""
    base = sqlite3.connect(path, isolation_level=None)
    base.execute("pragma synchronous=FULL")
    base.execute("create table cells(place, value)")
    count, end = 0, time.perf_counter() + SECONDS
    while time.perf_counter() < end:
        base.execute("insert into cells values(?, ?)", (cell(count), 1))
        count += 1
    return count / SECONDS


def main():
    folder = sys.argv[1]
    place = lambda name: os.path.join(folder, name)
    for count in (10_000, 100_000):
        write_journal(place(f"journal{count}"), count)
    for turn in range(ROUNDS):
        short, long = (replay(place(f"journal{count}"), count) for count in (10_000, 100_000))
        print(f"replay: {short:.1f} microseconds an entry of 10,000, {long:.1f} of 100,000, {long / short:.2f} times")
        port = 21000 + 3 * turn
        alone = served(1, port, None)
        one = served(1, port + 1, place(f"one{turn}"))
        eight = served(8, port + 2, place(f"eight{turn}"))
        beside = inserted(place(f"base{turn}"))
        print(
            f"writes a second: {alone:.0f} in memory, {one:.0f} with a journal, {eight:.0f} by eight connections, "
            f"{beside:.0f} into SQLite"
        )


if __name__ == "__main__":
    main()
