#!/usr/bin/env python3
"""Kills a server that keeps a journal, at random moments while a client writes, and looks at what is left. A server
begins with a new journal, a client writes one cell after another on one connection and notes which writes were
answered, the server is killed by SIGKILL, and `replay` prints what its journal comes to: each write that was answered
has to be there, and at most one more.

    ./sheets run < examples/first.http    # builds the program
    python3 bench/kill.py 200
"""

import http.client
import json
import os
import random
import signal
import subprocess
import sys
import tempfile
import threading
import time

from client import PROGRAM

ROWS = 1000


def wait_for(port):
    """Waits until somebody listens on the port; that connection is closed again."""
    for _ in range(500):
        try:
            connection = http.client.HTTPConnection("127.0.0.1", port, timeout=5)
            connection.connect()
            connection.close()
            return
        except OSError:
            time.sleep(0.005)
    sys.exit("the server doesn't listen")


def write(port, answered):
    """Writes the rows of column A, one after another, and notes those that were answered."""
    connection = http.client.HTTPConnection("127.0.0.1", port, timeout=5)
    headers = {"Authorization": "Bearer owner"}
    try:
        for row in range(1, ROWS + 1):
            target = f"/v4/spreadsheets/book1/values/A{row}?valueInputOption=RAW"
            connection.request("PUT", target, json.dumps({"values": [[row]]}), headers)
            answer = connection.getresponse()
            answer.read()
            if answer.status != 200:
                sys.exit(f"a write was answered {answer.status}")
            answered.append(row)
    except (OSError, http.client.HTTPException):
        pass


def kept(journal):
    """The rows that a journal has written, by what `replay` prints of its sheet."""
    told = subprocess.run([PROGRAM, "replay", "--journal", journal], capture_output=True, check=True)
    sheet = json.loads(told.stdout.splitlines()[1])
    return [row[0] for row in sheet.get("values", [])]


def main():
    times = int(sys.argv[1]) if len(sys.argv) > 1 else 200
    random.seed(1)
    more = writes = 0
    with tempfile.TemporaryDirectory() as folder:
        for turn in range(times):
            journal, port = os.path.join(folder, f"journal{turn}"), 20000 + turn
            server = subprocess.Popen(
                [PROGRAM, "serve", "--port", str(port), "--limit", "1000", "--journal", journal]
            )
            wait_for(port)
            answered = []
            client = threading.Thread(target=write, args=(port, answered))
            client.start()
            time.sleep(random.uniform(0, 0.2))
            server.send_signal(signal.SIGKILL)
            server.wait()
            client.join()
            rows = kept(journal)
            if rows[: len(answered)] != answered or len(rows) > len(answered) + 1:
                sys.exit(f"turn {turn}: {len(answered)} writes were answered, {len(rows)} are kept")
            more += len(rows) - len(answered)
            writes += len(answered)
    print(f"{times} servers killed, {writes} writes answered, all of them kept; {more} times one more was")


if __name__ == "__main__":
    main()
