#!/usr/bin/env python3
"""Pipes streams of requests through the built program and prints the time of a request and the peak of
memory, at 20,000 and at 200,000 requests, and the time of a cell in small and large blocks, with their
ratios.

    ./sheets run < examples/first.http    # builds the program
    python3 bench/stream.py
"""

import json
import os
import subprocess
import sys
import tempfile
import time

from client import COLUMNS, PROGRAM, ROUNDS, get, numbers, put

COUNTS = (20_000, 200_000)
BLOCKS = (100, 1_000)
CELLS = 520_000
AT_ONCE = 1_000


def answer(**members):
    """The response with these members."""
    body = json.dumps(members, separators=(",", ":"))
    return (
        "HTTP/1.1 200 OK\r\nContent-Type: application/json; charset=UTF-8\r\n"
        f"Content-Length: {len(body)}\r\n\r\n{body}"
    ).encode()


def updated(area, rows, columns):
    """The response to a write of a whole area."""
    return answer(
        spreadsheetId="book1",
        updatedCells=rows * columns,
        updatedColumns=columns,
        updatedRange=f"Sheet1!{area}",
        updatedRows=rows,
    )


READS = (get("A1:B2"), answer(majorDimension="ROWS", range="Sheet1!A1:B2"))
PAIRS = (
    put("A1:B2", [[1, "x"], [True]]) + get("A1:B2"),
    answer(spreadsheetId="book1", updatedCells=3, updatedColumns=2, updatedRange="Sheet1!A1:B2", updatedRows=2)
    + answer(majorDimension="ROWS", range="Sheet1!A1:B2", values=[["1", "x"], ["TRUE"]]),
)


def is_answered(sink, part, count):
    """Whether the file holds that part so many times and nothing else, read a piece at a time."""
    sink.seek(0)
    return all(sink.read(len(part)) == part for _ in range(count)) and sink.read(1) == b""


def run(request, response, count):
    """Runs the program on so many of the request: its time in seconds, and its peak of memory in KiB.

    This process holds only a part of the stream at a time, since a child's peak begins with its parent's.
    """
    with tempfile.TemporaryFile() as source, tempfile.TemporaryFile() as sink:
        for _ in range(count):
            source.write(request)
        source.seek(0)
        begin = time.monotonic()
        child = subprocess.Popen([PROGRAM, "run"], stdin=source, stdout=sink)
        _, status, usage = os.wait4(child.pid, 0)
        seconds = time.monotonic() - begin
        child.returncode = os.waitstatus_to_exitcode(status)
        if child.returncode != 0 or not is_answered(sink, response, count):
            sys.exit("a request was not answered")
        return seconds, usage.ru_maxrss


def best(request, response, count):
    """The least time and the greatest peak of some rounds."""
    rounds = [run(request, response, count) for _ in range(ROUNDS)]
    return min(seconds for seconds, _ in rounds), max(peak for _, peak in rounds)


def streams(name, each, pattern):
    """Prints what a request of a pattern takes in a short and in a long stream."""
    figures = []
    for count in COUNTS:
        parts = count // each // AT_ONCE
        seconds, peak = best(pattern[0] * AT_ONCE, pattern[1] * AT_ONCE, parts)
        figures.append((seconds / count, peak))
        print(f"{count} requests, {name}: {seconds / count * 1e6:.2f} microseconds a request, peak {peak} KiB")
    (small, small_peak), (large, large_peak) = figures
    print(f"time a request, {COUNTS[1]} to {COUNTS[0]}: ratio {large / small:.3f}")
    print(f"peak of memory, {COUNTS[1]} to {COUNTS[0]}: ratio {large_peak / small_peak:.3f}")


def blocks():
    """Prints what a cell takes in small and in large blocks, of as many cells in all."""
    figures = []
    for rows in BLOCKS:
        area = f"A1:Z{rows}"
        seconds, _ = best(put(area, numbers(rows)), updated(area, rows, COLUMNS), CELLS // rows // COLUMNS)
        figures.append(seconds / CELLS)
        print(f"blocks of {rows} by {COLUMNS}: {seconds / CELLS * 1e9:.0f} nanoseconds a cell")
    print(f"time a cell, {BLOCKS[1] * COLUMNS} cells to {BLOCKS[0] * COLUMNS}: ratio {figures[1] / figures[0]:.3f}")


def main():
    streams("reads", 1, READS)
    streams("writes and reads", 2, PAIRS)
    blocks()


if __name__ == "__main__":
    main()
