#!/usr/bin/env python3
"""Runs the built program against an input and an output that give and take few bytes at a time.

The program gets a conversation through a socket that is fed in small pieces, and writes to a socket with
the smallest buffer that is read a few bytes at a time, so that writes are short. While it runs it is
stopped and continued, which interrupts a call on a socket that has a time limit (signal(7)). What it writes
must be what it writes to and from plain files.

Usage: bench/short_writes.py [PROGRAM]   (default: crates/sheets/out/sheets)
"""

import os
import random
import signal
import socket
import struct
import subprocess
import sys
import tempfile
import threading
import time

WRITE = (
    "PUT /v4/spreadsheets/book1/values/Sheet1!A{0}:Z{0}?valueInputOption=RAW HTTP/1.1\r\n"
    "Authorization: Bearer owner\r\nContent-Length: {1}\r\n\r\n{2}"
)
READ = "GET /v4/spreadsheets/book1/values/Sheet1!A1:Z1000 HTTP/1.1\r\nAuthorization: Bearer owner\r\n\r\n"


def conversation():
    """A conversation whose responses are a few hundred kilobytes."""
    requests = []
    for row in range(1, 101):
        values = '{"values":[[' + ",".join('"%s"' % ("x" * 40) for _ in range(26)) + "]]}"
        requests.append(WRITE.format(row, len(values), values))
    return ("".join(requests) + READ * 5).encode()


def plain(program, stream):
    """What the program writes to a file for that stream in a file."""
    with tempfile.TemporaryFile() as source, tempfile.TemporaryFile() as sink:
        source.write(stream)
        source.seek(0)
        status = subprocess.call([program, "run"], stdin=source, stdout=sink)
        sink.seek(0)
        return status, sink.read()


def feed(end, stream, pick):
    """Sends the stream in small pieces, and then the end."""
    start = 0
    while start < len(stream):
        size = pick.randint(1, 700)
        end.sendall(stream[start : start + size])
        start += size
    end.shutdown(socket.SHUT_WR)


def disturb(process, done):
    """Stops and continues the program again and again, which interrupts a call that waits."""
    while not done.is_set():
        process.send_signal(signal.SIGSTOP)
        time.sleep(0.0005)
        process.send_signal(signal.SIGCONT)
        time.sleep(0.001)


def piecemeal(program, stream, pick):
    """What the program writes to a socket that takes few bytes at a time."""
    source, source_end = socket.socketpair()
    sink, sink_end = socket.socketpair()
    sink_end.setsockopt(socket.SOL_SOCKET, socket.SO_SNDBUF, 1)
    sink.setsockopt(socket.SOL_SOCKET, socket.SO_RCVBUF, 1)
    limit = struct.pack("ll", 3600, 0)
    source_end.setsockopt(socket.SOL_SOCKET, socket.SO_RCVTIMEO, limit)
    sink_end.setsockopt(socket.SOL_SOCKET, socket.SO_SNDTIMEO, limit)
    process = subprocess.Popen([program, "run"], stdin=source_end, stdout=sink_end)
    source_end.close()
    sink_end.close()
    done = threading.Event()
    threads = [
        threading.Thread(target=feed, args=(source, stream, pick)),
        threading.Thread(target=disturb, args=(process, done)),
    ]
    for thread in threads:
        thread.start()
    written = bytearray()
    while True:
        piece = sink.recv(pick.randint(1, 300))
        if not piece:
            break
        written += piece
    status = process.wait()
    done.set()
    for thread in threads:
        thread.join()
    return status, bytes(written)


def main():
    top = os.path.join(os.path.dirname(os.path.abspath(__file__)), "..")
    program = sys.argv[1] if len(sys.argv) > 1 else os.path.join(top, "crates/sheets/out/sheets")
    stream = conversation()
    wanted = plain(program, stream)
    if wanted[0] != 0:
        sys.exit("the plain run ended with status %d" % wanted[0])
    for seed in range(5):
        got = piecemeal(program, stream, random.Random(seed))
        if got != wanted:
            sys.exit("seed %d: status %d and %d bytes, wanted %d" % (seed, got[0], len(got[1]), len(wanted[1])))
    print("%d bytes of responses, five times in small pieces: the same bytes" % len(wanted[1]))


if __name__ == "__main__":
    main()
