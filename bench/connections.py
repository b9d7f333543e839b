#!/usr/bin/env python3
"""Very many connections to the built program, one after another, and two slow ones beside them.

`sheets serve` is asked on so many connections, one request on each, while one connection is open that sends nothing
and another sends a request byte by byte. Printed are the connections a second, the answers' times while the slow ones
were open and while they weren't, the memory and the threads of the server at the beginning and at the end, and what
the slow ones were answered. The connections come from several addresses of this machine, as one has too few ports.

Usage: bench/connections.py [CONNECTIONS] [PORT]   (default: 40000 on 18090)
"""

import socket
import subprocess
import sys
import threading
import time

from client import BOOK, OWNER, PROGRAM, head

PORTS = 20000
READ = f"GET {BOOK}/values/Sheet1!A1 {head(OWNER)}\r\n".encode()
LAST = f"GET {BOOK}/values/Sheet1!A1 {head(OWNER)}Connection: close\r\n\r\n".encode()
SLOW = f"PUT {BOOK}/values/Sheet1!A1?valueInputOption=RAW {head(OWNER)}Content-Length: 16\r\n\r\n".encode() + b'{"values":[[7]]}'


def connected(port, source="127.0.0.1"):
    """A connection from an address."""
    link = socket.socket()
    link.setsockopt(socket.IPPROTO_TCP, socket.TCP_NODELAY, 1)
    link.bind((source, 0))
    link.connect(("127.0.0.1", port))
    return link


def answer(link):
    """The status line and the body of the next response."""
    text = b""
    while b"\r\n\r\n" not in text:
        text += more(link)
    head, body = text.split(b"\r\n\r\n", 1)
    length = next(int(line.split(b":")[1]) for line in head.split(b"\r\n") if line.lower().startswith(b"content-length:"))
    while len(body) < length:
        body += more(link)
    return head.split(b"\r\n")[0].decode(), body.decode()


def more(link):
    piece = link.recv(65536)
    if not piece:
        raise SystemExit("the server closed a connection inside a response")
    return piece


def asked(port, number):
    """How long one request on a connection of its own takes, from its beginning to its end."""
    began = time.perf_counter()
    link = connected(port, f"127.0.0.{1 + number // PORTS}")
    link.sendall(LAST)
    status, _ = answer(link)
    link.close()
    if not status.endswith("200 OK"):
        raise SystemExit(f"connection {number} was answered {status}")
    return time.perf_counter() - began


def byte_by_byte(link, told):
    """Sends a request so, a byte in five milliseconds, and notes what it is answered."""
    for byte in SLOW:
        link.sendall(bytes([byte]))
        time.sleep(0.005)
    told.append(answer(link)[0])


def status_of(process):
    """The memory in MB and the number of threads of a process."""
    with open(f"/proc/{process.pid}/status", encoding="ascii") as it:
        fields = dict(line.split(":", 1) for line in it)
    return int(fields["VmRSS"].split()[0]) / 1024, int(fields["Threads"])


def shown(name, times):
    times = sorted(times)
    print(
        f"{name}: median {times[len(times) // 2] * 1e6:.0f} us, 99 of 100 below {times[len(times) * 99 // 100] * 1e6:.0f} us, "
        f"longest {times[-1] * 1e3:.1f} ms"
    )


def main(count=40000, port=18090):
    server = subprocess.Popen(
        [PROGRAM, "serve", "--port", str(port), "--limit", str(count + 2)], stdout=subprocess.PIPE, stderr=subprocess.STDOUT
    )
    try:
        while True:
            try:
                quiet = connected(port)
                break
            except ConnectionRefusedError:
                time.sleep(0.05)
        slow, told = connected(port), []
        first = [asked(port, number) for number in range(100)]
        before = status_of(server)
        sender = threading.Thread(target=byte_by_byte, args=(slow, told))
        sender.start()
        beside = []
        while sender.is_alive():
            beside.append(asked(port, 100 + len(beside)))
        sender.join()
        slow.close()
        began = time.perf_counter()
        times = [asked(port, number) for number in range(100 + len(beside), count)]
        took = time.perf_counter() - began
        after = status_of(server)
        quiet.sendall(READ)
        status, body = answer(quiet)
        quiet.close()
        output, _ = server.communicate(timeout=30)
    finally:
        server.kill()
    print(f"{len(times) / took:.0f} connections a second, {count} in all; ended with {server.returncode}")
    shown("beside a connection that sends nothing", first + times)
    shown("beside one that sends byte by byte, too", beside)
    print(f"the server: {before[0]:.1f} MB and {before[1]} threads, then {after[0]:.1f} MB and {after[1]} threads")
    print(f"byte by byte: {told[0]}; sent nothing till the end: {status}, {body}")
    print(output.decode().strip())


if __name__ == "__main__":
    main(*map(int, sys.argv[1:]))
