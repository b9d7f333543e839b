"""The program as the tests use it.

    request("GET", "/v4/spreadsheets/book1")     the bytes of a request
    response(200, '{"spreadsheetId":"book1"}')   the bytes of the response that is wanted
    run(program, ["run"], folder, stdin)         runs a command to its end: its status and what it wrote
    Server(program, folder, ["--limit", "2"])    a server on a free port of 127.0.0.1
    server.connect()                             a connection to it, once it listens
    connection.ask(request)                      sends a request, and waits for the one response to it
    server.end(), server.kill()                  waits for its end, or ends it at once
    expand("<<a>>*3"), bytes_of(r"a\\r\\n")        what such texts of the cases stand for

What isn't as it should be is an AssertionError. Every command is killed when it takes longer than LIMIT seconds.
"""

from __future__ import annotations

import random
import re
import socket
import subprocess
import threading
import time
from collections.abc import Iterable, Sequence
from dataclasses import dataclass

LIMIT = 20.0
HOST = "127.0.0.1"

PHRASES = {
    200: "OK",
    400: "Bad Request",
    401: "Unauthorized",
    403: "Forbidden",
    404: "Not Found",
    409: "Conflict",
    413: "Payload Too Large",
    429: "Too Many Requests",
    431: "Request Header Fields Too Large",
    501: "Not Implemented",
    503: "Service Unavailable",
    507: "Insufficient Storage",
}

ESCAPES = {b"r": b"\r", b"n": b"\n", b"t": b"\t", b"0": b"\0", b"\\": b"\\"}


def expand(text: str) -> str:
    """The text with `<<text>>*3` written out, `<#>` in it as the number of the copy."""

    def copies(found: re.Match[str]) -> str:
        copied, count = found[1], int(found[2])
        if "<#>" not in copied:
            return copied * count
        return "".join(copied.replace("<#>", str(number)) for number in range(count))

    return re.sub(r"<<(.*?)>>\*(\d+)", copies, text)


def bytes_of(text: str) -> bytes:
    """The bytes that a piece of bytes stands for. An unknown escape is a ValueError."""

    def byte(found: re.Match[bytes]) -> bytes:
        if found[1] in ESCAPES:
            return ESCAPES[found[1]]
        if len(found[1]) == 3:
            return bytes([int(found[1][1:], 16)])
        raise ValueError(f"unknown escape {found[0].decode(errors='replace')}")

    return re.sub(rb"\\(x[0-9a-f]{2}|.|$)", byte, expand(text).encode())


def request(method: str, target: str, body: str = "", user: str = "owner", fields: Iterable[str] = ()) -> bytes:
    """A request of the user; of nobody, if that is its name. Its length is added if it has a body and no such field."""
    lines = [f"{method} {target} HTTP/1.1"]
    if user != "nobody":
        lines.append(f"Authorization: Bearer {user}")
    lines.extend(fields)
    content = body.encode()
    if content and not any(line.lower().startswith("content-length:") for line in lines):
        lines.append(f"Content-Length: {len(content)}")
    return _message(lines, content)


def response(status: int, body: str, fields: Iterable[str] = ()) -> bytes:
    """The response with the status and the body; fields are those beyond its type and its length."""
    content = body.encode()
    lines = [
        f"HTTP/1.1 {status} {PHRASES[status]}",
        "Content-Type: application/json; charset=UTF-8",
        f"Content-Length: {len(content)}",
    ]
    return _message([*lines, *fields], content)


def _message(lines: Iterable[str], content: bytes) -> bytes:
    return "".join(line + "\r\n" for line in [*lines, ""]).encode() + content


def response_length(data: bytes) -> int | None:
    """How many bytes the response has that the data begins with; None where it isn't whole."""
    end = data.find(b"\r\n\r\n")
    if end < 0:
        return None
    length = re.search(rb"\r\nContent-Length: (\d+)\r\n", data[: end + 2])
    whole = end + 4 + (int(length[1]) if length else 0)
    return whole if whole <= len(data) else None


def split_responses(data: bytes) -> list[bytes]:
    """The responses that the data consists of. Bytes at its end that are no whole response come last."""
    responses = []
    while data:
        length = response_length(data) or len(data)
        responses.append(data[:length])
        data = data[length:]
    return responses


@dataclass(frozen=True)
class Ended:
    """What a command ended with."""

    status: int
    stdout: bytes
    stderr: bytes


class Command:
    """A command of the program that goes on in a folder. Leaving its `with` block kills it."""

    def __init__(self, program: str, words: Sequence[str], folder: str) -> None:
        pipe = subprocess.PIPE
        self.process = subprocess.Popen([program, *words], cwd=folder, stdin=pipe, stdout=pipe, stderr=pipe)
        self.is_late = False
        self._timer = threading.Timer(LIMIT, self._stop)
        self._timer.start()

    def __enter__(self) -> Command:
        return self

    def __exit__(self, *_: object) -> None:
        self.kill()

    def end(self, stdin: bytes = b"") -> Ended:
        """Gives it the input, and waits for its end."""
        stdout, stderr = self.process.communicate(stdin)
        self._timer.cancel()
        assert not self.is_late, f"the program hadn't ended after {LIMIT:.0f} seconds"
        return Ended(self.process.returncode, stdout, stderr)

    def kill(self) -> None:
        """Ends it at once, as `kill -9` does, and closes its streams."""
        self._timer.cancel()
        with self.process:
            self.process.kill()

    def _stop(self) -> None:
        self.is_late = True
        self.process.kill()


def run(program: str, words: Sequence[str], folder: str, stdin: bytes = b"") -> Ended:
    """Runs a command to its end."""
    with Command(program, words, folder) as command:
        return command.end(stdin)


class Connection:
    """A connection to a server."""

    def __init__(self, port: int) -> None:
        self.socket = socket.create_connection((HOST, port), timeout=LIMIT)
        self._read = b""

    def __enter__(self) -> Connection:
        return self

    def __exit__(self, *_: object) -> None:
        self.close()

    def send(self, data: bytes) -> None:
        self.socket.sendall(data)

    def receive(self) -> bytes:
        """The next response; fewer bytes, or none, where the connection ends before."""
        while (length := response_length(self._read)) is None:
            piece = self._receive_piece()
            self._read += piece
            if not piece:
                length = len(self._read)
                break
        received, self._read = self._read[:length], self._read[length:]
        return received

    def ask(self, data: bytes) -> bytes:
        """Sends a request, and waits for the response to it."""
        self.send(data)
        return self.receive()

    def close(self) -> None:
        self.socket.close()

    def _receive_piece(self) -> bytes:
        try:
            return self.socket.recv(1 << 16)
        except ConnectionResetError:
            return b""
        except TimeoutError:
            raise AssertionError(f"no answer after {LIMIT:.0f} seconds") from None


class Server(Command):
    """A server. The words are those behind `serve`; a free port and the limit are added where they have none."""

    def __init__(self, program: str, folder: str, words: Sequence[str] = (), limit: int = 1) -> None:
        port = _option(words, "--port")
        self.port = int(port) if port else free_port()
        given = ["serve", *words]
        if port is None:
            given += ["--port", str(self.port)]
        if _option(words, "--limit") is None:
            given += ["--limit", str(limit)]
        super().__init__(program, given, folder)

    def connect(self) -> Connection:
        """A connection to it, once it listens."""
        while True:
            try:
                return Connection(self.port)
            except ConnectionRefusedError:
                assert self.process.poll() is None, f"the server took no connection: {self.end()}"
                time.sleep(0.002)


def _option(words: Sequence[str], name: str) -> str | None:
    """What stands behind the option, or None."""
    for word, following in zip(words, [*words[1:], ""]):
        if word == name:
            return following
        if word.startswith(name + "="):
            return word[len(name) + 1 :]
    return None


# Below the ports that the system gives to those who connect.
_ports = iter(random.sample(range(20_000, 32_000), 12_000))
_ports_lock = threading.Lock()


def free_port() -> int:
    """A port on which nothing listens. None is given twice."""
    with _ports_lock:
        for port in _ports:
            with socket.socket() as probe:
                # Another thread's child holds the probe, too, until it is the program: the server may bind beside it.
                probe.setsockopt(socket.SOL_SOCKET, socket.SO_REUSEADDR, 1)
                try:
                    probe.bind((HOST, port))
                except OSError:
                    continue
                return port
    raise AssertionError("no port is free")
