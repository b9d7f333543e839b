"""What the program does over files, streams and connections, where a text case can't show it.

A scene is a function of the program's path and of an empty folder that it works in; its name is that of the function.
All traffic is on 127.0.0.1, and whatever goes wrong is an AssertionError.
"""

from __future__ import annotations

import json
import os
import resource
import socket
import subprocess
import sys
import time
from collections.abc import Callable, Iterable, Iterator, Sequence
from concurrent.futures import ThreadPoolExecutor
from contextlib import ExitStack, contextmanager
from dataclasses import dataclass, field
from functools import partial
from pathlib import Path
from tempfile import TemporaryDirectory
from typing import Any, TypeVar

from program import HOST, LIMIT, Command, Connection, Ended, Server, free_port, request, response, run, split_responses

Scene = Callable[[str, str], None]
Item = TypeVar("Item")
Given = TypeVar("Given")

SCENES: list[Scene] = []


def scenes(program: str) -> list[tuple[str, Callable[[], None]]]:
    """The scenes by their names, over the program of that path."""
    return [(scene.__name__.replace("_", " "), partial(play, scene, program)) for scene in SCENES]


def play(scene: Scene, program: str) -> None:
    with TemporaryDirectory(prefix="sheets-") as folder:
        scene(program, folder)


def listed(scene: Scene) -> Scene:
    """Puts a scene into the list."""
    SCENES.append(scene)
    return scene


# What scenes ask and are answered.

EXAMPLES = Path(__file__).resolve().parent.parent / "examples"
BOOK = "/v4/spreadsheets/book1"
BATCH = f"POST {BOOK}:batchUpdate"
USERS = b"token,user\nt,ann\n"
BEGINNING = b"SHEETJ01"
NO_USER = response(401, '{"error":{"code":401,"message":"NoUser","status":"UNAUTHENTICATED"}}')
NO_MEMORY = response(507, '{"error":{"code":507,"message":"NoMemory","status":"OUT_OF_MEMORY"}}')
UNAVAILABLE = response(503, '{"error":{"code":503,"message":"Unavailable","status":"UNAVAILABLE"}}')
OUTSIDE = response(400, '{"error":{"code":400,"message":"requests[1]: OutsideGrid","status":"INVALID_ARGUMENT"}}')
USAGE = Ended(2, b"", b"usage\n")
READ_FAULT = Ended(1, b"", b"read fault\n")
WRITE_FAULT = Ended(4, b"", b"write fault\n")


@dataclass(frozen=True)
class Call:
    """A call: its user, its method and target, its body and its project."""

    user: str
    line: str
    body: str = ""
    project: str = ""

    def request(self) -> bytes:
        method, target = self.line.split(" ")
        fields = [f"X-Goog-User-Project: {self.project}"] if self.project else []
        return request(method, target, self.body, self.user, fields)

    def entry(self, caller: int = 1) -> bytes:
        """The entry that it is in a journal."""
        texts = [text.encode() for text in (self.user, self.project, self.line, self.body)]
        return four_bytes(caller) + b"".join(four_bytes(len(text)) + text for text in texts)


def four_bytes(number: int) -> bytes:
    return number.to_bytes(4, "big")


def write(user: str, cells: str, values: list[list[Any]], option: str = "RAW") -> Call:
    return Call(user, f"PUT {BOOK}/values/{cells}?valueInputOption={option}", json_text({"values": values}))


def read(user: str, cells: str) -> Call:
    return Call(user, f"GET {BOOK}/values/{cells}")


def batch(user: str, *requests: dict[str, Any], project: str = "") -> Call:
    return Call(user, BATCH, json_text({"requests": requests}), project)


def cell_update(cell: tuple[int, int], value: dict[str, Any]) -> dict[str, Any]:
    """A request of a batch that writes a cell of the first sheet, by its row and its column from 0 on."""
    start = {"sheetId": 0, "rowIndex": cell[0], "columnIndex": cell[1]}
    return {"updateCells": {"fields": "*", "rows": [{"values": [{"userEnteredValue": value}]}], "start": start}}


def json_text(value: Any) -> str:
    return json.dumps(value, separators=(",", ":"))


def written(cell: str) -> bytes:
    """The response to a write of one cell."""
    counts = f'"updatedCells":1,"updatedColumns":1,"updatedRange":"Sheet1!{cell}","updatedRows":1'
    return response(200, '{"spreadsheetId":"book1",' + counts + "}")


def value_of(told: bytes) -> Any:
    """The JSON value of a response with the status 200."""
    head, _, body = told.partition(b"\r\n\r\n")
    assert head.startswith(b"HTTP/1.1 200 OK\r\n"), shown(told)
    return json.loads(body)


def ask_for_cells(connection: Connection, user: str, cells: str) -> list[list[Any]]:
    """The texts that a range shows."""
    return value_of(connection.ask(read(user, cells).request())).get("values", [])


def summary(accepted: int, cells: int, history: int) -> Ended:
    """The end of a server whose connections have ended."""
    return Ended(0, f"accepted {accepted}\ncells {cells}\nhistory {history}\n".encode(), b"")


def dump(values: list[list[Any]]) -> bytes:
    """What `replay` prints where the one sheet that there is has these values."""
    sheet = {"gridProperties": {"columnCount": 26, "rowCount": 1000}, "index": 0, "sheetId": 0, "sheetType": "GRID"}
    book = {"properties": {"title": "book1"}, "sheets": [{"properties": {**sheet, "title": "Sheet1"}}]}
    cells = {"majorDimension": "ROWS", "range": "Sheet1!A1:Z1000", **({"values": values} if values else {})}
    return "".join(json_text(line) + "\n" for line in ({**book, "spreadsheetId": "book1"}, cells)).encode()


# A conversation: each request with the response to it.

CELLS = f"{BOOK}/values/Sheet1%21A1%3AB2"
WRITE = Call("owner", f"PUT {CELLS}?valueInputOption=RAW&alt=json", '{"values":[[1,"x"],[true]]}')
READ = Call("owner", f"GET {CELLS}")
WRITTEN = response(
    200,
    '{"spreadsheetId":"book1","updatedCells":3,"updatedColumns":2,"updatedRange":"Sheet1!A1:B2","updatedRows":2}',
)
SHOWN = response(200, '{"majorDimension":"ROWS","range":"Sheet1!A1:B2","values":[["1","x"],["TRUE"]]}')

CONVERSATION = [
    (WRITE.request(), WRITTEN),
    (b"\r\n\r\n" + READ.request(), SHOWN),
    (
        Call("ann", f"POST {BOOK}/values/Sheet1!A:B:append?valueInputOption=RAW", '{"values":[[5,6]]}').request(),
        response(
            200,
            '{"spreadsheetId":"book1","tableRange":"Sheet1!A1:B2","updates":{"spreadsheetId":"book1","updatedCells":2,'
            '"updatedColumns":2,"updatedRange":"Sheet1!A3:B3","updatedRows":1}}',
        ),
    ),
    (
        batch("ann", {"insertDimension": {"range": {"dimension": "ROWS", "startIndex": 0, "endIndex": 1}}}).request(),
        response(200, '{"replies":[{}],"spreadsheetId":"book1"}'),
    ),
    (
        write("ann", "A0", [[1]]).request(),
        response(400, '{"error":{"code":400,"message":"BadRange","status":"INVALID_ARGUMENT"}}'),
    ),
    (read("nobody", "A1").request(), NO_USER),
    (
        request("GET", f"{BOOK}/values/A1:B4", fields=["Connection: close"]),
        response(
            200,
            '{"majorDimension":"ROWS","range":"Sheet1!A1:B4","values":[[],["1","x"],["TRUE"],["5","6"]]}',
            ["Connection: close"],
        ),
    ),
]
STREAM = b"".join(asked for asked, _ in CONVERSATION)
ANSWERS = b"".join(told for _, told in CONVERSATION)


# What scenes have in common.


def expect(given: object, wanted: object, title: str) -> None:
    assert given == wanted, f"{title}\nwanted {shown(wanted)}\ngiven  {shown(given)}"


def shown(value: object) -> str:
    text = repr(value)
    return text if len(text) <= 1000 else f"{text[:500]} ... {text[-500:]}"


def run_over(program: str, words: Sequence[str], folder: str, **streams: Any) -> Ended:
    """Runs a command over other streams than pipes. What goes into such a stream counts as nothing."""
    streams = {"stdout": subprocess.PIPE, "stderr": subprocess.PIPE, **streams}
    ended = subprocess.run([program, *words], cwd=folder, timeout=LIMIT, **streams)
    return Ended(ended.returncode, ended.stdout or b"", ended.stderr or b"")


def server_that_ends(program: str, folder: str, *words: str) -> Ended:
    """What a server ends with that lets nobody in."""
    with Server(program, folder, words) as server:
        return server.end()


START = 'exec "$0" "$@"'


class ShellServer(Server):
    """A server that a shell starts: START in the shell's text stands for the program with its words."""

    def __init__(self, program: str, folder: str, shell: str, words: Sequence[str] = (), limit: int = 1) -> None:
        self.port = free_port()
        serve = ["serve", "--port", str(self.port), "--limit", str(limit), *words]
        Command.__init__(self, "/bin/sh", ["-c", shell, program, *serve], folder)


def run_within(program: str, words: Sequence[str], folder: str, kilobytes: int, stdin: bytes = b"") -> Ended:
    """Runs a command that may have so much memory."""
    return run("/bin/sh", ["-c", f"ulimit -v {kilobytes}; {START}", program, *words], folder, stdin)


def at_once(call: Callable[[Item], Given], items: Sequence[Item]) -> list[Given]:
    """What a call gives for each item, with a thread for each of them."""
    with ThreadPoolExecutor(len(items)) as pool:
        return list(pool.map(call, items))


@contextmanager
def connected(server: Server, count: int) -> Iterator[list[Connection]]:
    """So many connections to a server, the first one first."""
    with ExitStack() as stack:
        yield [stack.enter_context(server.connect()) for _ in range(count)]


def rest_of(connection: Connection) -> bytes:
    """All that a connection still receives, to its end."""
    return b"".join(iter(connection.receive, b""))


def journal_of(folder: str) -> bytes:
    return Path(folder, "j").read_bytes()


def entries_of(journal: bytes) -> list[tuple[int, Call]]:
    """The whole entries of a journal, each its caller's number and its call."""
    expect(journal[: len(BEGINNING)], BEGINNING[: len(journal)], "the journal begins so")
    entries = []
    at = len(BEGINNING)
    while (entry := entry_at(journal, at)) is not None:
        entries.append(entry)
        at += len(entry[1].entry())
    return entries


def entry_at(journal: bytes, at: int) -> tuple[int, Call] | None:
    """The entry that stands there, or None where it isn't whole."""
    caller, at = number_at(journal, at), at + 4
    texts = []
    for _ in range(4):
        end = at + 4 + number_at(journal, at)
        texts.append(journal[at + 4 : end])
        at = end
    if at > len(journal):
        return None
    user, project, line, body = (text.decode() for text in texts)
    return caller, Call(user, line, body, project)


def number_at(data: bytes, at: int) -> int:
    return int.from_bytes(data[at : at + 4], "big")


def replay(program: str, folder: str) -> bytes:
    """What `replay` prints of the journal, which it can read."""
    ended = run(program, ["replay", "--journal", "j"], folder)
    expect((ended.status, ended.stderr), (0, b""), "the journal is looked at")
    return ended.stdout


# Words.


@listed
def words_that_no_line_of_a_case_has(program: str, folder: str) -> None:
    """Empty words and words that aren't UTF-8 are no command, and nothing of the input is read."""
    rows = (
        [""],
        ["run", ""],
        ["run", "--users", ""],
        ["\udcff"],
        ["run", "--users", "\udcff"],
        ["run", "--users=\udcff"],
        ["replay", "--journal", "\udcff"],
        ["workload", "4\udcff"],
    )
    for words in rows:
        expect(run_over_file(program, words, folder), (USAGE, 0), f"the words {words}")


@listed
def commands_without_an_input(program: str, folder: str) -> None:
    """`workload` and `replay` leave the input alone, and so do words that are no command."""
    Path(folder, "j").write_bytes(BEGINNING)
    for words in (["workload", "4"], ["replay", "--journal", "j"], ["fly"]):
        expect(run_over_file(program, words, folder)[1], 0, f"bytes that are read by {words}")


def run_over_file(program: str, words: Sequence[str], folder: str) -> tuple[Ended, int]:
    """Runs a command over a file as its input. How many bytes of that it has read is told, too."""
    path = Path(folder, "input")
    path.write_bytes(STREAM)
    with path.open("rb") as stdin:
        ended = run_over(program, words, folder, stdin=stdin)
        return ended, os.lseek(stdin.fileno(), 0, os.SEEK_CUR)


@listed
def options_of_a_server_in_any_order(program: str, folder: str) -> None:
    """A server is asked by its port, knows its users where they are named, and makes its journal where one is named."""
    rows = (
        "--port {port} --limit 7",
        "--limit=7 --port={port}",
        "--users u --port={port} --limit 7",
        "--port {port} --journal=j --limit 7",
        "--journal j --limit 7 --users=u --port {port}",
        "--port {port} --limit 1",
        "--port {port} --limit 1000000",
    )
    Path(folder, "u").write_bytes(USERS)
    for line in rows:
        journal = Path(folder, "j")
        journal.unlink(missing_ok=True)
        with Server(program, folder, line.format(port=free_port()).split()) as server, server.connect() as connection:
            expect(connection.ask(write("t", "A1", [[1]]).request()), written("A1"), line)
            owner = NO_USER if "--users" in line else written("A1")
            expect(connection.ask(write("owner", "A1", [[1]]).request()), owner, line)
            expect(journal.exists(), "--journal" in line, f"there is a journal: {line}")


@listed
def the_least_and_the_greatest_port(program: str, folder: str) -> None:
    """A server listens on them, or can't where they are taken or nobody may have them: they are a command."""
    for words in (["--port", "1", "--limit", "1"], ["--port", "65535", "--limit", "1000000"]):
        with Server(program, folder, words) as server:
            if not is_listening(server):
                expect(server.end(), READ_FAULT, f"no server on {words}")


def is_listening(server: Server) -> bool:
    """Waits until somebody listens on the port, or the server has ended."""
    while server.process.poll() is None:
        try:
            Connection(server.port).close()
            return True
        except ConnectionRefusedError:
            time.sleep(0.002)
    return False


# Streams.


@listed
def the_example_is_cut_after_each_byte(program: str, folder: str) -> None:
    """The whole requests before a cut are answered; the bytes of the one that is cut are counted."""
    stream = EXAMPLES.joinpath("first.http").read_bytes()
    second = stream.index(b"GET ")
    spans = [(0, second - 1), (second, len(stream))]
    expect(stream[second - 2 : second], b"}\n", "a line end stands between the requests")
    counts = '"updatedCells":8,"updatedColumns":3,"updatedRange":"Sheet1!A1:C3","updatedRows":3'
    values = '[["Name","Team","Goals"],["Ada","1","12"],["Bo","2"]]'
    told = [
        response(200, '{"spreadsheetId":"book1",' + counts + "}"),
        response(200, '{"majorDimension":"ROWS","range":"Sheet1!A1:C3","values":' + values + "}"),
    ]
    check_cuts(program, folder, stream, spans, told)


@listed
def a_write_and_a_read_are_cut_after_each_byte(program: str, folder: str) -> None:
    requests = [request(*call.line.split(" "), call.body, fields=["Host: localhost"]) for call in (WRITE, READ)]
    first, both = len(requests[0]), sum(map(len, requests))
    check_cuts(program, folder, b"".join(requests), [(0, first), (first, both)], [WRITTEN, SHOWN])


def check_cuts(program: str, folder: str, stream: bytes, spans: list[tuple[int, int]], told: list[bytes]) -> None:
    """Cuts a stream after each number of bytes. The spans are where its requests begin and end."""
    for cut in range(len(stream) + 1):
        whole = sum(end <= cut for _, end in spans)
        rest = max(0, cut - spans[whole][0]) if whole < len(spans) else 0
        answers = b"".join(told[:whole])
        wanted = Ended(5, answers, f"truncated {rest}\n".encode()) if rest else Ended(0, answers, b"")
        expect(run(program, ["run"], folder, stream[:cut]), wanted, f"a cut after {cut} bytes")


@listed
def a_conversation_in_small_pieces(program: str, folder: str) -> None:
    """However a conversation comes, by a pipe or by a socket, it has the same responses."""
    expect(run(program, ["run"], folder, STREAM), Ended(0, ANSWERS, b""), "the conversation at once")
    ways = [(way, size) for way in (feed_pipe, feed_socket) for size in (1, 7, 16)]
    told = at_once(lambda row: row[0](program, folder, row[1]), ways)
    for (way, size), answers in zip(ways, told):
        expect(answers, ANSWERS, f"{way.__name__} by {size} bytes")


def pieces(size: int) -> Iterator[bytes]:
    """The conversation in pieces of that size, with a short pause after each."""
    for at in range(0, len(STREAM), size):
        yield STREAM[at : at + size]
        time.sleep(0.001)


def feed_pipe(program: str, folder: str, size: int) -> bytes:
    with Command(program, ["run"], folder) as command:
        for piece in pieces(size):
            command.process.stdin.write(piece)
            command.process.stdin.flush()
        return command.end().stdout


def feed_socket(program: str, folder: str, size: int) -> bytes:
    with Server(program, folder) as server:
        with server.connect() as connection:
            connection.socket.setsockopt(socket.IPPROTO_TCP, socket.TCP_NODELAY, 1)
            for piece in pieces(size):
                connection.send(piece)
            answers = rest_of(connection)
        expect(server.end().status, 0, "the server's status")
        return answers


@listed
def each_response_comes_before_the_next_request(program: str, folder: str) -> None:
    """`run` answers a request at once, and doesn't wait for the end of its input."""
    with Command(program, ["run"], folder) as command:
        for asked, told in CONVERSATION:
            command.process.stdin.write(asked)
            command.process.stdin.flush()
            expect(command.process.stdout.read(len(told)), told, "the response")
        expect(command.end(), Ended(0, b"", b""), "the end")


@listed
def a_reader_that_goes_away(program: str, folder: str) -> None:
    """Where nobody reads the output any more, `run` ends with a write fault."""
    with Command(program, ["run"], folder) as command:
        command.process.stdin.write(WRITE.request())
        command.process.stdin.flush()
        expect(command.process.stdout.read(len(WRITTEN)), WRITTEN, "the first response")
        command.process.stdout.close()
        ask_until_the_end(command)
        expect(command.end(), WRITE_FAULT, "the end")


def ask_until_the_end(command: Command) -> None:
    """Asks again and again until the command has ended."""
    while command.process.poll() is None:
        try:
            command.process.stdin.write(READ.request())
            command.process.stdin.flush()
        except BrokenPipeError:
            return
        time.sleep(0.002)


@listed
def an_output_that_takes_nothing(program: str, folder: str) -> None:
    """The output fails where something is to be written, and not where nothing is."""
    Path(folder, "j").write_bytes(BEGINNING)
    rows = (
        (["run"], READ.request(), 4, b"write fault\n"),
        (["run"], b"", 0, b""),
        (["run"], READ.request()[:9], 5, b"truncated 9\n"),
        (["replay", "--journal", "j"], b"", 4, b"write fault\n"),
        (["workload", "4"], b"", 4, b"write fault\n"),
        (["fly"], b"", 2, b"usage\n"),
    )
    for words, stdin, status, line in rows:
        with Path("/dev/full").open("wb") as full:
            ended = run_over(program, words, folder, input=stdin, stdout=full)
        expect(ended, Ended(status, b"", line), f"{words} over {stdin!r}")


@listed
def a_server_whose_output_takes_nothing(program: str, folder: str) -> None:
    """It answers its connection and keeps the call; only what it prints at its end fails."""
    with ShellServer(program, folder, f"{START} >/dev/full", ["--journal", "j"]) as server:
        with server.connect() as connection:
            expect(connection.ask(WRITE.request()), WRITTEN, "the response")
        expect(server.end(), WRITE_FAULT, "the end")
    expect(journal_of(folder), BEGINNING + WRITE.entry(), "the journal")


@listed
def a_line_on_faults_that_is_lost(program: str, folder: str) -> None:
    """A status stays the same where its line can't be written."""
    rows = (["fly"], b"", 2), (["run", "--users", "u"], b"", 1), (["run"], READ.request()[:9], 5)
    for words, stdin, status in rows:
        with Path("/dev/full").open("wb") as full:
            ended = run_over(program, words, folder, input=stdin, stderr=full)
        expect(ended, Ended(status, b"", b""), f"{words} over {stdin!r}")


@listed
def an_input_that_cannot_be_read(program: str, folder: str) -> None:
    """A folder as the input gives no byte, and no end either."""
    descriptor = os.open(folder, os.O_RDONLY)
    try:
        expect(run_over(program, ["run"], folder, stdin=descriptor), READ_FAULT, "run")
    finally:
        os.close(descriptor)


@listed
def memory_that_runs_out(program: str, folder: str) -> None:
    """What can't be read or made for want of memory ends the command, or is answered 507 and isn't made."""
    expect(run_within(program, ["workload", "20000"], folder, 8_000), Ended(3, b"", b"no memory\n"), "workload")
    long = write("owner", "B1", [["x" * 40_000]] * 150)
    calls = [write("owner", "A1", [[1]]), long, read("owner", "A1:B1")]
    stream = b"".join(call.request() for call in calls)
    row = response(200, '{"majorDimension":"ROWS","range":"Sheet1!A1:B1","values":[["1"]]}')
    told = [written("A1"), NO_MEMORY, row]
    expect(run_within(program, ["run"], folder, 12_000, stream), Ended(3, told[0], b"no memory\n"), "a long request")
    expect(run_within(program, ["run"], folder, 28_000, stream), Ended(0, b"".join(told), b""), "a long call")


@listed
def the_other_examples(program: str, folder: str) -> None:
    """read.http reads an empty range. serve.py writes, reads and protects a row, and is refused a write into it."""
    told = response(200, '{"majorDimension":"ROWS","range":"Sheet1!A1:B2"}')
    expect(run(program, ["run"], folder, EXAMPLES.joinpath("read.http").read_bytes()), Ended(0, told, b""), "read.http")
    counts = {"updatedCells": 3, "updatedColumns": 3, "updatedRange": "Sheet1!A1:C1", "updatedRows": 1}
    row = {"endRowIndex": 1, "sheetId": 0, "startRowIndex": 0}
    protected = {"editors": {"users": ["bo"]}, "protectedRangeId": 1, "range": row, "requestingUserCanEdit": True}
    wanted = [
        (200, {"spreadsheetId": "book1", "updates": {"spreadsheetId": "book1", **counts}}),
        (200, {"majorDimension": "ROWS", "range": "Sheet1!A1:C1000", "values": [["Cy", "3", "7"]]}),
        (200, {"replies": [{"addProtectedRange": {"protectedRange": protected}}], "spreadsheetId": "book1"}),
        (403, {"error": {"code": 403, "message": "Protected 1", "status": "PERMISSION_DENIED"}}),
    ]
    with Server(program, folder, limit=2) as server:
        server.connect().close()
        asked = run(sys.executable, [str(EXAMPLES / "serve.py"), f"http://{HOST}:{server.port}"], folder)
        expect(asked, Ended(0, "".join(f"{code} {value}\n" for code, value in wanted).encode(), b""), "serve.py")
        expect(server.end().status, 0, "the server's status")


# Files.


@listed
def files_that_cannot_be_read_or_written(program: str, folder: str) -> None:
    """The memory of a process is such a file: nothing stands at its first byte. A program that runs is one that can be
    read, and can't be opened to be written.
    """
    unreadable = "/proc/self/mem"
    unavailable = Ended(7, b"", b"unavailable\n")
    server = ["serve", "--port", str(free_port()), "--limit", "1"]
    rows = (
        (["run", "--users", unreadable], READ_FAULT),
        ([*server, "--users", unreadable, "--journal", "j"], READ_FAULT),
        (["replay", "--journal", unreadable], unavailable),
        ([*server, "--journal", unreadable], unavailable),
        (["replay", "--journal", "/proc/self/exe"], READ_FAULT),
    )
    for words, wanted in rows:
        expect(run(program, words, folder, READ.request()), wanted, f"the words {words}")
    expect(Path(folder, "j").exists(), False, "a journal is made though the users can't be read")


@listed
def a_journal_that_is_cut_after_each_byte(program: str, folder: str) -> None:
    """What follows the last whole entry is none, whatever its length, and the file stays as it is."""
    second = write("bob", "C1", [["y"]]).entry()
    journal = BEGINNING + WRITE.entry() + second
    ends = (len(journal) - len(second), len(journal))
    sheets: list[list[list[Any]]] = [[], [[1, "x"], [True]], [[1, "x", "y"], [True]]]
    for cut in range(len(journal) + 1):
        Path(folder, "j").write_bytes(journal[:cut])
        whole = sum(end <= cut for end in ends)
        expect(replay(program, folder), dump(sheets[whole]), f"the journal cut after {cut} bytes")
        expect(journal_of(folder), journal[:cut], f"the file of {cut} bytes")


@listed
def a_torn_rest_of_any_length_gives_way(program: str, folder: str) -> None:
    """A server writes its first entry in the place of what is torn, also where the entry is the shorter one."""
    torn = write("bob", "C1", [["y" * 200]]).entry()
    before = BEGINNING + WRITE.entry()
    whole = before + WRITE.entry()
    for length in (1, 4, 19, 20, 150, len(torn) - 1):
        Path(folder, "j").write_bytes(before + torn[:length])
        with Server(program, folder, ["--journal", "j"]) as server:
            with server.connect() as connection:
                expect(connection.ask(WRITE.request()), WRITTEN, "the response")
            expect(server.end(), summary(2, 3, len(whole)), f"the end after {length} bytes of an entry")
        expect(journal_of(folder), whole, f"the journal in place of {length} bytes")


@listed
def a_journal_that_a_server_holds(program: str, folder: str) -> None:
    """A second server doesn't begin with it; `replay` may look at it; and it is free once the first has ended."""
    words = ["--journal", "j"]
    with Server(program, folder, words) as server:
        with server.connect() as connection:
            expect(connection.ask(WRITE.request()), WRITTEN, "the first server")
            expect(server_that_ends(program, folder, *words), READ_FAULT, "the second server")
            expect(replay(program, folder), dump([[1, "x"], [True]]), "the look")
            expect(connection.ask(READ.request()), SHOWN, "the first server after the second")
        expect(server.end(), summary(1, 3, 140), "the end of the first server")
    with Server(program, folder, words) as server:
        with server.connect() as connection:
            expect(connection.ask(READ.request()), SHOWN, "the third server")
        expect(server.end(), summary(1, 3, 140), "the end of the third server")


@listed
def a_journal_without_room(program: str, folder: str) -> None:
    """A call that the journal can't keep is answered 503 and not made; once there is room again, it is."""
    shell = f'trap "" XFSZ; {START}'
    one, two = write("owner", "A1", [[1]]), write("owner", "A2", [[2]])
    with ShellServer(program, folder, shell, ["--journal", "j"]) as server, server.connect() as connection:
        expect(connection.ask(one.request()), written("A1"), "a call with room")
        kept = BEGINNING + one.entry()
        set_most_bytes(server, len(kept) + 30)
        expect(connection.ask(two.request()), UNAVAILABLE, "a call without room")
        expect(ask_for_cells(connection, "owner", "A1:A2"), [["1"]], "the cells")
        expect(entries_of(journal_of(folder)), [(1, one)], "the entries")
        expect(replay(program, folder), dump([[1]]), "the look")
        set_most_bytes(server, None)
        expect(connection.ask(two.request()), written("A2"), "a call with room again")
        connection.close()
        expect(server.end(), summary(2, 2, len(kept + two.entry())), "the end")
    expect(journal_of(folder), kept + two.entry(), "the journal")


def set_most_bytes(server: Server, count: int | None) -> None:
    """Sets how many bytes a file that the server writes may have: so many, or as many as the system allows."""
    _, most = resource.prlimit(server.process.pid, resource.RLIMIT_FSIZE)
    resource.prlimit(server.process.pid, resource.RLIMIT_FSIZE, (most if count is None else count, most))


@dataclass
class Writer:
    """Writes the numbers from 1 on into a cell, one after another."""

    cell: str
    sent: int = 0
    answered: int = 0

    @property
    def user(self) -> str:
        return f"user-{self.cell}"

    def call(self, number: int) -> Call:
        return write(self.user, self.cell, [[number]])

    def write_next(self, connection: Connection) -> bool:
        """Sends the next number. Whether it was answered: the connection may have ended, and nothing else."""
        self.sent = self.answered + 1
        try:
            told = connection.ask(self.call(self.sent).request())
        except ConnectionError:
            return False
        expect(told, written(self.cell)[: len(told)], "a response, or the beginning of one")
        if told != written(self.cell):
            return False
        self.answered = self.sent
        return True

    def write_on(self, connection: Connection) -> None:
        while self.write_next(connection):
            pass


@listed
def servers_that_are_killed(program: str, folder: str) -> None:
    """A journal has each call that was answered, in order and once, and at most that for which a client waited."""
    writers = [Writer("A1"), Writer("B1"), Writer("C1")]
    for delay in (0.0, 0.002, 0.005, 0.01, 0.02, 0.03, 0.05, 0.07, 0.1, 0.15):
        write_until_killed(program, folder, writers, delay)
        check_kept(program, folder, writers)
    with Server(program, folder, ["--journal", "j"], len(writers)) as server:
        with connected(server, len(writers)) as connections:
            told = [writer.write_next(connection) for writer, connection in zip(writers, connections)]
            expect(told, [True] * len(writers), "the last server answers")
        check_kept(program, folder, writers)
        accepted = sum(writer.answered for writer in writers)
        expect(server.end(), summary(accepted, len(writers), len(journal_of(folder))), "the end of the last server")


def write_until_killed(program: str, folder: str, writers: list[Writer], delay: float) -> None:
    """All write to a server that is killed after a while."""
    with Server(program, folder, ["--journal", "j"], len(writers)) as server:
        with connected(server, len(writers)) as connections, ThreadPoolExecutor(len(writers)) as pool:
            written_on = [pool.submit(Writer.write_on, *pair) for pair in zip(writers, connections)]
            time.sleep(delay)
            expect(server.process.poll(), None, "the status of the server before it is killed")
            server.kill()
            for one in written_on:
                one.result()


def check_kept(program: str, folder: str, writers: list[Writer]) -> None:
    """Compares a journal with what was answered, and lets the writers go on from there."""
    entries = entries_of(journal_of(folder))
    for writer in writers:
        kept = [call for _, call in entries if call.user == writer.user]
        expect(kept, [writer.call(number + 1) for number in range(len(kept))], "what is kept stands in order and once")
        assert len(kept) in (writer.answered, writer.sent), f"{len(kept)} are kept of {writer}"
        writer.answered = len(kept)
    sheet = json.loads(replay(program, folder).splitlines()[1])
    row = [*sheet.get("values", [[]])[0], *[""] * len(writers)][: len(writers)]
    expect(row, [writer.answered or "" for writer in writers], "the spreadsheet has the last numbers")


# Connections.


@listed
def a_connection_that_asks_nothing(program: str, folder: str) -> None:
    with Server(program, folder) as server:
        server.connect().close()
        expect(server.end(), summary(0, 0, 8), "the end")


@listed
def a_port_that_is_taken(program: str, folder: str) -> None:
    """The port is opened last: where the journal is bad, that is told, and one that is missing is made."""
    with socket.create_server((HOST, 0)) as taken:
        serve = partial(server_that_ends, program, folder, f"--port={taken.getsockname()[1]}")
        expect(serve(), READ_FAULT, "no journal")
        expect(serve("--journal", "j"), READ_FAULT, "a journal that is missing")
        expect(entries_of(journal_of(folder)), [], "the journal that was made")
        Path(folder, "j").write_bytes(b"hello")
        expect(serve("--journal", "j"), Ended(6, b"", b"bad journal 0\n"), "a bad journal")


@listed
def two_connections_that_wait_for_one_another(program: str, folder: str) -> None:
    """One is answered while the other has sent a head alone, and the other while the first waits for that."""
    head, _, body = WRITE.request().partition(b"\r\n\r\n")
    with Server(program, folder, limit=2) as server:
        with connected(server, 2) as (slow, quick):
            slow.send(head + b"\r\n\r\n")
            expect(ask_for_cells(quick, "ann", "A1:B2"), [], "the quick connection, before the write")
            expect(slow.ask(body), WRITTEN, "the slow connection")
            expect(quick.ask(READ.request()), SHOWN, "the quick connection, after the write")
            expect(slow.ask(READ.request()), SHOWN, "the slow connection again")
        expect(server.end(), summary(1, 3, 140), "the end")


@listed
def a_client_that_half_closes(program: str, folder: str) -> None:
    """It may end what it sends before it reads: all its whole requests are answered."""
    for rest in (b"", b"\r\n", READ.request()[:50]):
        with Server(program, folder) as server:
            with server.connect() as connection:
                connection.send(WRITE.request() + READ.request() * 3 + rest)
                connection.socket.shutdown(socket.SHUT_WR)
                expect(rest_of(connection), WRITTEN + SHOWN * 3, f"the responses where {rest!r} follows")
            expect(server.end(), summary(1, 3, 140), "the end")


@listed
def a_client_that_goes_away(program: str, folder: str) -> None:
    """It leaves without reading what it asked for; the others are answered, and the server ends as always."""
    with Server(program, folder, limit=3) as server:
        with server.connect() as connection:
            expect(connection.ask(WRITE.request()), WRITTEN, "the first connection")
            connection.send(READ.request() * 500)
        with server.connect() as connection:
            connection.send(READ.request()[:50])
        with server.connect() as connection:
            expect(connection.ask(READ.request()), SHOWN, "the last connection")
        expect(server.end(), summary(1, 3, 140), "the end")


@listed
def more_connections_than_the_server_may_open(program: str, folder: str) -> None:
    """Where the system allows no more, the others wait until one is closed, and are answered then."""
    with ShellServer(program, folder, f"ulimit -n 7; {START}", limit=8) as server:
        with connected(server, 8) as connections:
            for connection in connections:
                connection.send(WRITE.request())
            for connection in connections:
                expect(connection.receive(), WRITTEN, "each connection")
                connection.close()
        expect(server.end(), summary(8, 3, len(BEGINNING + WRITE.entry() * 8)), "the end")


COLUMNS = "ABCDEFGH"
TURNS = 50
LOOKS = (Call("owner", f"GET {BOOK}"), Call("owner", f"GET {BOOK}/values/Sheet1?valueRenderOption=FORMULA"))


@dataclass
class Caller:
    """A user at a connection of its own, and the calls that were accepted, each with the response to it."""

    number: int
    connection: Connection
    accepted: list[tuple[Call, bytes]] = field(default_factory=list)

    @property
    def user(self) -> str:
        return f"user{self.number}"

    def make(self, call: Call) -> None:
        """Makes a call that is accepted."""
        told = self.connection.ask(call.request())
        value_of(told)
        self.accepted.append((call, told))

    def cells(self, cells: str) -> list[list[str]]:
        return ask_for_cells(self.connection, self.user, cells)


@contextmanager
def callers_of(server: Server) -> Iterator[list[Caller]]:
    """A caller for each column, at connections with the numbers from 1 on."""
    with connected(server, len(COLUMNS)) as connections:
        yield [Caller(number, connection) for number, connection in enumerate(connections, 1)]


@listed
def eight_connections_at_once(program: str, folder: str) -> None:
    """Each reads what it wrote, and all of them come to what one thread makes that makes the journal's calls again."""
    with Server(program, folder, ["--journal", "j"], len(COLUMNS)) as server:
        with callers_of(server) as callers:
            at_once(fill, callers)
            looks = [callers[0].connection.ask(call.request()) for call in LOOKS]
        ended = server.end()
    entries = entries_of(journal_of(folder))
    turns = len(COLUMNS) * TURNS
    expect(ended, summary(3 * turns, 4 * turns, len(journal_of(folder))), "the end of the server")
    check_order(entries, callers)
    check_made_again(program, folder, entries, callers, looks)


def fill(caller: Caller) -> None:
    """Fills a column and its part of a table that all share. Both show its own calls, and nothing leaves the table."""
    table: list[list[str]] = []
    column = COLUMNS[caller.number - 1]
    own = f"{column}1:{column}100"
    for turn in range(1, TURNS + 1):
        caller.make(write(caller.user, f"{column}{turn}", [[f"={column}{turn + 100}*2"]], "USER_ENTERED"))
        caller.make(note(caller, turn))
        append = f"POST {BOOK}/values/J:K:append?valueInputOption=RAW"
        caller.make(Call(caller.user, append, json_text({"values": [[caller.user, turn]]})))
        expect(caller.cells(own), [[str(2 * number)] for number in range(1, turn + 1)], f"the column of {caller.user}")
        before, table = table, caller.cells("J:K")
        expect(table[: len(before)], before, "what the table had stays")
        mine = [number for user, number in table if user == caller.user]
        expect(mine, [str(number) for number in range(1, turn + 1)], f"the rows of {caller.user}")


def note(caller: Caller, turn: int) -> Call:
    """A batch that writes the cell which the column's formula reads, and notes an item, whose id tells its place."""
    item = {"metadataKey": caller.user, "visibility": "PROJECT", "location": {"spreadsheet": True}}
    return batch(
        caller.user,
        cell_update((turn + 99, caller.number - 1), {"numberValue": turn}),
        {"createDeveloperMetadata": {"developerMetadata": item}},
        project=f"project{caller.number}",
    )


def check_order(entries: list[tuple[int, Call]], callers: list[Caller]) -> None:
    """Each accepted call has one entry, by its connection's number, in the order in which it was made."""
    for caller in callers:
        own = [(caller.number, call) for call, _ in caller.accepted]
        expect([entry for entry in entries if entry[0] == caller.number], own, f"the entries of {caller.user}")
    expect(len(entries), sum(len(caller.accepted) for caller in callers), "the number of entries")


def check_made_again(
    program: str, folder: str, entries: list[tuple[int, Call]], callers: list[Caller], looks: list[bytes]
) -> None:
    """One thread that makes the entries' calls again is answered the same to each, and sees the same after them."""
    told = {caller.number: iter([answer for _, answer in caller.accepted]) for caller in callers}
    wanted = [next(told[number]) for number, _ in entries]
    calls = [call for _, call in entries]
    expect(made_alone(program, folder, [*calls, *LOOKS]), wanted + looks, "the calls made again")
    bodies = b"".join(look.partition(b"\r\n\r\n")[2] + b"\n" for look in looks)
    expect(replay(program, folder), bodies, "the look at the journal")


def made_alone(program: str, folder: str, calls: Iterable[Call]) -> list[bytes]:
    """What calls are answered that one thread makes, one after another."""
    ended = run(program, ["run"], folder, b"".join(call.request() for call in calls))
    expect((ended.status, ended.stderr), (0, b""), "the calls made alone")
    return split_responses(ended.stdout)


@listed
def eight_connections_race_with_broken_batches(program: str, folder: str) -> None:
    """A batch whose second request is refused leaves nothing of its first; the others are seen whole."""
    with Server(program, folder, ["--journal", "j"], len(COLUMNS)) as server:
        with callers_of(server) as callers:
            at_once(race, callers)
            looks = [callers[0].connection.ask(call.request()) for call in LOOKS]
        ended = server.end()
    entries = entries_of(journal_of(folder))
    expect(ended, summary(len(COLUMNS) * TURNS, 2, len(journal_of(folder))), "the end of the server")
    check_order(entries, callers)
    check_made_again(program, folder, entries, callers, looks)


def race(caller: Caller) -> None:
    """Writes one text into two cells by a batch, again and again, and between them by batches that are refused."""
    outside = {"insertDimension": {"range": {"dimension": "ROWS", "startIndex": 2000, "endIndex": 2001}}}
    for turn in range(TURNS):
        text = {"stringValue": f"{caller.user} {turn}"}
        caller.make(batch(caller.user, cell_update((0, 0), text), cell_update((0, 1), text)))
        broken = batch(caller.user, cell_update((0, 0), {"stringValue": "broken"}), outside)
        expect(caller.connection.ask(broken.request()), OUTSIDE, "a broken batch")
        [[left, right]] = caller.cells("A1:B1")
        expect((left == right, left == "broken"), (True, False), f"{left} stands beside {right}")


# A club's sheet: a list of members and what each has paid on the days of a week.


def post(user: str, rest: str, value: Any) -> Call:
    return Call(user, f"POST {BOOK}{rest}", json_text(value))


def look(user: str, rest: str = "") -> Call:
    return Call(user, f"GET {BOOK}{rest}")


def enter(user: str, cells: str, values: list[list[Any]]) -> Call:
    return write(user, cells, values, "USER_ENTERED")


def area(rows: tuple[int, int], columns: tuple[int, int]) -> dict[str, int]:
    """An area of the first sheet."""
    return {
        "startRowIndex": rows[0],
        "endRowIndex": rows[1],
        "startColumnIndex": columns[0],
        "endColumnIndex": columns[1],
    }


def row_span(first: int, end: int) -> dict[str, Any]:
    """Rows of the first sheet."""
    return {"sheetId": 0, "dimension": "ROWS", "startIndex": first, "endIndex": end}


def begin_club() -> list[Call]:
    """The owner enters 300 members with their sums, filters them, and protects the sums and the header, which ann may
    edit.
    """
    members = [[f"M{row}", 1, 2, 0, 0, 3, 1, f"=SUM(B{row}:G{row})"] for row in range(2, 302)]
    condition = {"type": "NUMBER_GREATER", "values": [{"userEnteredValue": "1"}]}
    criteria = {"1": {"condition": condition}}
    header = {"range": area((0, 1), (0, 7)), "editors": {"users": ["ann"]}}
    return [
        enter("owner", "A1:H301", [["Name", "Mo", "Tu", "We", "Th", "Fr", "Sa", "Sum"], *members]),
        batch(
            "owner",
            {"setBasicFilter": {"filter": {"range": area((0, 301), (0, 8)), "criteria": criteria}}},
            {"addProtectedRange": {"protectedRange": {"range": area((0, 301), (7, 8))}}},
            {"addProtectedRange": {"protectedRange": header}},
        ),
    ]


def use_club() -> list[Call]:
    """40 calls by three users, none of whom touches a cell that is denied to him."""
    captain = {
        "metadataKey": "captain",
        "visibility": "DOCUMENT",
        "location": {"dimensionRange": row_span(10, 11)},
    }
    return [
        *(write("bob", f"B{row}:G{row}", [[row, 0, 1, 2, 0, 3]]) for row in (2, 3, 17, 120, 301)),
        *(read("bob", cell) for cell in ("H2", "H3", "H301")),
        look("bob", "/values/A1:H301?valueRenderOption=UNFORMATTED_VALUE"),
        look("bob", "/values/H2:H4?valueRenderOption=FORMULA"),
        write("ann", "A1:G1", [["Member", "Mon", "Tue", "Wed", "Thu", "Fri", "Sat"]]),
        write("ann", "A2:A4", [["Ada"], ["Bo"], ["Cleo"]]),
        look("ann", "/values:batchGet?ranges=A1:H1&ranges=A2:B4"),
        post("ann", "/values/A1:G301:append?valueInputOption=RAW", {"values": [["Dan", 1, 1, 1, 1, 1, 1]]}),
        read("ann", "A302:H302"),
        write("owner", "H302", [["new"]]),
        enter("owner", "H302", [["=SUM(B302:G302)"]]),
        look("owner", "?includeGridData=true"),
        look("owner"),
        post("bob", "/values/B20:G20:clear", {}),
        read("bob", "H20"),
        post("ann", "/values:batchClear", {"ranges": ["B21:G21", "B22:C23"]}),
        post(
            "ann",
            "/values:batchUpdate",
            {
                "valueInputOption": "RAW",
                "data": [{"range": "B21:C21", "values": [[7, 8]]}, {"range": "B22", "values": [[9]]}],
            },
        ),
        batch("bob", {"insertDimension": {"range": row_span(10, 12)}}),
        look("bob", "/values/A10:H13?valueRenderOption=FORMULA"),
        write("bob", "A11:G12", [["Eve", 1, 2, 3, 4, 5, 6], ["Finn", 6, 5, 4, 3, 2, 1]]),
        batch("bob", {"addNamedRange": {"namedRange": {"name": "week", "range": area((1, 304), (1, 7))}}}),
        enter("bob", "J1", [["=SUM(week)"]]),
        read("bob", "J1"),
        read("ann", "week"),
        batch("bob", cell_update((30, 1), {"numberValue": 4}), cell_update((30, 2), {"stringValue": "ill"})),
        batch("bob", {"createDeveloperMetadata": {"developerMetadata": captain}}),
        post(
            "ann",
            "/developerMetadata:search",
            {"dataFilters": [{"developerMetadataLookup": {"metadataKey": "captain"}}]},
        ),
        look("ann", "/developerMetadata/1"),
        batch("owner", {"moveDimension": {"source": row_span(10, 12), "destinationIndex": 40}}),
        batch(
            "ann",
            {"addSheet": {"properties": {"title": "Rota"}}},
            {"appendDimension": {"sheetId": 0, "dimension": "ROWS", "length": 10}},
        ),
        enter("ann", "Rota!A1:B1", [["=Sheet1!A2", "=Sheet1!H2"]]),
        read("bob", "Rota!A1:B1"),
        look("owner", "?includeGridData=true"),
        read("owner", "A1:J304"),
    ]


@listed
def a_club_keeps_its_sheet(program: str, folder: str) -> None:
    """All 42 calls are answered, and sums show what was paid."""
    calls = [*begin_club(), *use_club()]
    answers = [value_of(told) for told in made_alone(program, folder, calls)]
    expect((len(calls), len(answers)), (42, 42), "the numbers of calls and of answers")
    sums = ("H2", [["8"]]), ("H3", [["9"]]), ("H301", [["307"]]), ("H20", [["0"]]), ("Rota!A1:B1", [["Ada", "8"]])
    for cells, wanted in sums:
        expect(answers[calls.index(read("bob", cells))]["values"], wanted, cells)
