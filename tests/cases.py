"""The cases of the text files, as README.md describes them."""

from __future__ import annotations

import re
from dataclasses import dataclass, field
from pathlib import Path

import program

INDENTATION = "   "
REQUEST = re.compile(r"-> (?:(\d+) )?(\S+)(?: (\S.*?))?(?: as (\S+))?")
RESPONSE = re.compile(r"<- (\d+)")
FIELD = re.compile(r"[A-Za-z-]+:.*")


class Misread(Exception):
    """A file isn't written as README.md says."""


@dataclass
class Request:
    """A request, its connection, and the bytes of the response to it, where one is wanted."""

    line: int
    title: str
    connection: int
    sent: bytes
    wanted: bytes | None = None


@dataclass
class Command:
    """A command of the program: what it is given, and what it must leave. Files that must be missing are None."""

    words: list[str]
    requests: list[Request] = field(default_factory=list)
    stdin: bytes | None = None
    stdout: bytes | None = None
    stderr: bytes = b""
    status: int = 0
    kept: dict[str, bytes | None] = field(default_factory=dict)
    is_killed: bool = False

    @property
    def is_server(self) -> bool:
        """Whether it is asked by connections. Where no request is, its words alone decide what it does."""
        return self.words[:1] == ["serve"] and bool(self.requests)


@dataclass
class Case:
    """Files, and the commands that run over them, one after another."""

    file: str
    line: int
    name: str
    files: dict[str, bytes] = field(default_factory=dict)
    commands: list[Command] = field(default_factory=list)


@dataclass
class Entry:
    """A line that begins something, and the lines under it, which are indented or begin with `|`."""

    line: int
    text: str
    indented: list[str] = field(default_factory=list)
    pieces: list[str] = field(default_factory=list)

    def piece_bytes(self) -> bytes:
        return b"".join(map(program.bytes_of, self.pieces))

    def fields_and_body(self) -> tuple[list[str], str]:
        """The indented lines: the fields that they begin with, and the body, which is the rest."""
        lines = list(map(program.expand, self.indented))
        count = next((number for number, line in enumerate(lines) if not FIELD.fullmatch(line)), len(lines))
        return lines[:count], "".join(lines[count:])


def read_cases(path: Path) -> list[Case]:
    """The cases of a file."""
    cases: list[Case] = []
    for entry in read_entries(path):
        try:
            if entry.text.startswith("== "):
                cases.append(Case(path.name, entry.line, entry.text[3:].strip()))
            elif cases:
                add_entry(cases[-1], entry)
            else:
                raise ValueError("a case begins with ==")
        except ValueError as error:
            raise Misread(f"{path.name}:{entry.line}: {error}") from error
    for case in cases:
        if not case.commands:
            raise Misread(f"{case.file}:{case.line}: a case has requests or a command")
    return cases


def read_entries(path: Path) -> list[Entry]:
    """The entries of a file."""
    entries: list[Entry] = []
    for line, content in enumerate(path.read_text(encoding="utf-8").split("\n"), 1):
        if not content.strip() or content.startswith("#"):
            continue
        if content[0] not in " |":
            entries.append(Entry(line, content))
        elif entries and content.startswith(INDENTATION):
            entries[-1].indented.append(content[len(INDENTATION) :])
        elif entries and (content == "|" or content.startswith("| ")):
            entries[-1].pieces.append(content[2:])
        else:
            raise Misread(f"{path.name}:{line}: what stands under a line is indented by three, or behind | and a space")
    return entries


def add_entry(case: Case, entry: Entry) -> None:
    """Adds to a case what an entry says."""
    word, _, rest = entry.text.partition(" ")
    has_pieces = word in ("file", "stdin", "stdout", "kept")
    if entry.pieces and not has_pieces or entry.indented and word not in ("->", "<-"):
        raise ValueError("the lines under it don't belong here")
    if word == "file" and not case.commands:
        case.files[rest] = entry.piece_bytes()
    elif word == "$":
        case.commands.append(Command(rest.split()))
    else:
        if not case.commands:
            case.commands.append(Command(["run"]))
        add_to_command(case.commands[-1], entry, word, rest)


def add_to_command(command: Command, entry: Entry, word: str, rest: str) -> None:
    """Adds to a command what an entry says."""
    match word:
        case "->" if command.stdin is None:
            command.requests.append(read_request(entry))
        case "<-":
            add_response(command, entry)
        case "stdin" if not command.requests:
            command.stdin = entry.piece_bytes()
        case "stdout":
            command.stdout = entry.piece_bytes()
        case "stderr":
            command.stderr = program.bytes_of(rest)
        case "status":
            command.status = int(rest)
        case "kept" if rest.endswith(" missing"):
            command.kept[rest.removesuffix(" missing")] = None
        case "kept":
            command.kept[rest] = entry.piece_bytes()
        case "kill" if command.is_server:
            command.is_killed = True
        case _:
            raise ValueError(f"{entry.text!r} doesn't belong here")


def read_request(entry: Entry) -> Request:
    found = REQUEST.fullmatch(program.expand(entry.text))
    if not found:
        raise ValueError("a request is -> GET /target as user")
    connection, method, target, user = found.groups()
    fields, body = entry.fields_and_body()
    sent = program.request(method, target or "", body, user or "owner", fields)
    return Request(entry.line, entry.text, int(connection or 1), sent)


def add_response(command: Command, entry: Entry) -> None:
    """Adds the response that is wanted to the request above it."""
    found = RESPONSE.fullmatch(entry.text)
    if not found or int(found[1]) not in program.PHRASES:
        raise ValueError("a response is <- 200, of a status that the program has")
    if not command.requests or command.requests[-1].wanted is not None:
        raise ValueError("a response stands under its request")
    fields, body = entry.fields_and_body()
    command.requests[-1].wanted = program.response(int(found[1]), body, fields)
