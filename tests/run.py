"""Runs the tests of the whole program: python3 tests/run.py PROGRAM [NAME]

README.md describes the cases. With NAME those run whose name contains it.
"""

from __future__ import annotations

import os
import sys
import tempfile
import threading
from collections.abc import Callable, Iterator
from concurrent.futures import Future, ThreadPoolExecutor
from contextlib import ExitStack
from dataclasses import dataclass
from difflib import SequenceMatcher
from functools import partial
from itertools import zip_longest
from pathlib import Path

import cases
import examples
import program
import scenes

HERE = Path(__file__).resolve().parent
SCENE_LIMIT = 120.0
SHOWN_LENGTH = 600
SHOWN_LINES = 20


@dataclass(frozen=True)
class Test:
    """A case or a scene: where it stands, and a call that fails with an AssertionError."""

    file: str
    place: str
    name: str
    call: Callable[[], None]


def main(words: list[str]) -> int:
    if len(words) not in (1, 2):
        print(__doc__.splitlines()[0], file=sys.stderr)
        return 2
    path = os.path.abspath(words[0])
    if not os.access(path, os.X_OK):
        print(f"{path} can't be run", file=sys.stderr)
        return 2
    try:
        tests = list(find_tests(path))
    except cases.Misread as misread:
        print(misread, file=sys.stderr)
        return 2
    name = "".join(words[1:])
    return run_tests([test for test in tests if name in test.name])


def find_tests(path: str) -> Iterator[Test]:
    """The cases and the scenes of this folder, over the program of that path."""
    names: dict[str, str] = {}
    for file in sorted(HERE.glob("*.txt")):
        for case in cases.read_cases(file):
            place = f"{case.file}:{case.line}"
            if case.name in names:
                raise cases.Misread(f"{place}: {names[case.name]} has this name already")
            names[case.name] = place
            yield Test(case.file, place, case.name, partial(run_case, path, case))
    for module in (scenes, examples):
        for name, scene in module.scenes(path):
            file = f"{module.__name__}.py"
            yield Test(file, file, name, partial(run_scene, scene))


def run_tests(tests: list[Test]) -> int:
    """Runs the tests, several side by side, and says how they end, file by file."""
    passed = 0
    pool = ThreadPoolExecutor(min(8, 2 * (os.cpu_count() or 1)))
    try:
        running = [(test, pool.submit(test.call)) for test in tests]
        for file in dict.fromkeys(test.file for test in tests):
            ended = [is_passed(test, future) for test, future in running if test.file == file]
            passed += sum(ended)
            print(f"{file}: {sum(ended)} of {len(ended)}", flush=True)
    finally:
        pool.shutdown(cancel_futures=True)
    print(f"{passed} passed, {len(tests) - passed} failed")
    return 0 if tests and passed == len(tests) else 1


def is_passed(test: Test, future: Future[None]) -> bool:
    """Waits for a test, and tells what went wrong."""
    error = future.exception()
    if error is None:
        return True
    message = str(error) if isinstance(error, AssertionError) else repr(error)
    print(f"{test.place}: {test.name}\n    " + message.replace("\n", "\n    "), flush=True)
    return False


def run_scene(scene: Callable[[], None]) -> None:
    """Runs a scene for a limited time."""
    errors: list[BaseException] = []

    def guarded() -> None:
        try:
            scene()
        except BaseException as error:
            errors.append(error)

    thread = threading.Thread(target=guarded, daemon=True)
    thread.start()
    thread.join(SCENE_LIMIT)
    assert not thread.is_alive(), f"the scene hadn't ended after {SCENE_LIMIT:.0f} seconds"
    if errors:
        raise errors[0]


def run_case(path: str, case: cases.Case) -> None:
    """Runs a case in a folder of its own."""
    with tempfile.TemporaryDirectory(prefix="sheets-") as folder:
        for name, content in case.files.items():
            (Path(folder) / name).write_bytes(content)
        for command in case.commands:
            if command.is_server:
                ended = run_server(path, folder, command)
            else:
                ended = run_conversation(path, folder, command)
            if ended:
                check_end(command, ended)
            check_kept(folder, command)


def run_conversation(path: str, folder: str, command: cases.Command) -> program.Ended:
    """Gives a command its input at once, and compares its responses, if it has requests."""
    if command.stdin is not None:
        return program.run(path, command.words, folder, command.stdin)
    ended = program.run(path, command.words, folder, b"".join(request.sent for request in command.requests))
    if not command.requests:
        return ended
    responses = program.split_responses(ended.stdout)
    for request, response in zip_longest(command.requests, responses, fillvalue=None):
        if request is None:
            raise AssertionError(difference("a response without a request", b"", response or b""))
        check_response(request, response or b"")
    return ended


def run_server(path: str, folder: str, command: cases.Command) -> program.Ended | None:
    """Sends requests by their connections, each behind the response before it; None where the server is killed."""
    numbers = {request.connection for request in command.requests}
    connections: dict[int, program.Connection] = {}
    with program.Server(path, folder, command.words[1:], len(numbers)) as server, ExitStack() as opened:
        for request in command.requests:
            if request.connection not in connections:
                connections[request.connection] = opened.enter_context(server.connect())
            check_response(request, connections[request.connection].ask(request.sent))
        if command.is_killed:
            server.kill()
            return None
        opened.close()
        return server.end()


def check_response(request: cases.Request, response: bytes) -> None:
    title = f"{request.title} (line {request.line})"
    assert response, f"{title}\nno response"
    if request.wanted is not None:
        check_equal(title, request.wanted, response)


def check_end(command: cases.Command, ended: program.Ended) -> None:
    """Compares what a command ended with."""
    if command.stdout is not None:
        check_equal("stdout", command.stdout, ended.stdout)
    check_equal("stderr", command.stderr, ended.stderr)
    assert ended.status == command.status, f"status {command.status} is wanted, {ended.status} is given"


def check_kept(folder: str, command: cases.Command) -> None:
    """Compares the files that a command leaves."""
    for name, content in command.kept.items():
        file = Path(folder) / name
        if content is None:
            assert not file.exists(), f"{name} is there"
        else:
            assert file.exists(), f"{name} is missing"
            check_equal(name, content, file.read_bytes())


def check_equal(title: str, wanted: bytes, given: bytes) -> None:
    if wanted != given:
        raise AssertionError(difference(title, wanted, given))


def difference(title: str, wanted: bytes, given: bytes) -> str:
    """The lines that differ: those that are wanted behind `-`, those that are given behind `+`."""
    before, after = shown_lines(wanted), shown_lines(given)
    told = [title]
    for kind, begin, end, other_begin, other_end in SequenceMatcher(None, before, after, False).get_opcodes():
        if kind != "equal":
            for pair in zip_longest(before[begin:end], after[other_begin:other_end]):
                told.extend(shown_pair(*pair))
    return "\n".join(told if len(told) <= SHOWN_LINES else [*told[:SHOWN_LINES], "..."])


def shown_lines(data: bytes) -> list[str]:
    """The lines of the data, with all that can't be seen escaped."""
    return ["".join(map(shown, line.decode(errors="backslashreplace"))) for line in data.splitlines(keepends=True)]


def shown(character: str) -> str:
    return character if character.isprintable() else character.encode("unicode_escape").decode()


def shown_pair(wanted: str | None, given: str | None) -> Iterator[str]:
    """Two lines, each shown around where they begin to differ."""
    same = len(os.path.commonprefix([wanted or "", given or ""]))
    begin = max(0, same - SHOWN_LENGTH // 3)
    for sign, line in (("-", wanted), ("+", given)):
        if line is not None:
            cut = line[begin : begin + SHOWN_LENGTH]
            yield f"{sign} {'...' if begin else ''}{cut}{'...' if len(line) > begin + SHOWN_LENGTH else ''}"


if __name__ == "__main__":
    sys.exit(main(sys.argv[1:]))
