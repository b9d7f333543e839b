"""The examples, each against a server, where its client is installed.

The program in Go is left out: its compiler takes half a minute.
"""

from __future__ import annotations

import shutil
import subprocess
import sys
from collections.abc import Callable, Iterator, Sequence
from functools import partial
from pathlib import Path
from tempfile import TemporaryDirectory

from program import HOST, Server

EXAMPLES = Path(__file__).resolve().parent.parent / "examples"
# Debian's packages are for this Python, whichever else is on the path.
PYTHON = "/usr/bin/python3"
# An example waits for an answer after each request, so none needs more connections at once.
CONNECTIONS = 100


def scenes(program: str) -> list[tuple[str, Callable[[], None]]]:
    """The examples by their names, over the program of that path."""
    return [(f"the example {words[-1]}", partial(run_example, program, words)) for words in installed()]


def installed() -> Iterator[Sequence[str]]:
    """The words that run each example whose client is there."""
    for name in ("rota.py", "budget.py", "members.py"):
        yield sys.executable, name
    if shutil.which("curl"):
        yield "sh", "clients/scores.sh"
    if succeeds(PYTHON, "-c", "import googleapiclient, google_auth_httplib2"):
        yield PYTHON, "rota_google.py"
        yield PYTHON, "clients/scores.py"
    if succeeds("ruby", "-e", 'require "google/apis/sheets_v4"'):
        yield "ruby", "clients/scores.rb"
    if shutil.which("javac") and Path("/usr/share/java/google-api-services-sheets.jar").exists():
        yield "sh", "clients/scores_java.sh"


def succeeds(*words: str) -> bool:
    """Whether a command is there and ends well."""
    try:
        return subprocess.run(words, stdin=subprocess.DEVNULL, capture_output=True).returncode == 0
    except OSError:
        return False


def run_example(program: str, words: Sequence[str]) -> None:
    """An example ends with the status 0 where each answer is the one that it wants."""
    with TemporaryDirectory(prefix="sheets-") as folder, Server(program, folder, limit=CONNECTIONS) as server:
        server.connect().close()
        *command, name = words
        ran = subprocess.run(
            [*command, str(EXAMPLES / name), f"http://{HOST}:{server.port}"],
            cwd=folder,
            stdin=subprocess.DEVNULL,
            capture_output=True,
            text=True,
            timeout=60,
        )
        assert ran.returncode == 0, f"status {ran.returncode}\n{ran.stdout}{ran.stderr}"
