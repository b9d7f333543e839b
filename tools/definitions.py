#!/usr/bin/env python3
"""Makes docs/DEFINITIONS_INDEX.md: each file of definitions with its first comment, crate by crate in layers.

The first comment of a file says what its definitions say; of a longer one the index has the first paragraph. Files that
only list the modules of a folder have none and stand in no index. `--check` changes nothing: it compares, and fails
where the page isn't what this script would write.
"""

import argparse
import difflib
import re
import sys
from collections.abc import Iterator
from pathlib import Path

TOP = Path(__file__).resolve().parent.parent
PAGE = TOP / "docs" / "DEFINITIONS_INDEX.md"

HEAD = """\
# Index of the definitions

This page is made by `tools/definitions.py` from the sources, so don't edit it. It lists each file of definitions with
the comment at its head. The crates stand in the order of `crates.txt`, lowest first. What the ideas mean is in
`docs/DEFINITIONS.md`.

A reader of contracts may skip three kinds of files: those that no public clause cites, those that are for private
functions, and laws for the proofs of other crates. Most of their comments say so. Crates of tests have definitions for
their tests alone.
"""


def crates() -> Iterator[str]:
    """The crates in the order of crates.txt."""
    for line in (TOP / "crates.txt").read_text().splitlines():
        name, colon, _ = line.partition("#")[0].partition(":")
        if colon:
            yield name.split()[0]


def is_list_of_modules(text: str) -> bool:
    """Whether a file has nothing but the names of modules, or nothing."""
    lines = (line.strip() for line in text.splitlines())
    return all(not line or line.startswith(("--", "pub mod ")) for line in lines)


def first_comment(text: str) -> str:
    """The first paragraph of the comment at a file's head, as one line; empty where there is no comment."""
    paragraph = []
    for line in text.splitlines():
        words = line.removeprefix("--").strip()
        if not line.startswith("--") or not words:
            break
        paragraph.append(words)
    comment = " ".join(paragraph)
    return re.sub(r":$", ".", comment)


def index_of(crate: str) -> list[str]:
    """The lines of a crate's files; none where it has no definitions."""
    folder = TOP / "crates" / crate / "specs"
    lines = []
    for file in sorted(folder.rglob("*.antt")):
        text = file.read_text()
        if is_list_of_modules(text):
            continue
        comment = first_comment(text)
        name = file.relative_to(folder).as_posix()
        lines.append(f"- `{name}`: {comment}" if comment else f"- `{name}`")
    return lines


def index() -> str:
    """The whole page."""
    parts = [HEAD]
    for crate in crates():
        lines = index_of(crate)
        if lines:
            parts.append("\n".join([f"## `{crate}`", "", *lines, ""]))
    return "\n".join(parts)


def check(wanted: str) -> int:
    """Compares the page with what it is to be; the exit status."""
    found = PAGE.read_text() if PAGE.is_file() else ""
    if found == wanted:
        return 0
    name = PAGE.relative_to(TOP).as_posix()
    changes = difflib.unified_diff(found.splitlines(), wanted.splitlines(), name, "the sources", lineterm="", n=0)
    print("\n".join(changes))
    print(f"{name} isn't what the sources say: run tools/definitions.py")
    return 1


def main() -> int:
    parser = argparse.ArgumentParser(description=__doc__, formatter_class=argparse.RawDescriptionHelpFormatter)
    parser.add_argument("--check", action="store_true", help="compare, and fail where the page is stale")
    wanted = index()
    if parser.parse_args().check:
        return check(wanted)
    PAGE.write_text(wanted)
    return 0


if __name__ == "__main__":
    sys.exit(main())
