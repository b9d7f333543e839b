#!/usr/bin/env python3
"""Checks that the files and the names of code exist which the pages give in `code spans`.

A span that looks like a path is a file or a folder of this repository, from its top, from the page's own folder, or
below a crate that the same block names: a paragraph, a list's item, a table's row, or the heading above it. `NAME` and
`*` stand for any name. A span that looks like code has its names checked: each with an underscore, or with a capital
letter, is a word of the sources. The paths of commands in fenced blocks are checked, too, and where links lead.

Each span that names what isn't there is printed with its page and its line; the exit status is 1 then. With `--style`
long sentences and words of another English are printed instead, as a help; the gate doesn't ask for that.
"""

import argparse
import fnmatch
import os
import re
import sys
from collections.abc import Iterator
from dataclasses import dataclass, field
from functools import cache
from pathlib import Path

TOP = Path(__file__).resolve().parent.parent

PAGES = [
    "README.md",
    "CONTRIBUTING.md",
    "CHANGELOG.md",
    "docs/*.md",
    "bench/*.md",
    "examples/README.md",
    "tests/README.md",
    "crates/*/README.md",
]

# What has words of code: every file below these but pages, and this script.
SOURCES = ["crates", "tests", "tools", "bench", "examples", "release", "crates.txt", "sheets", ".ci"]

# Spans that name nothing of this repository, each with the reason.
EXCEPTIONS = {
    r"[A-Z][A-Za-z]*(-[A-Z][A-Za-z]*)+": "a field of HTTP, as Content-Length",
    r"\w+://.*": "an address",
}

SKIPPED_FOLDERS = {".git", "out", "__pycache__"}
ENDINGS = {"rt", "antt", "md", "py", "sh", "csv", "http", "txt", "lua", "edit", "json", "go", "rb", "java", "cases"}
CRATE_FOLDERS = {"src", "specs", "proofs", "must-fail"}

# Files that several crates have, given without a crate.
FILES_OF_CRATES = {"src/laws.rt", "must-fail/further.md"}

SPAN = re.compile(r"(`+)(.+?)\1", re.DOTALL)
PATH = re.compile(r"(?:\./)?[\w.*+-]+(?:/[\w.*+-]+)*/?")
NAME_OF_CODE = re.compile(r"[A-Za-z_][A-Za-z0-9_]*")
FENCE = re.compile(r"\s*(```|~~~)")
LINK = re.compile(r"\]\(([^)\s]+)\)")
NEW_BLOCK = re.compile(r"\s*([-*|#>]|\d+\.)\s?")


@dataclass
class Block:
    """Lines that belong together: a paragraph, a list's item, a table's row or a heading."""

    page: Path
    line: int
    heading: str
    is_code: bool
    lines: list[str] = field(default_factory=list)

    def text(self) -> str:
        return "\n".join(self.lines)


@dataclass(frozen=True)
class Missing:
    """A span of a page that names what isn't there."""

    page: Path
    line: int
    span: str
    what: str


# ---- the repository


@cache
def entries() -> frozenset[str]:
    """All files and folders of the repository, by their paths from its top."""
    found = set()
    for folder, folders, files in os.walk(TOP):
        folders[:] = [name for name in folders if name not in SKIPPED_FOLDERS]
        for name in folders + files:
            found.add((Path(folder) / name).relative_to(TOP).as_posix())
    return frozenset(found)


@cache
def crates() -> frozenset[str]:
    """The crates that crates.txt lists."""
    lines = (line.partition("#")[0] for line in (TOP / "crates.txt").read_text().splitlines())
    return frozenset(line.partition(":")[0].split()[0] for line in lines if ":" in line)


@cache
def entries_of(crate: str) -> tuple[str, ...]:
    """The files and folders of a crate."""
    return tuple(entry for entry in entries() if entry.startswith(f"crates/{crate}/"))


@cache
def words() -> frozenset[str]:
    """All words of the sources."""
    found: set[str] = set()
    for source in SOURCES:
        for entry in entries():
            if entry == source or entry.startswith(source + "/"):
                found |= words_of(TOP / entry)
    return frozenset(found)


def words_of(file: Path) -> set[str]:
    """The words of a source, none of a page, of this script, or of what isn't a text."""
    if not file.is_file() or file.suffix == ".md" or file == Path(__file__).resolve():
        return set()
    try:
        return set(NAME_OF_CODE.findall(file.read_text()))
    except UnicodeDecodeError:
        return set()


# ---- pages


def pages() -> list[Path]:
    return sorted(page for pattern in PAGES for page in TOP.glob(pattern))


def blocks(page: Path) -> Iterator[Block]:
    """The blocks of a page, in order; each line of a fenced block is one by itself."""
    heading = ""
    fenced = False
    block = None
    for number, line in enumerate(page.read_text().splitlines(), start=1):
        if FENCE.match(line) or not line.strip() or fenced:
            if block:
                yield block
            block = None
            if FENCE.match(line):
                fenced = not fenced
            elif fenced:
                yield Block(page, number, heading, True, [line])
            continue
        if block is None or NEW_BLOCK.match(line):
            if block:
                yield block
            if line.startswith("#"):
                heading = line
            block = Block(page, number, heading, False)
        block.lines.append(line)
    if block:
        yield block


def spans(block: Block) -> Iterator[tuple[int, str]]:
    """The code spans of a block, each with its line."""
    text = block.text()
    for match in SPAN.finditer(text):
        yield block.line + text.count("\n", 0, match.start()), " ".join(match[2].split())


# ---- paths


def is_path(span: str) -> bool:
    """Whether a span looks like a path of this repository."""
    if not PATH.fullmatch(span):
        return False
    first, slash, _ = span.removeprefix("./").partition("/")
    if slash:
        return first in CRATE_FOLDERS | crates() or first in entries() or has_ending(span)
    return has_ending(span)


def has_ending(span: str) -> bool:
    stem, dot, ending = span.rpartition(".")
    return bool(stem and dot) and ending in ENDINGS


def paths_in_command(text: str) -> list[str]:
    """The words of a command that are paths below a folder of the repository's top."""
    found = (word.strip("'\"();,") for word in text.split())
    return [it for it in found if PATH.fullmatch(it) and "/" in it and it.removeprefix("./").split("/")[0] in entries()]


def named_crates(block: Block) -> set[str]:
    """The crates that a block names in its spans, or its heading."""
    found = set()
    for text in (block.heading, block.text()):
        for match in SPAN.finditer(text):
            parts = match[2].removeprefix("crates/").split("/")
            found.add(parts[0].split("::")[0])
    return found & crates()


def exists(path: str, page: Path, below: set[str]) -> bool:
    """Whether a path is there: from the top, from the page's folder, or below a crate that its block names."""
    path = path.removeprefix("./").rstrip("/").replace("NAME", "*")
    folder = page.parent.relative_to(TOP).as_posix()
    candidates = [path, f"crates/{path}", f"{folder}/{path}"]
    if path in CRATE_FOLDERS | FILES_OF_CRATES or any(is_entry(candidate) for candidate in candidates):
        return True
    return any(fnmatch.fnmatch(entry, f"*/{path}") for crate in below for entry in entries_of(crate))


def is_entry(path: str) -> bool:
    if "*" in path:
        return bool(fnmatch.filter(entries(), path))
    return os.path.normpath(path) in entries()


# ---- names of code


def names_of_code(span: str) -> list[str]:
    """The names in a span that look like names of code: with an underscore, or with a capital letter."""
    return [name for name in NAME_OF_CODE.findall(span) if is_name_of_code(name)]


def is_name_of_code(name: str) -> bool:
    return "_" in name.strip("_") or (name != name.lower() and name != name.upper())


# ---- links


def leads_somewhere(target: str, page: Path) -> bool:
    """Whether a link of a page leads to a file that is there, and to a heading of it where it names one."""
    if "://" in target:
        return True
    path, _, heading = target.partition("#")
    file = page.parent / path if path else page
    return file.exists() and (not heading or heading in headings(file))


@cache
def headings(page: Path) -> frozenset[str]:
    """The headings of a page, as links name them."""
    found = (block.text().lstrip("# ") for block in blocks(page) if block.text().startswith("#") and not block.is_code)
    return frozenset(re.sub(r"[^\w\- ]", "", heading.lower()).replace(" ", "-") for heading in found)


# ---- the check


def missing_in(block: Block) -> Iterator[Missing]:
    """The spans of a block that name what isn't there."""
    if block.is_code:
        for path in paths_in_command(block.text()):
            if not exists(path, block.page, set()):
                yield Missing(block.page, block.line, path, "no such file")
        return
    for match in LINK.finditer(block.text()):
        if not leads_somewhere(match[1], block.page):
            yield Missing(block.page, block.line, match[1], "the link leads nowhere")
    below = named_crates(block)
    for line, span in spans(block):
        if any(re.fullmatch(pattern, span) for pattern in EXCEPTIONS):
            continue
        paths = [span] if is_path(span) else paths_in_command(span)
        for path in paths:
            if not exists(path, block.page, below):
                yield Missing(block.page, line, path, "no such file")
        if paths:
            continue
        for name in names_of_code(span):
            if name not in words():
                yield Missing(block.page, line, span, f"no source has {name}")


def check() -> int:
    """Prints what the pages name and isn't there; the exit status."""
    status = 0
    for page in pages():
        for block in blocks(page):
            for it in missing_in(block):
                print(f"{it.page.relative_to(TOP)}:{it.line}: `{it.span}`: {it.what}")
                status = 1
    return status


# ---- the style, which the gate doesn't ask for

LONGEST_SENTENCE = 30

OTHER_WORDS = {
    r"\bbehind\b": "after",
    r"\b(?:tell|tells|told)\b": "report, say, show",
    r"\bcom(?:e|es|ing) to\b": "results in, is",
    r"\b(?:can't|cannot) be (?:that|without)\b": "a double negation",
    r"\b(?:not|n't|none|nobody|nothing|never|no \w+)\b[^.;,]* without\b": "a double negation",
    r"\bn't un\w+": "a double negation",
}


def sentences(block: Block) -> Iterator[str]:
    """The sentences of a block; a code span counts as one word, and each cell of a table's row is by itself."""
    if block.is_code or block.text().startswith("#"):
        return
    text = SPAN.sub("CODE", " ".join(block.text().split())).replace("**", "")
    cells = text.strip("|").split("|") if text.startswith("|") else [text]
    for cell in cells:
        yield from re.split(r"(?<=[.!?:])\s+", cell.strip())


def hint_at_style() -> int:
    """Prints long sentences, and words of another English."""
    for page in pages():
        for block in blocks(page):
            place = f"{page.relative_to(TOP)}:{block.line}"
            for sentence in sentences(block):
                count = len(sentence.split())
                if count > LONGEST_SENTENCE:
                    print(f"{place}: {count} words: {sentence}")
                for pattern, better in OTHER_WORDS.items():
                    for found in re.finditer(pattern, sentence):
                        print(f"{place}: {found[0]!r}, better {better}: {sentence}")
    return 0


def main() -> int:
    parser = argparse.ArgumentParser(description=__doc__, formatter_class=argparse.RawDescriptionHelpFormatter)
    parser.add_argument("--style", action="store_true", help="hint at long sentences and other words instead")
    return hint_at_style() if parser.parse_args().style else check()


if __name__ == "__main__":
    sys.exit(main())
