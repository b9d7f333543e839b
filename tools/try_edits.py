#!/usr/bin/env python3
"""Tries the wrong bodies of must-fail/further.md: each has to be refused by a clause of its crate.

    tools/try_edits.py [CRATE ..]           tries those of these crates, or of all
    tools/try_edits.py --list [CRATE ..]    lists them, and fails where one can't be applied; this needs no prover

The gate tries the .edit files alone, since each crate is proved once more before its edits, and each of these takes
some seconds then. A block of further.md has the lines of an .edit file. It is tried in a copy of the crates, where it
is such a file, by `rt must-fail`. The copy has nothing of out/: rt itself begins with what `rt check` kept anywhere on
this machine of the same sources, and tries no edit again that it tried on them.

The last line counts what came of the tries. The exit status is 0 only if a clause refused each.
"""

import argparse
import re
import shutil
import subprocess
import sys
import tempfile
from collections import Counter
from collections.abc import Iterator
from dataclasses import dataclass
from enum import Enum
from pathlib import Path

TOP = Path(__file__).resolve().parent.parent
CRATES = TOP / "crates"
PAGE = "must-fail/further.md"

# The lines of an .edit file: a file, and in it old texts with the new ones in their place; maybe more files.
CHANGE = re.compile(r"old: (.+)\nnew: ?(.*)\n")
CHANGES = re.compile(r"file: (.+)\n((?:old: .+\nnew:.*\n)+)")

# A block: a heading with the edit's name, a sentence that says what is wrong, and the lines of the edit.
HEADING = re.compile(r"^## ", re.MULTILINE)
BLOCK = re.compile(rf"^## (\w+)\n\n\S.*\n\n```\n((?:{CHANGES.pattern})+)```$", re.MULTILINE)

# What rt says of a try; brackets have a reason by which no clause refused it.
TRIED = re.compile(r"\bmust-fail (\w+/\w+)\.edit: (.*)")
REFUSED = re.compile(r"refused, as it must be(:|$)")
IDLE = re.compile(r"refused, as it must be \(only |BAD EDIT")
MISSED = re.compile(r"NOT REFUSED")


class Unfit(Exception):
    """Why a page can't be read, or an edit can't be applied."""


@dataclass(frozen=True)
class Edit:
    """A wrong body of a crate, as the lines of an .edit file."""

    crate: str
    name: str
    lines: str

    def __str__(self) -> str:
        return f"{self.crate}/{self.name}"


class Outcome(Enum):
    """What came of a try."""

    REFUSED = "refused by a clause"
    IDLE = "idle (refused by no clause)"
    MISSED = "not refused"
    UNTRIED = "not tried"


# ---- edits


def crates_with_page() -> list[str]:
    return sorted(page.parent.parent.name for page in CRATES.glob(f"*/{PAGE}"))


def edits_of(crate: str) -> list[Edit]:
    """The edits of a crate's page, in its order."""
    text = (CRATES / crate / PAGE).read_text()
    edits = [Edit(crate, block[1], block[2]) for block in BLOCK.finditer(text)]
    if len(edits) != len(HEADING.findall(text)):
        raise Unfit(f"{crate}/{PAGE}: a heading isn't followed by a sentence and the lines of an edit")
    for name, count in Counter(edit.name for edit in edits).items():
        if count > 1 or (CRATES / crate / "must-fail" / f"{name}.edit").exists():
            raise Unfit(f"{crate}/{name}: two edits have this name")
    return edits


def check(edit: Edit) -> None:
    """Applies an edit to copies of the texts, as rt does: each change to what those before it made."""
    texts: dict[Path, str] = {}
    for file, changes in CHANGES.findall(edit.lines):
        path = CRATES / edit.crate / file
        if not path.is_file():
            raise Unfit(f"{edit}: there is no {file}")
        text = texts.get(path) or path.read_text()
        for old, new in CHANGE.findall(changes):
            if text.count(old) != 1:
                raise Unfit(f"{edit}: {file} has this {text.count(old)} times: {old.strip()}")
            text = text.replace(old, new)
        texts[path] = text
    if all(text == path.read_text() for path, text in texts.items()):
        raise Unfit(f"{edit}: it changes nothing")


def fault_of(edit: Edit) -> str | None:
    """Why an edit can't be applied, if it can't."""
    try:
        check(edit)
    except Unfit as unfit:
        return str(unfit)
    return None


def list_edits(crates: list[str]) -> int:
    """Prints the names of the edits by crate, and then why some can't be applied."""
    count, faults = 0, []
    for crate in crates:
        try:
            edits = edits_of(crate)
        except Unfit as unfit:
            faults.append(str(unfit))
            continue
        print(f"{crate} ({len(edits)}):", *(edit.name for edit in edits))
        count += len(edits)
        faults += filter(None, map(fault_of, edits))
    print(*faults, f"{count} edits in {len(crates)} crates, {len(faults)} faults", sep="\n")
    return 1 if faults else 0


# ---- tries


def copy_tree(to: Path, edits: list[Edit]) -> None:
    """Copies what rt reads, with these edits in the place of the gate's."""
    shutil.copytree(CRATES, to / "crates", ignore=shutil.ignore_patterns("out", "must-fail"))
    for file in ("crates.txt", "HANDLES"):
        shutil.copy(TOP / file, to)
    for edit in edits:
        folder = to / "crates" / edit.crate / "must-fail"
        folder.mkdir(exist_ok=True)
        (folder / f"{edit.name}.edit").write_text(edit.lines)


def lines_of_rt(tree: Path, crates: list[str]) -> Iterator[str]:
    """Tries the edits of these crates in a tree, and gives what rt says, line by line."""
    command = ["rt", "must-fail", *crates]
    with subprocess.Popen(command, cwd=tree, stdout=subprocess.PIPE, stderr=subprocess.STDOUT, text=True) as run:
        yield from run.stdout


def outcome_of(said: str) -> Outcome:
    """What came of a try of which rt says this."""
    for words, outcome in ((REFUSED, Outcome.REFUSED), (IDLE, Outcome.IDLE), (MISSED, Outcome.MISSED)):
        if words.match(said):
            return outcome
    return Outcome.UNTRIED


def try_edits(crates: list[str]) -> int:
    """Tries the edits of the crates, shows what rt says, and counts what came of them."""
    edits = [edit for crate in crates for edit in edits_of(crate)]
    outcomes = {str(edit): Outcome.UNTRIED for edit in edits}
    with tempfile.TemporaryDirectory(prefix="edits-") as folder:
        copy_tree(Path(folder), edits)
        for line in lines_of_rt(Path(folder), crates):
            print(line, end="", flush=True)
            if tried := TRIED.search(line):
                outcomes[tried[1]] = outcome_of(tried[2])
    counts = Counter(outcomes.values())
    print(f"{len(edits)} edits:", ", ".join(f"{counts[outcome]} {outcome.value}" for outcome in Outcome))
    return 0 if counts[Outcome.REFUSED] == len(edits) else 1


def main() -> int:
    about, _, more = __doc__.partition("\n\n")
    parser = argparse.ArgumentParser(description=about, epilog=more, formatter_class=argparse.RawDescriptionHelpFormatter)
    parser.add_argument("--list", action="store_true", help="list the edits, and try none")
    parser.add_argument("crates", nargs="*", metavar="CRATE", help="a crate with such a page; none: all")
    given = parser.parse_args()
    known = crates_with_page()
    for crate in given.crates:
        if crate not in known:
            parser.error(f"{crate} is no crate with a {PAGE}")
    crates = given.crates or known
    if given.list:
        return list_edits(crates)
    if not shutil.which("rt"):
        parser.error("the command rt (of Rattle) is needed to try edits")
    try:
        return try_edits(crates)
    except Unfit as unfit:
        print(unfit, file=sys.stderr)
        return 1


if __name__ == "__main__":
    sys.exit(main())
