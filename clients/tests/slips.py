#!/usr/bin/env python3
"""Quick fixes of mistakes that people make: for each mistake in `slips/*.txt` exactly which fixes are offered, in order, and the whole text
after each; safe fixes leave nothing behind.

    slips.py PROGRAM [NAME...]

In these files `===` begins a case, `---` a file of it, and `???` a fault of its report. Below a fault stand its fixes, each after `>>>`
with `safe` or `guess` and its title, and then its changes: lines that are taken away (`-`), put in (`+`) or stay (a space), each searched
for below the one before; `+++` begins those of another file. `!!!` is a text that no fix may make. `%steps` and `%jobs` stand for lines
that most texts begin or end with."""
from __future__ import annotations

import re
import sys
from collections import Counter
from dataclasses import dataclass, field
from pathlib import Path
from typing import Iterator

from cases import Cases
from readers import Linter, reader
from repositories import CLIENTS

from actionlint_client.faults import Fault
from actionlint_client.fixes import Fix, fixes
from actionlint_client.project import Project
from actionlint_client.repair import replaced

CASES = Cases("slips")
SLIPS = Path(__file__).resolve().parent / "slips"
EXAMPLES = CLIENTS.parent / "tests/faults"
PUT = re.compile(rb"put (\S+) ([0-9]+)\n")
SECONDS = 60.0
MAX_ROUNDS = 20
SHORT = {"%steps": "on: [push, pull_request]\njobs:\n  b:\n    runs-on: ubuntu-latest\n    steps:",
         "%jobs": "jobs: {b: {runs-on: ubuntu-latest, steps: [{run: make}]}}"}


@dataclass
class Offer:
    """A fix that is expected: its kind and title, and for each file the lines of its changes."""

    head: str
    changes: dict[str, list[str]] = field(default_factory=dict)


@dataclass
class Slip:
    name: str
    texts: dict[str, str] = field(default_factory=dict)
    offers: dict[str, list[Offer]] = field(default_factory=dict)
    never: list[str] = field(default_factory=list)


def read_slips(path: Path) -> Iterator[Slip]:
    slip, lines = Slip(""), []
    for line in [*path.read_text(encoding="utf-8").split("\n")[:-1], "=== "]:
        sign, rest = line[:4], line[4:]
        if sign == "=== ":
            if slip.name:
                yield slip
            slip, lines = Slip(rest), []
        elif sign == "--- ":
            lines, file = [], rest
            slip.texts[file] = ""
        elif sign == "??? ":
            slip.offers[rest] = []
        elif sign == ">>> ":
            lines = []
            slip.offers[list(slip.offers)[-1]].append(Offer(rest, {next(iter(slip.texts)): lines}))
        elif sign == "+++ ":
            lines = []
            list(slip.offers.values())[-1][-1].changes[rest] = lines
        elif sign == "!!! ":
            slip.never.append(rest.replace("\\n", "\n"))
        else:
            lines.append(SHORT.get(line, line))
            if not slip.offers:
                slip.texts[file] = "\n".join(lines) + "\n"


def changed(text: str, changes: list[str]) -> str:
    """A text after changes."""
    lines, at = text.split("\n"), 0
    for change in changes:
        if change[0] == "+":
            lines.insert(at, change[1:])
            at += 1
            continue
        at = lines.index(change[1:], at) + (change[0] == " ")
        if change[0] == "-":
            del lines[at]
    return "\n".join(lines)


class Folder:
    """A folder of the linter, and its files for features that look up names."""

    def __init__(self, program: str, texts: dict[str, str]):
        self.program, self.texts = [program], texts
        files = {path: text.encode() for path, text in texts.items()}
        self.project = Project(reader(), files.get, lambda: list(files))

    def faults(self) -> list[Fault]:
        linter = Linter(self.program[0], self.texts)
        try:
            return linter.faults()
        finally:
            linter.stop()

    def fixes(self, fault: Fault) -> list[Fix]:
        return fixes(self.program, SECONDS, self.project, [fault], seconds=SECONDS)

    def after(self, fix: Fix) -> dict[str, str]:
        made = {path: replaced(self.texts[path], edits) for path, edits in fix.repair.edits.items()}
        return {**self.texts, **made, **fix.repair.new_files}


def place(fault: Fault) -> str:
    return f"{fault.path}:{fault.line}:{fault.column} {fault.message}"


def check(program: str, slip: Slip) -> None:
    """The report of a slip is as expected, and each fault's fixes are those, with exactly these texts, after which it is gone."""
    folder = Folder(program, slip.texts)
    faults = folder.faults()
    assert [place(fault) for fault in faults] == list(slip.offers), (slip.name, [place(fault) for fault in faults])
    for fault, expected in zip(faults, slip.offers.values()):
        found = folder.fixes(fault)
        heads = [f"{'safe' if fix.repair.is_safe else 'guess'} {fix.repair.title}" for fix in found]
        assert heads == [offer.head for offer in expected], (slip.name, fault.message, heads)
        for fix, offer in zip(found, expected):
            wanted = {**slip.texts, **{path: changed(slip.texts.get(path, ""), changes) for path, changes in offer.changes.items()}}
            after = folder.after(fix)
            assert after == wanted, (slip.name, offer.head, after)
            left = [one for one in Folder(program, after).faults() if not is_next_of_yaml(one, fault)]
            key = fault.path, fault.message
            assert counted(left)[key] < counted(faults)[key], (slip.name, offer.head)
            assert not any(text in made for text in slip.never for made in after.values()), (slip.name, offer.head)


def is_next_of_yaml(one: Fault, fault: Fault) -> bool:
    """Whether a fault of YAML is further below than another one, which hid it."""
    return fault.code.startswith("Y") and (one.path, one.message) == (fault.path, fault.message) and one.line > fault.line


def counted(faults: list[Fault]) -> Counter:
    return Counter((fault.path, fault.message) for fault in faults)


@CASES.case
def known(program: str) -> None:
    """The mistakes that were collected first."""
    for slip in read_slips(SLIPS / "known.txt"):
        check(program, slip)


@CASES.case
def expressions(program: str) -> None:
    """Mistakes in expressions, and in what scripts get from them."""
    for slip in read_slips(SLIPS / "expressions.txt"):
        check(program, slip)


@CASES.case
def keys_and_values(program: str) -> None:
    """Mistakes in YAML, in keys and in values."""
    for slip in read_slips(SLIPS / "keys.txt"):
        check(program, slip)


@CASES.case
def calls_and_names(program: str) -> None:
    """Mistakes in calls of actions and workflows, and in names."""
    for slip in read_slips(SLIPS / "names.txt"):
        check(program, slip)


@CASES.case
def in_a_workflow(program: str) -> None:
    """Mistakes in a workflow of several jobs."""
    for slip in read_slips(SLIPS / "workflow.txt"):
        check(program, slip)


@CASES.case
def collected_last(program: str) -> None:
    """Mistakes of all kinds that were collected last: of merges and copies, of other services and shells, of keys at the wrong place."""
    for slip in read_slips(SLIPS / "last.txt"):
        check(program, slip)


@CASES.case
def more(program: str) -> None:
    """More mistakes of all kinds."""
    for slip in read_slips(SLIPS / "more.txt"):
        check(program, slip)


@CASES.case
def odd_words(program: str) -> None:
    """Mistakes with words of other services, with signs too many or too few, and at odd places."""
    for slip in read_slips(SLIPS / "odd.txt"):
        check(program, slip)


def every_text() -> Iterator[tuple[str, dict[str, str]]]:
    """The texts of all slips, and those of the examples of all faults."""
    for path in sorted(SLIPS.glob("*.txt")):
        yield from ((slip.name, slip.texts) for slip in read_slips(path))
    for path in sorted(EXAMPLES.rglob("*")):
        if path.is_file() and path.suffix not in (".stdout", ".status") and not path.name.endswith("-repaired"):
            texts = dict(put_files(path.read_bytes()))
            if texts:
                yield path.name, texts


def put_files(script: bytes) -> Iterator[tuple[str, str]]:
    """The files that the commands of a session put, if they are UTF-8."""
    at = 0
    while put := PUT.match(script, at):
        data = script[put.end():put.end() + int(put[2])]
        at = put.end() + len(data) + script.startswith(b"\n", put.end() + len(data))
        try:
            yield put[1].decode(), data.decode()
        except UnicodeDecodeError:
            pass


@CASES.case
def safe_fixes_leave_nothing(program: str) -> None:
    """After each safe fix of each slip and of each fault's example its fault is gone, and there is no new one. Safe ones come first, there
    is one for a fault at most, and what deletes something comes last."""
    safe = 0
    for name, texts in every_text():
        folder = Folder(program, texts)
        faults = folder.faults()
        for fault in faults[:5]:
            found = folder.fixes(fault)
            order = [(not fix.repair.is_safe, fix.repair.deletes) for fix in found]
            assert order == sorted(order), (name, fault)
            assert sum(fix.repair.is_safe for fix in found) <= 1, (name, fault)
            for fix in found[:1]:
                if fix.repair.is_safe:
                    safe += 1
                    after = counted(Folder(program, folder.after(fix)).faults())
                    key = fault.path, fault.message
                    assert after[key] < counted(faults)[key] and not after - counted(faults), (name, fix.repair.title)
    assert safe >= 100, safe


@CASES.case
def safe_fixes_end(program: str) -> None:
    """Safe fixes, one after another until there is none, end, and no fault comes that wasn't there."""
    for name, texts in every_text():
        first = counted(Folder(program, texts).faults())
        for _ in range(MAX_ROUNDS):
            folder = Folder(program, texts)
            fix = next((fix for fault in folder.faults()[:5] for fix in folder.fixes(fault)[:1] if fix.repair.is_safe), None)
            if fix is None:
                break
            texts = folder.after(fix)
        else:
            raise AssertionError(f"{name}: safe fixes don't end")
        assert not counted(Folder(program, texts).faults()) - first, name


if __name__ == "__main__":
    sys.exit(CASES.run(sys.argv[1:]))
