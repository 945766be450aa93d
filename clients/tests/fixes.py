#!/usr/bin/env python3
"""Quick fixes: each offered one removes its fault, whatever the text is, in little time. slips.py has what is offered for which mistake.

    fixes.py PROGRAM [NAME...]
"""
from __future__ import annotations

import os
import random
import signal
import sys
import time
from contextlib import contextmanager
from typing import Iterator

from cases import Cases
from readers import reader
from repositories import FILE
from slips import Folder, counted, every_text

from actionlint_client.entries import ARGUMENT, entries
from actionlint_client.faults import Fault
from actionlint_client.fixes import REPAIRS, UNREADABLE, Trial, fixes, repairs
from actionlint_client.project import Project
from actionlint_client.repair import Repair, replaced

CASES = Cases("fixes")
SECONDS = 20.0
LOOK_SECONDS = 0.25
EDITS = int(os.environ.get("EDITS", "150"))
TYPED = "a:-'\"{[\t\n}])&*#!$=|é"
JOB = "on: push\njobs:\n  build:\n    runs-on: ubuntu-latest\n"
STEP = JOB + "    steps:\n      - "
ACTION = {"act/action.yml": """name: a
description: b
inputs:
  who: {required: true}
  how: {required: true, default: x}
outputs:
  text: {value: x}
runs:
  using: composite
  steps:
    - {run: make, shell: bash}
"""}
# For each code, values of a step's `run` with that fault.
LONG_VALUES = (
    ("X9", "echo ${{ case(" + "a," * 2_400 + "((1))) }}"),
    ("X9", "echo ${{ f(" + "a," * 2_400),
    ("Y13", "echo ${{ " + "? : " * 1_200),
    ("Y13", "echo ${{ " * 500 + "? : "),
    ("X3", "echo ${{ " + "a" * 4_900 + ") }}"),
    ("X3", "echo ${{ " + "a." * 2_400 + ") }}"),
    ("X16", "echo ${{ format('{99999999}', 'a') }}"),
    ("X16", "echo ${{ format('{" + "9" * 4_500 + "}', 'a') }}"),
    ("G4", "1" * 4_900),
    ("Y13", "${{ " * 700 + " " * 2_000),
    ("Y13", "'" * 4_900),
    ("Y13", "- " * 2_400),
    ("X1", "echo ${{ " + "? (" * 1_500),
    ("X1", "echo ${{ " + "not " * 1_200 + "}}"),
    ("X1", "echo ${{ " + "${{ " * 1_200),
    ("X1", "echo ${{ " + "a + " * 1_200 + "}}"),
    ("X4", "echo ${{ " + "(" * 4_800),
    ("X19", "echo ${{ a }}" + "$(" * 2_400),
    ("X11", "echo ${{ f(" + "'" * 4_800),
    ("G18", "${{ a }} == " * 400),
    ("G3", "[a-" * 1_600),
    ("G17", "echo ::set-output name=a::" + "(" * 4_800),
)
FAR_FROM_ALL = ("on: push\njobs: {a: {runs-on: '${{ zzzzzz(1) }}'}}\n",
                "on: push\njobs: {a: {runs-on: u, steps: [{run: '${{ zzzzzz(1, 2) }}'}]}}\n")


@CASES.case
def nothing_for_some(program: str) -> None:
    """A word that isn't similar to any name has no fix, nor has a file without faults."""
    for text in FAR_FROM_ALL:
        folder = Folder(program, {FILE: text})
        (fault,) = folder.faults()
        assert not fixes([program], SECONDS, folder.project, [fault]), text


@CASES.case
def faults_that_come_back(program: str) -> None:
    """A text that isn't valid YAML hides its other faults. A fix after which others come further below is a guess, unless the previous text
    had these. None after which there are others where it was made."""
    folder = Folder(program, {FILE: STEP + "name: `x`\n        shel: bash\n" + "        run: make\n"})
    (fault,) = folder.faults()
    found = fixes([program], SECONDS, folder.project, [fault])
    assert [(fix.repair.title, fix.repair.is_safe) for fix in found] == [("put it in quotes", False)], found
    earlier = Folder(program, {FILE: STEP + "name: x\n        shel: bash\n" + "        run: make\n"}).faults()
    assert len(earlier) == 1
    found = fixes([program], SECONDS, folder.project, [fault], earlier)
    assert [(fix.repair.title, fix.repair.is_safe) for fix in found] == [("put it in quotes", True)], found
    folder = Folder(program, {FILE: STEP + "nam: `x`\n        run: make\n"})
    assert not fixes([program], SECONDS, folder.project, folder.faults())


@contextmanager
def within(seconds: float) -> Iterator[None]:
    """Fails if a block takes this process more than some seconds of processor time."""
    end = time.process_time() + seconds

    def look(*_: object) -> None:
        if time.process_time() >= end:
            raise AssertionError(f"more than {seconds} seconds")
    before = signal.signal(signal.SIGALRM, look)
    signal.setitimer(signal.ITIMER_REAL, seconds, LOOK_SECONDS)
    try:
        yield
    finally:
        signal.setitimer(signal.ITIMER_REAL, 0)
        signal.signal(signal.SIGALRM, before)


@CASES.case
def lines_of_a_stranger(program: str) -> None:
    """Whatever a line of up to 5,000 characters contains, its repairs are found at once, and none is longer than a file can be."""
    for code, value in LONG_VALUES:
        (entry,) = (entry for entry in entries() if entry.code == code)
        text = STEP + "run: " + value + "\n"
        column = text.split("\n")[5].index(value) + 1 + ("${{" in value) * len("echo ${{ ")
        project = Project(reader(), {FILE: text.encode()}.get, lambda: [FILE])
        with within(2):
            arguments = ("f",) * len(set(ARGUMENT.findall(entry.message)))
            found = repairs(project, Fault(FILE, 6, column, ARGUMENT.sub("f", entry.message), "k", 1, code, arguments))
        assert all(len(edit.text) < 10_000 for one in found for edit in one.edits[FILE]), (code, value[:50])


@CASES.case
def every_code(program: str) -> None:
    """Each code with repairs is on the pages; most codes have repairs."""
    codes = {entry.code for entry in entries()}
    assert set(REPAIRS) <= codes and len(REPAIRS) >= 60, (set(REPAIRS) - codes, len(REPAIRS))


# The faults that can't be seen as long as an event, the kind of an action or what is called isn't known.
OF_UNKNOWN = {"G1": ("G2", "G3", "K1", "K6"), "G20": ("K1", "K2", "K6", "G21"), "C1": ("C2", "C3", "C4", "C5", "C6"),
              "C7": ("C2", "C3", "C4", "C5", "C6"), "C2": ("C4",)}


@CASES.case
def random_slips(program: str) -> None:
    """Texts with a few characters changed: repairs are found without an error, and each offered one removes its fault. A safe one causes
    none, and a guess none but what the fault has hidden, by a run of the linter on the changed folder: an expression or a file that can't
    be read hides its faults, an unknown event those of its filters, an unknown key those of its value, an unknown `using` those of its
    keys, and a wrong call those of what is passed."""
    chance = random.Random(int(os.environ.get("SEED", "1")))
    slips = [texts for _, texts in every_text() if all(texts.values())]
    offered = 0
    for _ in range(EDITS):
        texts = chance.choice(slips)
        file, text = next(iter(texts.items()))
        for _ in range(chance.randrange(1, 3)):
            at = chance.randrange(len(text) + 1)
            text = chance.choice([text[:at] + chance.choice(TYPED) + text[at:], text[:at] + text[at + chance.randrange(1, 4):]])
        folder = Folder(program, {**texts, file: text})
        faults = folder.faults()
        for fault, repair in fixes([program], SECONDS, folder.project, faults[:3], seconds=SECONDS)[:4]:
            offered += 1
            check_fix(program, folder, faults, fault, repair)
    assert offered > EDITS / 3, offered


def check_fix(program: str, folder: Folder, faults: list[Fault], fault: Fault, repair: Repair) -> None:
    changed = {path: replaced(folder.project.text(path), edits) for path, edits in repair.edits.items()} | repair.new_files
    after = Folder(program, {**folder.texts, **changed}).faults()
    key, new = (fault.path, fault.message), counted(after) - counted(faults)
    is_yaml = fault.code[0] == "Y"
    if is_yaml and any(below(one, folder, changed) for one in after if (one.path, one.message) == key):
        new[key] += 1
    else:
        assert counted(after)[key] < counted(faults)[key], (repair.title, fault, folder.texts, changed)
    hides = is_yaml or fault.code in UNREADABLE
    shown = [one for one in after if (one.path, one.message) in new]
    codes = {one.code for one in shown}
    shown = [one for one in shown if not (is_yaml and below(one, folder, changed))]
    others = {one.code for one in shown}
    was_hidden = hides and all(code[0] in "XGC" or code == "K5" for code in others) or codes <= set(OF_UNKNOWN.get(fault.code, ()))
    if fault.code == "K1":
        # the value of a key that is unknown isn't checked
        was_hidden = all((one.line, one.column) > (fault.line, fault.column) for one in shown)
    assert not new or not repair.is_safe and was_hidden, (repair.title, fault, folder.texts, changed)


def below(fault: Fault, folder: Folder, changed: dict[str, str]) -> bool:
    """Whether a fault of a changed text is on one of the lines at its end that are as before, of a file that can't be read."""
    before, after = (text.split("\n")[::-1] for text in (folder.texts.get(fault.path, ""), changed.get(fault.path, "")))
    same = next((number for number, (old, new) in enumerate(zip(before, after)) if old != new), min(len(before), len(after)))
    return fault.path in changed and fault.line > len(after) - same


@CASES.case
def a_trial(program: str) -> None:
    """The folder of a trial holds callers and what they call, and is unchanged after each trial."""
    folder = Folder(program, {FILE: STEP + "uses: ./act\n        with: {who: x}\n", **ACTION})
    trial = Trial([program], SECONDS, folder.project, "act/action.yml")
    assert not trial.before
    changed = ACTION["act/action.yml"].replace("who:", "whom:")
    assert len(trial.report_after({"act/action.yml": changed})) == 2, "the caller's two faults"
    assert not trial.report() and not trial.report_after({"other/action.yml": ACTION["act/action.yml"]})
    trial.close()


if __name__ == "__main__":
    sys.exit(CASES.run(sys.argv[1:]))
