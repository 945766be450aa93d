#!/usr/bin/env python3
"""The linter accepts what completion offers, once it is inserted.

    accepted_offers.py PROGRAM [NAME...]
"""
from __future__ import annotations

import itertools
import os
import random
import re
import sys

from cases import Cases
from completion_folder import FOLDER, faults_after, offers_between, put
from readers import Linter
from repositories import FILE

from actionlint_client.completion import Offer
from actionlint_client.faults import Fault
from actionlint_client.text import Span

CASES = Cases("accepted-offers")
PUTS = int(os.environ.get("PUTS", "800"))
# Faults at the start of a mapping or at a call, about what is still to be written there.
STILL_LACKING = (" is missing", " is required here")
TOKEN = re.compile(r"[\w./-]+")


@CASES.case
def entries_have_dashes(program: str) -> None:
    """If the dash of an entry isn't there yet, it comes with the key, and the linter finds no fault there."""
    whole = """on:
  push:
  schedule:
    - cron: '0 0 * * *'
jobs:
  a:
    runs-on: u
    strategy:
      matrix:
        os: [a]
        exclude:
          - os: b
    steps:
      - run: x
"""
    linter = Linter(program, FOLDER)
    for line, label in (("    - cron: '0 0 * * *'", "cron"), ("          - os: b", "os"), ("      - run: x", "run"),
                        ("      - run: x", "uses")):
        before, after = whole.replace(line, line[:line.index("-")] + "|").split("|")
        span, found = offers_between(before, after)
        offer = next(offer for offer in found if offer.label == label)
        assert offer.text == f"- {label}: ", offer
        value = {"cron": "'0 0 * * *'", "uses": "actions/checkout@v4"}.get(label, "a")
        assert not faults_after(linter, FILE, put(before + after, span, offer.text + value)[0]), (line, label)


def touches(text: str, fault: Fault, start: int, end: int) -> bool:
    """Whether a fault is at the inserted text."""
    lines = text.split("\n")
    first = sum(len(line) + 1 for line in lines[:fault.line - 1]) + fault.column - 1
    return first < end and start < first + max(fault.width or 1, 1)


@CASES.case
def each_is_taken(program: str) -> None:
    """A part of a word in a clean file is typed. Each offer there is inserted, and the linter finds no fault at its place, except for what
    has to follow."""
    chance = random.Random(int(os.environ.get("SEED", "1")))
    linter = Linter(program, FOLDER)
    for path, text in FOLDER.items():
        assert not faults_after(linter, path, text), faults_after(linter, path, text)
    tokens = [(path, match.start(), match.end()) for path, text in FOLDER.items() for match in TOKEN.finditer(text)]
    count = 0
    while count < PUTS:
        path, start, end = chance.choice(tokens)
        whole = FOLDER[path]
        typed = start + chance.randrange(end - start + 1)
        count += check_some(linter, path, whole[:typed], whole[end:], chance, 6)
        faults_after(linter, path, whole)


@CASES.case
def each_is_taken_on_a_new_line(program: str) -> None:
    """A new line is begun at each indentation between all lines of clean files. What is offered there causes no fault either."""
    chance = random.Random(int(os.environ.get("SEED", "1")))
    linter = Linter(program, FOLDER)
    count = 0
    for path, whole in FOLDER.items():
        lines = whole.split("\n")
        for number, indent in itertools.product(range(len(lines)), range(0, 14, 2)):
            before, after = "\n".join([*lines[:number], " " * indent]), "".join("\n" + line for line in lines[number:])
            count += check_some(linter, path, before, after, chance, 3)
            faults_after(linter, path, whole)
    assert count > PUTS / 2, count


def check_some(linter: Linter, path: str, before: str, after: str, chance: random.Random, most: int) -> int:
    """Checks some of the offers between the two parts of a text; returns how many."""
    span, found = offers_between(before, after, path)
    chosen = chance.sample(found, min(len(found), most))
    for offer in chosen:
        check_put(linter, path, before + after, span, offer)
    return len(chosen)


def check_put(linter: Linter, path: str, text: str, span: Span, offer: Offer) -> None:
    """Inserts an offer; after an object also one of its properties, until it has none."""
    changed, start, end = put(text, span, offer.text)
    while offer.kind in ("module", "property"):
        before = changed[:end] + "."
        further = offers_between(before, changed[end:], path)[1]
        if not further:
            break
        offer = further[0]
        changed = before + offer.text + changed[end:]
        end += 1 + len(offer.text)
    if offer.kind == "module":
        changed, end = changed[:end] + ".x" + changed[end:], end + 2
    wrong = [fault for fault in faults_after(linter, path, changed)
             if touches(changed, fault, start, end) and not fault.message.endswith(STILL_LACKING)]
    assert not wrong, f"{path}: {changed[start:end]!r} at {span.start} gives {wrong[0]}\n{changed}"


if __name__ == "__main__":
    sys.exit(CASES.run(sys.argv[1:]))
