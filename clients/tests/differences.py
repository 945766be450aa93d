#!/usr/bin/env python3
"""Each row's files in differences.cases have the faults and notes that it says, and the tables of docs/DIFFERENCES.md have the rows that no
note finds; those of notes have their entries on docs/NOTES.md. Needs actionlint-facts.

    differences.py PROGRAM [NAME...]
    differences.py --write              writes the tables
"""
from __future__ import annotations

import json
import re
import subprocess
import sys
import tempfile
from dataclasses import dataclass
from pathlib import Path

from cases import Cases
from note_cases import blocks
from repositories import CLIENTS, TOP, write

from actionlint_client.entries import entries, link_of
from actionlint_client.notes.file import entries_of_notes

CASES = Cases("differences")
PAGE = TOP / "docs/DIFFERENCES.md"
ROWS = Path(__file__).resolve().parent / "differences.cases"
HEAD = re.compile(r"== (\w+) \| ([^|]+) \| (.+)")
# Of the last section, the table says what finds its rows; nothing finds those of the others.
TABLE = re.compile(r"(^\| (?:What \| Found by|Nothing finds) \|\n(?:\|---)+\|\n)((?:\|.*\n)*)", re.M)
# The sections in the order of the page.
SECTIONS = ("refused", "meant", "stricter")
FEWEST = 45


@dataclass
class Row:
    section: str
    found: str
    text: str
    files: dict[str, str]


def rows() -> list[Row]:
    return [Row(*head, files=files) for head, files, _ in blocks(ROWS, HEAD)]


def linked(found: str) -> str:
    """The codes of a row with links to their entries."""
    known = {entry.code: entry for entry in (*entries(), *entries_of_notes().values())}
    return ", ".join(f"[{code}]({link_of(known[code], '.').removeprefix('./')})" if code in known else code for code in found.split(", "))


def page_with_rows(text: str) -> str:
    unfound = [row for row in rows() if row.section != "stricter" and row.found == "nothing"]
    tables = iter(["".join(f"| {row.text} |\n" for row in unfound if row.section == section) for section in SECTIONS[:-1]]
                  + ["".join(f"| {row.text} | {linked(row.found)} |\n" for row in rows() if row.section == "stricter")])
    return TABLE.sub(lambda table: table[1] + next(tables), text)


@CASES.case
def on_the_page(_: str) -> None:
    text = PAGE.read_text(encoding="utf-8")
    assert len(rows()) >= FEWEST and {row.section for row in rows()} == set(SECTIONS)
    assert len(TABLE.findall(text)) == len(SECTIONS) and page_with_rows(text) == text, "differences.py --write writes the tables"


@CASES.case
def as_they_say(program: str) -> None:
    wrong = []
    for row in rows():
        with tempfile.TemporaryDirectory(prefix="actionlint-test-") as folder:
            write(folder, row.files)
            words = [str(CLIENTS / "actionlint-report"), "--program", program, f"--root={folder}", "--form=jsonl", "--notes"]
            ran = subprocess.run(words, stdout=subprocess.PIPE, check=False, text=True)
            codes = sorted({json.loads(line)["code"] for line in ran.stdout.splitlines()}, key=lambda code: (code[0], int(code[1:])))
            if (", ".join(codes) or "nothing") != row.found or ran.returncode not in (0, 1):
                wrong.append(f"{row.text}: {codes} (status {ran.returncode})")
    assert not wrong, "\n".join(wrong)


if __name__ == "__main__":
    if sys.argv[1:] == ["--write"]:
        PAGE.write_text(page_with_rows(PAGE.read_text(encoding="utf-8")), encoding="utf-8")
    else:
        sys.exit(CASES.run(sys.argv[1:]))
