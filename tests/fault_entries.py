"""Reads the entries of docs/FAULTS*.md.

An entry is a section `### CODE `MESSAGE``. It says what the fault is, then in a list *Why it matters* and the *Repair*, and shows a repair
as a block `diff`. The block's lines are those of two cases of tests/faults.cases: CODE, whose report has the fault, and CODE-repaired,
whose report is clean. If that report has several messages, each stands before its lines, as `@@ MESSAGE @@`. The lines after `+++ PATH`
are those of another file than the faulty one, and `…` matches any text.
"""

import re
from dataclasses import dataclass

from case_files import Case, read_cases

KINDS = "YKGXC"
SECTION = re.compile(r"^### ([A-Z][0-9]+) `([^\n]*)`\n(.*?)(?=^#{2,3} |\Z)", re.MULTILINE | re.DOTALL)
REPAIR = re.compile(r"^```diff\n(.*?)^```\n", re.MULTILINE | re.DOTALL)
COMMAND = re.compile(rb"put (\S+) ([0-9]+)\n")


@dataclass
class Entry:
    """What a page says about a fault."""

    code: str
    message: str
    page: str
    what: str
    why: str
    repair: str
    shown: list[str]

    @property
    def anchor(self):
        """The anchor that GitHub gives the entry's heading."""
        return re.sub(r"[^\w\- ]", "", f"{self.code} {self.message}".lower()).replace(" ", "-")

    @property
    def rank(self):
        """The position of the entry's code among all codes."""
        return KINDS.index(self.code[0]), int(self.code[1:])


def paragraph(body, word):
    """The text of the list item that begins with a word, on one line; empty if there is none."""
    found = re.search(rf"^- \*{word}\*: (.*?)(?=\n\n|\n- |\n```|\Z)", body, re.MULTILINE | re.DOTALL)
    return " ".join(found[1].split()) if found else ""


def entry_of(page, code, message, body):
    """An entry of a page."""
    shown = REPAIR.search(body)
    what = " ".join(re.split(r"^(?:- \*|```)", body, maxsplit=1, flags=re.MULTILINE)[0].split())
    lines = shown[1].splitlines() if shown else []
    return Entry(code, message, page, what, paragraph(body, "Why it matters"), paragraph(body, "Repair"), lines)


def entries(docs):
    """The entries of all pages, in the order of their codes."""
    every = [entry for path in sorted(docs.glob("FAULTS*.md")) for entry in entries_of(path)]
    return sorted(every, key=lambda entry: entry.rank)


def entries_of(page):
    """The entries of a page, in its order."""
    return [entry_of(page.name, *found.groups()) for found in SECTION.finditer(page.read_text())]


def cases_of_entries(top):
    """The cases of the entries by name: CODE, CODE-repaired, and others of that fault."""
    return read_cases(top / "tests/faults.cases")


def files_of(case: Case):
    """The files that a case's script puts, by path."""
    script, at, found = case.input, 0, {}
    while put := COMMAND.match(script, at):
        end = put.end() + int(put[2])
        found[put[1].decode()] = script[put.end() : end]
        at = end + 1
    return found


def report_of(case: Case):
    """The lines of a case's report."""
    return [line for line in case.output.decode().splitlines() if not re.match(r"(ok|status) [0-9]+$", line)]
