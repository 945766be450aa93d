"""What a report says about a fault: its code, level and entry, and the first fix for it."""
from __future__ import annotations

import re
from typing import TYPE_CHECKING, Callable, NamedTuple

from .entries import Entry, entries_by_code, link_of
from .faults import Fault

if TYPE_CHECKING:
    from .repair import Repair

ERROR, WARNING, NOTE = "error", "warning", "note"
# The kind of notes on what the linter accepts and GitHub doesn't, which aren't proved.
NOTE_KIND = "note"


class Problem(NamedTuple):
    """A fault of the linter, or a note of another program, which has no entry and a `link` of its own. `source` is the line at which it
    starts, if that is known. The level is one of SARIF's: error, warning or note. If fixes were tried, `fix` is the first one that would be
    offered."""

    fault: Fault
    code: str
    entry: Entry | None
    source: str | None = None
    level: str = ERROR
    link: str | None = None
    fix: Repair | None = None

    def is_note(self) -> bool:
        """Whether it comes from another program than the linter."""
        return self.link is not None or self.fault.kind == NOTE_KIND

    def has_code(self) -> bool:
        """Whether the code is one, and not the kind in its place."""
        return self.entry is not None or self.is_note()

    def link_in(self, docs: str | None) -> str | None:
        """The address of more on it. `docs` is that of the pages."""
        return link_of(self.entry, docs) if self.entry and docs else self.link

    def line(self) -> str:
        """The source line, or nothing if it isn't known."""
        return self.source or ""

    def snippet(self, shown: Callable[[str], str] = str) -> tuple[str, ...]:
        """The lines that the linter prints below a fault: a bar, the source line as it is shown, and marks behind the same tabs. Nothing
        without a source line."""
        if self.source is None:
            return ()
        start, head = self.fault.column - 1, f"{self.fault.line} | "
        before, marked = (shown(head + self.source[:end]) for end in (start, start + (self.fault.width or 1)))
        margin, blanks = " " * (len(head) - 2), re.sub(r"[^\t]", " ", before[len(head):])
        return f"{margin}|", shown(head + self.source), f"{margin}| {blanks}^{'~' * (len(marked) - len(before) - 1)}"


def problem_of(fault: Fault, source: str | None = None) -> Problem:
    """A fault of the linter with its entry. One without an entry gets its kind as code."""
    entry = entries_by_code().get(fault.code)
    code = entry.code if entry else fault.kind
    return Problem(fault, code, entry, source, level_of(code, fault))


def level_of(code: str, fault: Fault) -> str:
    """WARNING for what GitHub only warns of, in each run: a command that still works, or an input that a step's action doesn't have; and
    for an action without `description`, which runs. ERROR for the rest: GitHub refuses the file, or a step or a job fails or goes on
    without what was meant, and nobody else says so."""
    if code == "G17":
        return WARNING if fault.arguments[:1] in (("set-output",), ("save-state",)) else ERROR
    if (code, fault.arguments[:1]) == ("K2", ("description",)):
        return WARNING
    return WARNING if (code, fault.kind) == ("C2", "action") else ERROR
