"""Faults as diagnostics of the protocol."""
from __future__ import annotations

from typing import Iterable

from .characters import shown
from .faults import Fault, FileFaults
from .ignoring import IgnoreFiles
from .positions import Lines
from .problems import NOTE, Problem, problem_of
from .protocol import Diagnostic, Position

SOURCE = "actionlint"
WARNING, INFORMATION = 2, 3
SEVERITIES = {"error": 1, "warning": WARNING}
OF_EARLIER = "(of the last text that was YAML)"


class Diagnostics:
    def __init__(self, docs: str | None, ignored: IgnoreFiles | None = None):
        """`docs` is the address of the pages of faults, for links; `ignored` are the faults that aren't shown."""
        self._docs = docs
        self.ignored = ignored or IgnoreFiles(lambda _: None)

    def of_file(self, lines: Lines, found: FileFaults, earlier: FileFaults, refused: str | None,
                notes: Iterable[Problem] = ()) -> list[Diagnostic]:
        """The faults of a file, those of its last valid YAML, how many more there are, why it isn't linted, and shellcheck's notes."""
        told = [self.of_fault(lines, fault) for fault in found.faults] + [self.of_earlier_fault(lines, fault) for fault in earlier.faults]
        if found.more:
            told.append(_at_start(f"{found.more} more faults in this file", INFORMATION))
        if earlier.more:
            told.append(_at_start(f"{earlier.more} more faults in this file {OF_EARLIER}", INFORMATION))
        if refused:
            told.append(_at_start(refused, WARNING))
        return told + [of_note(lines, note, self._docs) for note in notes]

    def of_fault(self, lines: Lines, fault: Fault) -> Diagnostic:
        problem = problem_of(fault)
        diagnostic: Diagnostic = {
            "range": lines.range_of(fault), "severity": SEVERITIES[problem.level], "source": SOURCE, "code": problem.code,
            "message": f"{shown(fault.message)} [{fault.kind}]", "data": {"kind": fault.kind}}
        if link := problem.link_in(self._docs):
            diagnostic["codeDescription"] = {"href": link}
        return diagnostic

    def of_earlier_fault(self, lines: Lines, fault: Fault) -> Diagnostic:
        diagnostic = self.of_fault(lines, fault)
        diagnostic["message"] += f" {OF_EARLIER}"
        diagnostic["data"] = {"kind": fault.kind, "earlier": True}
        return diagnostic


def of_note(lines: Lines, note: Problem, docs: str | None) -> Diagnostic:
    """A note, or why shellcheck has none on a script."""
    told: Diagnostic = {
        "range": lines.range_of(note.fault), "severity": INFORMATION if note.level == NOTE else WARNING,
        "source": SOURCE if note.entry else note.fault.kind, "message": shown(note.fault.message), "data": {"kind": note.fault.kind}}
    if note.code:
        told["code"] = note.code
    if link := note.link_in(docs) if note.code else None:
        told["codeDescription"] = {"href": link}
    return told


def _at_start(message: str, severity: int) -> Diagnostic:
    start: Position = {"line": 0, "character": 0}
    return {"range": {"start": start, "end": start}, "severity": severity, "source": SOURCE, "message": message}
