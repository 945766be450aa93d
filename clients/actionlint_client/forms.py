"""Report formats: lines of JSON, GitLab's Code Quality, GitHub's annotations, and a text for people."""
from __future__ import annotations

import hashlib
import os
import textwrap
from collections import Counter
from dataclasses import dataclass, field
from typing import BinaryIO

from .advice import advice, fix_line, sentence
from .characters import json_text, log_text, shown, terminal_text
from .problems import ERROR, NOTE_KIND, Problem

LONGEST_LINE = 300
WIDTH = 100
COLORS = {"place": "1", "error": "31", "warning": "33", "note": "36", "code": "2", "marks": "32", "fix": "36"}


@dataclass
class Outcome:
    """The result of a run: its status, what was printed on standard error, what the user should know beside it, and how many faults, notes
    and notes of shellcheck were reported, in which files, and ignored. `counting` is how many of these make the status 1."""

    status: int = 0
    errors: str = ""
    warnings: list[str] = field(default_factory=list)
    faults: int = 0
    notes: int = 0
    shellcheck_notes: int = 0
    counting: int = 0
    ignored: int = 0
    files: set[str] = field(default_factory=set)

    def count(self, problem: Problem) -> None:
        self.files.add(problem.fault.path)
        if problem.fault.kind == NOTE_KIND:
            self.notes += 1
            self.counting += problem.level == ERROR
        else:
            self.shellcheck_notes += problem.is_note()
            self.faults += not problem.is_note()
            self.counting += 1

    def is_known(self) -> bool:
        """Whether the linter ran to its end, so that all faults are known."""
        return self.status in (0, 1)

    def say(self, line: str) -> None:
        """Adds a line to what was printed on standard error."""
        self.errors += f"actionlint-report: {line}\n"

    def count_line(self) -> str:
        if not self.is_known():
            return "the faults are unknown: the linter could not go on"
        found = [_counted(self.faults, "fault")]
        found += [f"{_counted(self.notes, 'note')} (not proved)"] if self.notes else []
        found += [f"{_counted(self.shellcheck_notes, 'note')} of shellcheck (not proved)"] if self.shellcheck_notes else []
        return (" and ".join(found) + (f" in {_counted(len(self.files), 'file')}" if self.files else "")
                + (f", {self.ignored} ignored" if self.ignored else ""))


class Form:
    """Writes problems as they come. `docs` is the address of the pages of faults."""

    # Whether the report has fixes, what was on standard error and the warnings, the count, and the fact that the linter could not go on.
    shows_fixes = True
    tells_errors = False
    tells_count = False
    tells_failure = False

    def __init__(self, out: BinaryIO, docs: str | None):
        self._out = out
        self.docs = docs
        self.left_out = 0

    def write(self, text: str) -> None:
        self._out.write(text.encode("utf-8"))

    def begin(self) -> None:
        """What comes before the first problem."""

    def add(self, problem: Problem) -> None:
        raise NotImplementedError

    def end(self, outcome: Outcome) -> None:
        """What comes after the last problem."""


class JsonLines(Form):
    """A line of JSON for each problem. Lines and columns count from 1, in characters; `end_column` is one past the last. `fix` is the title
    of the first fix."""

    def add(self, problem: Problem) -> None:
        fault = problem.fault
        self.write(json_text({
            "path": fault.path, "line": fault.line, "column": fault.column,
            "end_column": fault.column + fault.width if fault.width else None, "code": problem.code if problem.has_code() else None,
            "kind": fault.kind, "level": problem.level, "message": shown(fault.message), "link": problem.link_in(self.docs),
            "advice": sentence(problem) or None, "fix": problem.fix and shown(problem.fix.title),
            "fix_is_safe": problem.fix and problem.fix.is_safe}) + "\n")


class OneLine(Form):
    """A line for each problem as the linter prints it with `--oneline`."""

    shows_fixes = False

    def add(self, problem: Problem) -> None:
        fault = problem.fault
        self.write(terminal_text(f"{fault.path}:{fault.line}:{fault.column}: {fault.message} [{fault.kind}]") + "\n")


class CodeQuality(Form):
    """GitLab's list of problems. Fingerprints are unique, and don't change when a fault's line moves."""

    SEVERITIES = {"error": "major", "warning": "minor", "note": "info"}

    def __init__(self, out: BinaryIO, docs: str | None):
        super().__init__(out, docs)
        self._seen: Counter[str] = Counter()

    def begin(self) -> None:
        self.write("[")

    def add(self, problem: Problem) -> None:
        fault = problem.fault
        same = _digest(fault.path, problem.code, fault.message)
        separator = "," if self._seen else ""
        self._seen[same] += 1
        self.write(separator + "\n" + json_text({
            "description": shown(fault.message), "check_name": problem.code, "fingerprint": _digest(same, str(self._seen[same])),
            "severity": self.SEVERITIES[problem.level], "location": {"path": fault.path, "lines": {"begin": fault.line}},
            **({"content": {"body": "\n\n".join(map(shown, said))}} if (said := advice(problem)) else {})}))

    def end(self, outcome: Outcome) -> None:
        self.write("\n]\n" if self._seen else "]\n")


class Annotations(Form):
    """GitHub's workflow commands, each of which becomes an annotation. Text from files, paths and standard error is escaped, so that it
    can't give commands."""

    tells_errors = tells_count = tells_failure = True
    COMMANDS = {"error": "error", "warning": "warning", "note": "notice"}

    def add(self, problem: Problem) -> None:
        fault = problem.fault
        place = {"file": fault.path, "line": fault.line, "endLine": fault.line, "col": fault.column}
        if fault.width:
            place["endColumn"] = fault.column + fault.width
        self._command(self.COMMANDS[problem.level], {**place, "title": problem.code},
                      "\n".join([f"{fault.message} [{fault.kind}]", *advice(problem)]))

    def end(self, outcome: Outcome) -> None:
        for line in outcome.errors.splitlines():
            self._command("error", {"title": "actionlint"}, line)
        for warning in outcome.warnings:
            self._command("warning", {"title": "actionlint"}, warning)
        self.write(outcome.count_line() + "\n")

    def _command(self, name: str, properties: dict[str, object], text: str) -> None:
        listed = ",".join(terminal_text(f"{key}={_property(str(value))}") for key, value in properties.items())
        self.write(f"::{name} {listed}::{_data(log_text(text))}\n")


def _data(text: str) -> str:
    """Text of a workflow command, escaped as GitHub's toolkit does it."""
    return text.replace("%", "%25").replace("\r", "%0D").replace("\n", "%0A")


def _property(text: str) -> str:
    return _data(text).replace(":", "%3A").replace(",", "%2C")


def _digest(*texts: str) -> str:
    return hashlib.sha256("\0".join(texts).encode("utf-8", "surrogatepass")).hexdigest()


def _counted(count: int, what: str) -> str:
    return f"{count} {what}" + ("" if count == 1 else "s")


def has_color(when: str, is_terminal: bool) -> bool:
    """Whether to write colors: `always`, `never`, or `auto`, on a terminal unless the variable NO_COLOR is set and not empty."""
    return when == "always" or when == "auto" and is_terminal and not os.environ.get("NO_COLOR") and os.environ.get("TERM") != "dumb"


class Text(Form):
    """A paragraph for each problem, and a last line with the count."""

    tells_count = tells_failure = True

    def __init__(self, out: BinaryIO, docs: str | None, color: bool = False):
        super().__init__(out, docs)
        self._color = color

    def add(self, problem: Problem) -> None:
        fault = problem.fault
        code = problem.code if problem.has_code() else "-"
        self.write(f"{self._in('place', terminal_text(f'{fault.path}:{fault.line}:{fault.column}'))}: "
                   f"{self._in(problem.level, terminal_text(fault.message))} {self._in('code', f'[{fault.kind}, {code}]')}\n")
        self._snippet(problem)
        if line := fix_line(problem):
            self.write("  " + self._in("fix", terminal_text(line)) + "\n")
        for text in filter(None, (sentence(problem), problem.link_in(self.docs))):
            self.write(textwrap.fill(text, WIDTH, initial_indent="  ", subsequent_indent="  ", break_long_words=False,
                                     break_on_hyphens=False) + "\n")
        self.write("\n")

    def end(self, outcome: Outcome) -> None:
        self.write(outcome.count_line() + "\n")

    def _snippet(self, problem: Problem) -> None:
        """The source line and its marks, unless it is too long to read."""
        if len(problem.line()) <= LONGEST_LINE and (snippet := problem.snippet(terminal_text)):
            _, line, marks = snippet
            self.write(f"  {line}\n  {self._in('marks', marks)}\n")

    def _in(self, part: str, text: str) -> str:
        return f"\x1b[{COLORS[part]}m{text}\x1b[0m" if self._color else text
