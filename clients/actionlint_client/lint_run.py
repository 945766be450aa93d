"""A run of `actionlint-facts lint` on a repository. The faults are read as they are printed."""
from __future__ import annotations

import json
import subprocess
import tempfile
from typing import Iterator, NoReturn

from .facts_tree import Json
from .faults import fault_of
from .problems import Problem, problem_of
from .program import FACTS, cannot_start, find_facts

# How many characters the source lines of a report may have.
MAX_SOURCE = 64 * 1_048_576
CANNOT_GO_ON = 3
SHOWN_OF_A_LINE = 200


class LintFailed(Exception):
    """The program can't be started, or what it printed isn't a whole report."""


class ReportTooLong(Exception):
    """The source lines of a report have too many characters: a line is printed once for each fault on it."""


class LintRun:
    """The faults of a folder, or of some of its files. `status` and `errors` are valid once all faults are read. Without source lines the
    faults of several lines have no known width."""

    def __init__(self, linter: str, root: str | None, files: list[str], has_source: bool):
        self.status = CANNOT_GO_ON
        self.errors = ""
        self._size = 0
        self._program = find_facts(linter)
        self._said = tempfile.TemporaryFile()
        words = [self._program, "lint", *([] if has_source else ["--oneline"]), *([f"--root={root}"] if root is not None else [])]
        try:
            self._child = subprocess.Popen([*words, "--", *files], stdin=subprocess.DEVNULL, stdout=subprocess.PIPE, stderr=self._said)
        except OSError as error:
            self._said.close()
            raise LintFailed(cannot_start(self._program, error)) from error

    def __enter__(self) -> LintRun:
        return self

    def __exit__(self, *_: object) -> None:
        """Stops the program if it is still running."""
        assert self._child.stdout
        self._child.kill()
        self._child.stdout.close()
        self._child.wait()
        self._said.close()

    def __iter__(self) -> Iterator[Problem]:
        """Raises `LintFailed` if the program isn't the right one or was cut off, so that it didn't print the status with which it ended."""
        assert self._child.stdout
        printed, cut = None, b""
        for line in self._child.stdout:
            if not line.endswith(b"\n"):
                cut = line
                break
            row = self._row(line)
            if printed is not None:
                self._refuse(line)
            if "status" in row:
                printed = row["status"]
                continue
            yield self._problem(row, line)
        self._end()
        if self.status in (0, 1) and (cut or printed != self.status):
            if cut:
                self._refuse(cut)
            self._fail(f"it ended with status {self.status}, but its report {'has no end' if printed is None else f'with {printed}'}")

    def _row(self, line: bytes) -> Json:
        try:
            row = json.loads(line.decode("ascii"))
        except ValueError:
            row = None
        if not isinstance(row, dict):
            self._refuse(line)
        return row

    def _problem(self, row: Json, line: bytes) -> Problem:
        source: str | None = row.get("source")
        try:
            self._size += len(source or "")
            left_on_line = lambda: None if source is None else len(source) - row["column"] + 1
            problem = problem_of(fault_of(row["path"], row, left_on_line), source)
        except (KeyError, TypeError):
            self._refuse(line)
        if self._size > MAX_SOURCE:
            raise ReportTooLong(str(self._size))
        return problem

    def _refuse(self, line: bytes) -> NoReturn:
        self._fail(f"it reported {line[:SHOWN_OF_A_LINE].decode('utf-8', 'replace')!r}")

    def _fail(self, why: str) -> NoReturn:
        said = f": {self.errors.strip()}" if self.errors else ""
        raise LintFailed(f"{self._program} is not {FACTS}: {why}{said}")

    def _end(self) -> None:
        status = self._child.wait()
        self._said.seek(0)
        self.errors = self._said.read().decode("utf-8", "replace")
        if status < 0:
            self.errors = self.errors or f"{FACTS}: ended by signal {-status}\n"
        elif status > CANNOT_GO_ON:
            self.errors = self.errors or f"{FACTS}: ended with status {status}\n"
        self.status = status if 0 <= status <= CANNOT_GO_ON else CANNOT_GO_ON
