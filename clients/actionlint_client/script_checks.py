"""shellcheck's notes on open files for the language server. A process of its own makes them, beside the server's work, so that no answer
waits for it.

    python3 -m actionlint_client.script_checks LINTER PATH      writes the notes on the text on standard input as JSON
"""
from __future__ import annotations

import json
import os
import signal
import subprocess
import sys
import tempfile
import threading
import time
from pathlib import Path
from typing import Callable, NamedTuple, TypedDict

from .child import LinterEnded
from .faults import Fault
from .problems import Problem
from .reader import Reader, Started
from .shellcheck import ShellcheckFailed, notes_of_text, problem_of_note
from .shellcheck_run import PROGRAM

CLIENTS = Path(__file__).resolve().parents[1]
# How long a text has to stay as it is before it is checked.
PAUSE_SECONDS = 0.3
NICENESS = 10
SECONDS_OF_AN_ANSWER = 20.0
SHOWN_CHARACTERS = 200
UNCHECKED = ""
MODULE = "actionlint_client.script_checks"

# The root of a repository, and the path of a file in it.
Key = tuple[bytes, str]


class WrittenNote(TypedDict):
    """A note as JSON. The code is empty if it says why a script isn't checked."""

    line: int
    column: int
    width: int
    message: str
    code: str
    level: str


class Wanted(NamedTuple):
    """A text to check, and when to begin."""

    data: bytes
    begin: float


class ScriptChecks:
    """The notes on the last text of each open file, made by a thread and a process while the server works. `wake` is called, by that
    thread, when there are new ones, or none since shellcheck can't be run. It is off until `is_on` is set."""

    module = MODULE

    def __init__(self, linter: str, wake: Callable[[], None]):
        self.is_on = False
        self._linter, self._wake = linter, wake
        self._changed = threading.Condition()
        self._wanted: dict[Key, Wanted] = {}
        self._known: dict[Key, tuple[bytes, tuple[Problem, ...]]] = {}
        self._news: set[Key] = set()
        # The last reason why shellcheck couldn't be run, and whether it is still to be told.
        self._failure, self._is_untold = "", False
        # What is being checked, and the process that does it.
        self._current: tuple[Key, bytes] | None = None
        self._child: subprocess.Popen[bytes] | None = None
        self._thread: threading.Thread | None = None

    def arguments(self, key: Key) -> list[str]:
        return [self._linter, key[1]]

    def problem(self, path: str, note: WrittenNote) -> Problem:
        fault = Fault(path, note["line"], note["column"], note["message"], PROGRAM, note["width"])
        return problem_of_note(fault, note["code"], note["level"])

    def notes(self, key: Key, data: bytes) -> tuple[Problem, ...]:
        """The notes on a text, none while they aren't known. Then it is checked after a pause, and a check of another one is stopped."""
        if not self.is_on:
            return ()
        with self._changed:
            known = self._known.get(key)
            if known is not None and known[0] == data:
                return known[1]
            wanted = self._wanted.get(key)
            if self._current != (key, data) and (wanted is None or wanted.data != data):
                self._forget(key)
                self._wanted[key] = Wanted(data, time.monotonic() + PAUSE_SECONDS)
                self._start()
            return ()

    def forget(self, key: Key) -> None:
        """Stops a check of a file, and forgets its notes."""
        with self._changed:
            self._forget(key)

    def take_news(self) -> set[Key]:
        """The files whose notes became known."""
        with self._changed:
            news, self._news = self._news, set()
            return news

    def take_failure(self) -> str:
        """Why shellcheck can't be run, if that is new, or nothing."""
        with self._changed:
            untold, self._is_untold = self._is_untold, False
            return self._failure if untold else ""

    def end(self) -> None:
        """Stops what runs."""
        with self._changed:
            self.is_on = False
            self._wanted.clear()
            self._stop_current()

    def _forget(self, key: Key) -> None:
        self._wanted.pop(key, None)
        self._known.pop(key, None)
        if self._current is not None and self._current[0] == key:
            self._stop_current()

    def _stop_current(self) -> None:
        self._current = None
        if self._child is not None and self._child.poll() is None:
            self._child.terminate()

    def _start(self) -> None:
        if self._thread is None:
            self._thread = threading.Thread(target=self._work, daemon=True)
            self._thread.start()
        self._changed.notify()

    def _work(self) -> None:
        while True:
            key, data = self._take_next()
            found = self._checked(key, data)
            with self._changed:
                self._child = None
                if self._current != (key, data):
                    continue
                self._current = None
                self._known[key] = data, found
                self._news.add(key)
            self._wake()

    def _take_next(self) -> tuple[Key, bytes]:
        """Waits for a text that has stayed as it is for long enough."""
        with self._changed:
            while True:
                now = time.monotonic()
                due = [key for key, wanted in self._wanted.items() if wanted.begin <= now]
                if due:
                    self._current = due[0], self._wanted.pop(due[0]).data
                    return self._current
                self._changed.wait(min((wanted.begin - now for wanted in self._wanted.values()), default=None))

    def _checked(self, key: Key, data: bytes) -> tuple[Problem, ...]:
        """The notes on a text, none if the check is stopped or fails."""
        with tempfile.TemporaryFile() as given, tempfile.TemporaryFile() as said, tempfile.TemporaryFile() as errors:
            given.write(data)
            given.seek(0)
            words = [sys.executable, *(["-E"] if sys.flags.ignore_environment else []), "-m", self.module, *self.arguments(key)]
            with self._changed:
                if self._current != (key, data):
                    return ()
                self._child = subprocess.Popen(words, cwd=CLIENTS, stdin=given, stdout=said, stderr=errors, start_new_session=True)
            status = self._child.wait()
            for stream in (said, errors):
                stream.seek(0)
            if status == 0:
                return tuple(self.problem(key[1], one) for one in json.loads(said.read()))
            self._note_failure(errors.read().decode("utf-8", "replace"), status)
            return ()

    def _note_failure(self, said: str, status: int) -> None:
        """Notes a failure, to be told once. A check that was stopped is none."""
        why = said.strip()[-SHOWN_CHARACTERS:] or f"the scripts can't be checked (status {status})"
        with self._changed:
            if self._current is not None and why != self._failure:
                self._failure, self._is_untold = why, True


def written(fault: Fault, code: str, level: str) -> WrittenNote:
    return {"line": fault.line, "column": fault.column, "width": fault.width or 1, "message": fault.message, "code": code, "level": level}


def stop(number: int, _: object) -> None:
    """Ends the process and, on the way, what it has started."""
    sys.exit(128 + number)


def check(find: Callable[[bytes], list[WrittenNote]], *failures: type[Exception]) -> int:
    """Writes the notes on standard input, or why there are none, and returns the status of the process, which doesn't hold up others."""
    signal.signal(signal.SIGTERM, stop)
    os.nice(NICENESS)
    try:
        json.dump(find(sys.stdin.buffer.read()), sys.stdout)
    except failures as error:
        print(error, file=sys.stderr)
        return 3
    return 0


def main(words: list[str]) -> int:
    def find(data: bytes) -> list[WrittenNote]:
        unchecked: list[WrittenNote] = []
        reader = Reader(Started(words[0], SECONDS_OF_AN_ANSWER))
        found = notes_of_text(reader, words[1], data, lambda fault: unchecked.append(written(fault, UNCHECKED, "note")))
        return [*(written(one.fault, one.code, one.level) for one in found), *unchecked]
    return check(find, LinterEnded, ShellcheckFailed)


if __name__ == "__main__":
    sys.exit(main(sys.argv[1:]))
