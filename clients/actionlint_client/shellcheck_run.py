"""Runs of shellcheck, of one script each, so that a script on which it doesn't end costs little, and nothing else is lost."""
from __future__ import annotations

import json
import os
import shutil
import signal
import subprocess
import tempfile
import threading
from dataclasses import dataclass
from typing import IO, TYPE_CHECKING, Any

if TYPE_CHECKING:
    from .scripts import Script

PROGRAM = "shellcheck"
# Files and variables may come from other steps, from `env` and from the runner.
EXCLUDED = "SC1091,SC2154"
# A prefix of both sides of a comparison has a purpose where an expression may give nothing.
ABOUT_PREFIXES = "SC2268"
SECONDS = 4.0
# Whatever becomes of the program that started it, shellcheck ends after so many seconds of work.
WORK_SECONDS = 10
LIMITED = ["/bin/sh", "-c", f'ulimit -t {WORK_SECONDS}; exec "$0" "$@"']
SHOWN_CHARACTERS = 200
WORDS, VARIABLES = "words", "variables"


class ShellcheckFailed(Exception):
    """It can't be started, or prints something else than notes."""


class NotChecked(Exception):
    """Why it has no notes on a script: it doesn't end, or was ended."""


@dataclass(frozen=True)
class Note:
    """A note on a script. Lines and columns count from 1, and the end is past the last character."""

    line: int
    column: int
    end_line: int
    end_column: int
    code: str
    level: str
    message: str

    def place(self) -> tuple[int, int, str]:
        return self.line, self.column, self.code


class Shellcheck:
    """May be asked by several threads at once. `stop` ends what runs."""

    def __init__(self) -> None:
        self._running: set[subprocess.Popen[bytes]] = set()
        self._lock = threading.Lock()
        self._is_stopped = False

    def notes(self, script: Script) -> list[Note]:
        """The notes on a script, in order. Raises `NotChecked` or `ShellcheckFailed`."""
        texts = {WORDS: script.text}
        if script.with_variables != script.text:
            texts[VARIABLES] = script.with_variables
        with tempfile.TemporaryDirectory(prefix="actionlint-") as folder:
            for name, text in texts.items():
                with open(f"{folder}/{name}", "w", encoding="utf-8", newline="") as opened:
                    opened.write(as_run(script, text))
            comments = self._comments(folder, [f"--shell={script.shell}", "--", *texts])
        found = {name: [note for one in comments if one["file"] == name and (note := _note(one, script)).line > 0] for name in texts}
        return sorted(_not_of_stand_ins(script, found[WORDS], found.get(VARIABLES)), key=Note.place)

    def stop(self) -> None:
        """Ends what runs now, and whatever is asked for later."""
        with self._lock:
            self._is_stopped = True
            for child in self._running:
                _kill(child)

    def _comments(self, folder: str, words: list[str]) -> list[dict[str, Any]]:
        """What shellcheck prints as JSON."""
        program = shutil.which(PROGRAM)
        if program is None:
            raise ShellcheckFailed(f"cannot start {PROGRAM}: there is none on the PATH")
        command = [*LIMITED, program, "--norc", "--format=json1", f"--exclude={EXCLUDED}", *words]
        # (not a pipe, which a process that is left behind could hold open)
        with tempfile.TemporaryFile() as said, tempfile.TemporaryFile() as errors:
            status = self._status(command, folder, said, errors)
            if status < 0:
                raise NotChecked(f"{PROGRAM} was ended by signal {-status}")
            said.seek(0)
            printed = said.read()
            try:
                comments: list[dict[str, Any]] = json.loads(printed)["comments"]
                return comments
            except (ValueError, KeyError, TypeError) as error:
                errors.seek(0)
                shown = (errors.read() or printed).decode("utf-8", "replace").strip()[:SHOWN_CHARACTERS]
                raise ShellcheckFailed(f"{PROGRAM} ended with status {status}: {shown}") from error

    def _status(self, command: list[str], folder: str, said: IO[bytes], errors: IO[bytes]) -> int:
        """The status of a run. Raises `NotChecked` if it takes too long."""
        child = self._start(command, folder, said, errors)
        try:
            return child.wait(timeout=SECONDS)
        except subprocess.TimeoutExpired as error:
            raise NotChecked(f"{PROGRAM} took more than {SECONDS:.0f} seconds") from error
        finally:
            # Also what it may have started, and left behind.
            _kill(child)
            child.wait()
            with self._lock:
                self._running.discard(child)

    def _start(self, command: list[str], folder: str, said: IO[bytes], errors: IO[bytes]) -> subprocess.Popen[bytes]:
        with self._lock:
            if self._is_stopped:
                raise NotChecked(f"{PROGRAM} was stopped")
            try:
                child = subprocess.Popen(command, cwd=folder, env={**os.environ, "LC_ALL": "C.UTF-8"}, stdin=subprocess.DEVNULL,
                                         stdout=said, stderr=errors, start_new_session=True)
            except OSError as error:
                raise ShellcheckFailed(f"cannot start {PROGRAM}: {error.strerror}") from error
            self._running.add(child)
            return child


def as_run(script: Script, text: str) -> str:
    """The text as the runner has it run. A first line of the shell's own says that it ends at the first command that fails. Unlike
    `set -e`, this leaves a directive for the whole script where shellcheck expects it."""
    if not script.ends_at_failure:
        return text
    first = f"#!/bin/{script.shell} -e\n"
    return first + (text.partition("\n")[2] if text.startswith("#!") else text)


def _note(comment: dict[str, Any], script: Script) -> Note:
    """A note at its place in the script. Line 0 is the one that `as_run` adds."""
    added = 1 if script.ends_at_failure and not script.text.startswith("#!") else 0
    is_first = comment["line"] == 1 and script.ends_at_failure
    return Note(0 if is_first else comment["line"] - added, comment["column"], comment["endLine"] - added, comment["endColumn"],
                f"SC{comment['code']}", comment["level"], comment["message"])


def _not_of_stand_ins(script: Script, words: list[Note], variables: list[Note] | None) -> list[Note]:
    """The notes whose cause isn't what stands in place of an expression: a note about a constant isn't given for a variable, and one about
    a variable isn't given for a word. Where a variable isn't allowed, the lines without expressions are left."""
    if variables is None:
        return words
    computed = script.lines_with_expressions()
    if _is_unread(variables) and not _is_unread(words):
        return [note for note in words if not _touches(note, computed)]
    places = {note.place() for note in variables}
    return [note for note in words if note.place() in places and not (note.code == ABOUT_PREFIXES and _touches(note, computed))]


def _touches(note: Note, lines: set[int]) -> bool:
    """Whether one of these lines is one of the note's."""
    return not lines.isdisjoint(range(note.line, note.end_line + 1))


def _is_unread(notes: list[Note]) -> bool:
    """Whether shellcheck couldn't read a script, and so says nothing about the rest of it."""
    return any(note.level == "error" and note.code.startswith("SC1") for note in notes)


def _kill(child: subprocess.Popen[bytes]) -> None:
    """Ends a process and what it started."""
    try:
        os.killpg(child.pid, signal.SIGKILL)
    except (ProcessLookupError, PermissionError):
        pass
