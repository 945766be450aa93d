"""Notes on open files for the language server, made as those of shellcheck are, by a process beside the server's work.

    python3 -m actionlint_client.notes.checks LINTER ROOT PATH      writes the notes on the text on standard input as JSON
"""
from __future__ import annotations

import os
import sys

from ..faults import Fault
from ..problems import NOTE, NOTE_KIND, Problem
from ..program import find_facts
from ..script_checks import Key, ScriptChecks, WrittenNote, check, written
from .file import NoNotes, entry_of_note


class NoteChecks(ScriptChecks):
    """Other files than the open one are read as they are on disk."""

    module = "actionlint_client.notes.checks"

    def can_run(self) -> bool:
        """Whether there is the program that the notes need."""
        return os.access(find_facts(self._linter), os.X_OK)

    def arguments(self, key: Key) -> list[str]:
        return [self._linter, os.fsdecode(key[0]), key[1]]

    def problem(self, path: str, note: WrittenNote) -> Problem:
        fault = Fault(path, note["line"], note["column"], note["message"], NOTE_KIND, note["width"])
        return Problem(fault, note["code"], entry_of_note(note["code"]), None, NOTE)


def main(words: list[str]) -> int:
    def find(data: bytes) -> list[WrittenNote]:
        from .run import notes_of_text

        linter, root, path = words
        return [written(one.fault, one.code, one.level) for one in notes_of_text(linter, root, path, data)]
    return check(find, NoNotes)


if __name__ == "__main__":
    sys.exit(main(sys.argv[1:]))
