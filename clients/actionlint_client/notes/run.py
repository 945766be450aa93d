"""The notes of the files of a folder on disk, as problems of a report."""
from __future__ import annotations

import os
import posixpath
from collections import deque
from contextlib import contextmanager
from typing import Callable, Iterable, Iterator

from ..child import LinterEnded
from ..disk import Disk
from ..entries import ARGUMENT
from ..facts import EditRefused, Facts, NoAnswer, NoTree
from ..facts_tree import read_place
from ..faults import Fault
from ..paths import ACTION_NAMES
from ..positions import lines_of
from ..problems import ERROR, NOTE, NOTE_KIND, Problem
from ..program import FACTS, find_facts
from ..text import BytePlaces
from ..tree import Node, tree_of
from .file import File, Finding, NoNotes, entry_of_note
from .rules import findings

SECONDS = 60.0
# A longer line isn't shown.
LONGEST_LINE = 2_000


class Folder:
    """The files that are noted, and those that they call, as actionlint-facts has them."""

    def __init__(self, facts: Facts, read: Callable[[str], bytes | None], is_there: Callable[[str], bool]):
        self._facts, self._read, self._is_there = facts, read, is_there
        self._data: dict[str, bytes] = {}
        self._deprecated: dict[str, dict[str, str]] = {}

    def put(self, paths: Iterable[str]) -> list[str]:
        """Takes files and what they call, one after another, and returns their paths. Files that the linter refuses are left out."""
        taken, seen, waiting = [], set(), deque(paths)
        while waiting:
            path = waiting.popleft()
            if path not in seen and self._put(path):
                taken.append(path)
            seen.add(path)
            if not waiting:
                waiting.extend(lack for lack in self._facts.lacks() if lack not in seen)
        return taken

    def _put(self, path: str) -> bool:
        data = self._read(path)
        if data is None:
            return False
        try:
            self._facts.put(path, data)
        except EditRefused:
            return False
        self._data[path] = data
        return True

    def notes(self, path: str, counts: bool) -> Iterator[Problem]:
        """The notes of a file, none if it isn't valid YAML. With `counts` they are errors. Raises `NoAnswer`."""
        data = self._data[path]
        try:
            expressions = [read_place(one) for one in self._facts.of_bytes("expressions", path, data)]
            file = File(path, self._tree(path), expressions, self._is_there, self.deprecated)
        except NoTree:
            return
        source = Source(path, data)
        yield from (source.problem(found, ERROR if counts else NOTE) for found in findings(file))

    def _tree(self, path: str) -> Node:
        """The tree of a file. Raises `NoTree` and `NoAnswer`."""
        data = self._data[path]
        return tree_of(self._facts.of_bytes("tree", path, data), data)

    def deprecated(self, folder: str) -> dict[str, str]:
        """What the action in a folder says of its deprecated inputs, by their names in lower case."""
        if folder not in self._deprecated:
            self._deprecated[folder] = self._read_deprecated(folder)
        return self._deprecated[folder]

    def _read_deprecated(self, folder: str) -> dict[str, str]:
        path = next((path for name in ACTION_NAMES if (path := posixpath.normpath(f"{folder}/{name}")) in self._data), None)
        try:
            inputs = self._tree(path).get("inputs") if path else None
        except (NoTree, NoAnswer):
            inputs = None
        return {key.value.lower(): said for key, one in (inputs.entries if inputs else []) if (said := one.text("deprecationMessage"))}


class Source:
    """The lines of a file, and the places of its bytes."""

    def __init__(self, path: str, data: bytes):
        self._path, self._lines, self._places = path, lines_of(data), BytePlaces(data)

    def problem(self, found: Finding, level: str) -> Problem:
        """A note with the line at which it starts, unless that is long. Its width is that on this line."""
        entry, (start, end) = entry_of_note(found.code), self._places.span(found.start, found.end)
        line = self._lines[start.line]
        # The linter counts a byte order mark as a character of the first line.
        mark = int(start.line == 0 and self._places.begin > 0)
        width = (end.column if end.line == start.line else len(line.decode("utf-8", "replace")) - mark) - start.column
        message = ARGUMENT.sub(lambda argument: found.arguments[int(argument[1])], entry.message)
        fault = Fault(self._path, start.line + 1, start.column + mark + 1, message, NOTE_KIND, max(width, 1))
        return Problem(fault, found.code, entry, line.decode("utf-8", "replace") if len(line) <= LONGEST_LINE else None, level)


def notes(linter: str, root: str, files: list[str], counts: bool, say: Callable[[str], None]) -> Iterator[Problem]:
    """The notes of the files and of what they call, or of all workflows. `say` is told about files that have none because of their size.
    Raises `NoNotes`."""
    with _folder(linter, root, {}) as (folder, disk):
        named = list(dict.fromkeys(path.removeprefix("./") for path in files)) or sorted(disk.workflows)
        for path in sorted(folder.put(named)):
            try:
                yield from folder.notes(path, counts)
            except NoAnswer as error:
                say(f"{path}: no notes, since {error}")


def notes_of_text(linter: str, root: str, path: str, data: bytes) -> list[Problem]:
    """The notes of a file with this text. What it calls is read from disk. Raises `NoNotes`."""
    with _folder(linter, root, {path: data}) as (folder, _):
        return list(folder.notes(path, False)) if path in folder.put([path]) else []


@contextmanager
def _folder(linter: str, root: str, texts: dict[str, bytes]) -> Iterator[tuple[Folder, Disk]]:
    """A folder with the files on disk, or other texts in their place. Raises `NoNotes`."""
    # (the linter has already said which links it skipped)
    disk = Disk(os.fsencode(root), lambda _: None)
    disk.rescan()
    try:
        facts = Facts([find_facts(linter)], SECONDS)
        read = lambda path: texts[path] if path in texts else disk.file(path).data
        yield Folder(facts, read, lambda path: os.path.lexists(os.path.join(root, path))), disk
        facts.stop()
    except (LinterEnded, NoAnswer) as error:
        raise NoNotes(f"no notes, since {FACTS} can't be used: {error}") from error
