"""A folder with its open files, its faults, and what the editor was told about them."""
from __future__ import annotations

from dataclasses import dataclass, field
from functools import cached_property

from .diagnostics import Diagnostics
from .disk import actions_below
from .editor import Editor
from .faults import NO_FAULTS, Fault, FileFaults
from .folder import REASONS, TOO_LARGE, Folder, Result
from .ignoring import Ignored
from .paths import uri_of
from .positions import Lines, lines_of
from .problems import Problem
from .project import Project
from .protocol import Position, Range
from .script_checks import ScriptChecks

NOTHING = Result({}, {}, set())
OF_SIZE = {"Y14", "Y15", "X5"}


@dataclass
class Document:
    """An open file, with its path relative to the repository's root directory, and its version by each URI under which it was opened."""

    path: str
    repository: Repository
    versions: dict[str, int | None]
    _lines: tuple[bytes, Lines] | None = None
    _earlier: Earlier | None = None

    def opened_as(self, uri: str) -> str:
        """The URI under which it was opened: this one, or the last of those with the same path."""
        return uri if uri in self.versions else next(reversed(self.versions))

    def data(self) -> bytes:
        """The bytes that the faults are about: those of the buffer, unless no linter can be run."""
        return self.repository.folder.data_of(self.path)

    def lines(self) -> Lines:
        data = self.data()
        if self._lines is None or self._lines[0] is not data:
            self._lines = data, Lines(data, True)
        return self._lines[1]

    def found(self) -> FileFaults:
        return self.repository.result.faults.get(self.path, NO_FAULTS)

    def earlier(self) -> FileFaults:
        """While the file isn't valid YAML, the faults on other lines that it had when it last was."""
        return self._earlier.beside(self.found()) if self._earlier and is_no_yaml(self.found()) else NO_FAULTS

    def note(self) -> None:
        """Remembers what to show if a later text isn't valid YAML."""
        data, found = self.data(), self.found()
        if not is_no_yaml(found):
            self._earlier = Earlier(data, found)
        elif self._earlier is not None and self._earlier.data != data:
            self._earlier = self._earlier.in_text(data)

    def faults_in(self, wanted: Range, with_earlier: bool = False) -> list[tuple[Fault, Range]]:
        """The faults that touch a range, each with its own range."""
        lines = self.lines()
        shown = self.repository.ignored.without
        faults = shown(self.found()).faults + (shown(self.earlier()).faults if with_earlier else ())
        with_ranges = [(fault, lines.range_of(fault)) for fault in faults
                       if wanted["start"]["line"] <= fault.line - 1 <= wanted["end"]["line"]]
        return [(fault, one) for fault, one in with_ranges
                if _key(one["start"]) <= _key(wanted["end"]) and _key(wanted["start"]) <= _key(one["end"])]

    def notes_at(self, position: Position) -> list[tuple[Problem, Range]]:
        """The notes with an entry whose range has a position, each with its range."""
        lines = self.lines()
        notes = [note for note in self.repository.notes_with_entries(self.path) if note.fault.line == position["line"] + 1]
        return [(note, one) for note in notes for one in [lines.range_of(note.fault)]
                if _key(one["start"]) <= _key(position) <= _key(one["end"])]


@dataclass
class Repository:
    root: bytes
    folder: Folder
    shows_earlier: bool
    # What makes notes on open files.
    checks: tuple[ScriptChecks, ...] = ()
    result: Result = NOTHING
    ignored: Ignored = field(default_factory=lambda: Ignored(()))
    documents: dict[str, Document] = field(default_factory=dict)
    _touched: set[str] = field(default_factory=set)
    _shown: dict[str, tuple[object, ...]] = field(default_factory=dict)
    _told: set[str] = field(default_factory=set)
    # The faults that were looked at for those of size, and whether there was one.
    _too_large: dict[str, tuple[FileFaults, bool]] = field(default_factory=dict)

    @cached_property
    def project(self) -> Project:
        """The files for features that look up names."""
        return Project(self.folder.reader, self.folder.read, self.folder.paths, lambda: actions_below(self.root),
                       self.documents.__contains__, self.is_too_large)

    def is_too_large(self, path: str) -> bool:
        """Whether the linter refuses a file since it is too large or too deep, or has an expression that is too long."""
        if self.result.refused.get(path) == REASONS[TOO_LARGE]:
            return True
        found = self.result.faults.get(path, NO_FAULTS)
        if path not in self._too_large or self._too_large[path][0] is not found:
            self._too_large[path] = found, not OF_SIZE.isdisjoint(fault.code for fault in found.faults)
        return self._too_large[path][1]

    def uri(self, path: str) -> str:
        """The URI under which the editor has a file open, or else one of its path."""
        document = self.documents.get(path)
        return next(iter(document.versions)) if document and document.versions else uri_of(self.root, path)

    def version(self, path: str) -> int | None:
        """The version of an open file under the URI above."""
        document = self.documents.get(path)
        return next(iter(document.versions.values()), None) if document else None

    def open(self, path: str) -> Document:
        """The open file. `edit` sets its text."""
        document = self.documents.get(path)
        if document is None:
            document = self.documents[path] = Document(path, self, {})
            document.note()
        return document

    def edit(self, path: str, data: bytes | None) -> None:
        """Sets the bytes of a file's buffer, or None if it is no longer open."""
        self._touched.add(path)
        self.folder.edit(path, data)
        if data is None:
            self._forget_notes(path)

    def show_again(self, path: str) -> None:
        """Shows a file in the next `refresh`, since notes on it became known."""
        self._touched.add(path)

    def lines(self, path: str) -> Lines:
        document = self.documents.get(path)
        return document.lines() if document else Lines(self.folder.data_of(path), False)

    def refresh(self, editor: Editor, diagnostics: Diagnostics) -> None:
        """Shows the current faults, or nothing if no linter can be run, since what was shown may be wrong by now."""
        result = self.folder.refresh()
        paths = self._touched | (self._shown.keys() if result is None else result.changed)
        self.result, self._touched = result or NOTHING, set()
        ignored = diagnostics.ignored.rules()
        if ignored is not self.ignored:
            paths |= self._shown.keys() | self.result.faults.keys()
            self.ignored = ignored
        if paths:
            kept = {*self.folder.paths(), *self.documents}
            self.project.keep(kept)
            self._too_large = {path: known for path, known in self._too_large.items() if path in kept}
        for path in sorted(paths):
            self._show(path, editor, diagnostics)

    def is_linted(self) -> bool:
        """Whether the linter ran in the last `refresh`."""
        return self.result is not NOTHING

    def files_with_unknown_faults(self) -> set[str]:
        """The files that aren't linted, aren't valid YAML, or have more faults than are kept."""
        return {*self.result.refused, *(path for path, found in self.result.faults.items() if found.more or is_no_yaml(found))}

    def close(self, editor: Editor) -> None:
        """Stops the linter, and removes what is shown."""
        self.folder.close()
        for path in self.documents:
            self._forget_notes(path)
        for path in self._shown:
            for uri in self._versions(path):
                editor.publish(uri, None, [])
        self._shown.clear()

    def _versions(self, path: str) -> dict[str, int | None]:
        document = self.documents.get(path)
        return dict(document.versions) if document else {uri_of(self.root, path): None}

    def _show(self, path: str, editor: Editor, diagnostics: Diagnostics) -> None:
        """Publishes the diagnostics of a file, unless the editor already has them."""
        versions, document = self._versions(path), self.documents.get(path)
        found, refused, earlier = self.result.faults.get(path, NO_FAULTS), self.result.refused.get(path), NO_FAULTS
        if document and self.shows_earlier and self.result is not NOTHING:
            document.note()
            earlier = self.ignored.without(document.earlier())
        found = self.ignored.without(found)
        is_to_show = found is not NO_FAULTS or refused is not None or document is not None
        notes = self._notes(path, found) if document else ()
        state = (versions, found, earlier, refused, notes, self.folder.data_of(path))
        if self._shown.get(path) == state or not (is_to_show or path in self._shown):
            return
        told = diagnostics.of_file(self.lines(path), found, earlier, refused, notes)
        for uri, version in versions.items():
            editor.publish(uri, version, told)
        if refused and refused not in self._told:
            self._told.add(refused)
            editor.say(f"{path}: {refused}")
        if is_to_show:
            self._shown[path] = state
        else:
            del self._shown[path]

    def _notes(self, path: str, found: FileFaults) -> tuple[Problem, ...]:
        """The notes on an open file, as far as they are known, none while no linter runs or the file isn't valid YAML."""
        if self.result is NOTHING or path in self.result.refused or is_no_yaml(found):
            return ()
        data = self.folder.data_of(path)
        return tuple(note for checks in self.checks for note in checks.notes((self.root, path), data) if not self.ignored.has(note))

    def notes_with_entries(self, path: str) -> tuple[Problem, ...]:
        """The notes on an open file that pages explain."""
        return tuple(note for note in self._notes(path, self.result.faults.get(path, NO_FAULTS)) if note.entry)

    def _forget_notes(self, path: str) -> None:
        for checks in self.checks:
            checks.forget((self.root, path))


def _key(position: Position) -> tuple[int, int]:
    return position["line"], position["character"]


def is_no_yaml(found: FileFaults) -> bool:
    """Whether a file's one fault is that it isn't valid YAML."""
    return len(found.faults) == 1 and found.faults[0].code.startswith("Y")


@dataclass(frozen=True)
class Earlier:
    """A text, and the faults of the last valid YAML whose lines the text still has."""

    data: bytes
    found: FileFaults

    def in_text(self, data: bytes) -> Earlier:
        """The same for the text after an edit, whose own lines are those between the common prefix and the common suffix of both texts."""
        before, after = lines_of(self.data), lines_of(data)
        most = min(len(before), len(after))
        prefix = next((number for number in range(most) if before[number] != after[number]), most)
        suffix = next((number for number in range(most - prefix) if before[-1 - number] != after[-1 - number]), most - prefix)
        moved = []
        for fault in self.found.faults:
            if fault.line <= prefix:
                moved.append(fault)
            elif fault.line > len(before) - suffix:
                moved.append(fault._replace(line=fault.line + len(after) - len(before)))
        return Earlier(data, FileFaults(tuple(moved), self.found.more))

    def beside(self, found: FileFaults) -> FileFaults:
        """Those that aren't on a line with one of the given faults."""
        lines = {fault.line for fault in found.faults}
        return FileFaults(tuple(fault for fault in self.found.faults if fault.line not in lines), self.found.more)
