"""Notes of shellcheck on the scripts of files, at their places in the files."""
from __future__ import annotations

import os
from collections import deque
from concurrent.futures import Future, ThreadPoolExecutor
from typing import Callable, Iterable, Iterator, NamedTuple

from .disk import Disk
from .faults import Fault
from .linter_limits import MAX_FILE_BYTES
from .problems import Problem
from .reader import Reader
from .scripts import Script, scripts_of
from .shellcheck_run import PROGRAM, Note, NotChecked, Shellcheck, ShellcheckFailed
from .text import LINE_BREAK, Places

__all__ = ["ShellcheckFailed", "notes", "notes_of_text", "problem_of_note"]
SIDE_BY_SIDE = os.cpu_count() or 1
# Scripts that are being checked, or whose notes wait for those of earlier ones.
MAX_WAITING = 4 * SIDE_BY_SIDE
# After so many scripts on which it doesn't end, the rest isn't checked.
MAX_UNCHECKED = 12
LEVELS = {"error": "error", "warning": "warning", "info": "note", "style": "note"}
WIKI = "https://www.shellcheck.net/wiki/"


class SourceFile:
    """A file's text, and the places of its characters."""

    def __init__(self, path: str, text: str):
        self.path, self.text = path, text
        self._lines, self._places = LINE_BREAK.split(text), Places(text)

    def fault(self, start: int, end: int, message: str) -> Fault:
        """A fault from one character up to another, at most to the end of its line."""
        line, column = self._places.point(start)
        width = min(end - start, len(self._lines[line]) - column)
        return Fault(self.path, line + 1, column + 1, message, PROGRAM, max(width, 1))

    def line_of(self, fault: Fault) -> str:
        return self._lines[fault.line - 1]


class Found(NamedTuple):
    """A script of a file."""

    source: SourceFile
    script: Script

    def start(self, message: str) -> Fault:
        """A fault at its first character."""
        offset = self.script.offset_of(1, 1)
        return self.source.fault(offset, offset + 1, message)


def notes(reader: Reader, root: str, files: list[str], refused: set[str], say: Callable[[str], None]) -> Iterator[Problem]:
    """The notes on all scripts of the files and of what they call, or of all workflows, in the order of the scripts. Files that aren't
    valid YAML for the linter are skipped, and `say` is told about files that can't be read here and scripts that can't be checked."""
    # (the linter has already said which links it skipped)
    disk = Disk(os.fsencode(root), lambda _: None)
    return _problems(_scripts(reader, disk, files, refused, say), lambda fault: say(f"{fault.path}:{fault.line}: {fault.message}"))


def notes_of_text(reader: Reader, path: str, data: bytes, tell: Callable[[Fault], None]) -> Iterator[Problem]:
    """The notes on the scripts of a file with this text, none if it can't be read here. `tell` hears of scripts that can't be checked."""
    return _problems(_read(reader, path, data, lambda _: None), tell)


def _problems(found: Iterable[Found], tell: Callable[[Fault], None]) -> Iterator[Problem]:
    unchecked = 0
    for one, result in _checked(found):
        try:
            yield from (_problem(note, one) for note in result())
        except NotChecked as error:
            unchecked += 1
            tell(one.start(f"no shellcheck of this script, since {error}"))
        if unchecked == MAX_UNCHECKED:
            tell(one.start(f"no shellcheck of later scripts, since there was none of {MAX_UNCHECKED}"))
            break


def _checked(found: Iterable[Found]) -> Iterator[tuple[Found, Callable[[], list[Note]]]]:
    """The scripts in order, each with a function that waits for its notes. Some are checked side by side."""
    program, pool = Shellcheck(), ThreadPoolExecutor(SIDE_BY_SIDE)
    waiting: deque[tuple[Found, Future[list[Note]]]] = deque()
    try:
        for one in found:
            waiting.append((one, pool.submit(program.notes, one.script)))
            if len(waiting) == MAX_WAITING:
                first, future = waiting.popleft()
                yield first, future.result
        yield from ((first, future.result) for first, future in waiting)
    finally:
        program.stop()
        pool.shutdown(cancel_futures=True)


def _scripts(reader: Reader, disk: Disk, files: list[str], refused: set[str], say: Callable[[str], None]) -> Iterator[Found]:
    """The scripts of the files and of what they call, each file once."""
    disk.rescan()
    waiting = deque(dict.fromkeys(path.removeprefix("./") for path in files) or sorted(disk.workflows))
    seen = set(waiting)
    while waiting:
        path = waiting.popleft()
        data = None if path in refused else disk.file(path).data
        if data is None or len(data) > MAX_FILE_BYTES:
            continue
        yield from _read(reader, path, data, say)
        waiting.extend(called := sorted((reader.calls(path, data) or frozenset()) - seen))
        seen.update(called)


def _read(reader: Reader, path: str, data: bytes, say: Callable[[str], None]) -> list[Found]:
    """The scripts of a file, none if it can't be read here."""
    try:
        source = SourceFile(path, data.decode("utf-8"))
    except UnicodeDecodeError as error:
        say(f"{path}: no shellcheck, since {error}")
        return []
    tree = reader.tree(path, data)
    return [Found(source, script) for script in scripts_of(tree, data)] if tree else []


def _problem(note: Note, found: Found) -> Problem:
    source, script = found
    fault = source.fault(script.offset_of(note.line, note.column), script.offset_of(note.end_line, note.end_column), note.message)
    return problem_of_note(fault, note.code, LEVELS[note.level], source.line_of(fault))


def problem_of_note(fault: Fault, code: str, level: str, source: str | None = None) -> Problem:
    return Problem(fault, code, None, source, level, WIKI + code)
