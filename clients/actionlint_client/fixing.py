"""`--diff` and `--fix` of actionlint-report: fixes of the faults of a folder, applied in rounds. Each round takes fixes that don't touch
each other, and lints the folder again."""
from __future__ import annotations

import difflib
import os
import time
from collections import Counter
from dataclasses import dataclass
from typing import BinaryIO, Callable, Iterable, Iterator

from .characters import terminal_text
from .disk import actions_below
from .faults import Fault, FileFaults
from .fixes import MAX_FAULTS, UNREADABLE, fixes
from .folder import Folder, Program
from .ignoring import Ignored
from .lint_run import LintRun
from .output import NotWritten, rewrite
from .project import Project
from .repair import Edit, Repair
from .text import BYTE_ORDER_MARK, LINE_BREAK, Places

MAX_ROUNDS = 100
# Fixes are tried for so many faults, for so many bytes of the files that have them, and in so much time, in all rounds.
MAX_TRIED = 1_000
MAX_TRIED_BYTES = 30_000_000
SECONDS_OF_A_FILE = 60.0
SECONDS_OF_ALL = 300.0
BEHIND_A_LINK = "a symbolic link points to it"
SECONDS_OF_AN_ANSWER = 20.0
CONTEXT = 3
# More lines than these are compared in no way that takes time linear in them: one block replaces the other.
MAX_COMPARED_LINES = 2_000
NO_LINE_END = b"\\ No newline at end of file\n"
# The lines from one to another in the old text, and the same in the new one, which replace them.
Block = tuple[int, int, int, int]


@dataclass(frozen=True)
class Change:
    """The bytes of a file on disk, and those after all fixes."""

    before: bytes
    after: bytes


@dataclass(frozen=True)
class Choice:
    """Which fixes are taken: of the faults that this says, the first safe one; with guesses, the first one of those that are left."""

    takes: Callable[[Fault], bool]
    with_guesses: bool


class Fixing:
    """The texts are changed in memory only. `left` are the files that aren't changed, with the reason. Too many faults aren't all tried;
    then `is_cut`, and another run goes on."""

    def __init__(self, program: Program, root: bytes, choice: Choice, say: Callable[[str], None]):
        self.left: dict[str, str] = {}
        self.is_cut = False
        self._program, self._root, self._choice = program, root, choice
        self._folder = Folder(root, program, say)
        self._project = Project(self._folder.reader, self._folder.read, self._folder.paths, lambda: actions_below(root))
        self._before: dict[str, bytes] = {}
        # The faults of which no fix was to be taken, by file, message and line, and those whose fixes didn't leave the folder better.
        self._hopeless: set[tuple[str, str, str]] = set()
        self._given_up: set[Fault] = set()
        self._tried, self._tried_bytes = 0, 0
        self._ends = time.monotonic() + SECONDS_OF_ALL
        self._takes_guesses = False

    def changes(self, paths: Iterable[str]) -> dict[str, Change]:
        """The files that the fixes change. `paths` are those that were linted; others of the folder are linted too."""
        try:
            for path in paths:
                data = self._folder.read(path)
                if data is not None:
                    self._folder.edit(path, data)
            self._go_on()
            if self._choice.with_guesses:
                # What a safe fix repairs is no longer there to be guessed.
                self._takes_guesses = True
                self._hopeless.clear()
                self._go_on()
        finally:
            self._folder.close()
        after = {path: self._folder.read(path) or b"" for path in self._before}
        return {path: Change(before, after[path]) for path, before in sorted(self._before.items()) if after[path] != before}

    def _go_on(self) -> None:
        """Applies fixes until there are none that leave the folder better. One that doesn't do so alone is given up."""
        faults = self._faults()
        is_cautious = False
        for _ in range(MAX_ROUNDS):
            found = self._fixes(faults or {})
            if not faults or not found:
                return
            taken = dict(list(found.items())[:1]) if is_cautious else found
            texts = self._apply(taken.values())
            after = self._faults()
            if after is not None and _is_better(after, faults, len(taken) == 1):
                faults, is_cautious = after, False
                continue
            for path, data in texts.items():
                self._folder.edit(path, data)
            self._given_up |= taken.keys() if len(taken) == 1 else set()
            is_cautious = True
            faults = self._faults()

    def _faults(self) -> dict[str, FileFaults] | None:
        """The faults of the folder with the texts as they are now, or None if the linter can't go on."""
        result = self._folder.refresh()
        return dict(result.faults) if result else None

    def _fixes(self, faults: dict[str, FileFaults]) -> dict[Fault, Repair]:
        """A fix for each fault that has one to be taken, as far as these don't touch each other."""
        found: dict[Fault, Repair] = {}
        taken: dict[str, list[Edit]] = {}
        for path, of_file in sorted(faults.items()):
            for fault, repair in self._first_fixes([fault for fault in of_file.faults if self._choice.takes(fault)]).items():
                if not any(_touch(one, other) for file, edits in repair.edits.items() for one in edits for other in taken.get(file, ())):
                    found[fault] = repair
                    for file, edits in repair.edits.items():
                        taken.setdefault(file, []).extend(edits)
        return found

    def _first_fixes(self, faults: list[Fault]) -> dict[Fault, Repair]:
        """The first fix of each fault that may be taken. Files aren't made, nor written through links."""
        found: dict[Fault, Repair] = {}
        for some in self._to_try(faults):
            for fault, repair in fixes(self._program.words, self._program.timeout, self._project, some, seconds=SECONDS_OF_A_FILE):
                if (repair.is_safe or self._takes_guesses) and not repair.new_files and all(map(self._can_change, repair.edits)):
                    found.setdefault(fault, repair)
            self._hopeless |= {self._key(fault) for fault in some if fault not in found}
        return found

    def _to_try(self, faults: list[Fault]) -> Iterator[list[Fault]]:
        """The faults that may have a fix to be taken, as many at a time as are tried together, up to a limit."""
        waiting = [fault for fault in faults if fault not in self._given_up]
        while waiting := [fault for fault in waiting if self._key(fault) not in self._hopeless]:
            some, waiting = waiting[:MAX_FAULTS], waiting[MAX_FAULTS:]
            size = len(self._folder.read(some[0].path) or b"")
            is_late = time.monotonic() > self._ends
            if is_late or self._tried + len(some) > MAX_TRIED or self._tried_bytes + size * len(some) > MAX_TRIED_BYTES:
                self.is_cut = True
                return
            self._tried += len(some)
            self._tried_bytes += size * len(some)
            yield some

    def _key(self, fault: Fault) -> tuple[str, str, str]:
        lines = self._project.lines(fault.path)
        return fault.path, fault.message, lines[fault.line - 1] if fault.line <= len(lines) else ""

    def _can_change(self, path: str) -> bool:
        if is_behind_a_link(self._root, path):
            self.left[path] = BEHIND_A_LINK
            return False
        return self._folder.read(path) is not None

    def _apply(self, repairs: Iterable[Repair]) -> dict[str, bytes]:
        """Edits the texts, and returns what they were before."""
        edits: dict[str, list[Edit]] = {}
        for repair in repairs:
            for path, some in repair.edits.items():
                edits.setdefault(path, []).extend(some)
        texts = {path: self._folder.read(path) or b"" for path in edits}
        for path, data in texts.items():
            self._before.setdefault(path, data)
            self._folder.edit(path, edited(data, edits[path]))
        return texts


def edited(data: bytes, edits: Iterable[Edit]) -> bytes:
    """A file after edits of its text that don't overlap. New lines end as its first one does, and bytes that aren't UTF-8 stay."""
    text = data.decode("utf-8", "surrogateescape")
    places = Places(text, int(data.startswith(BYTE_ORDER_MARK)))
    first = LINE_BREAK.search(text)
    line_break = first[0] if first else "\n"
    for edit in sorted(edits, key=lambda edit: edit.span.start, reverse=True):
        new = edit.text.replace("\n", line_break)
        text = text[:places.offset(edit.span.start)] + new + text[places.offset(edit.span.end):]
    return text.encode("utf-8", "surrogateescape")


def is_behind_a_link(root: bytes, path: str) -> bool:
    """Whether a file below a directory, or a directory on the way to it, is a symbolic link."""
    parts = path.encode("utf-8", "surrogatepass").split(b"/")
    return any(os.path.islink(os.path.join(root, *parts[:count])) for count in range(1, len(parts) + 1))


def _touch(one: Edit, other: Edit) -> bool:
    return one.span.start <= other.span.end and other.span.start <= one.span.end


def _is_better(after: dict[str, FileFaults], before: dict[str, FileFaults], may_uncover: bool) -> bool:
    """Whether there are fewer faults, and none that wasn't there. Places aren't compared, since they move. A fix that was tried alone may
    also leave fewer of those faults that hide others, whatever they have hidden, or a file that is read further before it isn't YAML."""
    if may_uncover and (_count_hiding(after) < _count_hiding(before) or _is_read_further(after, before)):
        return True
    return (_count_hiding(after) <= _count_hiding(before) and _count(after) < _count(before)
            and not _messages(after) - _messages(before))


def _is_read_further(after: dict[str, FileFaults], before: dict[str, FileFaults]) -> bool:
    """Whether the files that aren't YAML are the same ones, and their faults are further below."""
    now, then = (dict(_of_yaml(faults)) for faults in (after, before))
    moved = [path for path in then if now.get(path) != then[path]]
    return now.keys() == then.keys() and bool(moved) and all(now[path] > then[path] for path in moved)


def _of_yaml(faults: dict[str, FileFaults]) -> Iterator[tuple[str, int]]:
    """The lines of the faults of files that aren't YAML. Each has one."""
    for path, of_file in faults.items():
        for fault in of_file.faults:
            if fault.code.startswith("Y"):
                yield path, fault.line


def _count_hiding(faults: dict[str, FileFaults]) -> int:
    """How many faults hide others: what isn't YAML, and expressions that can't be read."""
    codes = (fault.code for of_file in faults.values() for fault in of_file.faults)
    return sum(code.startswith("Y") or code in UNREADABLE for code in codes)


def _count(faults: dict[str, FileFaults]) -> int:
    return sum(len(of_file.faults) + of_file.more for of_file in faults.values())


def _messages(faults: dict[str, FileFaults]) -> Counter[tuple[str, str]]:
    """How often each file has each message. Of a file with too many faults only the first ones are known, so it has none here."""
    return Counter((path, fault.message) for path, of_file in faults.items() if not of_file.more for fault in of_file.faults)


@dataclass(frozen=True)
class Request:
    """Which files are fixed, by which linter, which faults are left as they are, and whether guesses are taken."""

    program: str
    root: str | None
    files: list[str]
    ignored: Ignored
    with_guesses: bool


@dataclass
class Applied:
    """The status of the linter before anything was fixed, what it printed on standard error, how many faults counted, what the fixes
    change, and whether something could not be written."""

    status: int
    errors: str
    faults: int
    changes: dict[str, Change]
    not_written: bool = False


def find_changes(request: Request, say: Callable[[str], None]) -> Applied:
    """Lints, and finds out what the fixes change."""
    paths, count = set(), 0
    with LintRun(request.program, request.root, request.files, False) as run:
        for problem in run:
            paths.add(problem.fault.path)
            count += not request.ignored.has(problem)
    found = Applied(run.status, run.errors, count, {})
    if found.faults and run.status == 1:
        takes: Callable[[Fault], bool] = lambda fault: fault.path in paths and not request.ignored.has_fault(fault)
        fixing = Fixing(Program([request.program], SECONDS_OF_AN_ANSWER), os.fsencode(request.root or "."),
                        Choice(takes, request.with_guesses), say)
        found.changes = fixing.changes(sorted(paths))
        if fixing.is_cut:
            say("not all faults were tried: another run goes on")
        for path, why in fixing.left.items():
            say(f"{path}: not fixed, since {why}")
    return found


def write_diff(found: Applied, out: BinaryIO, to_terminal: bool) -> None:
    """Writes the differences, for a terminal without the characters that control one."""
    for path, change in found.changes.items():
        for line in unified_diff(path, change.before, change.after).splitlines(keepends=True):
            out.write(terminal_text(line.decode("utf-8", "replace").rstrip("\r\n")).encode() + b"\n" if to_terminal else line)


def write_files(found: Applied, root: str | None, say: Callable[[str], None]) -> None:
    """Writes the changed files, and says which ones could not be."""
    for path, change in found.changes.items():
        try:
            rewrite(root or ".", path, change.before, change.after)
            say(f"{path}: fixed")
        except NotWritten as error:
            found.not_written = True
            say(f"{path}: not fixed, since {error}")


def unified_diff(path: str, before: bytes, after: bytes) -> bytes:
    """The differences, empty if there are none. Lines end with line feeds, whatever else they have at their ends."""
    old, new = _lines(before), _lines(after)
    hunks = _hunks(_blocks(old, new))
    if not hunks:
        return b""
    # A tab ends a name, which may have blanks.
    name = path.encode("utf-8", "surrogatepass")
    return b"--- a/%s\t\n+++ b/%s\t\n" % (name, name) + b"".join(_hunk(hunk, old, new) for hunk in hunks)


def _lines(data: bytes) -> list[bytes]:
    """The lines with their ends."""
    lines = [line + b"\n" for line in data.split(b"\n")]
    lines[-1] = lines[-1][:-1]
    return lines if lines[-1] else lines[:-1]


def _blocks(old: list[bytes], new: list[bytes]) -> list[Block]:
    """The lines that differ."""
    most = min(len(old), len(new))
    first = next((at for at in range(most) if old[at] != new[at]), most)
    last = next((at for at in range(most - first) if old[-1 - at] != new[-1 - at]), most - first)
    end, new_end = len(old) - last, len(new) - last
    if max(end, new_end) - first > MAX_COMPARED_LINES:
        return [(first, end, first, new_end)]
    matcher = difflib.SequenceMatcher(None, old[first:end], new[first:new_end], autojunk=False)
    return [(first + block[1], first + block[2], first + block[3], first + block[4])
            for block in matcher.get_opcodes() if block[0] != "equal"]


def _hunks(blocks: list[Block]) -> list[list[Block]]:
    """The blocks, those together between which there is no more than what is shown around them."""
    hunks: list[list[Block]] = []
    for block in blocks:
        if hunks and block[0] - hunks[-1][-1][1] <= 2 * CONTEXT:
            hunks[-1].append(block)
        else:
            hunks.append([block])
    return hunks


def _hunk(blocks: list[Block], old: list[bytes], new: list[bytes]) -> bytes:
    before = min(blocks[0][0], CONTEXT)
    start, new_start = blocks[0][0] - before, blocks[0][2] - before
    end = min(blocks[-1][1] + CONTEXT, len(old))
    new_end = blocks[-1][3] + end - blocks[-1][1]
    parts, at = [f"@@ -{_range(start, end)} +{_range(new_start, new_end)} @@\n".encode()], start
    for first, last, new_first, new_last in blocks:
        parts += [_line(b" ", line) for line in old[at:first]]
        parts += [_line(b"-", line) for line in old[first:last]]
        parts += [_line(b"+", line) for line in new[new_first:new_last]]
        at = last
    return b"".join(parts + [_line(b" ", line) for line in old[at:end]])


def _range(start: int, end: int) -> str:
    """The number of the first line and how many there are. Of no lines, it is the number of the line before them."""
    return f"{start + 1 if end > start else start},{end - start}"


def _line(sign: bytes, line: bytes) -> bytes:
    return sign + line if line.endswith(b"\n") else sign + line + b"\n" + NO_LINE_END
