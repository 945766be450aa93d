"""The files of one repository as the linter sees them, and their faults.

After each change `refresh` sends puts and deletes until the linter has the files that it should have, and reads the faults of those that it
has rechecked. The last puts are compared with the wanted files, so edits, changes on disk, refusals and new linters are handled alike.
"""
from __future__ import annotations

import time
from dataclasses import dataclass
from typing import Callable

from .child import LinterEnded, LinterMissing, LinterSilent
from .facts import EditRefused, Facts, NoAnswer
from .facts_tree import Json
from .faults import MAX_FAULTS, FileFaults, faults_of
from .files import Files
from .limit import LIMIT
from .linter_limits import MAX_FILE_BYTES, MAX_FILES, MAX_PATH_BYTES
from .paths import is_workflow
from .program import find_facts, missing_linter
from .reader import Reader

ENDS_OF_A_FILE = 2
# The faults of more files than this are read at once, unless they are longer.
MAX_ASKED_FILES, MAX_REPORT_BYTES = 32, 8 * 1_048_576

TAKEN, BAD_PATH, TOO_LARGE, FULL = "", "E1", "E3", "E4"
ENDED_AT, REPORTS_TOO_MUCH = "ended", "reports too much"
REASONS = {
    BAD_PATH: f"not linted, since its path has more than {MAX_PATH_BYTES:,} bytes, a control character or a backslash",
    TOO_LARGE: f"not linted, since it has more than {MAX_FILE_BYTES:,} bytes",
    FULL: f"not linted, since the folder has {MAX_FILES:,} other workflows and actions",
    ENDED_AT: "not linted, since the linter stopped at it twice",
    REPORTS_TOO_MUCH: "not linted, since the report of its faults is too long",
}


@dataclass(frozen=True)
class Program:
    """The linter's command, and how many seconds it may take to answer."""

    words: list[str]
    timeout: float


@dataclass(frozen=True)
class Result:
    """The faults of each file that has some, the reason for each file that isn't linted, and the files for which one of these or the bytes
    may differ from the last result."""

    faults: dict[str, FileFaults]
    refused: dict[str, str]
    changed: set[str]


@dataclass
class PutFile:
    """The last put of a file, and why it was refused."""

    data: bytes
    reply: str


@dataclass
class LeftOut:
    """Bytes of a file that are no longer put, and why: the linter ended at them, perhaps only once so far, or they have too many faults."""

    data: bytes
    reply: str
    ends: int = ENDS_OF_A_FILE


class Restarts:
    """How often the linter ended lately. After four times in a minute it isn't started for ten seconds."""

    MAX_ENDS, WITHIN_SECONDS, PAUSE_SECONDS = 4, 60.0, 10.0

    def __init__(self) -> None:
        self._ends: list[float] = []

    def note(self, is_hopeless: bool) -> None:
        """Notes an end. A hopeless one counts four times, such as that of a linter that is silent until it times out."""
        self._ends += [time.monotonic()] * (self.MAX_ENDS if is_hopeless else 1)

    def delay(self) -> float:
        """The seconds until the linter may be started, 0 if it may be now."""
        now = time.monotonic()
        self._ends = [then for then in self._ends if now - then < self.WITHIN_SECONDS]
        return max(self._ends[-1] + self.PAUSE_SECONDS - now, 0.0) if len(self._ends) >= self.MAX_ENDS else 0.0


class Folder:
    def __init__(self, root: bytes, program: Program, say: Callable[[str], None], keeps_calls: bool = False):
        """`keeps_calls` is that of `Files`."""
        self._program, self._say = program, say
        self.reader = Reader(self._started_for_reading)
        self._files = Files(root, say, self.reader, keeps_calls)
        self.edit, self.read, self.rescan = self._files.edit, self._files.read, self._files.rescan
        self._facts: Facts | None = None
        self._put_files: dict[str, PutFile] = {}
        # The put files that the linter has, and the reasons for those that it refused.
        self._held: set[str] = set()
        self._refused: dict[str, str] = {}
        self._left_out: dict[str, LeftOut] = {}
        self._restarts = Restarts()
        self.delay = self._restarts.delay
        # The last message about a linter that can't be started.
        self._missing = ""
        self._faults: dict[str, FileFaults] = {}
        self._cycles: dict[str, list[Json]] = {}
        # The files that may differ from the last put, whether there was an edit since `_cycles` was read, the files whose faults may differ
        # from those that were read, and the files that may differ from the last result.
        self._unsent: set[str] = set()
        self._is_edited = False
        self._rechecked: set[str] = set()
        self._untold: set[str] = set()

    def paths(self) -> list[str]:
        """The workflows, the actions that are called, and what is open, as of the last `refresh`."""
        return list(self._files.wanted)

    def refresh(self) -> Result | None:
        """The current faults of the folder, or None if no linter can be run; then `delay` seconds should pass before the next try."""
        while self.delay() == 0:
            try:
                return self._refresh()
            except LinterMissing as error:
                self._forget_linter()
                self._restarts.note(True)
                if str(error) != self._missing:
                    self._missing = str(error)
                    self._say(self._missing)
            except (LinterEnded, NoAnswer) as error:
                self._forget_linter()
                self._restarts.note(isinstance(error, (LinterSilent, NoAnswer)))
                later = " in ten seconds" if self.delay() > 0 else ""
                self._say(f"the linter stopped and is started again{later}: {error}")
        return None

    def data_of(self, path: str) -> bytes:
        """The bytes that the faults of a file are about."""
        put = self._put_files.get(path)
        return put.data if put else b""

    def close(self) -> None:
        """Stops the linter."""
        if self._facts:
            self._facts.stop()
            self._facts = None

    def _refresh(self) -> Result:
        if self._files.is_stale():
            self._update_files()
        self._notice_end()
        self._send_changes()
        while self._is_edited or self._rechecked:
            self._read_cycles()
            self._read_faults()
        told, self._untold = self._untold, set()
        return Result(self._faults, self._refused | self._files.unreadable, told)

    def _update_files(self) -> None:
        changed = self._files.update()
        self._unsent |= changed
        self._untold |= changed

    def _started(self) -> Facts:
        if self._facts is None:
            linter = self._program.words[0]
            if missing := missing_linter(linter):
                raise LinterMissing(missing)
            self._facts = Facts([find_facts(linter)], self._program.timeout)
            self._missing = ""
        return self._facts

    def _started_for_reading(self) -> Facts:
        """The linter, which has the folder too. If it has ended, the next `refresh` puts all files again."""
        with LIMIT.uninterrupted():
            self._notice_end()
            if self.delay() > 0:
                raise LinterEnded("it ended too often")
            return self._started()

    def _notice_end(self) -> None:
        """Forgets a linter that ended while it read a text."""
        if self._facts is not None and self._facts.has_ended():
            self._forget_linter()
            self._say("the linter stopped and is started again: it ended while it read a text")

    def _forget_linter(self) -> None:
        self.close()
        self._untold |= {*self._put_files, *self._faults}
        self._unsent = set(self._files.wanted)
        self._put_files, self._refused, self._faults, self._cycles = {}, {}, {}, {}
        self._held, self._rechecked = set(), set()
        self._is_edited = False

    def _read_cycles(self) -> None:
        """Notes the files whose calls on call cycles differ, which aren't rechecked for that."""
        if not self._is_edited or self._facts is None:
            return
        try:
            cycles = self._facts.cycles()
        except NoAnswer:
            # There are too many.
            self._rechecked |= self._held
            cycles = {}
        self._rechecked |= {path for path in {*cycles, *self._cycles} if cycles.get(path) != self._cycles.get(path)}
        self._cycles, self._is_edited = cycles, False

    def _read_faults(self) -> None:
        """Reads the faults of the files that were rechecked. A file with too many is left out, and with it what its callers know of it."""
        if len(self._rechecked) > MAX_ASKED_FILES:
            self._read_report()
        while self._rechecked:
            path = self._rechecked.pop()
            self._take(path, self._faults_of(path) if path in self._held else None)

    def _read_report(self) -> None:
        """Reads the faults of all files that were rechecked, unless they are too long."""
        assert self._facts
        try:
            found = self._facts.report(MAX_REPORT_BYTES)
        except NoAnswer:
            return
        for path in self._rechecked:
            some = found.get(path, [])
            first = faults_of(path, some[:MAX_FAULTS], self._put_files[path].data) if some else ()
            self._take(path, FileFaults(first, len(some[MAX_FAULTS:])) if some else None)
        self._rechecked.clear()

    def _take(self, path: str, found: FileFaults | None) -> None:
        if found != self._faults.get(path):
            self._untold.add(path)
        if found is not None:
            self._faults[path] = found
        else:
            self._faults.pop(path, None)

    def _faults_of(self, path: str) -> FileFaults | None:
        assert self._facts
        data = self._put_files[path].data
        try:
            first, more = self._facts.first_faults(path, MAX_FAULTS)
        except NoAnswer:
            self._left_out[path] = LeftOut(data, REPORTS_TOO_MUCH)
            self._refuse(path, REPORTS_TOO_MUCH)
            return None
        return FileFaults(faults_of(path, first, data), more) if first else None

    def _send_changes(self) -> None:
        """Sends what differs from the wanted files."""
        wanted = self._files.wanted
        for path in [path for path in self._unsent if path not in wanted]:
            self._delete(path)
            self._put_files.pop(path, None)
            self._refused.pop(path, None)
        if len(self._held) < MAX_FILES and REASONS[FULL] in self._refused.values():
            self._unsent |= self._put_files.keys() - self._held
        differing = [path for path in self._unsent if path in wanted and self._differs(path, wanted[path])]
        # Actions come first: a caller that is put before them is checked again for each.
        for path in sorted(differing, key=lambda path: (is_workflow(path), path)):
            self._put(path, wanted[path])
        self._unsent.clear()

    def _differs(self, path: str, data: bytes) -> bool:
        """Whether the last put of a file had other bytes, or found the folder full."""
        put = self._put_files.get(path)
        return put is None or put.data is not data and put.data != data or put.reply == FULL

    def _put(self, path: str, data: bytes) -> None:
        reply = self._reply_to_put(path, data)
        self._put_files[path] = PutFile(data, reply)
        if reply == TAKEN:
            self._held.add(path)
            self._refused.pop(path, None)
            self._left_out.pop(path, None)
        else:
            self._refuse(path, reply)

    def _refuse(self, path: str, reply: str) -> None:
        """Notes why a file isn't linted. After a refusal the linter still has the old text."""
        self._delete(path)
        self._refused[path] = REASONS.get(reply, f"refused {reply}")

    def _reply_to_put(self, path: str, data: bytes) -> str:
        """Why the linter refuses a file, if it does. A path that fits into no command and bytes that are left out are refused here."""
        if "\n" in path or len(path.encode("utf-8")) > MAX_PATH_BYTES:
            return BAD_PATH
        left_out = self._left_out.get(path)
        if left_out is not None and left_out.data == data and left_out.ends >= ENDS_OF_A_FILE:
            return left_out.reply
        facts = self._started()
        try:
            self._note_edit(facts.put(path, data[:MAX_FILE_BYTES + 1]))
            return TAKEN
        except EditRefused as error:
            return error.code
        except LinterEnded:
            ends = left_out.ends if left_out is not None and left_out.data == data else 0
            self._left_out[path] = LeftOut(data, ENDED_AT, ends + 1)
            raise

    def _delete(self, path: str) -> None:
        if path in self._held:
            assert self._facts
            self._held.discard(path)
            self._note_edit([path, *self._facts.delete(path)])

    def _note_edit(self, rechecked: list[str]) -> None:
        self._rechecked.update(rechecked)
        self._is_edited |= bool(rechecked)
