"""The files that the linter sees in a repository: those on disk, with unsaved buffers in place of saved files."""
from __future__ import annotations

from typing import Callable, Iterable

from .child import LinterEnded, LinterMissing
from .disk import Disk
from .paths import is_action, is_linted
from .reader import Reader

NO_CALLS: frozenset[str] = frozenset()


class Files:
    """The folder holds what `actionlint --root DIR` lints, the workflows and the actions that they call, and every open file. `update`
    computes that, if possible from the edited files only."""

    def __init__(self, root: bytes, say: Callable[[str], None], reader: Reader, keeps_calls: bool):
        """With `keeps_calls`, a file that isn't valid YAML while it is edited still calls what it called before."""
        self.wanted: dict[str, bytes] = {}
        self.unreadable: dict[str, str] = {}
        self._disk = Disk(root, say)
        self._say, self._reader = say, reader
        self._keeps_calls = keeps_calls
        self._buffers: dict[str, bytes] = {}
        self._calls: dict[str, tuple[bytes, frozenset[str]]] = {}
        self._edited: set[str] = set()
        self._disk_may_differ = True
        # Whether `wanted` is what was last found.
        self._is_found = False

    def edit(self, path: str, data: bytes | None) -> None:
        """Sets the bytes of a file's buffer, or None if it is no longer open."""
        if data is None:
            self._buffers.pop(path, None)
            self._disk.forget([path])
        else:
            self._buffers[path] = data
        self._edited.add(path)

    def rescan(self, changed: Iterable[str] = ()) -> None:
        """Looks at the disk again, and reads the files of `changed` even if they look the same."""
        linted = {path for path in changed if is_linted(path)}
        self._disk.forget(linted)
        self._edited |= linted
        self._disk_may_differ = True

    def read(self, path: str) -> bytes | None:
        """The current bytes of a file, from its buffer or from disk, even if it isn't linted. None if there is no such file."""
        data = self._buffers.get(path)
        return self._disk.file(path).data if data is None else data

    def is_stale(self) -> bool:
        return self._disk_may_differ or bool(self._edited) or not self._is_found

    def update(self) -> set[str]:
        """Updates `wanted` and `unreadable`, and returns where they may have changed. After `LinterMissing` the next update begins anew."""
        edited, self._edited = self._edited, set()
        try:
            return self._update(edited)
        except LinterMissing:
            self._is_found = False
            raise

    def _update(self, edited: set[str]) -> set[str]:
        disk_differs = self._disk_may_differ and self._disk.rescan()
        self._disk_may_differ = False
        if self._is_found and not disk_differs and all(map(self._stays_where_it_is, edited)):
            self.wanted.update((path, data) for path in edited if (data := self.read(path)) is not None)
            return edited
        wanted, unreadable = self.wanted, self.unreadable
        self._find()
        return {path for path in {*wanted, *self.wanted} if wanted.get(path) is not self.wanted.get(path)} | {
            path for path in {*unreadable, *self.unreadable} if unreadable.get(path) != self.unreadable.get(path)}

    def _stays_where_it_is(self, path: str) -> bool:
        """Whether a file that was edited, here or on disk, is still wanted, and calls what it called before."""
        data = self.read(path)
        if path not in self.wanted or data is None or path not in self._buffers and path not in self._disk.workflows:
            return False
        before = self._calls[path][1]
        return self._calls_of(path, data) == before

    def _find(self) -> None:
        """The workflows, the open files, and the actions that these call, one after another."""
        wanted: dict[str, bytes] = {}
        unreadable: dict[str, str] = {}
        seen: set[str] = set()
        waiting = [*self._disk.workflows, *self._buffers]
        while waiting:
            path = waiting.pop()
            if path in seen:
                continue
            seen.add(path)
            data = self.read(path)
            if data is not None:
                wanted[path] = data
                waiting.extend(self._calls_of(path, data))
            elif error := self._disk.file(path).error:
                unreadable[path] = error
        self.wanted, self.unreadable, self._is_found = wanted, unreadable, True
        self._calls = {path: known for path, known in self._calls.items() if path in wanted}
        self._disk.keep(seen)

    def _calls_of(self, path: str, data: bytes) -> frozenset[str]:
        before, known = self._calls.get(path, (None, NO_CALLS))
        if before is not data:
            found = self._called(path, data) if known or may_call(data) else NO_CALLS
            known = found if found is not None else known if self._keeps_calls else NO_CALLS
            self._calls[path] = data, known
        return known

    def _called(self, path: str, data: bytes) -> frozenset[str] | None:
        """The paths at which a file's calls look for actions, or None if that isn't known."""
        try:
            called = self._reader.calls(path, data)
            return None if called is None else frozenset(filter(is_action, called))
        except LinterMissing:
            raise
        except LinterEnded as error:
            self._say(f"{path}: the actions that it calls aren't known: {error}")
            return None


def may_call(data: bytes) -> bool:
    """Whether a file may call another one of its folder: such a call is written out, or it has escapes."""
    return b"uses" in data and b"./" in data or b"\\" in data
