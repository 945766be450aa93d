"""The workflows and actions of a repository as they are on disk, and the actions there, including those that no file calls yet."""
from __future__ import annotations

import errno
import os
import stat
from dataclasses import dataclass
from typing import Callable, Iterable

from .linter_limits import MAX_FILE_BYTES
from .paths import ACTION_NAMES, WORKFLOWS, is_below, is_path, is_workflow

READ_BYTES = 65_536
MAX_TOLD = 10
# Pipes, devices and kernel logs are opened without waiting, and no terminal becomes this program's.
OPENED = os.O_RDONLY | os.O_NONBLOCK | os.O_NOCTTY | os.O_CLOEXEC
NOT_REGULAR = "cannot read this file: it is not a regular one"
# The errors of a path at which there is no file.
ABSENT = (errno.ENOENT, errno.ENOTDIR, errno.ELOOP, errno.ENAMETOOLONG)
MAX_FOLDERS = 2_000
PASSED_OVER = (b"node_modules", b"target", b"vendor")


@dataclass
class SavedFile:
    """A file as it was last read: its bytes, at most one more than the linter takes, or None if it isn't there, can't be read or is outside
    the folder."""

    stamp: tuple[int | None, ...]
    data: bytes | None
    error: str | None = None
    is_outside: bool = False


class Disk:
    """Files are read when they are asked for, and again when their times, sizes or inode numbers changed."""

    def __init__(self, root: bytes, say: Callable[[str], None]):
        self.workflows: set[str] = set()
        self._root = root
        self._real_root = os.path.realpath(root)
        self._say = say
        self._files: dict[str, SavedFile] = {}
        self._passed_over: set[str] = set()

    def rescan(self) -> bool:
        """Looks at the disk again, and returns whether a file appeared, disappeared or changed."""
        self._real_root = os.path.realpath(self._root)
        workflows, files = self.workflows, dict(self._files)
        self.workflows = {path for entry in self._entries() if (path := self._workflow_path(entry)) is not None}
        for path in files:
            self._update(path)
        return self.workflows != workflows or any(self._files[path] is not file for path, file in files.items())

    def file(self, path: str) -> SavedFile:
        """The file as it was at the last `rescan`, or now if it wasn't asked for before."""
        return self._files.get(path) or self._update(path)

    def forget(self, paths: Iterable[str]) -> None:
        """Reads these files again, even if they look the same."""
        for path in paths:
            self._files.pop(path, None)

    def keep(self, paths: set[str]) -> None:
        """Forgets all files but these."""
        self._files = {path: file for path, file in self._files.items() if path in paths}

    def _entries(self) -> list[os.DirEntry[bytes]]:
        try:
            with os.scandir(os.path.join(self._root, WORKFLOWS.encode())) as entries:
                return list(entries)
        except OSError as error:
            if error.errno not in ABSENT:
                self._pass_over(WORKFLOWS, f"it can't be listed ({error.strerror})")
            return []

    def _workflow_path(self, entry: os.DirEntry[bytes]) -> str | None:
        """The path of an entry that is linted: a regular file or a link to one, as for the program."""
        path = f"{WORKFLOWS}/{entry.name.decode('utf-8', 'surrogateescape')}"
        if not is_workflow(path) or not _is_file(entry):
            return None
        try:
            path.encode("utf-8")
        except UnicodeEncodeError:
            self._pass_over(path, "its name is not UTF-8")
            return None
        return path

    def _pass_over(self, path: str, why: str) -> None:
        """Reports the first ten skipped files, each once."""
        if path in self._passed_over or len(self._passed_over) > MAX_TOLD:
            return
        self._passed_over.add(path)
        told = len(self._passed_over) <= MAX_TOLD
        self._say(f"skipped, since {why}: {path!r}" if told else "more files are skipped")

    def _update(self, path: str) -> SavedFile:
        whole = os.path.join(self._root, path.encode("utf-8", "surrogatepass"))
        known = self._files.get(path)
        stamp = _stamp_of(whole)
        if known is None or known.stamp != stamp:
            known = self._files[path] = _read(whole, stamp, self._real_root)
            if known.is_outside:
                self._pass_over(path, "a symbolic link points outside the folder")
        return known


def _is_file(entry: os.DirEntry[bytes]) -> bool:
    """Whether an entry is a regular file or a link to one, or a link to what can't be looked at."""
    try:
        return entry.is_file()
    except OSError as error:
        return error.errno not in ABSENT


def _stamp_of(whole: bytes) -> tuple[int | None, ...]:
    """The mode of a file, and what differs once it changed. Without a mode if it can't be looked at, and empty if there is none."""
    try:
        found = os.stat(whole)
    except ValueError:
        return ()
    except OSError as error:
        return () if error.errno in ABSENT else (None, error.errno)
    return (found.st_mode, found.st_mtime_ns, found.st_ctime_ns, found.st_size, found.st_dev, found.st_ino)


def _read(whole: bytes, stamp: tuple[int | None, ...], real_root: bytes) -> SavedFile:
    if not stamp:
        return SavedFile(stamp, None)
    if stamp[0] is not None and not stat.S_ISREG(stamp[0]):
        return SavedFile(stamp, None, NOT_REGULAR)
    try:
        opened = os.open(whole, OPENED)
        try:
            # The opened file may not be the one that was looked at.
            if not stat.S_ISREG(os.fstat(opened).st_mode):
                return SavedFile(stamp, None, NOT_REGULAR)
            if not is_below(_real_path(opened, whole), real_root):
                return SavedFile(stamp, None, is_outside=True)
            return SavedFile(stamp, _bytes_of(opened))
        finally:
            os.close(opened)
    except (FileNotFoundError, NotADirectoryError):
        return SavedFile(stamp, None)
    except OSError as error:
        if not is_below(os.path.realpath(whole), real_root):
            return SavedFile(stamp, None, is_outside=True)
        return SavedFile(stamp, None, f"cannot read this file: {error.strerror}")


def _real_path(opened: int, whole: bytes) -> bytes:
    """The path of an open file, if the system tells it, else that of what is now at its path."""
    try:
        return os.readlink(b"/proc/self/fd/%d" % opened)
    except OSError:
        return os.path.realpath(whole)


def _bytes_of(opened: int) -> bytes:
    """The bytes of a file, at most one more than the linter takes."""
    blocks, left = [], MAX_FILE_BYTES + 1
    while left and (block := os.read(opened, min(left, READ_BYTES))):
        blocks.append(block)
        left -= len(block)
    return b"".join(blocks)


def actions_below(root: bytes) -> list[str]:
    """The paths of the actions in the first 2,000 directories, except those of dependencies and of git. No link to one is followed."""
    found: list[str] = []
    for number, (folder, folders, names) in enumerate(os.walk(root)):
        if number == MAX_FOLDERS:
            break
        folders[:] = sorted(name for name in folders if name not in PASSED_OVER and (not name.startswith(b".") or name == b".github"))
        for action in ACTION_NAMES:
            file = os.path.join(folder, action.encode())
            if action.encode() in names and _can_be_called(file, root):
                found.append(os.path.relpath(file, root).decode("utf-8"))
    return found


def _can_be_called(file: bytes, root: bytes) -> bool:
    """Whether the linter reads an action, and a `uses` can name it."""
    try:
        path = os.path.relpath(file, root).decode("utf-8")
    except UnicodeDecodeError:
        return False
    return is_path(path) and "${{" not in path and os.path.isfile(file) and is_below(os.path.realpath(file), os.path.realpath(root))
