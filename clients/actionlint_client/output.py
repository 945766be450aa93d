"""What a client writes: its report, on standard output or to a file that is replaced once it is complete; fixed files, each replaced whole
or not at all, and only if it is still the one that was read; lines on standard error, its help and its version."""
from __future__ import annotations

import argparse
import errno
import io
import os
import secrets
import shutil
import stat
import sys
import tempfile
from contextlib import contextmanager, suppress
from pathlib import Path
from typing import TYPE_CHECKING, BinaryIO, Callable, Iterator, cast

from .streams import waiting_output

if TYPE_CHECKING:
    from _typeshed import ReadableBuffer

STANDARD_OUTPUT = 1
FOLDER = os.O_RDONLY | os.O_DIRECTORY | os.O_CLOEXEC
NEW_FILE = os.O_WRONLY | os.O_CREAT | os.O_EXCL | os.O_NOFOLLOW | os.O_CLOEXEC
READ = os.O_RDONLY | os.O_NONBLOCK | os.O_NOCTTY | os.O_NOFOLLOW | os.O_CLOEXEC
STANDARD_ERROR = 2
CANNOT_PRINT = 3
FILE = Path(__file__).resolve().parents[2] / "VERSION"


@contextmanager
def report_output(file: str | None) -> Iterator[BinaryIO]:
    """What is written reaches the file or standard output only when the block ends without an exception. Raises OSError if it can't,
    because something else than a regular file has the name (a link, a pipe, a device), or a link is on its path below the current
    directory."""
    if file is None:
        # If it is closed, a file that is opened next would take its place.
        os.fstat(STANDARD_OUTPUT)
        with tempfile.TemporaryFile() as spool:
            yield cast(BinaryIO, spool)
            spool.seek(0)
            shutil.copyfileobj(spool, waiting_output(STANDARD_OUTPUT))
        return
    folder, name = _open_folder(os.path.dirname(file)), os.path.basename(file)
    try:
        _refuse_odd(folder, name)
        with replaced_file(folder, name) as opened:
            yield opened
    finally:
        os.close(folder)


@contextmanager
def replaced_file(folder: int, name: str, like: os.stat_result | None = None) -> Iterator[BinaryIO]:
    """A new file that gets the name if the block ends without an exception. It has the mode of another file, and its owner if possible."""
    beside = f".actionlint-report.{secrets.token_hex(8)}"
    try:
        handle = os.open(beside, NEW_FILE, 0o666, dir_fd=folder)
        with open(handle, "w+b") as opened:
            if like is not None:
                with suppress(PermissionError):
                    os.fchown(handle, like.st_uid, like.st_gid)
                os.fchmod(handle, stat.S_IMODE(like.st_mode))
            yield opened
        os.rename(beside, name, src_dir_fd=folder, dst_dir_fd=folder)
    except BaseException:
        # (it isn't there if it could not be made, or if it was renamed before a signal ended the program)
        with suppress(FileNotFoundError):
            os.unlink(beside, dir_fd=folder)
        raise


def _refuse_odd(folder: int, name: str) -> None:
    try:
        mode = os.stat(name, dir_fd=folder, follow_symlinks=False).st_mode
    except FileNotFoundError:
        return
    if not stat.S_ISREG(mode):
        raise OSError(errno.EINVAL, "it is not a regular file")


def _open_folder(path: str) -> int:
    """A directory. No link below the current directory is followed."""
    return os.open(path, FOLDER) if os.path.isabs(path) else folder_below(os.open(".", FOLDER), path)


def folder_below(folder: int, path: str) -> int:
    """A directory below an open one, which is closed. No link is followed."""
    for part in path.split("/"):
        if part not in ("", "."):
            above = folder
            try:
                folder = os.open(part, FOLDER | os.O_NOFOLLOW, dir_fd=above)
            finally:
                os.close(above)
    return folder


class NotWritten(Exception):
    """The file isn't the one that was read, or can't be replaced."""


def rewrite(root: str, path: str, before: bytes, after: bytes) -> None:
    """Replaces a regular file below a directory; its mode stays. No link is followed on the way to it."""
    try:
        top = os.open(root, FOLDER)
        folder = folder_below(top, os.path.dirname(path))
    except OSError as error:
        raise NotWritten(_reason(error)) from error
    try:
        found = _look(folder, os.path.basename(path), before)
        with replaced_file(folder, os.path.basename(path), found) as opened:
            opened.write(after)
            opened.flush()
            os.fsync(opened.fileno())
            if _stamp(found) != _stamp(_look(folder, os.path.basename(path), before)):
                raise NotWritten("it changed meanwhile")
    except OSError as error:
        raise NotWritten(_reason(error)) from error
    finally:
        os.close(folder)


def _look(folder: int, name: str, before: bytes) -> os.stat_result:
    """What the system says of the file, which has to have these bytes."""
    opened = os.open(name, READ, dir_fd=folder)
    with open(opened, "rb") as file:
        found = os.fstat(opened)
        if not stat.S_ISREG(found.st_mode) or file.read(len(before) + 1) != before:
            raise NotWritten("it changed meanwhile")
    return found


def _stamp(found: os.stat_result) -> tuple[int, ...]:
    return found.st_dev, found.st_ino, found.st_mode, found.st_mtime_ns, found.st_size


def _reason(error: OSError) -> str:
    return error.strerror or str(error)


class _Errors(io.FileIO):
    """Standard error. What can't be written is lost, so that a full disk changes no status."""

    def write(self, data: ReadableBuffer) -> int:
        size = memoryview(data).nbytes
        try:
            taken = super().write(data)
        except OSError:
            return size
        return size if taken is None else taken


def open_errors() -> None:
    """Has `sys.stderr` take everything, even if standard error is closed or full."""
    encoding = sys.stderr.encoding if sys.stderr else "utf-8"
    if sys.stderr is None:
        # If it stays closed, a file that is opened later takes its place.
        unread = os.open(os.devnull, os.O_WRONLY)
        if unread != STANDARD_ERROR:
            os.dup2(unread, STANDARD_ERROR)
            os.close(unread)
    sys.stderr = io.TextIOWrapper(_Errors(STANDARD_ERROR, "w", closefd=False), encoding, "backslashreplace", write_through=True)


class _Print(argparse.Action):
    """An option that prints a text and ends the program, with status 3 if the text can't be printed."""

    def __init__(self, option_strings: list[str], dest: str, text: Callable[[], str], help: str):
        super().__init__(option_strings, dest, nargs=0, default=argparse.SUPPRESS, help=help)
        self._text = text

    def __call__(self, parser: argparse.ArgumentParser, *_: object) -> None:
        try:
            with report_output(None) as out:
                out.write(self._text().encode())
        except OSError as error:
            parser.exit(CANNOT_PRINT, f"{parser.prog}: cannot write standard output: {error.strerror}\n")
        parser.exit()


def add_help_and_version(parser: argparse.ArgumentParser) -> None:
    """Adds these options to a parser that was made without `--help`, since argparse doesn't notice that it can't print."""
    parser.add_argument("-h", "--help", action=_Print, text=parser.format_help, help="show this help message and exit")
    parser.add_argument("--version", action=_Print, text=lambda: f"{parser.prog} {version() or 'without a version'}\n",
                        help="show program's version number and exit")


def version() -> str | None:
    """The contents of the file VERSION of the repository or the release, or None if there is none."""
    try:
        return FILE.read_text(encoding="utf-8").strip()
    except OSError:
        return None
