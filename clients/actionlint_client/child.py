"""A program that answers commands over pipes, such as actionlint-facts."""
from __future__ import annotations

import os
import select
import signal
import subprocess
import time
from typing import NoReturn

from .limit import LIMIT
from .program import cannot_start

READ_BYTES = 65_536
EXIT_SECONDS = 0.5


class LinterEnded(Exception):
    """The program can't be started or has ended, or what it wrote isn't an answer."""


class LinterMissing(LinterEnded):
    """The program can't be started."""


class LinterSilent(LinterEnded):
    """The program neither read nor answered in time, and was stopped."""


class Child:
    """Not thread-safe. After one of the exceptions above the program is gone."""

    def __init__(self, words: list[str], timeout: float):
        self._timeout = timeout
        with LIMIT.uninterrupted():
            self._child = _started(words)
        assert self._child.stdin and self._child.stdout
        self._stdin, self._stdout = self._child.stdin, self._child.stdout
        os.set_blocking(self._stdin.fileno(), False)
        self._unread = b""

    def __del__(self) -> None:
        """Stops the program if nobody has, since what used it was cut short."""
        if hasattr(self, "_unread"):
            self.stop()

    def stop(self) -> int:
        """Stops the program and returns its status. The end of its input is enough."""
        with LIMIT.uninterrupted():
            return self._stop()

    def _stop(self) -> int:
        if self._child.returncode is not None:
            return self._child.returncode
        self._stdin.close()
        self._stdout.close()
        try:
            return self._child.wait(timeout=EXIT_SECONDS)
        except subprocess.TimeoutExpired:
            # The whole process group: the program may be a script around the linter.
            os.killpg(self._child.pid, signal.SIGKILL)
            return self._child.wait()

    def has_ended(self) -> bool:
        """Whether it is known to have ended."""
        return self._child.returncode is not None

    def _line(self, max_bytes: int) -> bytes | None:
        """The next line of the output, without its line feed. None if it has more bytes than allowed: then it was read and dropped."""
        parts: list[bytes] = []
        size, block = 0, self._unread
        while True:
            part, end, self._unread = block.partition(b"\n")
            size += len(part)
            parts.append(part)
            if size > max_bytes:
                parts.clear()
            if end:
                return b"".join(parts) if size <= max_bytes else None
            block = self._read()

    def _read(self) -> bytes:
        if not _is_ready(self._stdout.fileno(), select.POLLIN, self._timeout):
            self._fail("it gave no answer in time", LinterSilent)
        block = os.read(self._stdout.fileno(), READ_BYTES)
        if not block:
            self._fail("it ended")
        return block

    def _send(self, *parts: bytes) -> None:
        if self._child.returncode is not None:
            self._fail("it was stopped")
        unsent = memoryview(b"".join(parts))
        deadline = time.monotonic() + self._timeout
        while unsent:
            try:
                taken = os.write(self._stdin.fileno(), unsent)
            except BlockingIOError:
                if not _is_ready(self._stdin.fileno(), select.POLLOUT, deadline - time.monotonic()):
                    self._fail("it took no input in time", LinterSilent)
                continue
            except OSError:
                self._fail("it ended")
            unsent = unsent[taken:]

    def _fail(self, why: str, kind: type[LinterEnded] = LinterEnded) -> NoReturn:
        if kind is LinterSilent and self._child.returncode is None:
            # The end of its input isn't enough: if it writes meanwhile, it complains that it can't write the rest.
            os.killpg(self._child.pid, signal.SIGKILL)
        raise kind(f"{why} (status {self.stop()})")


def _started(words: list[str]) -> subprocess.Popen[bytes]:
    try:
        return subprocess.Popen(words, stdin=subprocess.PIPE, stdout=subprocess.PIPE, cwd="/", bufsize=0, start_new_session=True)
    except OSError as error:
        raise LinterMissing(cannot_start(words[0], error)) from error


def _is_ready(descriptor: int, event: int, seconds: float) -> bool:
    """Waits until a pipe can be read or written, or its other end is closed. Unlike `select`, it works for descriptors of any number."""
    waiting = select.poll()
    waiting.register(descriptor, event)
    return bool(waiting.poll(max(seconds, 0) * 1_000))
