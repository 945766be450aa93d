"""Standard input and output that wait if they are non-blocking, as the pipes of some editors are."""
from __future__ import annotations

import io
import select
from typing import TYPE_CHECKING, BinaryIO

if TYPE_CHECKING:
    from _typeshed import ReadableBuffer, WriteableBuffer


class _Input(io.FileIO):
    def readinto(self, buffer: WriteableBuffer) -> int:
        while (count := super().readinto(buffer)) is None:
            _wait(self, select.POLLIN)
        return count


class _Output(io.FileIO):
    def write(self, data: ReadableBuffer) -> int:
        """Writes all bytes."""
        unwritten = memoryview(data).cast("B")
        size = len(unwritten)
        while unwritten:
            if (count := super().write(unwritten)) is None:
                _wait(self, select.POLLOUT)
            else:
                unwritten = unwritten[count:]
        return size


def waiting_input(descriptor: int) -> BinaryIO:
    """An open file to read from. It isn't closed with what is returned."""
    return io.BufferedReader(_Input(descriptor, "r", closefd=False))


def waiting_output(descriptor: int) -> io.FileIO:
    """An open file to write to. It isn't closed with what is returned."""
    return _Output(descriptor, "w", closefd=False)


def _wait(file: io.FileIO, event: int) -> None:
    ready = select.poll()
    ready.register(file, event)
    ready.poll()
