"""A limit on the processor time of one call."""
from __future__ import annotations

import signal
import threading
import time
from contextlib import contextmanager
from types import FrameType
from typing import Callable, Iterator, TypeVar

Answer = TypeVar("Answer")
# How often the limit is looked at once it may be reached, and how long after it was raised it is raised again, if something kept the
# exception from ending the call. A clock gives the signals: timers of processor time give none on a busy machine (Linux 6.18).
LOOK_SECONDS = 0.25
AGAIN_SECONDS = 1.0


class TooSlow(BaseException):
    """The call has taken more processor time than it may. It ends the call at any place outside of `uninterrupted`, and what catches
    `Exception` doesn't catch it."""


class TimeLimit:
    """Ends a call that takes too long. What counts are seconds of processor time of the main thread: neither waiting nor other threads.
    Only the main thread can make such a call, one at a time, since Python handles signals there."""

    def __init__(self) -> None:
        self._is_running = False
        self._end = 0.0
        # How many calls that must not be interrupted are running.
        self._shields = 0

    def call(self, seconds: float, function: Callable[[], Answer]) -> Answer:
        """What the function returns. Once it has taken these seconds, `TooSlow` is raised in it at the next look, and again after each
        further second if something caught that; within `uninterrupted` it waits until that ends."""
        try:
            return self._call(seconds, function)
        finally:
            # The exception can come between the end of the call and this.
            self._stop()

    @contextmanager
    def uninterrupted(self) -> Iterator[None]:
        """Within this the exception isn't raised; it is afterwards. Other threads have no limit."""
        if threading.current_thread() is not threading.main_thread():
            yield
            return
        self._shields += 1
        try:
            yield
        finally:
            self._shields -= 1

    def _call(self, seconds: float, function: Callable[[], Answer]) -> Answer:
        signal.signal(signal.SIGALRM, self._look)
        self._end = time.thread_time() + seconds
        self._is_running = True
        signal.setitimer(signal.ITIMER_REAL, seconds, LOOK_SECONDS)
        try:
            return function()
        finally:
            self._stop()

    def _stop(self) -> None:
        self._is_running = False
        signal.setitimer(signal.ITIMER_REAL, 0)

    def _look(self, _signal: int, _frame: FrameType | None) -> None:
        if self._is_running and not self._shields and time.thread_time() >= self._end:
            self._end += AGAIN_SECONDS
            raise TooSlow


LIMIT = TimeLimit()
