"""The editor's messages, read by a thread of their own."""
from __future__ import annotations

import json
import logging
import queue
import threading
from typing import BinaryIO, Callable, Union

from pylsp_jsonrpc.exceptions import JsonRpcException, JsonRpcInvalidRequest, JsonRpcParseError
from pylsp_jsonrpc.streams import JsonRpcStreamReader

from .protocol import Message


class Wake:
    """In place of a message: something that goes on beside the server has a result."""


# A message, the error that answers what is none, or None for the end of the input.
Taken = Union[Message, JsonRpcException, Wake, None]


class Reader(JsonRpcStreamReader):  # type: ignore[misc]
    """The library's reader takes the length from the first header field alone, and only logs what isn't JSON."""

    def listen(self, message_consumer: Callable[[Taken], None]) -> None:
        """Reads to the end. Raises ValueError if no header field tells a message's length."""
        while (body := self._read_message()) is not None:
            message_consumer(_parse(body))

    def _content_length(self, line: bytes) -> int:
        """The length in a header that begins with this line. Its fields come in any order, and their names in any case."""
        while line.strip():
            name, _, value = line.partition(b":")
            if name.lower() == b"content-length" and int(value) >= 0:
                return int(value)
            line = self._rfile.readline()
        raise ValueError("a message without a length")


class Messages:
    """The editor's messages that nobody has taken yet, in order."""

    def __init__(self, stdin: BinaryIO):
        self._queue: queue.SimpleQueue[Taken] = queue.SimpleQueue()
        self._reader = Reader(stdin)

    def start(self) -> None:
        threading.Thread(target=self._listen, daemon=True).start()

    def take(self, seconds: float | None) -> Taken:
        """The next message. Raises `queue.Empty` if none came within these seconds."""
        return self._queue.get(timeout=seconds)

    def wake(self) -> None:
        """Lets the server look at what goes on beside it, once it has taken the messages that wait."""
        self._queue.put(Wake())

    def is_empty(self) -> bool:
        return self._queue.empty()

    def _listen(self) -> None:
        """Reads to the end. Without a length no later message can be found, so that ends the input too."""
        try:
            self._reader.listen(self._queue.put)
        except Exception as error:
            logging.error("the input can't be read on: %r", error)
        finally:
            self._queue.put(None)


def _parse(body: bytes) -> Taken:
    """The message with this body, or the error that answers it."""
    try:
        message = json.loads(body)
    except (ValueError, RecursionError) as error:
        return JsonRpcParseError(f"no JSON: {error}")
    if not isinstance(message, dict) or message.get("jsonrpc") != "2.0" or not isinstance(message.get("method", ""), str):
        return JsonRpcInvalidRequest("no message of JSON-RPC 2.0")
    return message
