"""A run of actionlint-facts, which answers questions about the folder that it is given, one after another."""
from __future__ import annotations

import json
from typing import Any, Iterable

from .child import Child
from .facts_tree import Json
from .limit import LIMIT

MAX_ANSWER_BYTES = 64 * 1_048_576
MAX_FIRST_FAULTS_BYTES = 32 * 1_048_576
SHOWN_OF_AN_ANSWER = 200


class EditRefused(Exception):
    """A file can't be put or deleted: a code E1 to E6, and the reason."""

    def __init__(self, code: str, reason: str):
        super().__init__(reason)
        self.code = code


class NoTree(Exception):
    """A text isn't valid YAML."""


class NoAnswer(Exception):
    """A question has no answer: no file has this path, memory ran out, or the answer is too long."""


class Facts(Child):
    """Not thread-safe. It raises the exceptions of `child`, after which the program is gone, and `NoAnswer`, after which it goes on."""

    def put(self, path: str, data: bytes) -> list[str]:
        """The paths of the files that were checked again. Raises `EditRefused`, as `delete` does."""
        return self._edited(b"put %s %d\n" % (path.encode("utf-8"), len(data)), data, b"\n")

    def delete(self, path: str) -> list[str]:
        return self._edited(b"delete %s\n" % path.encode("utf-8"))

    def faults(self, path: str) -> list[Json]:
        """The faults of a file, in order, with those of call cycles."""
        return list(self._asked(f"faults {path}", "faults"))

    def first_faults(self, path: str, most: int) -> tuple[list[Json], int]:
        """The first faults of a file, at most so many, and how many more it has. Raises `NoAnswer` if they take too many bytes."""
        answer = self._answer_to(f"first {path} {most}\n".encode(), max_bytes=MAX_FIRST_FAULTS_BYTES)
        return self._member(answer, "faults"), self._member(answer, "more")

    def report(self, max_bytes: int = MAX_ANSWER_BYTES) -> dict[str, list[Json]]:
        """The faults of the files that have some. Raises `NoAnswer` if the answer has more bytes."""
        return _by_file(self._asked("report", "files", max_bytes=max_bytes))

    def cycles(self) -> dict[str, list[Json]]:
        """The faults of calls on a call cycle alone, of the files that have some."""
        return _by_file(self._asked("cycles", "files"))

    def lacks(self) -> list[str]:
        """The paths that calls name and the folder doesn't have."""
        return list(self._asked("lacks", "lacks"))

    def of_bytes(self, question: str, path: str, data: bytes) -> Any:
        """What a question about a file would have for an answer if it had these bytes. Raises `NoTree`."""
        answer = self._answer_to(f"bytes {question} {path} {len(data)}\n".encode(), data, b"\n")
        if "faults" in answer:
            raise NoTree(answer["faults"][0]["message"])
        return self._member(answer, question)

    def _edited(self, *parts: bytes) -> list[str]:
        answer = self._answer_to(*parts)
        if "refused" in answer:
            raise EditRefused(answer["refused"], answer["reason"])
        return list(self._member(answer, "rechecked"))

    def _asked(self, question: str, key: str, max_bytes: int | None = None) -> Any:
        return self._member(self._answer_to(f"{question}\n".encode(), max_bytes=max_bytes), key)

    def _answer_to(self, *parts: bytes, max_bytes: int | None = None) -> Json:
        most = MAX_ANSWER_BYTES if max_bytes is None else max_bytes
        with LIMIT.uninterrupted():
            self._send(*parts)
            line = self._line(most)
        if line is None:
            raise NoAnswer(f"its answer has more than {most} bytes")
        return self._object(line)

    def _object(self, line: bytes) -> Json:
        """An answer that is no error."""
        try:
            answer = json.loads(line)
        except ValueError:
            answer = None
        if not isinstance(answer, dict):
            self._fail(f"it answered {line[:SHOWN_OF_AN_ANSWER].decode('utf-8', 'replace')!r}")
        if "error" in answer:
            raise NoAnswer(str(answer["error"]))
        return answer

    def _member(self, answer: Json, key: str) -> Any:
        if key not in answer:
            self._fail(f"it answered without {key}")
        return answer[key]


def _by_file(files: Iterable[Json]) -> dict[str, list[Json]]:
    return {file["path"]: file["faults"] for file in files}
