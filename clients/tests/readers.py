"""The run of actionlint-facts that the cases of a test share, and what it reads, and the faults of a folder."""
from __future__ import annotations

import os
import sys
from functools import lru_cache
from typing import Any

from repositories import CLIENTS, FILE

sys.path.insert(0, str(CLIENTS))
from actionlint_client.facts import Facts
from actionlint_client.faults import Fault, faults_of
from actionlint_client.program import find_facts
from actionlint_client.reader import Reader, Started
from actionlint_client.tree import Node

SECONDS = 60.0


@lru_cache(maxsize=None)
def reader() -> Reader:
    """The one beside the linter that the test is given."""
    return Reader(Started(os.path.abspath(sys.argv[1]), SECONDS))


class Linter:
    """The linter with a folder of its own."""

    def __init__(self, program: str, texts: dict[str, str]):
        self._facts, self._texts = Facts([find_facts(program)], SECONDS), {}
        for path, text in texts.items():
            self.put(path, text)

    def put(self, path: str, text: str) -> None:
        self._texts[path] = text.encode()
        self._facts.put(path, self._texts[path])

    def faults(self) -> list[Fault]:
        return [fault for path, found in self._facts.report().items() for fault in faults_of(path, found, self._texts[path])]

    def faults_in(self, path: str) -> list[Fault]:
        return list(faults_of(path, self._facts.faults(path), self._texts[path]))

    def stop(self) -> None:
        self._facts.stop()


def values(text: str) -> Any:
    """A YAML text as dictionaries, lists and strings."""
    root = reader().tree(FILE, text.encode())
    assert root, text
    return _value(root)


def _value(node: Node) -> Any:
    if node.kind == "mapping":
        return {key.value: _value(value) for key, value in node.entries}
    return [_value(item) for item in node.items] if node.kind == "sequence" else node.value
