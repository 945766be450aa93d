"""What single texts say, whatever the folder has: their trees, their expressions, and the files that they call."""
from __future__ import annotations

from typing import Any, Callable

from .child import LinterEnded, LinterMissing, LinterSilent
from .facts import Facts, NoAnswer, NoTree
from .facts_tree import Json, Place, read_place
from .linter_limits import MAX_FILE_BYTES
from .paths import is_linted, is_path
from .program import find_facts
from .tree import Node, tree_of


class Reader:
    """`started` gives a run of actionlint-facts, anew after it has ended, which may have a folder. What isn't valid YAML has no answer, nor
    has what the linter refuses. Raises `LinterEnded`. Not thread-safe."""

    def __init__(self, started: Callable[[], Facts]):
        self._started = started

    def tree(self, path: str, data: bytes) -> Node | None:
        root = self.answered_tree(path, data)
        return None if root is None else tree_of(root, data)

    def answered_tree(self, path: str, data: bytes) -> Json | None:
        """The tree as actionlint-facts answers it: most of the time of a long text's tree goes into its nodes."""
        root: Json | None = self._answer("tree", path, data)
        return root

    def expressions(self, path: str, data: bytes) -> list[Place]:
        """The scalars that have expressions."""
        return [read_place(one) for one in self._answer("expressions", path, data) or ()]

    def calls(self, path: str, data: bytes) -> frozenset[str] | None:
        """The paths at which the calls of a file look for other files."""
        found = self._answer("calls", path, data)
        return None if found is None else frozenset(called for call in found for called in call["paths"])

    def _answer(self, question: str, path: str, data: bytes, is_last: bool = False) -> Any:
        """The answer to a question about a text, or None if it has none. If the program has ended, another one is asked once."""
        if not is_linted(path) or not is_path(path) or len(data) > MAX_FILE_BYTES:
            return None
        try:
            return self._started().of_bytes(question, path, data)
        except (NoAnswer, NoTree):
            return None
        except LinterEnded as error:
            if is_last or isinstance(error, (LinterMissing, LinterSilent)):
                raise
        return self._answer(question, path, data, True)


class Started:
    """A run of actionlint-facts that begins when it is first needed, and anew after it has ended."""

    def __init__(self, linter: str, timeout: float):
        self._linter, self._timeout = linter, timeout
        self._facts: Facts | None = None

    def __call__(self) -> Facts:
        if self._facts is None or self._facts.has_ended():
            self._facts = Facts([find_facts(self._linter)], self._timeout)
        return self._facts
