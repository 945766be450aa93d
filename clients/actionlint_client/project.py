"""The files of a repository for features that look up names: trees, declarations, and the targets of calls."""
from __future__ import annotations

import re
from dataclasses import dataclass
from typing import TYPE_CHECKING, Callable, Collection, Iterable, NamedTuple

from .child import LinterEnded
from .paths import ACTION_NAMES, is_action, is_path, is_workflow
from .text import LINE_BREAK
from .tree import Node, Path

if TYPE_CHECKING:
    from .facts_tree import Json, Place
    from .reader import Reader

# Files whose texts and trees are held, besides those that are open.
MAX_HELD = 64
OUTPUT_NAME = re.compile(r"""(?:^|[\s"'{(;&|])([A-Za-z_][\w-]*)(?:=|<<)""")


class Declaration(NamedTuple):
    """An input, a secret or an output: its name as written, the node of the name, and its value."""

    name: str
    key: Node
    value: Node

    @property
    def is_required(self) -> bool:
        return (self.value.text("required") or "").lower() == "true" and self.value.get("default") is None


@dataclass
class _Known:
    """A file's bytes and text, its lines, tree and expressions if they were asked for, and its last valid tree."""

    data: bytes
    text: str
    lines: list[str] | None = None
    tree: Node | None = None
    is_read: bool = False
    good: Node | None = None
    expressions: dict[int, Place] | None = None


NO_FILE = _Known(b"", "", [""], is_read=True, expressions={})


class Project:
    """`read` returns the current bytes of a file, `paths` the linted workflows and actions, `actions` all actions. `is_open` tells whether
    a file is open in the editor, and `is_too_large` whether the linter refuses it as too large; such a file has no tree."""

    def __init__(self, reader: Reader, read: Callable[[str], bytes | None], paths: Callable[[], Iterable[str]],
                 actions: Callable[[], Iterable[str]] | None = None, is_open: Callable[[str], bool] = lambda _: False,
                 is_too_large: Callable[[str], bool] = lambda _: False):
        self._reader = reader
        self.read, self.paths, self.is_too_large, self._is_open = read, paths, is_too_large, is_open
        self.actions = actions or (lambda: (path for path in paths() if is_action(path)))
        # What other modules remember about a file, each by a name of its own.
        self.memory: dict[tuple[str, str], object] = {}
        # Those used last are at the end.
        self._known: dict[str, _Known] = {}

    def keep(self, files: Collection[str]) -> None:
        """Forgets all files but these."""
        self._known = {file: known for file, known in self._known.items() if file in files}
        self.memory = {key: known for key, known in self.memory.items() if key[1] in files}

    def text(self, file: str) -> str:
        """The text with line feeds only and without a byte order mark. Empty if there is no such file."""
        return self._look(file).text

    def lines(self, file: str) -> list[str]:
        known = self._look(file)
        if known.lines is None:
            known.lines = known.text.split("\n")
        return known.lines

    def tree(self, file: str) -> Node | None:
        """The tree of a file, or None while it isn't valid YAML."""
        return self._read(file).tree

    def good_tree(self, file: str) -> Node | None:
        """The tree of a file, or its last valid one."""
        return self._read(file).good

    def tree_around(self, file: str, line: int) -> Node | None:
        """The tree of a file. While it isn't valid YAML, that of the file without the line, or else its last valid one."""
        known = self._read(file)
        if known.tree or known is NO_FILE:
            return known.tree
        lines = [*self.lines(file)]
        if line < len(lines):
            lines[line] = ""
        known.good = self._tree_of(file, "\n".join(lines).encode("utf-8", "surrogatepass")) or known.good
        return known.good

    def answered_tree(self, file: str, data: bytes) -> Json | None:
        """The tree of a file if it had these bytes, as actionlint-facts answers it. None if they aren't valid YAML."""
        try:
            return self._reader.answered_tree(file, data)
        except LinterEnded:
            return None

    def expressions(self, file: str) -> dict[int, Place]:
        """The scalars of a file that have expressions, by the byte at which they begin. None of them while it isn't valid YAML."""
        known = self._read(file)
        if known.expressions is None:
            try:
                # A scalar with an anchor is there for each of its aliases too.
                known.expressions = {place.start: place for place in self._reader.expressions(file, known.data)}
            except LinterEnded:
                return {}
        return known.expressions

    def has(self, file: str) -> bool:
        return self.read(file) is not None

    def callee(self, uses: str | None, of_job: bool) -> str | None:
        """The file of the folder to which a call resolves."""
        if not uses or not uses.startswith("./"):
            return None
        folder = uses[2:].removesuffix("/")
        candidates = [uses[2:]] if of_job else [f"{folder}/{name}" if folder else name for name in ACTION_NAMES]
        return next((file for file in candidates if is_path(file) and self.has(file)), None)

    def _look(self, file: str) -> _Known:
        data = self.read(file) or b""
        known = self._known.get(file)
        if known is None or known.data is not data and known.data != data:
            text = LINE_BREAK.sub("\n", data.decode("utf-8", "replace").removeprefix("\ufeff"))
            known = self._known[file] = _Known(data, text, good=known.good if known else None)
            self._let_go()
        return known

    def _tree_of(self, file: str, data: bytes) -> Node | None:
        """The tree of a text, or None if it isn't valid YAML or can't be read now."""
        try:
            return self._reader.tree(file, data)
        except LinterEnded:
            return None

    def _let_go(self) -> None:
        """Forgets the files that were used least lately."""
        too_many = len(self._known) - MAX_HELD
        if too_many > 0:
            for file in [file for file in self._known if not self._is_open(file)][:too_many]:
                del self._known[file]

    def _read(self, file: str) -> _Known:
        """The file with its tree."""
        known = self._look(file)
        if file in self._known:
            self._known[file] = self._known.pop(file)
        if self.is_too_large(file):
            return NO_FILE
        if not known.is_read:
            tree = self._tree_of(file, known.data)
            known.good = tree or known.good
            known.tree, known.is_read = tree, True
        return known


def declarations(file: str, tree: Node | None, what: str, of_call: bool = False) -> list[Declaration]:
    """The inputs, secrets or outputs that a file declares. Inputs are those of calls and of manual starts, or of calls only."""
    if tree is None:
        return []
    ways: list[Path] = [("on", "workflow_call", what)] if is_workflow(file) else [(what,)]
    if is_workflow(file) and what == "inputs" and not of_call:
        ways.append(("on", "workflow_dispatch", what))
    found: dict[str, Declaration] = {}
    for way in ways:
        for key, value in tree.entries_at(*way):
            found.setdefault(key.value.lower(), Declaration(key.value, key, value))
    return list(found.values())


def is_callable(tree: Node | None) -> bool:
    """Whether jobs can call this workflow."""
    on = tree.get("on") if tree else None
    return on is not None and ("workflow_call" in on.names() or "workflow_call" in on.texts())


def steps_of(tree: Node | None, job: str | None) -> list[Node]:
    """The steps of a job, or of a composite action."""
    return tree.items_at(*(("runs",) if job is None else ("jobs", job)), "steps") if tree else []


def needed(tree: Node, job: str) -> list[str]:
    """The jobs under a job's `needs`, spelled as their keys."""
    by_lower_case = {name.lower(): name for name in tree.names("jobs")}
    return [by_lower_case[name.lower()] for name in tree.texts("jobs", job, "needs") if name.lower() in by_lower_case]


def dependents(tree: Node, job: str) -> set[str]:
    """A job and those that need it, directly or not."""
    jobs = tree.names("jobs")
    needed_by: dict[str, list[str]] = {}
    for name in jobs:
        for need in tree.texts("jobs", name, "needs"):
            needed_by.setdefault(need.lower(), []).append(name)
    found, waiting = {job}, [job]
    while waiting:
        for name in needed_by.get(waiting.pop().lower(), ()):
            if name not in found:
                found.add(name)
                waiting.append(name)
    return found


def matrix_rows(tree: Node | None, job: str) -> dict[str, Node]:
    """The rows of a job's matrix and those that its `include` adds, each with its first node."""
    matrix = tree.get("jobs", job, "strategy", "matrix") if tree else None
    found: dict[str, Node] = {}
    for key, value in matrix.entries if matrix else ():
        if key.value not in ("include", "exclude"):
            found.setdefault(key.value, value)
    for item in (matrix.get("include") or matrix).items if matrix else ():
        for key, value in item.entries:
            found.setdefault(key.value, value)
    return found


def written_outputs(step: Node) -> list[str]:
    """The outputs that a script seems to write: the names before `=` on lines with GITHUB_OUTPUT."""
    script = step.text("run") or ""
    return [name for line in script.split("\n") if "GITHUB_OUTPUT" in line for name in OUTPUT_NAME.findall(line)]
