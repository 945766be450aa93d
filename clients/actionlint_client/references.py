"""Which names of a file refer to the same thing: jobs, steps, inputs, outputs, secrets, rows of a matrix, anchors, called files."""
from __future__ import annotations

from typing import Iterator, NamedTuple

from . import project as files
from .facts_tree import Place, Word, paths_in
from .paths import is_workflow
from .project import Project
from .text import Point, Span
from .tree import Node, Path, walk


class Symbol(NamedTuple):
    """What a name refers to: its kind, the file that declares it, the job or the step around it, and the name in lower case."""

    kind: str
    file: str
    scope: str
    name: str


class Occurrence(NamedTuple):
    """A place of a name, as it is written there."""

    symbol: Symbol
    file: str
    span: Span
    is_definition: bool


class _Known(NamedTuple):
    """The names of a text, and its calls with the files that they led to."""

    data: bytes
    calls: dict[tuple[str | None, bool], str | None]
    found: list[Occurrence]


def occurrences(project: Project, file: str) -> list[Occurrence]:
    """All places of names in a file, none while it isn't valid YAML."""
    data = project.read(file) or b""
    known = project.memory.get(("names", file))
    if not isinstance(known, _Known) or known.data != data or any(project.callee(*call) != callee for call, callee in known.calls.items()):
        tree = project.tree(file)
        finder = _Finder(project, file, tree) if tree else None
        found = finder.find() if finder else []
        known = project.memory["names", file] = _Known(data, finder.calls if finder else {}, found)
    return known.found


def occurrence_at(project: Project, file: str, point: Point) -> Occurrence | None:
    return next((one for one in occurrences(project, file) if one.span.holds(point)), None)


def all_of(project: Project, symbol: Symbol) -> list[Occurrence]:
    """The places of a symbol in its file and in the callers of that file, definitions first."""
    names = [symbol.file, *(callers(project, symbol.file) if not symbol.scope else [])]
    found = [one for file in dict.fromkeys(names) for one in occurrences(project, file) if one.symbol == symbol]
    return sorted(found, key=lambda one: not one.is_definition)


def callers(project: Project, file: str) -> list[str]:
    """The files that call a file."""
    name = ("./" + (file if is_workflow(file) else file.rpartition("/")[0])).encode("utf-8")
    return [path for path in project.paths() if path != file and name in (project.read(path) or b"")
            and any(one.symbol == Symbol("file", file, "", "") for one in occurrences(project, path))]


class _Finder:
    def __init__(self, project: Project, file: str, tree: Node):
        self.project, self.file, self.tree = project, file, tree
        self._data = project.read(file) or b""
        self.calls: dict[tuple[str | None, bool], str | None] = {}
        self._anchors: dict[str, int] = {}
        self._jobs = {name.lower(): name for name in tree.names("jobs")}
        self._steps: dict[str | None, dict[str, Node]] = {}

    def _callee(self, uses: str | None, of_job: bool) -> str | None:
        if (uses, of_job) not in self.calls:
            self.calls[uses, of_job] = self.project.callee(uses, of_job)
        return self.calls[uses, of_job]

    def find(self) -> list[Occurrence]:
        """The places of names, in the order of the text."""
        found: list[Occurrence] = []
        jobs: dict[int, str | None] = {}
        for path, key, value in walk(self.tree):
            if key is not None:
                found += self._of_key(path, key)
            if value.anchor or value.alias:
                found.append(self._of_anchor(value))
            if value.kind == "scalar" and value.alias is None:
                found += self._of_scalar(path, value)
                jobs[value.start] = self._job_of(path)
        for start, place in self.project.expressions(self.file).items():
            found += self._of_expressions(place, jobs.get(start))
        return sorted(found, key=lambda one: one.span.start)

    def _of_key(self, path: Path, key: Node) -> Iterator[Occurrence]:
        declared = self._declared_by_key(path)
        if declared:
            yield Occurrence(declared, self.file, self._inner(key), "exclude" not in path)
        given = self._given_by_key(path)
        if given:
            yield Occurrence(given, self.file, self._inner(key), False)

    def _declared_by_key(self, path: Path) -> Symbol | None:
        """What a key declares: a job, an input, an output, a secret, a row."""
        name = str(path[-1]).lower()
        if is_workflow(self.file):
            if len(path) == 2 and path[0] == "jobs":
                return Symbol("job", self.file, "", name)
            if len(path) == 4 and path[0] == "on" and path[2] in ("inputs", "outputs", "secrets"):
                return Symbol(str(path[2]).removesuffix("s"), self.file, "", name)
            if len(path) == 4 and path[0] == "jobs" and path[2] == "outputs":
                return Symbol("output", self.file, str(path[1]).lower(), name)
            if path[:1] == ("jobs",) and path[2:4] == ("strategy", "matrix") and self._is_row(path[4:]):
                return Symbol("row", self.file, str(path[1]).lower(), name)
        elif len(path) == 2 and path[0] in ("inputs", "outputs"):
            return Symbol(str(path[0]).removesuffix("s"), self.file, "", name)
        return None

    @staticmethod
    def _is_row(path: Path) -> bool:
        """Whether the path from a matrix leads to a row, or to one in an entry of `include` or `exclude`."""
        return len(path) == 1 and path[0] not in ("include", "exclude") or len(path) == 3 and path[0] in ("include", "exclude")

    def _given_by_key(self, path: Path) -> Symbol | None:
        """The input or the secret of the called file that a key sets."""
        if len(path) < 3 or path[-2] not in ("with", "secrets"):
            return None
        node = self.tree.get(*path[:-2])
        of_job = is_workflow(self.file) and len(path) == 4
        callee = self._callee(node.text("uses"), of_job) if node else None
        kind = "input" if path[-2] == "with" else "secret"
        return Symbol(kind, callee, "", str(path[-1]).lower()) if callee else None

    def _of_anchor(self, node: Node) -> Occurrence:
        """An anchor, or an alias of the last anchor of its name."""
        if node.anchor:
            self._anchors[node.anchor] = self._anchors.get(node.anchor, 0) + 1
        name = node.anchor or node.alias or ""
        symbol = Symbol("anchor", self.file, str(self._anchors.get(name, 0)), name)
        start = node.sign + 1
        return Occurrence(symbol, self.file, node.places.span(start, start + len(name.encode("utf-8"))), node.anchor is not None)

    def _job_of(self, path: Path) -> str | None:
        return str(path[1]) if is_workflow(self.file) and path[:1] == ("jobs",) and len(path) > 1 else None

    def _of_scalar(self, path: Path, value: Node) -> Iterator[Occurrence]:
        key = next((step for step in reversed(path) if isinstance(step, str)), "")
        job = self._job_of(path)
        is_of_step = len(path) > 2 and isinstance(path[-2], int) and path[-3] == "steps"
        if key == "id" and is_of_step:
            yield Occurrence(Symbol("step", self.file, (job or "").lower(), value.value.lower()), self.file, self._inner(value), True)
        elif key == "uses":
            callee = self._callee(value.value, job is not None and not is_of_step)
            if callee:
                yield Occurrence(Symbol("file", callee, "", ""), self.file, self._inner(value), False)
        elif key == "needs" and job is not None and path[2:3] == ("needs",):
            yield Occurrence(Symbol("job", self.file, "", value.value.lower()), self.file, self._inner(value), False)

    def _of_expressions(self, place: Place, job: str | None) -> Iterator[Occurrence]:
        for chunk in place.chunks:
            for _, chain in paths_in(chunk.tree) if chunk.tree else ():
                yield from self._of_chain(chain, job)

    def _of_chain(self, chain: list[Word], job: str | None) -> Iterator[Occurrence]:
        for number, symbol in self._symbols_of([word.text.lower() for word in chain], job):
            name = chain[number].text.encode("utf-8")
            # Quotes may come before the name, and be doubled; of a name with escapes there is no place.
            begin = self._data.find(name, chain[number].start, chain[number].end)
            if begin >= 0:
                yield Occurrence(symbol, self.file, self.tree.places.span(begin, begin + len(name)), False)

    def _symbols_of(self, names: list[str], job: str | None) -> Iterator[tuple[int, Symbol]]:
        """The indices of the names of a chain that refer to something, each with its symbol."""
        if len(names) < 2:
            return
        context = names[0]
        scope = (job or "").lower()
        if context in ("needs", "jobs"):
            yield 1, Symbol("job", self.file, "", names[1])
            if names[2:3] == ["outputs"] and len(names) > 3:
                yield 3, self._output_of_job(names[1], names[3])
        elif context == "steps":
            yield 1, Symbol("step", self.file, scope, names[1])
            callee = self._callee_of_step(names[1], job)
            if callee and names[2:3] == ["outputs"] and len(names) > 3:
                yield 3, Symbol("output", callee, "", names[3])
        elif context == "inputs":
            yield 1, Symbol("input", self.file, "", names[1])
        elif names[:3] == ["github", "event", "inputs"] and len(names) > 3 and is_workflow(self.file):
            yield 3, Symbol("input", self.file, "", names[3])
        elif context == "secrets":
            yield 1, Symbol("secret", self.file, "", names[1])
        elif context == "matrix" and job is not None:
            yield 1, Symbol("row", self.file, scope, names[1])

    def _output_of_job(self, job: str, name: str) -> Symbol:
        callee = self._callee(self.tree.text("jobs", self._jobs.get(job, job), "uses"), True)
        return Symbol("output", callee, "", name) if callee else Symbol("output", self.file, job, name)

    def _callee_of_step(self, name: str, job: str | None) -> str | None:
        if job not in self._steps:
            self._steps[job] = {(step.text("id") or "").lower(): step for step in reversed(files.steps_of(self.tree, job))}
        step = self._steps[job].get(name)
        return self._callee(step.text("uses"), False) if step else None

    def _inner(self, node: Node) -> Span:
        """The place of a scalar without its quotes."""
        return node.places.span(node.start + 1, node.end - 1) if node.style in ("'", '"') else node.span
