"""Names in expressions: the chain of names before a cursor, read in one pass over the text, and its properties."""
from __future__ import annotations

import re
from dataclasses import dataclass
from typing import NamedTuple, Optional

from . import project as files
from .linter_limits import MAX_EXPRESSION_BYTES
from .markdown import Markdown, escaped_or_none
from .names import names as known_names
from .paths import is_workflow
from .project import Declaration, Project
from .syntax import GITHUB, available, meaning, table
from .tree import Node, Path

NAME = r"[A-Za-z_][\w-]*"
STRING = re.compile(r"'[^']*(?:''[^']*)*'")
TOKEN = re.compile(r"\s+|'[^']*(?:''[^']*)*'?|[A-Za-z_][\w-]*|[0-9][\w.]*|.", re.S)
ANY = "*"
# The names of a chain. The name of an index that isn't one text is `*`.
Chain = Optional[list[str]]


class Before(NamedTuple):
    """The chain of names before a cursor, and what is typed after its last dot or bracket, or in a string that it is compared with."""

    chain: tuple[str, ...]
    typed: str
    is_compared: bool = False


class Property(NamedTuple):
    """A name in an expression, what it is, and a sentence on it."""

    name: str
    detail: str
    text: Markdown | None


def expression_before(text: str, is_condition: bool) -> str | None:
    """The open expression at the end of a text, up to the end, or None if there is none or it is too long."""
    start = text.rfind("${{")
    if start < 0 and not is_condition:
        return None
    expression = text if start < 0 else text[start + len("${{"):]
    if len(expression) > MAX_EXPRESSION_BYTES or start >= 0 and "}}" in STRING.sub("", expression):
        return None
    return expression


def chain_before(expression: str) -> Before | None:
    """The chain at the end of an expression. None in a string that is neither an index nor compared, and where an operator is expected."""
    reader = ChainReader(expression)
    if reader.open_text is not None:
        before = reader.indexed() or reader.compared()
        return Before(tuple(before), reader.open_text, reader.indexed() is None) if before else None
    names = tuple(reader.chain or ())
    if reader.is_after_dot:
        return Before(names, "") if names else None
    if names and reader.ends_in_name:
        is_first = len(names) == 1
        return None if is_first and reader.begins_after_operand else Before(names[:-1], names[-1])
    return None if reader.is_after_operand else Before((), "")


@dataclass(frozen=True)
class Scope:
    """The place of an expression in a file, and the file's tree."""

    project: Project
    file: str
    tree: Node | None
    path: Path

    @property
    def job(self) -> str | None:
        return str(self.path[1]) if is_workflow(self.file) and self.path[:1] == ("jobs",) and len(self.path) > 1 else None

    def contexts(self) -> list[Property]:
        """The contexts that are available here and have properties."""
        found = available(self.file, self.path)
        return [Property(name, "context", meaning("contexts", name)) for name in (found[0] if found else [])
                if name in ("env", "vars", "secrets") or self.properties((name,))]

    def functions(self) -> list[str]:
        found = available(self.file, self.path)
        return found[1] if found else []

    def properties(self, chain: tuple[str, ...]) -> list[Property]:
        """The known properties of a context, or of one of its properties."""
        context = chain[0].lower()
        ways = {"needs": self._needs, "jobs": self._needs, "steps": self._steps, "matrix": self._matrix, "inputs": self._inputs,
                "env": self._env, "secrets": self._secrets}
        if context in ways:
            return ways[context](chain[1:])
        fixed = table()["contexts"].get(context)
        if fixed is None or len(chain) > 1:
            return []
        return [Property(name, kind, meaning(f"properties of {context}", name)) for name, kind in fixed["properties"].items()]

    def values(self, chain: tuple[str, ...]) -> list[str]:
        """The texts that the value of a chain can be, as far as they are known."""
        names = [name.lower() for name in chain]
        if names == ["github", "event_name"]:
            return known_names()["events"]
        if names[:1] == ["inputs"] and len(names) == 2 or names[:3] == ["github", "event", "inputs"] and len(names) == 4:
            return next((one.value.texts("options") for one in files.declarations(self.file, self.tree, "inputs")
                         if one.name.lower() == names[-1]), [])
        if names[:1] == ["matrix"] and len(names) == 2 and self.job:
            row = next((row for name, row in files.matrix_rows(self.tree, self.job).items() if name.lower() == names[1]), None)
            return [item.value for item in row.items if item.kind == "scalar" and "${{" not in item.value] if row else []
        if names[:1] in (["needs"], ["steps"]) and len(names) == 3:
            names[1] = "*"
        return GITHUB["values"].get(".".join(names), [])

    def _needs(self, names: tuple[str, ...]) -> list[Property]:
        if self.tree is None:
            return []
        jobs = self.tree.names("jobs") if self.job is None else files.needed(self.tree, self.job)
        if not names:
            return [Property(job, "job", escaped_or_none(self.tree.text("jobs", job, "name"))) for job in dict.fromkeys(jobs)]
        job = _same(jobs, names[0])
        if job is None or len(names) > 2:
            return []
        if len(names) == 1:
            heading = "properties of a job that is needed"
            outputs = self._outputs_of_job(job)
            return [Property(name, "outputs" if name == "outputs" else "string", meaning(heading, name))
                    for name in ("result", "outputs") if name == "result" or outputs]
        return self._outputs_of_job(job) if names[1].lower() == "outputs" else []

    def _outputs_of_job(self, job: str) -> list[Property]:
        assert self.tree
        uses = self.tree.text("jobs", job, "uses")
        if uses is None:
            return [Property(name, "output of the job", None) for name in self.tree.names("jobs", job, "outputs")]
        return self._declared_outputs(self.project.callee(uses, True))

    def _declared_outputs(self, file: str | None) -> list[Property]:
        found = files.declarations(file, self.project.good_tree(file), "outputs") if file else []
        return [property_of(one, "output") for one in found]

    def _steps(self, names: tuple[str, ...]) -> list[Property]:
        steps = {name: step for step in self.visible_steps() if (name := step.text("id"))}
        if not names:
            return [Property(name, "step", escaped_or_none(step.text("name"))) for name, step in steps.items()]
        name = _same(list(steps), names[0])
        if name is None or len(names) > 2:
            return []
        outputs = self._outputs_of_step(steps[name])
        if len(names) == 1:
            return [Property(one, "outputs" if one == "outputs" else "string", meaning("properties of a step", one))
                    for one in ("outputs", "outcome", "conclusion") if one != "outputs" or outputs]
        return outputs if names[1].lower() == "outputs" else []

    def _outputs_of_step(self, step: Node) -> list[Property]:
        callee = self.project.callee(step.text("uses"), False)
        if callee:
            return self._declared_outputs(callee)
        return [Property(name, "output of the script", None) for name in dict.fromkeys(files.written_outputs(step))]

    def visible_steps(self) -> list[Node]:
        """The steps that an expression here can refer to."""
        if is_workflow(self.file):
            steps = files.steps_of(self.tree, self.job) if self.job else []
            if self.path[2:3] == ("outputs",) or self.path[2:4] == ("environment", "url"):
                return steps
        else:
            steps = files.steps_of(self.tree, None)
            if self.path[:1] == ("outputs",):
                return steps
        if "steps" not in self.path:
            return []
        number = self.path[self.path.index("steps") + 1:][:1]
        return steps[:number[0]] if number and isinstance(number[0], int) else []

    def _matrix(self, names: tuple[str, ...]) -> list[Property]:
        rows = files.matrix_rows(self.tree, self.job) if self.job else {}
        if not names:
            return [Property(name, "row of the matrix", escaped_or_none(", ".join(item.value for item in row.items[:8] if item.value)))
                    for name, row in rows.items()]
        name = _same(list(rows), names[0])
        # the keys that entries of the row have, those of all entries
        keys = [key for item in rows[name].items or [rows[name]] for key in item.names()] if name and len(names) == 1 else []
        return [Property(key, "value of the matrix", None) for key in dict.fromkeys(keys)]

    def _inputs(self, names: tuple[str, ...]) -> list[Property]:
        return [property_of(one, "input") for one in files.declarations(self.file, self.tree, "inputs")] if not names else []

    def _env(self, names: tuple[str, ...]) -> list[Property]:
        if names or self.tree is None:
            return []
        ways: list[Path] = [("env",), self.path[:2] + ("env",), self.path[:4] + ("env",)]
        found = {name: None for way in ways for name in self.tree.names(*way)}
        return [Property(name, "variable", None) for name in found]

    def _secrets(self, names: tuple[str, ...]) -> list[Property]:
        if names:
            return []
        declared = [property_of(one, "secret") for one in files.declarations(self.file, self.tree, "secrets")]
        return [*declared, Property("GITHUB_TOKEN", "secret", Markdown("The token of the job."))]


def property_of(declaration: Declaration, what: str) -> Property:
    """A declared input, secret or output with its type, its default and its description."""
    kind = declaration.value.text("type") or ("string" if what == "input" else "")
    default = declaration.value.text("default")
    words = [f"{what}, {kind}" if kind else what, "required" if declaration.is_required else "",
             f"default `{default}`" if default else ""]
    return Property(declaration.name, ", ".join(word for word in words if word), escaped_or_none(declaration.value.text("description")))


def _same(names: list[str], wanted: str) -> str | None:
    """The name that is equal to another one except for case."""
    return next((name for name in names if name.lower() == wanted.lower()), None)


@dataclass
class _Open:
    """An open bracket or parenthesis, the chain before it, how many operands and operators are in it, and the last text among them."""

    sign: str
    chain: Chain
    parts: int = 0
    text: str | None = None


class ChainReader:
    """Reads an expression to its end. `chain` is the one that the text ends with, if it does."""

    def __init__(self, text: str):
        self.chain: Chain = None
        self.is_after_dot = self.is_after_operand = self.ends_in_name = False
        # Whether the last chain begins where an operator is expected.
        self.begins_after_operand = False
        self.open_text: str | None = None
        # The last chain that has ended, and the operators after it.
        self._compared: Chain = None
        self._operators = ""
        self._open: list[_Open] = [_Open("", None)]
        for token in TOKEN.finditer(text):
            self._take(token[0])

    def indexed(self) -> Chain:
        """The chain whose index is the open text at the end."""
        last = self._open[-1]
        return last.chain if last.sign == "[" and last.parts == 1 and self.open_text is not None else None

    def compared(self) -> Chain:
        """The chain that the open text at the end is compared with."""
        return self._compared if self.open_text is not None and self._operators in ("==", "!=") else None

    def _take(self, token: str) -> None:
        self.ends_in_name = token[0].isalpha() or token[0] == "_"
        if token.isspace():
            return
        if token[0] == "'":
            self._take_text(token)
        elif self.ends_in_name:
            self._take_name(token)
        elif token == ".":
            self.is_after_dot = True
        elif token == "*" and self.is_after_dot:
            self._add(ANY)
        elif token in "[(":
            self._take_opening(token)
        elif token in "])":
            self._take_closing(token)
        else:
            self._end_chain()
            self._operators += token
            self._open[-1].parts += 1
            self.is_after_operand = token[0].isdigit()

    def _take_text(self, token: str) -> None:
        self._end_chain()
        last = self._open[-1]
        last.parts += 1
        is_closed = len(token) > 1 and token.count("'") % 2 == 0
        last.text = token[1:-1] if is_closed else None
        self.open_text = None if is_closed else token[1:]
        self.is_after_operand = True

    def _take_name(self, name: str) -> None:
        if self.is_after_dot:
            self._add(name)
            return
        self._end_chain()
        self.begins_after_operand = self.is_after_operand
        self.chain, self.is_after_operand = [name], True
        self._open[-1].parts += 1

    def _add(self, name: str) -> None:
        """Continues the chain, if there is one before the dot."""
        if self.chain is not None:
            self.chain.append(name)
        self.is_after_dot, self.is_after_operand = False, True

    def _take_opening(self, token: str) -> None:
        if token == "(":
            # A name before it is that of a function.
            is_group = self.chain is None
            self.chain = None
            self._open.append(_Open("(" if is_group else "f", None))
        else:
            self._open.append(_Open("[", self.chain))
            self.chain = None
        self._compared = None
        self.is_after_dot = self.is_after_operand = False

    def _take_closing(self, token: str) -> None:
        last = self._open[-1]
        if last.sign == "(" and token == ")" and last.parts == 1:
            self._open.pop()
            self._open[-1].parts += 1
        else:
            self._end_chain()
            if last.sign == "[" and token == "]":
                self._open.pop()
                self.chain = last.chain
                if self.chain is not None:
                    self.chain.append(last.text if last.parts == 1 and last.text is not None else ANY)
            elif last.sign in ("(", "f") and token == ")":
                self._open.pop()
        self.is_after_dot, self.is_after_operand = False, True

    def _end_chain(self) -> None:
        if self.chain:
            self._compared, self._operators = self.chain, ""
        self.chain, self.is_after_dot = None, False
