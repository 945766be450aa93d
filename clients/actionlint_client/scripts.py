"""The scripts of a workflow or an action, the shell of each, and the place of each of their characters in the file."""
from __future__ import annotations

import re
from bisect import bisect_right
from dataclasses import dataclass
from typing import Callable, Iterator, Sequence

from .tree import Node

SHELLS = ("bash", "sh")
# A string, its first quote if it isn't closed, or closing braces.
STRING_OR_END = re.compile(r"'[^']*(?:''[^']*)*'|'|\}\}")
# Options of a shell that are joined, such as `-euo`.
JOINED = re.compile(r"-[A-Za-z]+")


@dataclass(frozen=True)
class Script:
    """A script for `bash` or `sh`, and whether the shell ends at the first command that fails. In `text` a word of the same length stands
    in place of each expression, and in `with_variables` a variable. `offsets` has the place in the file's text of each character and of
    the end; `lines` has the starts of its lines."""

    shell: str
    ends_at_failure: bool
    text: str
    with_variables: str
    offsets: list[int]
    lines: list[int]

    def offset_of(self, line: int, column: int) -> int:
        """The place in the file's text of a line and a column, both from 1. A line or a column past the last one is the last."""
        start = self.lines[min(line, len(self.lines)) - 1]
        return self.offsets[min(start + column - 1, len(self.text))]

    def lines_with_expressions(self) -> set[int]:
        """The lines, from 1, on which something stands in place of an expression."""
        pairs = zip(self.text.split("\n"), self.with_variables.split("\n"))
        return {number for number, (word, variable) in enumerate(pairs, 1) if word != variable}


def scripts_of(root: Node, data: bytes) -> list[Script]:
    """The scripts of a file, each once."""
    jobs = [job for _, job in root.entries_at("jobs")]
    steps = [(command_of(step, ""), step) for step in root.items_at("runs", "steps")]
    for job in jobs:
        default = default_shell(root, job)
        steps += [(command_of(step, default), step) for step in job.items_at("steps")]
    scripts: dict[int, tuple[str, Node]] = {}
    for command, step in steps:
        run = step.get("run")
        if name_of(command) in SHELLS and run is not None and run.kind == "scalar":
            # Aliases share it.
            scripts[id(run.origin)] = command, run.origin
    # Where the characters of the file begin.
    characters = range(len(data)) if data.isascii() else [at for at, byte in enumerate(data) if byte & 0xC0 != 0x80]
    return [_script(command, node, characters) for command, node in scripts.values()]


def _script(command: str, node: Node, characters: Sequence[int]) -> Script:
    script = without_expressions(node.value, word_of)
    lines = [0, *(index + 1 for index, character in enumerate(script) if character == "\n")]
    offsets = [bisect_right(characters, offset) - 1 for offset in _offsets(node)]
    return Script(name_of(command), ends_at_failure(command), script, without_expressions(node.value, variable_of), offsets, lines)


def _offsets(node: Node) -> list[int]:
    """Where each character of a scalar's text comes from in the file's bytes, and where the text ends."""
    found: list[int] = []
    index, piece, last = 0, -1, node.start
    for character in node.value:
        while piece + 1 < len(node.pieces) and node.pieces[piece + 1][0] <= index:
            piece += 1
        begin, offset = node.pieces[piece]
        last = offset + index - begin
        found.append(last)
        index += len(character.encode("utf-8"))
    return [*found, last + 1]


def word_of(number: int, length: int) -> str:
    """A word of a length, in place of an expression with a number."""
    return "x" * length


def variable_of(number: int, length: int) -> str:
    """A variable whose use has a length, in place of an expression with a number. An expression has at least five characters."""
    room = length - len("${}")
    return "${" + f"x{number}"[:room].ljust(room, "_") + "}"


def without_expressions(text: str, stand_in: Callable[[int, int], str]) -> str:
    """The text with something in place of each expression, by its number and length."""
    parts, at = [], 0
    for number, (start, inner) in enumerate(expressions_in(text)):
        begin, end = start - len("${{"), start + len(inner) + len("}}")
        parts += [text[at:begin], stand_in(number, end - begin)]
        at = end
    return "".join(parts) + text[at:]


def expressions_in(text: str) -> Iterator[tuple[int, str]]:
    """The expressions in braces of a text, and the offset of each. Braces in their strings don't end them."""
    end = 0
    while (start := text.find("${{", end)) >= 0 and (end := _closing_braces(text, start)) >= 0:
        yield start + len("${{"), text[start + len("${{"):end]


def _closing_braces(text: str, start: int) -> int:
    """The offset of the closing braces of an expression, -1 without any."""
    found = next((token for token in STRING_OR_END.finditer(text, start) if token[0] in ("}}", "'")), None)
    return found.start() if found and found[0] == "}}" else -1


def default_shell(tree: Node, job: Node | None) -> str:
    """The shell of steps that name none: that of the job, the workflow or the runner. Empty if that isn't known, and in an action."""
    named = (node.text("defaults", "run", "shell") for node in (job, tree) if node)
    return next(filter(None, named), "") or (_shell_of_runner(job) if job else "")


def command_of(step: Node, default: str) -> str:
    """The command that runs a step's script: the name of a shell, or one with options and `{0}` for the script's file."""
    return step.text("shell") or default


def name_of(command: str) -> str:
    """The name of a command's shell, without its directory and its options."""
    return command.split(" ")[0].rpartition("/")[2]


def shell_of(step: Node, default: str) -> str:
    return name_of(command_of(step, default))


def ends_at_failure(command: str) -> bool:
    """Whether `bash` or `sh` ends at the first command that fails. The runner asks for that where only the shell's name is given."""
    _, *options = command.split()
    if not options:
        return True
    return any(JOINED.fullmatch(word) and "e" in word for word in options) or ("-o", "errexit") in zip(options, options[1:])


def _shell_of_runner(job: Node) -> str:
    if job.get("container"):
        return "sh"
    labels = texts_in(job.get("runs-on"))
    if _has_windows(labels):
        return "pwsh"
    is_computed = any("${{" in label for label in labels)
    return "" if is_computed and _has_windows(texts_in(job.get("strategy"))) else "bash"


def _has_windows(labels: list[str]) -> bool:
    return any("windows" in label.lower() for label in labels)


def texts_in(node: Node | None) -> list[str]:
    """The scalars of a node, except keys. Each node is visited once, since aliases can share it."""
    found: list[str] = []
    seen: set[int] = set()
    waiting = [node] if node else []
    while waiting:
        one = waiting.pop()
        one = one.origin
        if id(one) in seen:
            continue
        seen.add(id(one))
        if one.kind == "scalar":
            found.append(one.value)
        waiting += [*(value for _, value in one.entries), *one.items]
    return found
