"""Renaming a name in all files that use it, unless that adds a fault, and the calls that change when workflows and actions are moved."""
from __future__ import annotations

import os
import re
from collections import Counter

from .child import LinterEnded
from .facts import NoAnswer
from .fixes import Trial, counted
from .folder import Program
from .paths import is_action, is_below, is_path, is_workflow
from .project import Project
from .references import Occurrence, Symbol, all_of, callers, occurrence_at, occurrences
from .repair import Edit, in_quotes, quoted, replaced
from .text import Point

IDENTIFIER = re.compile(r"[A-Za-z_][\w-]*", re.A)
MAX_OTHER_FILES = 256
ANCHOR_NAME = re.compile(r"[\w-]+", re.A)
# Words that YAML doesn't read as texts.
NO_TEXTS = {word for low in ("null", "true", "false") for word in (low, low.capitalize(), low.upper())}
# Names that mean something else.
RESERVED = {"row": re.compile("include|exclude", re.I), "secret": re.compile("github_.*", re.I)}
NOUNS = {"row": "row of the matrix"}
# What can be written as the value of `uses` without quotes.
PLAIN = re.compile(r"[\w./@-]+")


class Refusal(Exception):
    """Why a name can't be changed."""


def renamable_at(project: Project, file: str, point: Point) -> Occurrence | None:
    """The name at a point, if it is declared in a file of the folder."""
    found = occurrence_at(project, file, point)
    if found is None or found.symbol.kind == "file":
        return None
    return found if any(one.is_definition for one in all_of(project, found.symbol)) else None


def rename(program: Program, project: Project, file: str, point: Point, name: str) -> dict[str, tuple[Edit, ...]]:
    """The edits by file. Raises `Refusal` if there is no name, the new one isn't a name, is there already, or causes a fault."""
    found = renamable_at(project, file, point)
    if found is None:
        raise Refusal("there is no name here that can be changed")
    _refuse_names(project, found.symbol, name)
    edits: dict[str, list[Edit]] = {}
    for one in all_of(project, found.symbol):
        edits.setdefault(one.file, []).append(Edit(one.span, name))
    changed = {path: tuple(some) for path, some in edits.items()}
    _refuse_faults(program, project, found.symbol, changed, name)
    return changed


def _refuse_names(project: Project, symbol: Symbol, name: str) -> None:
    """Raises `Refusal` if a text is no name, means something else, or is the name of another thing of this kind, declared or only used."""
    is_anchor = symbol.kind == "anchor"
    if not (ANCHOR_NAME if is_anchor else IDENTIFIER).fullmatch(name):
        raise Refusal(f'"{name}" is not a name: letters, digits, "_" and "-", the first no digit and no "-"')
    if not is_anchor and name in NO_TEXTS:
        raise Refusal(f'"{name}" is not a text in YAML')
    if symbol.kind in RESERVED and RESERVED[symbol.kind].fullmatch(name):
        raise Refusal(f'"{name}" has a meaning of its own here')
    new = name if is_anchor else name.lower()
    others = (one.symbol for file in {symbol.file, *callers(project, symbol.file)} for one in occurrences(project, file))
    if new != symbol.name and any(other.name == new and other[:2] == symbol[:2] and (is_anchor or other.scope == symbol.scope)
                                  for other in others):
        raise Refusal(f'another {NOUNS.get(symbol.kind, symbol.kind)} is named "{name}"')


def _refuse_faults(program: Program, project: Project, symbol: Symbol, edits: dict[str, tuple[Edit, ...]], name: str) -> None:
    """Raises `Refusal` if the edits add a fault. Messages that differ only in the renamed name are the same."""
    texts = {path: replaced(project.text(path), some) for path, some in edits.items()}
    try:
        trial = Trial(program.words, program.timeout, project, symbol.file, len(texts) + MAX_OTHER_FILES)
        try:
            after = counted(trial.report_after(texts))
            before = trial.before
        finally:
            trial.close()
    except (LinterEnded, NoAnswer) as error:
        raise Refusal("the linter can't be asked whether the name makes a fault") from error
    named = re.compile(rf"(?<=[\"./]){re.escape(symbol.name)}(?=[\"./])", re.I)
    renamed = before | Counter({(path, named.sub(lambda _: name, message)): count for (path, message), count in before.items()})
    gained = sorted(after - Counter(renamed))
    if gained:
        path, message = gained[0]
        raise Refusal(f"{path} would have a fault: {message}")


def moved_files(project: Project, root: bytes, old: bytes, new: bytes) -> dict[str, str]:
    """The linted files that move with a file or a folder, each with its new path from the root, which begins with dots outside of it."""
    found = {}
    for file in project.paths():
        whole = os.path.join(root, file.encode("utf-8"))
        if is_below(whole, old):
            found[file] = os.path.relpath(new + whole[len(old):], root).decode("utf-8", "replace")
    return found


def changed_calls(project: Project, moves: dict[str, str]) -> dict[str, tuple[Edit, ...]]:
    """The edits of the callers by file. What can't be called at its new path is left out."""
    edits: dict[str, list[Edit]] = {}
    for old, new in moves.items():
        call = call_of(new) if is_workflow(old) == is_workflow(new) else None
        for caller in callers(project, old) if call and call != call_of(old) else ():
            for one in occurrences(project, caller):
                if one.symbol == Symbol("file", old, "", ""):
                    edits.setdefault(caller, []).append(Edit(one.span, _written(project, one, call or "")))
    return {file: tuple(some) for file, some in edits.items()}


def call_of(file: str) -> str | None:
    """How `uses` calls a file, or None if nothing can call it."""
    if not is_path(file) or "${{" in file or not (is_workflow(file) or is_action(file)):
        return None
    return "./" + (file if is_workflow(file) else file.rpartition("/")[0])


def _written(project: Project, one: Occurrence, call: str) -> str:
    """The call in the quotes that are there, or with some if it needs them."""
    lines, start = project.lines(one.file), one.span.start
    quote = lines[start.line][start.column - 1:start.column]
    if quote in ("'", '"'):
        return in_quotes(call, quote)
    return call if PLAIN.fullmatch(call) else quoted(call)
