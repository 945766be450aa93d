"""What is allowed at a cursor: keys of the section, values of the key, names in expressions, and what other files use and are called."""
from __future__ import annotations

import re
import time
from dataclasses import dataclass, replace
from typing import Callable, Iterable, Iterator, NamedTuple

from . import project as files
from .expressions import Before, Property, Scope, chain_before, expression_before
from .markdown import Markdown, escaped_or_none
from .names import names
from .paths import is_workflow
from .place import Place, Role
from .place_in_tree import place_at
from .project import Project, is_callable, steps_of
from .structure import address_of
from .syntax import (GITHUB, Shape, activity_types, available, can_stand, is_condition, key_of, meaning, section_at, shape_at, table,
                     takes_access, takes_filter, value_words)
from .text import Point, Span, end_of
from .tree import Node, Path

IDENTIFIER = re.compile(r"[\w-]*")
REST = re.compile(r"[^#,}\]\n]*")
PLAIN = re.compile(r"[A-Za-z0-9_./][\w./@-]*")
# The scalars of a shape that takes a mapping or a list, or one expression in place of it.
NO_SCALARS = ("NoScalar", "Chunks")
# GitHub has no such contexts in an action; the linter accepts them.
NOT_IN_ACTIONS = ("vars", "needs", "jobs")
# What is inserted after a key that must have a value.
FIRST_VALUES = {("workflow", "on"): " push", ("workflow", "jobs"): "\n  build:\n    runs-on: ubuntu-latest\n    steps:\n      - run: make"}
SECRET = re.compile(r"\bsecrets\.([A-Za-z_]\w*)")
# No more files are read after that; those that were are known the next time.
READING_SECONDS = 0.5


@dataclass(frozen=True)
class Offer:
    """A name that is allowed at the cursor, the text to insert, and what it is, in a word and in sentences. Offers of a lower rank come
    first. With `arguments` it is a function call whose arguments are still to be written."""

    label: str
    kind: str
    text: str
    detail: str = ""
    documentation: Markdown | None = None
    rank: int = 1
    arguments: int | None = None


@dataclass(frozen=True)
class Cursor:
    """A place in a file, the tree around it, and the keys on the way to it. A strict one, for completion, leaves out what the linter
    accepts but GitHub refuses, such as `vars` in an action; another one, for hovering, knows all that the linter accepts."""

    project: Project
    file: str
    place: Place
    is_strict: bool = True

    @property
    def tree(self) -> Node | None:
        return self.project.tree_around(self.file, self.place.span.start.line)

    @property
    def levels(self) -> tuple[dict[str, str], ...]:
        return (*self.place.around, self.place.siblings)

    def section(self, path: Path) -> str | None:
        return section_at(self.file, path, self.levels)

    def texts(self, depth: int) -> dict[str, str]:
        """The keys, with texts, beside the one at a depth of the path."""
        found = self.place.around[depth] if depth < len(self.place.around) else {}
        return {key: text.strip("'\"") for key, text in found.items()}


def offers(project: Project, file: str, point: Point, is_strict: bool = True) -> tuple[Span, list[Offer]]:
    """What is allowed at a point, and the characters that it replaces; `is_strict` is that of the cursor."""
    place = place_at(project, file, point)
    if place is None:
        return Span.at(point), []
    cursor = Cursor(project, file, place, is_strict)
    expression = None
    if place.role is not Role.KEY:
        expression = expression_before(place.before, is_condition(place.path))
    if expression is not None:
        before = chain_before(expression)
        line = project.lines(file)[point.line]
        closing = line.find("'", point.column) if before and before.is_compared else -1
        end = closing if closing >= 0 else end_of(IDENTIFIER, line, point.column)
        typed = len(before.typed) if before else 0
        span = Span.on_line(point.line, point.column - typed, end)
        return span, names_in_expression(cursor, before) if before else []
    if place.taken:
        return place.span, []
    found = [] if place.role is Role.VALUE else list(keys(cursor))
    if place.role is not Role.KEY:
        known = {*(offer.label for offer in found), *place.entries}
        found += [offer for offer in values(cursor) if offer.label not in known]
    if is_after_sign(project.lines(file)[point.line], place):
        found = [replace(offer, text=" " + offer.text) for offer in found]
    if key_of(place.path)[1] == "cron" and not place.quote:
        return Span(place.span.start, Point(point.line, end_of(REST, project.lines(file)[point.line], point.column))), found
    return place.span, found


def is_after_sign(line: str, place: Place) -> bool:
    """Whether nothing is typed yet, not even the space after a colon or a dash."""
    return not place.typed and not place.before.strip() and line[:place.span.start.column][-1:] in (":", "-")


def names_in_expression(cursor: Cursor, before: Before) -> list[Offer]:
    """Contexts and functions, or properties of what is before the dot."""
    place = cursor.place
    if available(cursor.file, place.path) is None:
        return []
    scope = Scope(cursor.project, cursor.file, cursor.tree, place.path)
    quote = "''''" if place.quote == "'" else "''"
    if before.is_compared:
        return [Offer(value, "value", value, "value") for value in dict.fromkeys(scope.values(before.chain))]
    if before.chain == ("secrets",):
        declared = [_offer_of(one) for one in scope.properties(before.chain)]
        return declared + _used_secrets(cursor, before.typed, {offer.label.lower() for offer in declared})
    if before.chain:
        return [_offer_of(one) for one in scope.properties(before.chain)]
    refused = NOT_IN_ACTIONS if cursor.is_strict and not is_workflow(cursor.file) else ()
    found = [_offer_of(one) for one in scope.contexts() if one.name not in refused]
    for name in scope.functions():
        signature = table()["functions"][name]
        count = sum(1 for word in signature["takes"].split(", ") if word and not word.startswith("optional") and not word.endswith(".."))
        text = f"{name}({', '.join([quote] * count)})"
        found.append(Offer(name, "function", text, f"({signature['takes']}) {signature['gives']}", meaning("functions", name), 2, count))
    return found


def _offer_of(one: Property) -> Offer:
    return Offer(one.name, "module" if one.detail == "context" else "property", one.name, one.detail, one.text)


def keys(cursor: Cursor) -> Iterable[Offer]:
    """The keys of the section that are missing and don't clash with those that are there, required ones first."""
    place = cursor.place
    yield from _named_keys(cursor)
    shape = shape_at(cursor.file, place.path, cursor.levels)
    if shape is not None and shape["items"] and not place.in_flow:
        yield from _first_keys(cursor, table()["shapes"][shape["items"]])
    if shape is None or "keys" not in shape or place.needs_dash:
        return
    section, fields = shape["section"], shape["keys"]
    if section == "event" and cursor.is_strict:
        fields = {key: row for key, row in fields.items() if takes_filter(str(place.path[-1]), key)}
    for key, row in fields.items():
        if key in place.siblings or cursor.is_strict and not can_stand(section, key, place.siblings):
            continue
        is_needed = row["need"] is True or row["need"] is not None and row["need"] not in place.siblings
        of_value = table()["shapes"].get(row["shape"])
        yield Offer(key, "key", _key_text(cursor, section, key, of_value), value_words(of_value) + (", required" if is_needed else ""),
                    meaning(section, key), 0 if is_needed else 1)
    if shape["others"] == "events":
        yield from (Offer(event, "event", _key_text(cursor, section, event), "event", meaning("events", event))
                    for event in names()["events"] if event not in place.siblings and event not in fields)


def _first_keys(cursor: Cursor, shape: Shape) -> Iterable[Offer]:
    """The keys with which an entry of a list begins, each after a dash."""
    section = shape.get("section", "")
    for key, row in (shape["keys"] if section else {}).items():
        of_value = table()["shapes"].get(row["shape"])
        takes = value_words(of_value)
        text = "- " + _key_text(cursor, section, key, of_value, len("- "))
        yield Offer(key, "key", text, f"{takes}, begins an entry", meaning(section, key), 1 if row["need"] is None else 0)


def _named_keys(cursor: Cursor) -> Iterable[Offer]:
    """Keys below one that takes any: scopes, inputs and secrets of the called file, rows."""
    place = cursor.place
    around, key = key_of(place.path)
    section = cursor.section(around)
    if key == "permissions" and section in ("workflow", "job"):
        for scope in (one for one in names()["permission scopes"] if one not in place.siblings):
            text = _key_text(cursor, key, scope)
            access = "read" if takes_access(scope, "read") else "write"
            is_whole = place.has_colon or place.has_value
            yield Offer(scope, "key", text if is_whole else text + access, "scope", meaning("permissions", scope))
    if key in ("with", "secrets") and section in ("step", "job"):
        callee = cursor.project.callee(cursor.texts(len(place.path) - 1).get("uses"), section == "job")
        tree = cursor.project.good_tree(callee) if callee else None
        given = {name.lower() for name in place.siblings}
        for one in files.declarations(callee, tree, "inputs" if key == "with" else "secrets", True) if callee else ():
            if one.name.lower() not in given:
                yield _declared_key(place, one)
    if key == "exclude" and section == "matrix" and cursor.tree:
        dash = "" if isinstance(place.path[-1], int) else "- "
        for row in files.matrix_rows(cursor.tree, str(place.path[1])):
            if row not in place.siblings:
                yield Offer(row, "key", dash + _key_text(cursor, key, row), "row of the matrix")


def _declared_key(place: Place, one: files.Declaration) -> Offer:
    """An input or a secret of the called file, with a value that fits its type."""
    kind = one.value.text("type") or ""
    value = {"boolean": "true", "number": "0"}.get(kind, "")
    text = one.name if place.has_colon else f"{one.name}:" if place.has_value else f"{one.name}: {value}"
    return Offer(one.name, "key", text, (kind or "text") + (", required" if one.is_required else ""),
                 escaped_or_none(one.value.text("description")), 0 if one.is_required else 1)


def _key_text(cursor: Cursor, section: str, key: str, shape: Shape | None = None, further: int = 0) -> str:
    """A key with its colon, unless it has one. A value that can only be a mapping or a list, and isn't there yet, begins on a line of its
    own, indented from the key, which begins some characters after the cursor's word."""
    place = cursor.place
    if place.has_colon:
        return key
    if place.has_value:
        return f"{key}:"
    column, first = place.span.start.column, FIRST_VALUES.get((section, key))
    if first and not column:
        return f"{key}:{first}"
    if place.in_flow or shape is None or shape["scalars"] not in NO_SCALARS:
        return f"{key}: "
    is_after = is_after_sign(cursor.project.lines(cursor.file)[place.span.start.line], place)
    indent = " " * (column + further + is_after + len("  "))
    return f"{key}:\n{indent}" + ("- " if shape["items"] else "")


def values(cursor: Cursor) -> list[Offer]:
    """The values of a key, if they are known."""
    around, key = key_of(cursor.place.path)
    section = cursor.section(around) or ""
    found = [*_fixed_values(cursor, section, key, around), *_names_of_file(cursor, section, key), *_flags(cursor)]
    dash = "- " if cursor.place.needs_dash else ""
    return [replace(one, text=dash + _quoted(cursor.place, one.text)) for one in found]


def _fixed_values(cursor: Cursor, section: str, key: str | None, around: Path) -> list[Offer]:
    """Values from the linter's lists."""
    if key == "types" and section == "event":
        return [Offer(name, "value", name, "activity type") for name in activity_types(str(around[-1]))]
    if section == "branding" or around == ("branding",) or cursor.place.path[:1] == ("branding",):
        return [Offer(name, "value", name, str(key)) for name in GITHUB["branding"].get(key or "", [])]
    permissions = table()["permission values"]
    lists: dict[tuple[str, str | None], tuple[Iterable[str], str, str]] = {
        ("workflow", "on"): (names()["events"], "events", "event"),
        ("workflow", "permissions"): (permissions["whole_values"], "permissions", "permissions"),
        ("job", "permissions"): (permissions["whole_values"], "permissions", "permissions"),
        ("step", "shell"): (names()["shells"], "shells", "shell"),
        ("run defaults", "shell"): (names()["shells"], "shells", "shell"),
        ("call input", "type"): (table()["call input types"], "types of inputs", "type"),
        ("dispatch input", "type"): (names()["input types"], "types of inputs", "type"),
        ("job", "runs-on"): (table()["meanings"]["runners"], "runners", "label"),
        ("runs on", "labels"): (table()["meanings"]["runners"], "runners", "label"),
        ("cron", "cron"): (table()["meanings"]["schedules"], "schedules", "cron"),
    }
    if key == "using":
        lists[section, key] = names()["using"], "kinds of actions", "kind"
    if around and around[-1] == "permissions" and cursor.section(around[:-1]) in ("workflow", "job"):
        accesses = [one for one in permissions["scope_values"] if takes_access(key or "", one) or not cursor.is_strict]
        lists[section, key] = accesses, "permissions", "access"
    if isinstance(cursor.place.path[-1] if cursor.place.path else None, int) and key == "permissions":
        return []
    known, heading, detail = lists.get((section, key), ((), "", ""))
    return [Offer(name, "value", name, detail, meaning(heading, name)) for name in known]


def _names_of_file(cursor: Cursor, section: str, key: str | None) -> list[Offer]:
    """Values that name something in the file or in the folder."""
    ways: dict[tuple[str, str | None], Callable[[Cursor], list[Offer]]] = {
        ("job", "needs"): _jobs, ("job", "uses"): _workflows, ("step", "uses"): _actions, ("event", "workflows"): _workflow_names,
        ("job", "runs-on"): _labels, ("runs on", "labels"): _labels, ("dispatch input", "default"): _choices,
        ("job", "secrets"): lambda _: [Offer("inherit", "value", "inherit", "all secrets of the caller")]}
    return ways[section, key](cursor) if (section, key) in ways else []


def _jobs(cursor: Cursor) -> list[Offer]:
    """The jobs that a job can need without a cycle."""
    tree, job = cursor.tree, str(cursor.place.path[1])
    if tree is None:
        return []
    barred = files.dependents(tree, job) | (set(tree.texts("jobs", job, "needs")) - {cursor.place.word})
    return [Offer(name, "value", name, "job", escaped_or_none(tree.text("jobs", name, "name"))) for name in tree.names("jobs")
            if name not in barred]


def _others(cursor: Cursor, files_of: Iterable[str]) -> list[tuple[str, Used]]:
    """What other files use and are called."""
    return list(used_in(cursor.project, [file for file in files_of if file != cursor.file]))


def _workflows(cursor: Cursor) -> list[Offer]:
    """The workflows that jobs can call: those of the folder, and others that it calls."""
    own = [Offer("./" + file, "file", "./" + file, "workflow", escaped_or_none(used.name))
           for file, used in _others(cursor, filter(is_workflow, cursor.project.paths())) if used.is_callable]
    return own + _calls(cursor, lambda call: "/.github/workflows/" in call)


def _actions(cursor: Cursor) -> list[Offer]:
    """The actions of the folder, and others that it calls, with their versions."""
    found = []
    for file, used in _others(cursor, set(cursor.project.actions())):
        path = "./" + file.rpartition("/")[0]
        found.append(Offer(path, "file", path, "action", escaped_or_none(used.description)))
    return found + _calls(cursor, lambda call: "/.github/workflows/" not in call)


def _calls(cursor: Cursor, is_meant: Callable[[str], bool]) -> list[Offer]:
    """The calls of other repositories that the folder has."""
    return _used(cursor, lambda used: [call for call in used.calls if address_of(call) and is_meant(call)], 2)


def _labels(cursor: Cursor) -> list[Offer]:
    """The labels that the folder has besides GitHub's."""
    known = table()["meanings"]["runners"]
    return _used(cursor, lambda used: [label for label in used.labels if label not in known], 1)


def _used(cursor: Cursor, texts: Callable[[Used], Iterable[str]], rank: int, typed: str | None = None) -> list[Offer]:
    """Some texts of all files, except the one that is being typed, by default the word at the cursor."""
    typed = cursor.place.word if typed is None else typed
    found = {text for file, used in used_in(cursor.project, [*cursor.project.paths()])
             for text in texts(used) if file != cursor.file or text != typed}
    return [Offer(text, "value", text, "used in this repository", rank=rank) for text in sorted(found)]


def _choices(cursor: Cursor) -> list[Offer]:
    """The options of the input."""
    options = cursor.tree.texts(*cursor.place.path[:-1], "options") if cursor.tree else []
    return [Offer(option, "value", option, "option") for option in dict.fromkeys(options)]


def _used_secrets(cursor: Cursor, typed: str, known: set[str]) -> list[Offer]:
    """The secrets that the folder uses besides those that are declared here."""
    found = _used(cursor, lambda used: used.secrets, 1, typed)
    return [replace(one, kind="property") for one in found if one.label.lower() not in known]


def _workflow_names(cursor: Cursor) -> list[Offer]:
    named = {used.name for _, used in _others(cursor, filter(is_workflow, cursor.project.paths())) if used.name}
    return [Offer(name, "value", name, "workflow") for name in sorted(named)]


def _flags(cursor: Cursor) -> list[Offer]:
    """True and false where a boolean is expected, also by the type of the called file's input."""
    path = cursor.place.path
    shape = shape_at(cursor.file, path, cursor.levels)
    is_flag = shape is not None and shape["scalars"] == "Bools" or path[-1:] == ("required",)
    if len(path) > 1 and path[-2] == "with" and cursor.section(path[:-2]) == "job":
        callee = cursor.project.callee(cursor.texts(len(path) - 2).get("uses"), True)
        tree = cursor.project.good_tree(callee) if callee else None
        declared = files.declarations(callee, tree, "inputs", True) if callee else []
        is_flag = any(one.name.lower() == str(path[-1]).lower() and one.value.text("type") == "boolean" for one in declared)
    if not is_flag or cursor.place.quote:
        return []
    return [Offer(word, "value", word, "boolean") for word in ("true", "false")]


def _quoted(place: Place, text: str) -> str:
    """A text as a value: in quotes if YAML would read it differently without, unless quotes are already there."""
    if place.quote or PLAIN.fullmatch(text):
        return text.replace("'", "''") if place.quote == "'" else text
    return "'" + text.replace("'", "''") + "'"


class Used(NamedTuple):
    """A file's name and description, whether it can be called, and what its values of `uses`, its labels and its secrets are."""

    data: bytes
    name: str | None = None
    description: str | None = None
    is_callable: bool = False
    calls: tuple[str, ...] = ()
    labels: tuple[str, ...] = ()
    secrets: tuple[str, ...] = ()


def used_in(project: Project, files: list[str]) -> Iterator[tuple[str, Used]]:
    """The files with what each uses, as many as can be read in half a second of processor time."""
    end = time.thread_time() + READING_SECONDS
    for file in sorted(files):
        data = project.read(file) or b""
        known = project.memory.get(("used", file))
        if not isinstance(known, Used) or known.data != data:
            if time.thread_time() > end:
                continue
            known = project.memory["used", file] = _read_used(project, file, data)
        yield file, known


def _read_used(project: Project, file: str, data: bytes) -> Used:
    tree = project.good_tree(file)
    if tree is None:
        return Used(data)
    jobs = [tree.get("jobs", name) for name in tree.names("jobs")] if is_workflow(file) else []
    steps = [step for name in tree.names("jobs") for step in steps_of(tree, name)] if is_workflow(file) else steps_of(tree, None)
    calls = [call for node in (*jobs, *steps) if node and (call := node.text("uses"))]
    labels = [label for job in jobs if job for label in (*job.texts("runs-on"), *job.texts("runs-on", "labels"))]
    return Used(data, tree.text("name"), tree.text("description"), is_callable(tree), _once(calls), _once(labels),
                _once(SECRET.findall(data.decode("utf-8", "replace"))))


def _once(texts: list[str]) -> tuple[str, ...]:
    """The texts without expressions, each once."""
    return tuple(dict.fromkeys(text for text in texts if "${{" not in text and "\n" not in text))
