"""What is allowed where in workflows and actions, and what each name means: what the linter accepts (syntax.json, which make_tables.py
writes), and where GitHub accepts less (github.json and the tables of the notes). Completion and quick fixes offer what both accept."""
from __future__ import annotations

from functools import lru_cache
from typing import TYPE_CHECKING, Any, Collection

from .markdown import Markdown
from .names import names
from .notes import file as notes
from .paths import is_workflow

if TYPE_CHECKING:
    from .tree import Path

VALUE_WORDS = {"AnyScalar": "text", "NotNull": "text", "Bools": "true or false", "Numbers": "number", "Chunks": "expression"}

# A row of the table: what a value may be, as make_tables.py writes it.
Shape = dict[str, Any]
KINDS_OF_SCALARS = {"Numbers": "number", "Bools": "flag"}
# What GitHub's documents list and the linter doesn't check; `sources` names the documents.
GITHUB: dict[str, dict[str, Any]] = notes.table("../github")
EVENTS, LEVELS = notes.table("events"), notes.table("values")["levels"]
FILTERS = {event: set(filters) for event, filters in EVENTS["filters"].items()}
# Beside which keys GitHub refuses others: the rows that notes are on, and those that only keep repairs from writing such keys.
REFUSED_BESIDE = [notes.table("keys")[rows] for rows in ("beside", "not repaired beside")]
ALL_ACCESSES = {"read", "write", "none"}


@lru_cache(maxsize=None)
def table() -> dict[str, dict[str, Any]]:
    found: dict[str, dict[str, Any]] = notes.table("../syntax")
    return found


def meaning(heading: str, name: str) -> Markdown | None:
    """What meanings.toml says about a name below a heading."""
    found: Markdown | None = table()["meanings"].get(heading, {}).get(name)
    return found


def shape_at(file: str, path: Path, levels: tuple[dict[str, str], ...]) -> Shape | None:
    """The shape of the value at a path, or None if it isn't known. `levels` are the keys of each mapping on the way, with texts, which show
    the kind of an action."""
    name: str | None = "Workflow" if is_workflow(file) else "Action"
    shapes = table()["shapes"]
    for number, step in enumerate((*path, None)):
        using = levels[number].get("using", "").strip("'\"") if name == "Runs" and number < len(levels) else ""
        name = table()["runs by using"].get(using, name)
        if step is None or name is None:
            break
        name = _below(shapes[name], step)
    found: Shape | None = shapes[name] if name else None
    return found


def _below(shape: Shape, step: str | int) -> str | None:
    below: str | None
    if isinstance(step, int):
        below = shape["items"]
    elif "keys" not in shape:
        below = shape["free"]
    elif step in shape["keys"]:
        below = shape["keys"][step]["shape"]
    else:
        below = "Event" if shape["others"] == "events" and step in names()["events"] else None
    return below


def key_of(path: Path) -> tuple[Path, str | None]:
    """The path of the mapping around a value, or around its list, and the key there."""
    last = next((number for number in range(len(path) - 1, -1, -1) if isinstance(path[number], str)), None)
    return ((), None) if last is None else (path[:last], str(path[last]))


def section_at(file: str, path: Path, levels: tuple[dict[str, str], ...]) -> str | None:
    """The section whose keys the mapping at a path has."""
    shape = shape_at(file, path, levels)
    return shape.get("section") if shape else None


def is_condition(path: Path) -> bool:
    """Whether the whole text at a path is an expression."""
    keys = _keys_of(path)
    return any(len(row) == len(keys) and _begins(row, keys) for row in table()["expressions"]["conditions"])


def available(file: str, path: Path) -> tuple[list[str], list[str]] | None:
    """The contexts and the functions available to an expression at a path, or None if there are no expressions or the place isn't one that
    GitHub's documents list."""
    found = _row_of_workflow(_keys_of(path)) if is_workflow(file) else _row_of_action(path)
    everywhere = [name for name, row in table()["functions"].items() if row["everywhere"]]
    return (found["contexts"], everywhere + found["functions"]) if found else None


def _row_of_workflow(keys: list[str]) -> Shape | None:
    """The row with the longest path that a place begins with."""
    fitting = [row for row in table()["places"] if _begins(row.split("."), keys)]
    return table()["places"][max(fitting, key=lambda row: row.count("."))] if fitting else None


def _row_of_action(path: Path) -> Shape | None:
    keys, paths = _keys_of(path), table()["expressions"]
    if keys[:1] == ["runs"]:
        has_expressions = not any(_begins(row, keys) for row in paths["not_in_runs"])
    else:
        has_expressions = len(path) == 3 and any(_begins(row, keys) for row in paths["only_outside_runs"])
    return table()["other places"]["condition of an action" if is_condition(path) else "action"] if has_expressions else None


def _keys_of(path: Path) -> list[str]:
    return [step for step in path if isinstance(step, str)]


def _begins(row: list[str], keys: list[str]) -> bool:
    return len(row) <= len(keys) and all(one in ("*", key) for one, key in zip(row, keys))


def value_words(shape: Shape | None) -> str:
    """What a shape accepts, in a few words."""
    if shape is None:
        return ""
    shapes = table()["shapes"]
    words = [VALUE_WORDS[shape["scalars"]]] if shape["scalars"] in VALUE_WORDS else []
    if shape["items"]:
        words.append("list of " + (value_words(shapes[shape["items"]]) or "anything") if shape["items"] != "Any" else "list")
    if shape.get("section"):
        words.append(shape["section"] if shape["section"] in ("step", "cron") else "mapping")
    elif shape["free"]:
        words.append("mapping")
    return " or ".join(words)


def wanted_under(key: str) -> str | None:
    """`list`, `mapping`, `number` or `flag`. None if a key takes several of them or is in no section."""
    return _kinds().get(key)


@lru_cache(maxsize=None)
def _kinds() -> dict[str, str | None]:
    """The kind of value of each key, None if sections differ."""
    shapes = table()["shapes"]
    found: dict[str, str | None] = {}
    for section in shapes.values():
        if section.get("others") not in (None, "unchecked"):
            for key, row in section["keys"].items():
                kind = _kind(shapes[row["shape"]])
                found[key] = kind if found.setdefault(key, kind) == kind else None
    return found


def _kind(shape: Shape) -> str | None:
    """The only kind that a shape takes. An expression in place of a whole mapping makes no difference."""
    has_keys = shape["free"] is not None or "keys" in shape
    if shape["items"] or has_keys:
        is_one = shape["scalars"] == "NoScalar" or has_keys and shape["scalars"] == "Chunks"
        return None if not is_one or shape["items"] and has_keys else "mapping" if has_keys else "list"
    return KINDS_OF_SCALARS.get(shape["scalars"])


def can_stand(section: str, key: str, siblings: Collection[str]) -> bool:
    """Whether a key can be added to a mapping that has other keys. It can't if it is there already, or excludes one of them."""
    return key not in siblings and _excluded(section).get(key, frozenset()).isdisjoint(siblings)


@lru_cache(maxsize=None)
def _excluded(section: str) -> dict[str, frozenset[str]]:
    """For each key of a section those that can't stand beside it."""
    found: dict[str, set[str]] = {}
    for one, other in _pairs(section):
        found.setdefault(one, set()).add(other)
        found.setdefault(other, set()).add(one)
    return {key: frozenset(others) for key, others in found.items()}


def _pairs(section: str) -> list[tuple[str, str]]:
    shapes = [shape for shape in table()["shapes"].values() if shape.get("section") == section]
    pairs = [(key, row["clash"]) for shape in shapes for key, row in shape["keys"].items() if row["clash"]]
    left, right = GITHUB["excluded keys"].get(section, ([], []))
    return pairs + [(one, other) for one in left for other in right]


def activity_types(event: str) -> list[str]:
    """The activity types of an event, by the linter's list or else by GitHub's."""
    found: list[str] = table()["activity types"].get(event) or GITHUB["activity types"].get(event) or []
    return list(found)


def takes_filter(event: str, key: str) -> bool:
    """Whether GitHub knows a key below an event, unless the event has keys of its own, as `schedule` has."""
    return key.removesuffix("-ignore") in FILTERS.get(event, {"types"})


def takes_access(scope: str, access: str) -> bool:
    """Whether a scope of `permissions` can have an access level."""
    return access in LEVELS.get(scope, ALL_ACCESSES)


def is_refused_beside(section: str, key: str, beside: Collection[str]) -> bool:
    """Whether GitHub refuses a key of a section beside others that are there."""
    return any(other in beside for rows in REFUSED_BESIDE for other in rows.get(section, {}).get(key, ()))
