#!/usr/bin/env python3
"""Writes the tables of the clients from the rest of the repository:

    make_tables.py [--check] [FACTS]        --check compares them, and writes nothing

`actionlint_client/faults.json` has the entries of docs/FAULTS*.md: the code, message and place of each fault, and what the page says;
`actionlint_client/notes/notes.json` those of docs/NOTES.md.
The others are from what FACTS, by default the actionlint-facts that the clients run, answers to `tables`: `names.json` has the lists of
names, `limits.json` the limits, and `syntax.json` what is allowed where, with what meanings.toml says about each name.
"""
from __future__ import annotations

import json
import re
import subprocess
import sys
import tomllib
from pathlib import Path
from typing import Any

TOP = Path(__file__).resolve().parent.parent
sys.path[:0] = [str(TOP / "tests"), str(TOP / "clients/tests")]
import fault_entries
import lists_page
from note_cases import cases_by_name

from actionlint_client.program import find_facts, find_program

Tables = dict[str, Any]
OUT = Path(__file__).resolve().parent / "actionlint_client"
LINK_IN_PAGE = re.compile(r"\]\((#[^)]*)\)")
# What the types of contexts have for the name of a job or a step.
ANY_NAME = "*"
SCALARS = {"none": "NoScalar", "any": "AnyScalar", "not null": "NotNull", "boolean": "Bools", "number": "Numbers", "expression": "Chunks"}
# The shape of the mapping under `on`, whose section is named by its key.
EVENTS = "Events"
UNCHECKED = " (unchecked)"
# The places of the sections that the linter doesn't check: the key of a shape above each, and whether free names come between.
UNCHECKED_PLACES = {("Job", "environment"): ("Environment", False), ("Job", "services"): ("Container", True),
                    ("Container", "credentials"): ("Credentials", False), ("Strategy", "matrix"): ("Matrix", False),
                    ("Action", "inputs"): ("ActionInput", True), ("Action", "outputs"): ("ActionOutput", True),
                    ("Action", "branding"): ("Branding", False)}


def main(words: list[str]) -> int:
    is_check = words[:1] == ["--check"]
    named = words[is_check:]
    if len(named) > 1 or any(word.startswith("-") for word in named):
        print("make_tables.py [--check] [FACTS]", file=sys.stderr)
        return 2
    linter = tables_of(*named or [find_facts(find_program(None))])
    tables = {"faults.json": faults(TOP / "docs"), "notes/notes.json": notes(TOP / "docs/NOTES.md"),
              "names.json": names(linter), "syntax.json": syntax(linter, TOP), "limits.json": linter["limits"]}
    differing = []
    for file, table in tables.items():
        text = json.dumps(table, indent=1, ensure_ascii=False) + "\n"
        if is_check and not ((OUT / file).exists() and (OUT / file).read_text(encoding="utf-8") == text):
            differing.append(file)
        elif not is_check:
            (OUT / file).write_text(text, encoding="utf-8")
    for file in differing:
        print(f"{file} is not the one that make_tables.py makes")
    return 1 if differing else 0


def tables_of(facts: str) -> Tables:
    """What the linter accepts."""
    done = subprocess.run([facts], input=b"tables\n", stdout=subprocess.PIPE, check=True)
    found: Tables = json.loads(done.stdout)
    return found


def faults(docs: Path) -> list[dict]:
    """The entries of all pages, in the order of their codes. Links within a page work from everywhere."""
    cases = fault_entries.cases_of_entries(docs.parent)
    return [row_of(entry, {path: data.decode() for path, data in fault_entries.files_of(cases[f"{entry.code}-repaired"]).items()})
            for entry in fault_entries.entries(docs)]


def notes(page: Path) -> list[dict]:
    """The entries of the page of notes, in their order."""
    cases = cases_by_name()
    # (the files of these cases begin with the one that has the note)
    return [row_of(entry, dict(reversed(cases[entry.code, "repaired"].files.items()))) for entry in fault_entries.entries_of(page)]


def row_of(entry: fault_entries.Entry, repaired: dict[str, str]) -> dict:
    """An entry with the files of its repaired case."""
    local = lambda markdown: LINK_IN_PAGE.sub(rf"]({entry.page}\1)", markdown)
    repair = "\n\n".join([entry.repair, *shown_files(repaired)])
    return {"code": entry.code, "message": entry.message, "page": entry.page, "anchor": entry.anchor,
            "text": local(entry.what), "why": local(entry.why), "repair": local(repair)}


def shown_files(files: dict[str, str]) -> list[str]:
    """Files as Markdown: the last one, preceded by the others, by path."""
    shown = [f"`{path}`:\n\n```yaml\n{text}```" for path, text in list(files.items())[:-1]]
    return [*shown, f"```yaml\n{list(files.values())[-1]}```"]


def names(linter: Tables) -> dict[str, list[str]]:
    """The lists of names, each sorted."""
    permissions = linter["permissions"]
    lists = {
        "events": linter["events"],
        "activity types": [name for types in linter["events"].values() for name in types or ()],
        "input types": [name for types in linter["input_types"].values() for name in types],
        "keys": [key for shape in linter["shapes"].values() for key in shape.get("keys", ())],
        "contexts": linter["contexts"],
        "functions": linter["signatures"],
        "properties": [name for of in linter["types"].values() for name in property_names(of) if name != ANY_NAME],
        "shells": linter["shells"],
        "permission scopes": permissions["scopes"],
        "permission values": permissions["values"] + permissions["whole"],
        "using": linter["runs_by_using"],
    }
    return {name: sorted(set(found)) for name, found in lists.items()}


def property_names(of: str | Tables) -> list[str]:
    """The names of the properties of a type, and of theirs."""
    if isinstance(of, str):
        return []
    return [found for name, inner in of["properties"].items() for found in (name, *property_names(inner))]


def fixed_contexts(types: Tables) -> Tables:
    """The contexts with properties that are the same in every file."""
    objects = {name: of["properties"] for name, of in types.items() if isinstance(of, dict)}
    return {name: {"properties": found} for name, found in objects.items() if found and ANY_NAME not in found}


def syntax(linter: Tables, top: Path) -> dict[str, dict | list]:
    """What each shape of a value accepts, where expressions are and what is available to them, activity types, and meanings by list."""
    meanings = tomllib.loads((top / "clients/meanings.toml").read_text(encoding="utf-8"))
    return {
        "shapes": shapes(linter["shapes"], meanings),
        "runs by using": linter["runs_by_using"],
        "activity types": {name: types for name, types in sorted(linter["events"].items()) if types},
        "call input types": linter["input_types"]["workflow_call"],
        "permission values": {"scope_values": linter["permissions"]["values"], "whole_values": linter["permissions"]["whole"]},
        "places": {".".join(row["path"]): {"contexts": row["contexts"], "functions": row["functions"]} for row in linter["places"]},
        "other places": {name: linter["other_places"][name] for name in ("action", "condition of an action")},
        "expressions": {"conditions": linter["conditions"],
                        **{name: linter["expressions"][name] for name in ("only_outside_runs", "not_in_runs")}},
        "contexts": fixed_contexts(linter["types"]),
        "functions": {name: function(row) for name, row in linter["signatures"].items()},
        "meanings": {heading.removesuffix(UNCHECKED): found for heading, found in meanings.items() if found},
    }


def function(row: Tables) -> dict[str, str | bool]:
    """What a function takes and gives, in words."""
    parameters = [name.replace("not ", "any but ").replace("array or object", "object and array") for name in row["parameters"]]
    takes = [name if number < row["least"] or row["more"] else f"optional {name}" for number, name in enumerate(parameters)]
    return {"takes": ", ".join(takes) + (".." if row["more"] else ""), "gives": row["returns"], "everywhere": row["everywhere"]}


def shapes(known: Tables, meanings: dict[str, dict]) -> dict[str, dict]:
    """For each shape, the scalars and items that it accepts, and its keys: those of a section, or free ones with values of a shape."""
    found: dict[str, dict] = {shape_name(name): shape(name, row) for name, row in known.items()}
    for heading, rows in meanings.items():
        if heading.endswith(UNCHECKED):
            section = heading.removesuffix(UNCHECKED)
            keys = {key: {"shape": "Any", "need": None, "clash": None} for key in rows}
            found[section.title().replace(" ", "")] = {"scalars": "AnyScalar", "items": None, "free": None, "section": section,
                                                       "others": "unchecked", "keys": keys}
    for (above, key), (below, is_named) in UNCHECKED_PLACES.items():
        found[f"Named{below}"] = {"scalars": "NoScalar", "items": None, "free": below}
        found[above]["keys"][key]["shape"] = f"Named{below}" if is_named else below
    return found


def shape_name(name: str) -> str:
    return "On" if name == EVENTS else name


def shape(name: str, row: Tables) -> dict:
    found = {"scalars": SCALARS[row["scalars"]], "items": row.get("items"), "free": row.get("any_key")}
    if "keys" in row:
        keys = {key: field(it) for key, it in row["keys"].items()}
        found |= {"section": lists_page.name_of(shape_name(name)), "others": row["others"], "keys": keys}
    return found


def field(row: Tables) -> dict:
    """A key of a section: `need` is True, None, or the key that can replace it; `clash` is the key that it can't be combined with."""
    need = row.get("unless", True) if row["need"] == "must" else None
    return {"shape": shape_name(row["shape"]), "need": need, "clash": row.get("not_after", row.get("not_beside"))}


if __name__ == "__main__":
    sys.exit(main(sys.argv[1:]))
