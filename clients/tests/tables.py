#!/usr/bin/env python3
"""The tables of the clients are those of the pages and of the linter.

    tables.py PROGRAM [NAME...]
"""
from __future__ import annotations

import json
import re
import subprocess
import sys

from cases import Cases
from repositories import CLIENTS, TOP

from actionlint_client import entries, names, syntax
from actionlint_client.linter_limits import MAX_PATH_BYTES
from actionlint_client.paths import is_linted, is_path
from actionlint_client.program import find_facts

CASES = Cases("tables")
SECTION_ROW = re.compile(r"^\| \*([^*]+)\* \| (.+) \|$", re.M)
W = ".github/workflows"
# Linted files; what is no path; and paths of other files.
PATHS = {
    None: (f"{W}/a.yml", f"{W}/a.yaml", f"{W}/.a.yml", f"{W}/.yml.yml", f"{W}/action.yml", "action.yml", "action.yaml", "a/action.yml",
           ".../action.yml", "\u00e9/action.yaml", "a" * (MAX_PATH_BYTES - 11) + "/action.yml"),
    "E1": ("/action.yml", "a//action.yml", "./action.yml", "a/./action.yml", "../action.yml", "a/../action.yml", "a/action.yml/", "a/",
           "..", ".", "a\\action.yml", "a\x7f/action.yml", "a\x01/action.yml", "a\t/action.yml", "a/..",
           "//", "\u00e9" * 507 + "/action.yml"),
    "E2": (f"{W}/.yml", f"{W}/.yaml", f"{W}/a.YML", f"{W}/a.json", f"{W}/a/b.yml", f"{W}/a.yml.txt", W, "workflows/a.yml", f"a/{W}/a.yml",
           "Action.yml", "xaction.yml", "action.yml.txt", "action", ".github/action.toml"),
}


@CASES.case
def made_anew(program: str) -> None:
    words = [sys.executable, str(CLIENTS / "make_tables.py"), "--check", find_facts(program)]
    done = subprocess.run(words, stdout=subprocess.PIPE, check=False)
    assert done.returncode == 0, done.stdout.decode() + "clients/make_tables.py writes them"


@CASES.case
def paths(program: str) -> None:
    """What is no path is refused by the linter (E1), and so is a file that isn't linted (E2); the clients know both beforehand."""
    for code, group in PATHS.items():
        script = b"".join(b"put %s 0\n\n" % path.encode() for path in group)
        said = subprocess.run([find_facts(program)], input=script, stdout=subprocess.PIPE, check=True).stdout
        assert [json.loads(line).get("refused") for line in said.splitlines()] == [code] * len(group), (code, said)
        known = {path: (None if is_linted(path) else "E2") if is_path(path) else "E1" for path in group}
        assert set(known.values()) == {code}, known


@CASES.case
def every_code(program: str) -> None:
    """The entries have the codes of the linter, each with its message."""
    said = subprocess.run([find_facts(program)], input=b"tables\n", stdout=subprocess.PIPE, check=True).stdout
    codes = dict.fromkeys((row["code"], row["message"]) for row in json.loads(said)["codes"])
    assert codes and list(codes) == [(entry.code, entry.message) for entry in entries.entries()], codes
    assert all(entry.text and entry.why and entry.repair for entry in entries.entries())


@CASES.case
def fixes_have_lists(program: str) -> None:
    """Each fault about a similar name has an argument and a list, and each list is used."""
    by_code = {entry.code: entry for entry in entries.entries()}
    assert all("{0}" in by_code[code].message for code in names.LISTS)
    assert set(names.LISTS.values()) == set(names.names())
    assert all(names.names().values())


@CASES.case
def every_name_has_a_meaning(program: str) -> None:
    """Each key by its section, and each name of a list; and no other name has one."""
    table, lists = syntax.table(), names.names()
    wanted = {shape["section"]: set(shape["keys"]) for shape in table["shapes"].values() if shape.get("section")}
    fixed = {f"properties of {context}": set(found["properties"]) for context, found in table["contexts"].items()}
    wanted |= fixed | {"events": set(lists["events"]), "types of inputs": set(lists["input types"]), "shells": set(lists["shells"]),
                       "permissions": {*lists["permission scopes"], *lists["permission values"]}, "kinds of actions": set(lists["using"]),
                       "contexts": set(lists["contexts"]), "functions": set(lists["functions"])}
    for heading, found in wanted.items():
        said = set(table["meanings"].get(heading, ()))
        assert said == found, (heading, said ^ found)
    assert set(table["meanings"]) - set(wanted) == {"runners", "schedules", "properties of a step", "properties of a job that is needed"}


@CASES.case
def shapes_are_known(program: str) -> None:
    """Each shape that a shape refers to exists, and the sections are those of docs/LISTS.md and the unchecked ones."""
    shapes = syntax.table()["shapes"]
    for name, shape in shapes.items():
        below = [shape["items"], shape["free"], *(row["shape"] for row in shape.get("keys", {}).values())]
        assert all(one is None or one in shapes for one in below), (name, below)
    page = (TOP / "docs/LISTS.md").read_text(encoding="utf-8")
    rows = {}
    for section, keys in SECTION_ROW.findall(page[page.index("| Section |"):].split("\n\n", 1)[0]):
        rows[section] = {key for line in keys.split("<br>") for key in re.findall(r"`([^`]+)`", line.partition(": ")[0])}
    known = {shape["section"]: set(shape["keys"]) for shape in shapes.values() if shape.get("section")}
    assert len(rows) >= 20 and all(rows[section] - {"uses"} == known[section] - {"uses"} for section in rows), rows


if __name__ == "__main__":
    sys.exit(CASES.run(sys.argv[1:]))
