#!/usr/bin/env python3
"""Renaming: all places change, nothing else does, and no two things become one. Moving a called file changes its callers.

    renaming.py PROGRAM [NAME...]
"""
from __future__ import annotations

import os
import sys

from cases import Cases
from completion_folder import ACTION, CALLED, FOLDER, project_of
from editor import Editor
from navigation import SECONDS, point_in
from promises import end, start
from repositories import FILE, WORKFLOWS

from actionlint_client.folder import Program
from actionlint_client.renaming import Refusal, rename
from actionlint_client.repair import replaced
from actionlint_client.text import Point

CASES = Cases("renaming")
JOB = "    runs-on: u\n    steps: [{run: make}]\n"
FIRST = "on: push\njobs:\n  <>:\n" + JOB
# Texts in which each `<>` stands for a name, with the name's place in the first of them.
SAME = {
    "a job in brackets beside a text": FIRST + "  b:\n    needs: <>\n    if: needs['<>'].result == 'success'\n" + JOB,
    "a job in spaced brackets": FIRST + "  b:\n    needs: [ <> ]\n    if: needs [ '<>' ] . result == '<x>'\n" + JOB,
    "a job after a text and in other brackets":
        FIRST + "  b:\n    needs: <>\n"
        "    if: contains('x', 'y') && fromJSON('[1]')[0] && needs['<>']['result'] == 'b'\n" + JOB,
    "a job in single quotes":
        FIRST + "  b:\n    needs: '<>'\n"
        "    if: 'needs[''<>''].result == ''it'''' is'' && ''needs.x'' != needs.<>.result'\n" + JOB,
    "a job in single quotes after an apostrophe":
        FIRST + "  b:\n    needs: \"<>\"\n"
        "    name: 'it''s ${{ needs[''<>''].result }}'\n" + JOB,
    "a job after escapes": FIRST + "  b:\n    needs: <>\n    name: \"\\t\\\"\\n${{\\n needs.<>.result }}\"\n" + JOB,
    "a job beside braces in a text":
        FIRST + "  b:\n    needs: <>\n"
        "    name: ${{ format('{{}}', needs.<>.result) }} ${{ needs.<>.result }}\n" + JOB,
    "a job in parentheses": FIRST + "  b:\n    needs: <>\n    if: (needs).<>.result || !(needs.<>.result == 'x')\n" + JOB,
    "a row in brackets": "on: push\njobs:\n  b:\n    strategy: {matrix: {<>: [1, 2], include: [{<>: 3}], exclude: [{<>: 2}]}}\n"
                         "    runs-on: ${{ matrix['<>'] == 1 && 'a' || 'b' }}\n    steps: [{run: '${{ matrix[''<>''] }}'}]\n",
    "an input by its event": "on:\n  workflow_dispatch:\n    inputs:\n      <>: {type: string}\njobs:\n  b:\n    runs-on: u\n"
                             "    steps:\n      - run: ${{ github['event']['inputs']['<>'] }}\n"
                             "      - run: ${{ inputs['<>'] || github.event.inputs.<> }}\n",
    "a secret beside a text": "on:\n  workflow_call:\n    secrets:\n      <>: {required: true}\njobs:\n  b:\n    runs-on: u\n"
                              "    env: {A: \"${{ secrets['<>'] || 'none' }}\"}\n    steps: [{run: make}]\n",
    "a step in brackets": "on: push\njobs:\n  b:\n    runs-on: u\n    steps:\n      - id: <>\n        run: echo a=b >> $GITHUB_OUTPUT\n"
                          "      - if: steps['<>'].outputs['a'] == 'x' && steps['no'] != 1\n        run: make\n",
    "a job that an index names":
        FIRST + "  b:\n    needs: <>\n"
        "    strategy: {matrix: {k: [result]}}\n"
        "    name: ${{ needs.<>[matrix.k] }} ${{ matrix[needs['<>'].result] }}\n" + JOB,
}
TWO = "on: push\njobs:\n  one:\n    runs-on: u\n    steps:\n      - {id: p, run: make}\n      - {id: q, run: make}\n  two:\n" + JOB
ROWS = ("on: push\njobs:\n  a:\n    strategy: {matrix: {x: [1], include: [{y: 2}]}}\n    runs-on: ${{ matrix.x }}\n"
        "    steps: [{run: make}]\n")
ANCHORS = ("on: push\njobs:\n  a:\n    runs-on: u\n    env: &p {A: b}\n    steps:\n      - {run: x, env: *p}\n"
           "      - {run: x, env: &q {C: d}}\n")
DECLARED = ("on:\n  workflow_call:\n    inputs:\n      ver: {type: string}\n      Other: {type: string}\n"
            "    secrets:\n      key: {required: false}\n    outputs:\n      url: {value: a}\n      size: {value: b}\n"
            "jobs:\n  a:\n    runs-on: u\n"
            "    env: {A: '${{ secrets.ORG }}'}\n    steps: [{run: make}]\n")
ALIASED = ("on: push\njobs:\n  a:\n    runs-on: u\n    steps: [&s {id: p, run: make}]\n  b:\n    runs-on: u\n    steps:\n      - *s\n"
           "      - run: ${{ steps.p.outcome }}\n")
# What is refused: the text, the offset's sign before the name, the new name, and the reason.
REFUSED = {
    "another job": (TWO, "\n  ", "two", 'another job is named "two"'),
    "another job in another case": (TWO, "\n  ", "TWO", 'another job is named "TWO"'),
    "another step": (TWO, "{id: ", "q", 'another step is named "q"'),
    "a row that include adds": (ROWS, "matrix: {", "Y", 'another row of the matrix is named "Y"'),
    "a row that isn't one": (ROWS, "matrix: {", "include", "a meaning of its own"),
    "another anchor": (ANCHORS, "env: &", "q", 'another anchor is named "q"'),
    "another input in another case": (DECLARED, "inputs:\n      ", "other", 'another input is named "other"'),
    "a secret that isn't declared": (DECLARED, "secrets:\n      ", "org", 'another secret is named "org"'),
    "a secret that GitHub reserves": (DECLARED, "secrets:\n      ", "GitHub_Token", "a meaning of its own"),
    "another output": (DECLARED, "outputs:\n      ", "size", 'another output is named "size"'),
    "no name": (TWO, "\n  ", "a b", "is not a name"),
    "a number": (TWO, "\n  ", "1", "is not a name"),
    "null": (TWO, "\n  ", "null", "is not a text in YAML"),
    "null in capitals": (TWO, "{id: ", "NULL", "is not a text in YAML"),
    "true": (TWO, "{id: ", "True", "is not a text in YAML"),
    "false": (DECLARED, "inputs:\n      ", "false", "is not a text in YAML"),
    "a name that an alias hides": (ALIASED, "{id: ", "z", 'would have a fault: property "p" is not defined'),
    "nothing to be renamed": ("name: x\n" + TWO, "na", "y", "no name here"),
}
# Names that are free, although something is called so.
FREE = {
    "the same name in another case": (TWO, "\n  ", "ONE"),
    "the id of a step of another job": (TWO.replace("two:\n" + JOB, "two:\n    runs-on: u\n    steps: [{id: z, run: make}]\n"),
                                        "{id: ", "z"),
    "the name of something of another kind": (DECLARED, "inputs:\n      ", "size"),
    "an anchor in another case": (ANCHORS, "env: &", "Q"),
    "an anchor called null": (ANCHORS, "env: &", "null"),
    "a word that only begins like another": (TWO, "\n  ", "nulls"),
}


def point_after(text: str, sign: str) -> Point:
    before = text[:text.index(sign) + len(sign)]
    return Point(before.count("\n"), len(before) - before.rfind("\n") - 1)


def renamed(program: str, text: str, point: Point, name: str) -> str:
    """The text with the new name. Raises Refusal."""
    edits = rename(Program([program], SECONDS), project_of({FILE: text}), FILE, point, name)
    assert set(edits) == {FILE}
    return replaced(text, edits[FILE])


def taken(program: str, text: str, point: Point, name: str) -> str:
    """The text with a name that must not be refused."""
    try:
        return renamed(program, text, point, name)
    except Refusal as refusal:
        raise AssertionError(f"{name} is refused in\n{text}") from refusal


@CASES.case
def each_place(program: str) -> None:
    """All places that mean the name change, and none that only looks like one."""
    for what, text in SAME.items():
        old, new = text.replace("<>", "tests"), text.replace("<>", "check")
        found = taken(program, old, point_after(text, text[:text.index("<>")]), "check")
        assert found == new, (what, found)
        assert taken(program, new, point_after(text, text[:text.index("<>")]), "tests") == old, what


@CASES.case
def names_that_are_refused(program: str) -> None:
    for what, (text, sign, name, why) in REFUSED.items():
        try:
            found = renamed(program, text, point_after(text, sign), name)
        except Refusal as refusal:
            assert why in str(refusal), (what, refusal)
        else:
            raise AssertionError(f"{what}: {found}")


@CASES.case
def names_that_are_free(program: str) -> None:
    for what, (text, sign, name) in FREE.items():
        assert taken(program, text, point_after(text, sign), name) != text, what


@CASES.case
def in_callers(program: str) -> None:
    """A name of a called file changes in its callers."""
    edits = rename(Program([program], SECONDS), project_of(FOLDER), ACTION, Point(3, 3), "whom")
    assert set(edits) == {ACTION, FILE}
    assert "          whom: ${{ github.actor }}" in replaced(FOLDER[FILE], edits[FILE]).split("\n")


@CASES.case
def faults_that_were_there(program: str) -> None:
    """A fault whose message contains the name doesn't prevent a new one."""
    text = "on: push\njobs:\n  a:\n    needs: a\n    runs-on: u\n"
    assert renamed(program, text, Point(2, 2), "b") == text.replace(" a\n", " b\n").replace("  a:", "  b:")


@CASES.case
def versions(program: str) -> None:
    """The edits are for the versions of the open files, and without a version for the others, if the editor takes that."""
    point = point_in(FOLDER[ACTION], "  wh|o:")
    for takes in (False, True):
        capabilities = {"workspace": {"workspaceEdit": {"documentChanges": takes}}}
        editor = start(program, FOLDER, capabilities=capabilities)
        editor.open(ACTION, FOLDER[ACTION] + "#")
        editor.change(ACTION, FOLDER[ACTION])
        edit = editor.request("textDocument/rename", {"textDocument": {"uri": editor.uri(ACTION)}, "newName": "whom",
                                                      "position": {"line": point.line, "character": point.column}})["result"]
        if takes:
            found = {change["textDocument"]["uri"]: change["textDocument"]["version"] for change in edit["documentChanges"]}
            assert found == {editor.uri(ACTION): 2, editor.uri(FILE): None} and "changes" not in edit, edit
        else:
            assert "documentChanges" not in edit and set(edit["changes"]) == {editor.uri(ACTION), editor.uri(FILE)}, edit
        end(editor)


def moved(editor: Editor, old: str, new: str) -> dict[str, set[str]]:
    """The new texts of the callers by file, once the editor asks before it moves something."""
    new_uri = new if new.startswith("file:") else editor.uri(new)
    edit = editor.request("workspace/willRenameFiles", {"files": [{"oldUri": editor.uri(old), "newUri": new_uri}]})["result"]
    return {os.path.basename(uri): {change["newText"] for change in some} for uri, some in (edit or {"changes": {}})["changes"].items()}


@CASES.case
def moves(program: str) -> None:
    """The callers of a moved workflow or action call it at its new path, in the quotes that are there."""
    here = os.path.basename(FILE)
    editor = start(program, FOLDER)
    assert editor.hello["result"]["capabilities"]["workspace"]["fileOperations"]["willRename"]["filters"]
    assert moved(editor, CALLED, WORKFLOWS + "other.yml") == {here: {"./.github/workflows/other.yml"}}
    assert moved(editor, ACTION, "say/action.yml") == {here: {"./say"}}
    assert moved(editor, "greet", "tools/hello") == {here: {"./tools/hello"}}
    assert moved(editor, "greet", "tools/say it") == {here: {"'./tools/say it'"}}
    for old, new in ((FILE, WORKFLOWS + "b.yml"), ("docs", "doc"), ("greet", "file:///elsewhere/greet"), (ACTION, "greet/other.yml"),
                     (ACTION, "say/other.yml"), (ACTION, ACTION.replace(".yml", ".yaml")), (CALLED, "called.yml"), ("gree", "gre")):
        assert not moved(editor, old, new), (old, new)
    editor.open(FILE, FOLDER[FILE].replace("uses: ./greet", "uses: './greet'"))
    assert moved(editor, "greet", "it's") == {here: {"./it''s"}}
    end(editor)


if __name__ == "__main__":
    sys.exit(CASES.run(sys.argv[1:]))
