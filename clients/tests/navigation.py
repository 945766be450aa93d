#!/usr/bin/env python3
"""Definitions, references and renaming of names in a folder; the structure of a file; and hovering where there is no fault.

    navigation.py PROGRAM [NAME...]
"""
from __future__ import annotations

import os
import random
import sys
from typing import Any

from cases import Cases
from completion_folder import ACTION, CALLED, FOLDER, faults_after, project_of
from promises import end, start
from readers import Linter
from repositories import FILE

from actionlint_client.completion import offers
from actionlint_client.folder import Program
from actionlint_client.hover import explanation
from actionlint_client.references import all_of, occurrence_at, occurrences
from actionlint_client.renaming import rename
from actionlint_client.repair import replaced
from actionlint_client.structure import address_of, folds, links, part_of
from actionlint_client.text import Point

CASES = Cases("navigation")
SECONDS = 20.0
RENAMES = int(os.environ.get("RENAMES", "50"))
TEXTS = int(os.environ.get("TEXTS", "400"))
TYPED = "a:-'\"{[\t\n }])&*#!$=|é\u2028\x85"
# For each name, given by its line with a `|` in it, the lines of all its places: the file and the line's text, the definition first.
CALLS_PLAN = [(FILE, "plan:"), (FILE, "needs: [plan]"), (FILE, "if: ${{ github.event_name == 'push' && needs.plan.result == 'success' }}"),
              (FILE, "LIST: ${{ needs.plan.outputs.list }}"), (FILE, "needs: plan")]
STEP_TEXTS = "- run: echo ${{ steps.greet.outputs.text }} ${{ steps.list.conclusion }}"
NAMES = {
    "a job by needs": (FILE, "    needs: [pl|an]", CALLS_PLAN),
    "a job by its key": (FILE, "  pl|an:", CALLS_PLAN),
    "a step": (FILE, "      - id: li|st", [(FILE, "- id: list"), (FILE, "list: ${{ steps.list.outputs.names }}"),
                                           (FILE, "- if: steps.list.outcome == 'success' && always()"), (FILE, STEP_TEXTS)]),
    "an output of a job": (FILE, "      li|st: ${{ steps.list.outputs.names }}",
                           [(FILE, "list: ${{ steps.list.outputs.names }}"), (FILE, "LIST: ${{ needs.plan.outputs.list }}")]),
    "a row": (FILE, "        o|s: [ubuntu-latest, windows-latest]",
              [(FILE, "os: [ubuntu-latest, windows-latest]"), (FILE, "- os: windows-latest"), (FILE, "runs-on: ${{ matrix.os }}")]),
    "an input by hand": (FILE, "      le|vel:", [(FILE, "level:"), (FILE, "echo \"${{ inputs.level }}\"")]),
    "an input of an action": (FILE, "          w|ho: ${{ github.actor }}",
                              [(ACTION, "who:"), (ACTION, "run: echo \"text=${{ inputs.who }}\" >> \"$GITHUB_OUTPUT\""),
                               (FILE, "who: ${{ github.actor }}")]),
    "an output of an action": (FILE, "      " + STEP_TEXTS.replace("text", "te|xt"), [(ACTION, "text:"), (FILE, STEP_TEXTS)]),
    "an input of a workflow": (FILE, "      na|me: x", [(CALLED, "name: {type: string, required: true, description: Whom to greet.}"),
                                                        (CALLED, "x: ${{ inputs.name }}"), (FILE, "name: x")]),
    "a secret of a workflow": (FILE, "      tok|en: ${{ secrets.GITHUB_TOKEN }}",
                               [(CALLED, "token: {required: true}"), (FILE, "token: ${{ secrets.GITHUB_TOKEN }}")]),
    "an output of a job that is called": (CALLED, "      done: {value: '${{ jobs.a.outputs.|x }}'}",
                                          [(CALLED, "x: ${{ inputs.name }}"), (CALLED, "done: {value: '${{ jobs.a.outputs.x }}'}")]),
}
HOVERED = {
    "    runs-|on: ubuntu-latest": ("`runs-on`", "The runner"),
    "  pus|h:": ("`push`", "Commits or tags are pushed."),
    "    types: [opened, clo|sed]": ("`closed`: activity type", ""),
    "  contents: re|ad": ("`read`", "The token can read."),
    "  iss|ues: write": ("`issues`", "Issues."),
    "run-name: Build of ${{ git|hub.actor }}": ("`github`: context", "The run and the event that started it."),
    "run-name: Build of ${{ github.act|or }}": ("`actor`: string", "Who started the first run."),
    "      - if: steps.list.out|come == 'success' && always()": ("`outcome`", "before `continue-on-error`"),
    "      - if: steps.list.outcome == 'success' && alw|ays()": ("`always()` gives bool", "True"),
    "      - run: echo ${{ contai|ns(github.ref, 'x') }} ${{ runner.os }} ${{ hashFiles('a') }}":
        ("`contains(any but object, any but object and array)` gives bool", "Whether a string contains another one"),
    "          wh|o: ${{ github.actor }}": ("`who`", "Whom to greet."),
    "        uses: ./gre|et": ("`./greet`: action", "Says hello."),
    "        she|ll: bash": ("`shell`: text", "The shell of the script"),
    "        shell: ba|sh": ("`bash`: shell", "Bash"),
    "          echo \"${{ inputs.lev|el }}\"": ("`level`: input, choice, required", ""),
}


def point_in(text: str, marked: str) -> Point:
    """The point at the `|` of a line of a text."""
    line = marked.replace("|", "", 1)
    return Point(text.split("\n").index(line), marked.index("|"))


@CASES.case
def places(program: str) -> None:
    """All places of a name, in the file that declares it and in its callers."""
    project = project_of(FOLDER)
    for what, (file, marked, wanted) in NAMES.items():
        found = occurrence_at(project, file, point_in(FOLDER[file], marked))
        assert found, what
        places_found = [(one.file, FOLDER[one.file].split("\n")[one.span.start.line].strip()) for one in all_of(project, found.symbol)]
        count = sum(one.is_definition for one in all_of(project, found.symbol))
        assert count >= 1 and places_found[:1] == wanted[:1] and sorted(places_found) == sorted(wanted), (what, places_found)
        for one in all_of(project, found.symbol):
            line = FOLDER[one.file].split("\n")[one.span.start.line]
            assert line[one.span.start.column:one.span.end.column].lower() == found.symbol.name, (what, one)


@CASES.case
def anchors(program: str) -> None:
    """An alias refers to the last anchor of its name, and quotes and anchors aren't part of a name."""
    text = ("on: push\nenv: &e\n  A: b\njobs:\n  'a':\n    env: *e\n    runs-on: u\n"
            "  b:\n    needs: &n \"a\"\n    env: &e {C: d}\n    runs-on: u\n"
            "  c:\n    env: *e\n    needs: *n\n  d:\n    env: # &e *n\n      *e\n")
    project = project_of({FILE: text})
    spelled = [text.split("\n")[one.span.start.line][one.span.start.column:one.span.end.column] for one in occurrences(project, FILE)]
    assert sorted(spelled) == ["a", "a", "b", "c", "d", "e", "e", "e", "e", "e", "n", "n"], spelled
    for line, column in ((12, 10), (16, 7)):
        found = occurrence_at(project, FILE, Point(line, column))
        assert [one.span.start.line for one in all_of(project, found.symbol)] == [9, 12, 16]
    found = occurrence_at(project, FILE, Point(5, 10))
    assert [one.span.start.line for one in all_of(project, found.symbol)] == [1, 5]


@CASES.case
def names_in_texts(program: str) -> None:
    """A string in an expression has no names, except in square brackets, where it is one."""
    text = "on: push\njobs:\n  a:\n    runs-on: u\n    steps:\n      - id: s\n        run: make\n"
    text += "      - if: contains('a steps.s b', steps['s'].outcome)\n"
    project = project_of({FILE: text})
    found = occurrence_at(project, FILE, Point(5, 12))
    assert [one.span.start for one in all_of(project, found.symbol)] == [Point(5, 12), Point(7, 43)]


@CASES.case
def what_the_linter_reads(program: str) -> None:
    """Names are found in texts that few other readers of YAML read, at their places."""
    head = "on: push\njobs:\n  a:\n    runs-on: u\n    steps: [{run: make}]\n"
    for what, text in (("tabs on an empty line", head + "\t \t\n  b:\n    needs: a\n"),
                       ("a tab before the end", head + "  b:\n    needs: a\n\t"),
                       ("a dot in an anchor", head + "  b: &b.c\n    needs: a\n  c: *b.c\n"),
                       ("a letter in an anchor", head + "  b:\n    needs: &é a\n  c: {needs: *é}\n"),
                       ("other line breaks", head + "  # x\u2028y\x85\n  b:\n    name: a\u2029b\n    needs: a\n")):
        project = project_of({FILE: text})
        row = next(number for number, line in enumerate(text.split("\n")) if "needs:" in line)
        column = text.split("\n")[row].rindex("a")
        found = occurrence_at(project, FILE, Point(row, column))
        assert found and [one.span.start for one in all_of(project, found.symbol)] == [Point(2, 2), Point(row, column)], (what, found)


@CASES.case
def random_renames(program: str) -> None:
    """Any name in a folder without faults gets a new one, and the linter finds no fault; with the old name again everything is as
    before."""
    chance = random.Random(int(os.environ.get("SEED", "1")))
    linter = Linter(program, FOLDER)
    asked_linter = Program([program], SECONDS)
    project = project_of(FOLDER)
    everything = [one for file in FOLDER for one in occurrences(project, file) if one.symbol.kind != "file"]
    count = 0
    for one in chance.sample(everything, min(RENAMES, len(everything))):
        if not any(other.is_definition for other in all_of(project, one.symbol)):
            continue
        count += 1
        texts = dict(FOLDER)
        for path, edits in rename(asked_linter, project, one.file, one.span.start, "new_name").items():
            texts[path] = replaced(texts[path], edits)
        assert texts != FOLDER
        for path, text in texts.items():
            faults_after(linter, path, text)
        assert not any(faults_after(linter, path, text) for path, text in texts.items()), (one, texts)
        back = project_of(texts)
        moved = next(other for file in texts for other in occurrences(back, file) if other.symbol.name == "new_name")
        for path, edits in rename(asked_linter, back, moved.file, moved.span.start, one.symbol.name).items():
            texts[path] = replaced(texts[path], edits)
        assert texts == FOLDER, one
    assert count > 20


@CASES.case
def meanings(program: str) -> None:
    """For each name under the cursor, what it is and what it means."""
    project = project_of(FOLDER)
    for marked, (head, text) in HOVERED.items():
        found = explanation(project, FILE, point_in(FOLDER[FILE], marked))
        assert found and found[1].startswith(head) and text in found[1], (marked, found)
    assert explanation(project, FILE, point_in(FOLDER[FILE], "        name: Li|st")) is None
    for event, marked in (("issues", "    bran|ches: [a]"), ("push", "    ty|pes: [a]")):
        text = f"on:\n  {event}:\n" + marked.replace("|", "")
        found = explanation(project_of({FILE: text}), FILE, point_in(text, marked))
        assert found and "start the workflow" in found[1], "also of what completion doesn't offer"


@CASES.case
def parts(program: str) -> None:
    project = project_of(FOLDER)
    part = part_of(project, FILE)
    assert part.name == "Build" and [job.name for job in part.parts] == ["plan", "test", "call"]
    assert [step.name for step in part.parts[0].parts] == ["actions/checkout@v4", "List", "greet", "echo ${{ steps.greet.outputs.text }} "
                                                           "${{ steps.list.conclusion }}"]
    for one in (part, *part.parts, *part.parts[0].parts):
        assert one.span.start <= one.naming.start <= one.naming.end <= one.span.end, one
    assert [step.name for step in part_of(project, ACTION).parts] == ["say", "echo ${{ steps.say.outputs.text }}"]
    assert part_of(project_of({FILE: "a: ["}), FILE) is None
    found = {link.file or link.address for link in links(project, FILE)}
    assert found == {"https://github.com/actions/checkout/tree/v4", ACTION, CALLED}, found
    assert address_of("o/r/.github/workflows/x.yml@v1") == "https://github.com/o/r/blob/v1/.github/workflows/x.yml"
    assert address_of("docker://x") is None and address_of("./x") is None and address_of("o@v") is None
    aliased = "on: push\njobs:\n  a: &x\n    runs-on: u\n    steps: &s [{run: make}]\n  b: *x\n  c:\n    runs-on: u\n    steps: *s\n"
    assert [(job.name, len(job.parts)) for job in part_of(project_of({FILE: aliased}), FILE).parts] == [("a", 1), ("b", 0), ("c", 0)]
    lines = FOLDER[FILE].split("\n")
    spans = {(lines[first], lines[last]) for first, last in folds(project, FILE)}
    assert ("  plan:", "        continue-on-error: true") in spans and ("      - id: list", "        shell: bash") in spans, spans
    assert ("permissions:", "  issues: write") in spans


@CASES.case
def random_texts(program: str) -> None:
    """For texts with random changes, every request is answered at random places, with places inside the text."""
    chance = random.Random(int(os.environ.get("SEED", "1")))
    for _ in range(TEXTS):
        file = chance.choice(list(FOLDER))
        text = FOLDER[file]
        for _ in range(chance.randrange(1, 6)):
            at = chance.randrange(len(text) + 1)
            typed = "".join(chance.choice(TYPED) for _ in range(chance.randrange(3)))
            text = text[:at] + typed + text[at + chance.randrange(12):]
        project = project_of({**FOLDER, file: text})
        lines = project.lines(file)
        row = chance.randrange(len(lines))
        point = Point(row, chance.randrange(len(lines[row]) + 1))
        span, _ = offers(project, file, point)
        spans = [span, *(one.span for one in occurrences(project, file)), *(link.span for link in links(project, file))]
        explained = explanation(project, file, point)
        spans += [explained[0]] if explained else []
        part = part_of(project, file)
        spans += [one for each in ((part, *part.parts, *(step for job in part.parts for step in job.parts)) if part else ())
                  for one in (each.span, each.naming)]
        for one in spans:
            assert one.start <= one.end and one.end.line < len(lines) and one.end.column <= len(lines[one.end.line]), (text, one)
        assert all(0 <= first < last < len(lines) for first, last in folds(project, file)), text


@CASES.case
def by_the_protocol(program: str) -> None:
    """The same through an editor's requests, with columns in UTF-16 units."""
    text = FOLDER[FILE].replace("          echo \"${{ inputs.level }}\"", "          echo \"\U0001F600 ${{ inputs.level }}\"")
    editor = start(program, {**FOLDER, FILE: text})
    editor.open(FILE, text)
    row = next(number for number, line in enumerate(text.split("\n")) if "\U0001F600" in line)
    position: dict[str, Any] = {"textDocument": {"uri": editor.uri(FILE)}, "position": {"line": row, "character": 35}}
    found = editor.request("textDocument/definition", position)["result"]
    where = {"start": {"line": 12, "character": 6}, "end": {"line": 12, "character": 11}}
    assert found == [{"uri": editor.uri(FILE), "range": where}], found
    found = editor.request("textDocument/references", {**position, "context": {"includeDeclaration": False}})["result"]
    assert [place["range"]["start"] for place in found] == [{"line": row, "character": 30}], found
    assert len(editor.request("textDocument/documentHighlight", position)["result"]) == 2
    assert editor.request("textDocument/prepareRename", position)["result"]["placeholder"] == "level"
    edit = editor.request("textDocument/rename", {**position, "newName": "height"})["result"]
    assert len(edit["changes"][editor.uri(FILE)]) == 2
    answer = editor.request("textDocument/rename", {**position, "newName": "a b"})
    assert "is not a name" in answer["error"]["message"]
    found = editor.request("textDocument/completion", position)["result"]["items"]
    assert [item["label"] for item in found] == ["level"] and found[0]["textEdit"]["range"]["start"] == {"line": row, "character": 30}
    (symbol,) = editor.request("textDocument/documentSymbol", {"textDocument": {"uri": editor.uri(FILE)}})["result"]
    assert [child["name"] for child in symbol["children"]] == ["plan", "test", "call"]
    names = [one["name"] for one in editor.request("workspace/symbol", {"query": "CALL"})["result"]]
    assert names == ["call", "Called"], names
    targets = [link["target"] for link in editor.request("textDocument/documentLink",
                                                         {"textDocument": {"uri": editor.uri(FILE)}})["result"]]
    assert editor.uri(ACTION) in targets and editor.uri(CALLED) in targets
    assert editor.request("textDocument/foldingRange", {"textDocument": {"uri": editor.uri(FILE)}})["result"]
    for method in ("definition", "references", "documentHighlight", "documentSymbol", "documentLink", "foldingRange", "completion",
                   "rename"):
        unknown = {"textDocument": {"uri": "file:///nowhere"}, "position": {"line": 0, "character": 0}, "newName": "x"}
        assert not editor.request(f"textDocument/{method}", unknown)["result"], method
    end(editor)


if __name__ == "__main__":
    sys.exit(CASES.run(sys.argv[1:]))
