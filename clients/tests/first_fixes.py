#!/usr/bin/env python3
"""The fix that a report shows beside a fault is the first one that the language server offers for it, in each form.

    first_fixes.py PROGRAM [NAME...]
"""
from __future__ import annotations

import json
import os
import sys
import tempfile
from unittest import mock

from cases import Cases
from editor import Editor
from report_runs import run_report
from repositories import FILE, FILES, TOP, WORKFLOWS, reported, write

from actionlint_client import advice, fixes
from actionlint_client.advice import FirstFixes
from actionlint_client.faults import Fault
from actionlint_client.problems import problem_of

CASES = Cases("first-fixes")
ON, HEAD = "on: push\n", "jobs:\n  a:\n    runs-on: ubuntu-latest\n"
STEPS = ON + HEAD + "    steps:\n"
# Files with a name that is wrong, and like a name of another place: the right name, or None, and the name that isn't offered.
OF_ANOTHER_PLACE = {
    STEPS + "      - run: make\n        runs-on: x\n": (None, "runs"),
    "on: {pull_request: {types: [publish]}}\n" + HEAD + "    steps: []\n": (None, "published"),
    ON + "permissions: {contents: readall}\n" + HEAD + "    steps: []\n": ("read", "read-all"),
    STEPS + "      - id: states\n        run: make\n      - run: echo ${{ steps.state.outcome }}\n": ("states", "status"),
    STEPS + "      - run: echo ${{ steps.late }}\n": (None, "state"),
    ON + HEAD + "    strategy: {matrix: {title: [a]}}\n    steps:\n      - run: echo ${{ matrix.name_x }}\n": (None, "name"),
    ON + HEAD + "    strategy: {matrix: {target: [{os: a}]}}\n    steps:\n      - run: echo ${{ matrix.target.toolchain }}\n":
        (None, "tool_cache"),
    ON + HEAD + "    strategy: {matrix: {version: [1]}}\n    steps:\n      - run: echo ${{ matrix.versoin }}\n": ("version", "name"),
}
# Faults of many kinds, with and without fixes.
TEXTS = {
    WORKFLOWS + "a.yml": STEPS + "      - run: echo ${{ github.reff }} ${{ matrix.os }} ${{ steps.x.outputs.y }}\n        shel: bash\n",
    WORKFLOWS + "b.yml": "on: [pussh, {x: y}]\npermissions: {content: read}\njobs:\n  a b: {runs_on: x, steps: [], needs: c}\n",
    WORKFLOWS + "c.yml": "on: push\njobs:\n  a:\n    runs-on:x\n    steps: []\n",
    WORKFLOWS + "d.yml": STEPS + "      - uses: ./act\n        with: {whom: x}\n      - uses: actions/checkout\n"
    "      - {run: 'echo ::set-output name=a::b'}\n",
    WORKFLOWS + "e.yml": ON + HEAD + "    if: github.ref = 'a' && always\n    steps: [{name: x}]\n    zzzz: 1\n",
    "act/action.yml": "name: A\ndescription: d\ninputs: {who: {required: true}}\nruns: {using: node2, main: m.js}\n",
}


def report(program: str, folder: str, form: str, *words: str) -> str:
    status, said, errors = run_report(program, folder, "--form", form, *words)
    assert status in (0, 1), errors
    return said


def faults(program: str, folder: str, *words: str) -> list[dict]:
    return [json.loads(line) for line in report(program, folder, "jsonl", *words).splitlines()]


def offered(editor: Editor, path: str, text: str) -> dict[tuple, tuple]:
    """By the place and the message of each fault of a file, the title of the first fix that the server offers, and whether it is safe."""
    found: dict[tuple, tuple] = {}
    editor.open(path, text)
    editor.settle()
    for one in editor.diagnostics().get(path, []):
        actions = [each for each in editor.actions(path, one["range"]) if each["diagnostics"][0]["message"] == one["message"]]
        start = one["range"]["start"]
        key = path, start["line"] + 1, start["character"] + 1, one["message"]
        found[key] = (actions[0]["title"], actions[0].get("isPreferred", False)) if actions else (None, None)
    editor.close(path)
    return found


@CASES.case
def as_in_the_editor(program: str) -> None:
    """For each fault of files of many kinds, the title and whether it is safe."""
    with tempfile.TemporaryDirectory(prefix="actionlint-test-") as folder:
        write(folder, TEXTS)
        editor = Editor(program, os.fsencode(folder), capabilities={"workspace": {"workspaceEdit": {
            "documentChanges": True, "resourceOperations": ["create"]}}})
        expected = {key: fix for path, text in TEXTS.items() for key, fix in offered(editor, path, text).items()}
        assert editor.quit() == 0
        found = {(one["path"], one["line"], one["column"], f"{one['message']} [{one['kind']}]"): (one["fix"], one["fix_is_safe"])
                 for one in faults(program, folder)}
        assert found == expected, [(key, found.get(key), expected.get(key)) for key in {*found, *expected}
                                   if found.get(key) != expected.get(key)]
        titles = [title for title, _ in found.values()]
        assert len(found) > 15 and 3 <= titles.count(None) < len(found) - 8, titles


@CASES.case
def in_each_form(program: str) -> None:
    """The title in the words of the form; only the form `oneline` is that of the linter."""
    (one,) = (one for one in faults(program, str(TOP / "examples/broken")) if one["code"] == "X13")
    assert (one["fix"], one["fix_is_safe"]) == ('change to "version"', True), one
    said = {form: report(program, str(TOP / "examples/broken"), form) for form in ("text", "github", "codequality", "sarif", "oneline")}
    assert '\n  Fix: change to "version"\n' in said["text"] and '\n  Guess: add "channel' in said["text"]
    assert '[expression]%0AFix: change to "version"%0A' in said["github"]
    bodies = [each.get("content", {}).get("body", "") for each in json.loads(said["codequality"])]
    assert bodies[3].startswith('Fix: change to "version"\n\nTo read'), bodies
    results = json.loads(said["sarif"])["runs"][0]["results"]
    (fix,) = results[3]["fixes"]
    assert fix == {"description": {"text": 'change to "version"'}, "artifactChanges": [{
        "artifactLocation": {"uri": WORKFLOWS + "release.yml", "uriBaseId": "%SRCROOT%"},
        "replacements": [{"deletedRegion": {"startLine": 20, "startColumn": 30, "endLine": 20, "endColumn": 37},
                          "insertedContent": {"text": "version"}}]}]}, fix
    assert said["oneline"].splitlines() == [f"{path}:{line}:{column}: {message}" for path, line, column, message in reported(
        program, os.fsencode(TOP / "examples/broken"))]


@CASES.case
def names_of_other_places(program: str) -> None:
    """No name of another section, event or context is offered; the right one is, if there is one."""
    with tempfile.TemporaryDirectory(prefix="actionlint-test-") as folder:
        for text, (right, wrong) in OF_ANOTHER_PLACE.items():
            write(folder, {FILE: text})
            shown = report(program, folder, "text")
            assert "did you mean" not in shown and f'change to "{wrong}"' not in shown, shown
            assert (right is None) == ("change to" not in shown) and (right is None or f': change to "{right}"\n' in shown), shown


@CASES.case
def an_edit_of_sarif(program: str) -> None:
    """After the edits of a fix the file has one fault less."""
    text = FILES[FILE].replace("echo", "echo \U0001F600é")
    with tempfile.TemporaryDirectory(prefix="actionlint-test-") as folder:
        write(folder, {FILE: text})
        (result,) = json.loads(report(program, folder, "sarif"))["runs"][0]["results"]
        (change,) = result["fixes"][0]["artifactChanges"]
        (replacement,) = change["replacements"]
        region, lines = replacement["deletedRegion"], text.split("\n")
        line = lines[region["startLine"] - 1]
        lines[region["startLine"] - 1] = (line[:region["startColumn"] - 1] + replacement["insertedContent"]["text"]
                                          + line[region["endColumn"] - 1:])
        assert "\n".join(lines) == text.replace("reff", "ref")
        write(folder, {FILE: "\n".join(lines)})
        assert faults(program, folder) == []


@CASES.case
def files_that_are_named(program: str) -> None:
    """An action that nothing calls has fixes too, but none that breaks a named file, which no workflow calls."""
    broken = "name: A\ndescription: d\ninpts: {who: {required: true}}\nruns: {using: node20, main: m.js}\n"
    caller = "name: A\ndescription: d\nruns: {using: composite, steps: [{uses: ./y}]}\n"
    with tempfile.TemporaryDirectory(prefix="actionlint-test-") as folder:
        write(folder, {"x/action.yml": "name: A\ndescription: d\ninput: {}\nruns: {using: node20, main: m.js}\n"})
        assert [one["fix"] for one in faults(program, folder, "--", "x/action.yml")] == ['change to "inputs"']
        write(folder, {"x/action.yml": caller, "y/action.yml": broken})
        assert [one["fix"] for one in faults(program, folder, "--", "y/action.yml")] == ['change to "inputs"']
        (one,) = faults(program, folder, "--", "./x/action.yml")
        assert one["path"] == "y/action.yml" and one["fix"] != 'change to "inputs"', one


@CASES.case
def a_new_file(program: str) -> None:
    """SARIF can't say that a file is made, so it has no such fix; nor is one made by --fix."""
    with tempfile.TemporaryDirectory(prefix="actionlint-test-") as folder:
        write(folder, {FILE: ON + "jobs: {a: {uses: ./.github/workflows/zz.yml}}\n"})
        (one,) = faults(program, folder)
        assert one["fix"] == 'create the file ".github/workflows/zz.yml"' and not one["fix_is_safe"], one
        assert "fixes" not in json.loads(report(program, folder, "sarif"))["runs"][0]["results"][0]
        report(program, folder, "text", "--fix", "--guesses")
        assert os.listdir(folder + "/.github/workflows") == ["a.yml"]


@CASES.case
def a_repair_that_fails(program: str) -> None:
    """The faults are reported without fixes."""
    fails = mock.patch.object(fixes, "fixes", side_effect=AssertionError("x"))
    with tempfile.TemporaryDirectory(prefix="actionlint-test-") as folder, fails:
        write(folder, {FILE: FILES[FILE]})
        problem = problem_of(Fault(FILE, 6, 30, 'property "reff" is not defined', "expression", 4, "X13", ("reff",)))
        assert list(FirstFixes(program, folder, []).add_to([problem])) == [problem]


@CASES.case
def how_many(program: str) -> None:
    """The first 20 faults of a file have fixes, and the first 200 of a report; all are reported."""
    steps = "".join("      - run: echo ${{ github.reff }}\n" for _ in range(22))
    with tempfile.TemporaryDirectory(prefix="actionlint-test-") as folder:
        write(folder, {f"{WORKFLOWS}{number:02}.yml": STEPS + steps for number in range(11)})
        found = faults(program, folder)
        assert [one["fix"] for one in found] == (['change to "ref"'] * 20 + [None] * 2) * 10 + [None] * 22


@CASES.case
def how_long(program: str) -> None:
    """Without time that is left, faults are reported without fixes."""
    with tempfile.TemporaryDirectory(prefix="actionlint-test-") as folder:
        write(folder, {FILE: FILES[FILE], f"{WORKFLOWS}other.yml": FILES[FILE]})
        problems = [problem_of(Fault(path, 6, 30, 'property "reff" is not defined', "expression", 4, "X13", ("reff",), ("github",)))
                    for path in (FILE, f"{WORKFLOWS}other.yml")]
        for seconds, expected in ((60.0, 2), (1e-9, 1), (0.0, 0)):
            with mock.patch.object(advice, "SECONDS_OF_A_REPORT", seconds):
                found = list(FirstFixes(program, folder, []).add_to(problems))
            assert len(found) == 2 and sum(problem.fix is not None for problem in found) == expected, (seconds, found)


if __name__ == "__main__":
    sys.exit(CASES.run(sys.argv[1:]))
