#!/usr/bin/env python3
"""While a buffer isn't valid YAML, the faults on its other lines stay; and the severity of each fault.

    earlier.py PROGRAM [NAME...]
"""
from __future__ import annotations

import sys

from cases import Cases
from promises import end, start
from repositories import ACTION, CALLED, FILE, FILES

from actionlint_client.faults import Fault, FileFaults
from actionlint_client.problems import ERROR as ERROR_LEVEL, WARNING as WARNING_LEVEL, level_of
from actionlint_client.repository import Earlier

CASES = Cases("earlier")
ERROR, WARNING = 1, 2
MARK = " (of the last text that was YAML)"
STEP = "      - run: echo ${{{{ github.{} }}}}\n"
PROPERTIES = [f"p{number}" for number in range(11)]
TEXT = "on: push\njobs:\n  a:\n    runs-on: ubuntu-latest\n    steps:\n" + "".join(map(STEP.format, PROPERTIES))
FIRST_STEP = 5


def undefined(number: int) -> str:
    return f'property "{PROPERTIES[number]}" is not defined [expression]'


def shown(editor, path: str = FILE) -> list[tuple[int, str]]:
    """The line and the message of each diagnostic."""
    return sorted((one["range"]["start"]["line"], one["message"]) for one in editor.diagnostics().get(path, []))


@CASES.case
def a_key_without_its_colon(program: str) -> None:
    """The ten faults on other lines stay and are marked, at their current places, and hovering explains them."""
    editor = start(program, {FILE: TEXT})
    editor.open(FILE, TEXT)
    editor.settle()
    good = shown(editor)
    assert good == [(FIRST_STEP + number, undefined(number)) for number in range(11)]
    lines = TEXT.split("\n")
    for typed in ("    na", "    name"):
        editor.change(FILE, "\n".join(lines[:3] + [typed] + lines[3:]))
        editor.settle()
        found = shown(editor)
        # What was typed goes on to the next line, whose colon is one too many.
        assert len(found) == 12 and [line for line, message in found if not message.endswith(MARK)] == [4], found
        assert [one for one in found if one[0] != 4] == [(line + 1, message + MARK) for line, message in good], found
    one = next(one for one in editor.diagnostics()[FILE] if one["range"]["start"]["line"] == FIRST_STEP + 1)
    assert one["data"] == {"kind": "expression", "earlier": True} and one["range"]["start"]["character"] == 29, one
    assert "X13" in editor.hover(FILE, FIRST_STEP + 1, 29)["contents"]["value"]
    editor.change(FILE, "\n".join(lines[:3] + ["    name: x"] + lines[3:]))
    editor.settle()
    assert shown(editor) == [(line + 1, message) for line, message in good]
    end(editor)


@CASES.case
def the_line_of_the_fault(program: str) -> None:
    """Faults on the invalid line, or on one that has changed since, aren't shown; once it is valid YAML again, everything is as
    reported."""
    editor = start(program, {FILE: TEXT})
    editor.open(FILE, TEXT)
    broken = TEXT.replace(STEP.format("p3"), STEP.format("p3").replace("run:", "'run:"))
    editor.change(FILE, broken)
    editor.settle()
    found = shown(editor)
    assert [message for _, message in found if not message.endswith(MARK)] == ["quoted text is not closed [syntax-check]"], found
    rest = [undefined(number) + MARK for number in range(11) if number != 3]
    assert [message for _, message in found if message.endswith(MARK)] == rest, found
    editor.change(FILE, broken.replace(STEP.format("p7"), STEP.format("ref")))
    editor.settle()
    rest = [undefined(number) + MARK for number in range(11) if number not in (3, 7)]
    assert [message for _, message in shown(editor) if message.endswith(MARK)] == rest, "two changed lines, and those between them stay"
    editor.change(FILE, TEXT.replace(STEP.format("p7"), STEP.format("ref")))
    editor.settle()
    assert [message for _, message in shown(editor)] == [undefined(number) for number in range(11) if number != 7]
    machine = TEXT.replace("ubuntu-latest", "${{ github.q }}")
    editor.change(FILE, machine)
    editor.settle()
    assert shown(editor)[0] == (3, 'property "q" is not defined [expression]') and len(shown(editor)) == 12, shown(editor)
    editor.change(FILE, machine.replace("    runs-on", "    na\n    runs-on"))
    editor.settle()
    assert shown(editor)[0] == (4, "unexpected character [syntax-check]") and len(shown(editor)) == 12, "its line has another one now"
    editor.change(FILE, "")
    editor.settle()
    assert [message for _, message in shown(editor)] == ["file is empty [syntax-check]"], "an empty file is none that isn't YAML"
    end(editor)


@CASES.case
def what_it_calls_stays(program: str) -> None:
    """The faults of an action that a buffer calls don't come and go while the buffer isn't valid YAML."""
    editor = start(program, {**FILES, ACTION: "name: A\n"})
    editor.open(CALLED, FILES[CALLED])
    editor.settle()
    faults = shown(editor, ACTION)
    assert len(faults) == 2
    editor.change(CALLED, FILES[CALLED] + "  b\n")
    editor.settle()
    assert shown(editor, ACTION) == faults and len(shown(editor, CALLED)) == 1
    end(editor)


@CASES.case
def switched_off(program: str) -> None:
    """With the option only what the linter reports is shown: the one fault."""
    editor = start(program, {**FILES, ACTION: "name: A\n", CALLED: FILES[CALLED] + STEP.format("p0")}, words=("--no-earlier-faults",))
    editor.open(CALLED, FILES[CALLED] + STEP.format("p0"))
    editor.settle()
    assert len(shown(editor, CALLED)) == 1 and len(shown(editor, ACTION)) == 2
    editor.change(CALLED, FILES[CALLED] + STEP.format("p0") + "  b\n")
    editor.settle()
    assert len(shown(editor, CALLED)) == 1 and MARK not in shown(editor, CALLED)[0][1] and shown(editor, ACTION) == []
    end(editor)


@CASES.case
def opened_as_no_yaml(program: str) -> None:
    """A file that isn't valid YAML when opened has the faults of the saved file on the lines that both share, until it is closed."""
    editor = start(program, {FILE: TEXT})
    editor.open(FILE, TEXT + "  b\n")
    editor.settle()
    assert len(shown(editor)) == 12 and sum(message.endswith(MARK) for _, message in shown(editor)) == 11, shown(editor)
    editor.change(FILE, "a: [")
    editor.settle()
    assert [message for _, message in shown(editor)] == ["flow collection is not closed [syntax-check]"]
    editor.close(FILE)
    editor.settle()
    assert [message for _, message in shown(editor)] == [undefined(number) for number in range(11)]
    end(editor)


@CASES.case
def where_lines_go(_: str) -> None:
    """Faults move with their lines, whatever the line breaks; those of changed lines disappear."""
    found = FileFaults(tuple(Fault("a", line, 1, "m", "k", 1) for line in (1, 2, 3, 4, 5)), 7)
    for before, after, lines in (
            (b"a\nb\nc\nd\ne", b"a\nb\nc\nd\ne", [1, 2, 3, 4, 5]),
            (b"a\nb\nc\nd\ne", b"x\na\nb\nc\nd\ne", [2, 3, 4, 5, 6]),
            (b"a\nb\nc\nd\ne", b"a\nb\nx\ny\nd\ne", [1, 2, 5, 6]),
            (b"a\r\nb\rc\nd\ne", b"a\r\nb\re", [1, 2, 3]),
            (b"a\nb\nc\nd\ne", b"", []),
            (b"a\na\na\na\na", b"a\na\na", [1, 2, 3]),
            (b"a\nb\nc\nd\ne", b"e\nd\nc\nb\na", [])):
        moved = Earlier(before, found).in_text(after)
        assert [fault.line for fault in moved.found.faults] == lines and moved.found.more == 7, (before, after, moved)


@CASES.case
def severities(program: str) -> None:
    """What breaks a run is an error; what GitHub only warns of, a warning."""
    commands = {"set-output": WARNING, "save-state": WARNING, "set-env": ERROR, "add-path": ERROR}
    script = "".join(f"      - run: echo '::{command}{' name=x' * (command != 'add-path')}::y'\n" for command in commands)
    calls = "      - uses: ./a\n        with: {x: 1}\n  b:\n    uses: ./.github/workflows/b.yml\n    with: {y: 1}\n"
    called = {"a/action.yml": "name: A\ndescription: d\nruns: {using: node20, main: m.js}\n",
              ".github/workflows/b.yml": "on: workflow_call\njobs: {}\n"}
    editor = start(program, {FILE: TEXT + script + calls, **called})
    found = {one["message"]: one["severity"] for one in editor.diagnostics()[FILE]}
    for command, severity in commands.items():
        assert found[f'command "{command}" is deprecated [deprecated-commands]'] == severity, found
    assert all(found[undefined(number)] == ERROR for number in range(11)), found
    assert found['input "x" is not defined in "A" [action]'] == WARNING, found
    assert found['input "y" is not defined in "./.github/workflows/b.yml" [workflow-call]'] == ERROR, found
    levels = {key: level_of("K2", Fault("a/action.yml", 1, 1, f'key "{key}" is missing', "syntax-check", 1, "K2", (key,)))
              for key in ("description", "runs")}
    assert levels == {"description": WARNING_LEVEL, "runs": ERROR_LEVEL}, levels
    assert level_of("X13", Fault("a", 1, 1, 'property "set-output" is not defined', "expression", 1, "X13", ("set-output",))) == ERROR_LEVEL
    end(editor)


if __name__ == "__main__":
    sys.exit(CASES.run(sys.argv[1:]))
