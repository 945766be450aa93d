#!/usr/bin/env python3
"""Hovering over a fault shows its entry; a quick fix inserts the similar name, and the linter then has one fault less.

    hover_and_fixes.py PROGRAM [NAME...]
"""
from __future__ import annotations

import json
import sys

from cases import Cases
from promises import end, start
from repositories import CLIENTS, FILE, FILES, RIGHT, WRONG

CASES = Cases("hover")
TABLE = {row["code"]: row for row in json.loads((CLIENTS / "actionlint_client/faults.json").read_text(encoding="utf-8"))}
DOCS = "https://example.org/docs"
STEP = "jobs:\n  a:\n    runs-on: ubuntu-latest\n    steps:\n      - run: echo {}\n"
EVERYWHERE = {"start": {"line": 0, "character": 0}, "end": {"line": 100, "character": 0}}
# Files with one fault, the name that replaces the wrong one, and the resulting line.
FIXED = {
    "event": ("on: pussh\njobs: {}\n", "push", "on: push"),
    "quoted event": ("on: ['pussh', \"pull-request\"]\njobs: {}\n", "push", "on: ['push', \"pull-request\"]"),
    "double quotes": ('on: "pull-request"\njobs: {}\n', "pull_request", 'on: "pull_request"'),
    "activity type": ("on:\n  issues:\n    types: [opened, close]\njobs: {}\n", "closed", "    types: [opened, closed]"),
    "key": ("name: x\non: push\njob: {}\njobs: {}\n", None, None),
    "key of a step": ("on: push\n" + STEP.format("a") + "        shel: bash\n", "shell", "        shell: bash"),
    "key of a job": ("on: push\njobs:\n  a:\n    runs_on: u\n    steps: []\n", "runs-on", "    runs-on: u"),
    "context": ("on: push\n" + STEP.format("${{ gihub.sha }}"), "github", "      - run: echo ${{ github.sha }}"),
    "function": ("on: push\n" + STEP.format("${{ startWith('ab', 'a') }}"), "startsWith", "      - run: echo ${{ startsWith('ab', 'a') }}"),
    "property": ("on: push\n" + STEP.format("${{ github.acto }}"), "actor", "      - run: echo ${{ github.actor }}"),
    "property in brackets": ("on: push\n" + STEP.format("${{ github['acto'] }}"), "actor", "      - run: echo ${{ github['actor'] }}"),
    "after two units": ("on: push\n" + STEP.format("\U0001F600 ${{ github.acto }}"), "actor",
                        "      - run: echo \U0001F600 ${{ github.actor }}"),
    "shell": ("on: push\n" + STEP.format("a") + "        shell: bsh\n", "bash", "        shell: bash"),
    "permission scope": ("on: push\npermissions:\n  content: read\njobs: {}\n", "contents", "  contents: read"),
    "permission value": ("on: push\npermissions:\n  contents: reed\njobs: {}\n", "read", "  contents: read"),
    "input type": ("on:\n  workflow_dispatch:\n    inputs:\n      a:\n        type: bool\njobs: {}\n", "boolean", "        type: boolean"),
    "escape": ("on: \"pus\\x73h\"\njobs: {}\n", "push", "on: \"push\""),
    "far from all": ("on: zzzzzz\njobs: {}\n", None, None),
    "no fault": (RIGHT, None, None),
}
# Those whose name isn't a slip of it alone.
GUESSES = ("input type", "permission value")


@CASES.case
def an_entry(program: str) -> None:
    """The entry of the fault under the cursor, up to its last character, with links to the page; not elsewhere."""
    editor = start(program, FILES, words=("--docs", DOCS))
    editor.open(FILE, WRONG)
    entry = TABLE["X13"]
    for character in (29, 31, 33):
        shown = editor.hover(FILE, 5, character)
        assert shown["contents"]["kind"] == "markdown"
        assert shown["range"] == {"start": {"line": 5, "character": 29}, "end": {"line": 5, "character": 33}}, shown
        text = shown["contents"]["value"]
        assert text.startswith('**X13** `property "reff" is not defined`\n\n' + entry["text"]), text
        assert text.endswith(f"\n\n[FAULTS-EXPRESSIONS.md]({DOCS}/FAULTS-EXPRESSIONS.md#x13-property-0-is-not-defined)"), text
        assert f"\n\n*Why it matters*: {entry['why'].split(' [')[0]}" in text and entry["why"], text
        assert f"\n\n*Repair*: {entry['repair'].split(' [')[0].split(' (')[0]}" in text and entry["repair"], text
        assert "](LISTS.md" not in text
    for line, character in ((5, 28), (5, 34), (4, 30), (0, 0), (9, 0)):
        shown = editor.hover(FILE, line, character)
        assert shown is None or "X13" not in shown["contents"]["value"], (line, character)
    editor.change(FILE, RIGHT)
    assert "X13" not in editor.hover(FILE, 5, 31)["contents"]["value"], "the entry of a fault that is gone"
    end(editor)


@CASES.case
def two_entries_and_plain_text(program: str) -> None:
    """Faults at one place are shown one below the other; an editor that doesn't accept Markdown gets plain text."""
    editor = start(program, {FILE: "name: x\n"}, capabilities={"textDocument": {"hover": {"contentFormat": ["plaintext"]}}})
    editor.open(FILE, "nam: x\n")
    shown = editor.hover(FILE, 0, 0)
    assert shown["contents"]["kind"] == "plaintext"
    text = shown["contents"]["value"]
    assert text.startswith('**K2** `key "jobs" is missing`, `key "on" is missing`\n\n'), text
    assert text.count('**K1** `unexpected key "nam"`\n\n') == 1 and text.count("\n\n---\n\n") == 1, text
    editor.change(FILE, '"[a](b)": x\n')
    assert '**K1** `unexpected key "[a](b)"`\n\n' in editor.hover(FILE, 0, 0)["contents"]["value"]
    editor.change(FILE, '"a`b``c": x\n')
    assert '**K1** ``` unexpected key "a`b``c" ```\n\n' in editor.hover(FILE, 0, 0)["contents"]["value"]
    assert editor.request("textDocument/hover", {"textDocument": {"uri": "file:///nowhere"},
                                                 "position": {"line": 0, "character": 0}})["result"] is None
    end(editor)


@CASES.case
def fixes(program: str) -> None:
    """For each list of names one that is nearly right; after the fix the fault is gone and there is no new one."""
    editor = start(program, {FILE: RIGHT})
    editor.open(FILE, RIGHT)
    for what, (text, name, line) in FIXED.items():
        editor.change(FILE, text)
        found = editor.actions(FILE, EVERYWHERE)
        titles = [one["title"] for one in found]
        if name is None:
            assert not any(title.startswith("change to") for title in titles), (what, titles)
            continue
        title = f'change to "{name}"'
        assert title in titles, (what, titles, editor.texts(FILE))
        action = found[titles.index(title)]
        assert action["isPreferred"] == (what not in GUESSES), what
        (diagnostic,) = action["diagnostics"]
        assert diagnostic in editor.diagnostics()[FILE] and action["kind"] == "quickfix"
        ((uri, (edit,)),) = action["edit"]["changes"].items()
        assert uri == editor.uri(FILE) and edit["range"] == diagnostic["range"]
        before = editor.texts(FILE)
        fixed = applied(text, edit)
        assert line in fixed.split("\n"), (what, fixed)
        editor.change(FILE, fixed)
        editor.settle()
        assert set(editor.texts(FILE)) < set(before) and diagnostic["message"] not in editor.texts(FILE), (what, editor.texts(FILE))
    end(editor)


@CASES.case
def where_fixes_are_asked_for(program: str) -> None:
    """Fixes are for the faults in the range, in the current text, and of the requested kinds."""
    editor = start(program, {FILE: RIGHT})
    editor.open(FILE, "on: pussh\njobs: {}\n")
    here = {"start": {"line": 0, "character": 5}, "end": {"line": 0, "character": 5}}
    there = {"start": {"line": 1, "character": 0}, "end": {"line": 1, "character": 0}}
    assert editor.actions(FILE, here) and not editor.actions(FILE, there)
    assert editor.actions(FILE, here, only=["quickfix"]) and not editor.actions(FILE, here, only=["refactor"])
    # repeated, since a server that answers for the old text may become idle, and right, between the two messages of one write
    for _ in range(50):
        editor.change(FILE, "\non: pussh\njobs: {}\n", held=True)
        assert not editor.actions(FILE, here), "the text is another one now"
        editor.change(FILE, "on: pussh\njobs: {}\n", held=True)
        assert editor.actions(FILE, here), "the text is the first one again"
    for text in ("on: " + "p" * 200 + "\njobs: {}\n", "#" * 1_048_577):
        editor.change(FILE, text)
        assert not editor.actions(FILE, EVERYWHERE), text[:50]
    end(editor)


def applied(text: str, edit: dict) -> str:
    """A text after an edit on one line, whose columns are UTF-16 units."""
    lines = text.split("\n")
    start_at, end_at = edit["range"]["start"], edit["range"]["end"]
    assert start_at["line"] == end_at["line"]
    units = lines[start_at["line"]].encode("utf-16-le")
    changed = units[: 2 * start_at["character"]] + edit["newText"].encode("utf-16-le") + units[2 * end_at["character"]:]
    lines[start_at["line"]] = changed.decode("utf-16-le")
    return "\n".join(lines)


if __name__ == "__main__":
    sys.exit(CASES.run(sys.argv[1:]))
