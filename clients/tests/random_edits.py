#!/usr/bin/env python3
"""Random edits of buffers and of the disk through the language server, including completions and renamings. After each burst, the editor
shows what the linter reports for the folder with the unsaved buffers in place of the saved files.

    random_edits.py PROGRAM [EDITS [SEED [BURST]]]      up to BURST edits (1) are sent before the next comparison
"""
from __future__ import annotations

import os
import random
import re
import shutil
import sys
import tempfile
import time
from collections import Counter

from cases import exit_status, report
from editor import Editor
from repositories import CLIENTS, LINE_BREAK, WORKFLOWS, in_characters, reported

sys.path.insert(0, str(CLIENTS))
from actionlint_client.characters import shown

ACTION = """name: {name}
description: d
inputs:
  who:
    required: {required}
  {extra}: {{}}
outputs:
  out:
    value: ${{{{ inputs.{extra} }}}}
runs:
  using: composite
  steps:
    - run: echo ${{{{ inputs.who }}}}
      shell: {shell}
    {call}
"""
CALLER = """# {comment}
on: {on}
jobs:
  a:
    runs-on: ubuntu-latest
    steps:
      - uses: {step}
        id: s
        with:
          {key}: {value}
      - run: "echo {emoji} ${{{{ steps.s.outputs.{out} }}}}"
  b:
    needs: {needs}
    uses: {job}
    with:
      x: 1
"""
CALLED = """on:
  workflow_call:
    inputs:
      {name}:
        type: {kind}
        required: {required}
jobs:
  c:
    runs-on: ${{{{ inputs.{name} }}}}
    steps:
      - run: echo ${{{{ github.{property} }}}}
"""
FOLDERS = ["a", "b", "deep/c", ".github/actions/d", "my action", "é"]
WORKFLOW_PATHS = [WORKFLOWS + name for name in ("a.yml", "b.yaml", "c.yml", "call.yml", "ü 1.yml")]
PATHS = WORKFLOW_PATHS + [f"{folder}/{name}" for folder in FOLDERS for name in ("action.yml", "action.yaml")] + ["action.yml"]
OTHERS = ["notes.yml", WORKFLOWS + "deep/x.yml"]
FIRST_FILES = 9
WORD = re.compile(r"[\w-]+")
RENAMED = re.compile(r"\b(?:who|more|less|out|x|y|a|b|s)\b(?=:|[ }]|$)", re.M)
# Also what readers of YAML take differently: line breaks of other versions, marks, names of anchors, single pairs, further documents.
TYPED = (*"a:-'\"{[\t\n é\U0001F600\x07&*#", "\x85", "\u2028", "\u2029", "\ufeff", "\r", "\n\t \n", "&b.c ", "*b.c", "&é ", "*é", "[a: b]",
         "\n---\n", "!x ", "\t#")


class Texts:
    """Random texts of files."""

    def __init__(self, chance: random.Random):
        self.chance = chance

    def new(self, path: str) -> str:
        if not path.startswith(WORKFLOWS):
            text = self._action()
        elif self.chance.random() < 0.4:
            text = self._called()
        else:
            text = self._caller()
        return text if self.chance.random() < 0.8 else text.replace("\n", self.chance.choice(["\r\n", "\r"]))

    def _action(self) -> str:
        pick = self.chance.choice
        return ACTION.format(name=pick(["A", "B"]), required=pick(["true", "false"]), extra=pick(["more", "less"]),
                             shell=pick(["bash", "fish"]), call=pick(["", "", f"- uses: ./{pick(FOLDERS)}"]))

    def _called(self) -> str:
        pick = self.chance.choice
        return CALLED.format(name=pick(["x", "y"]), kind=pick(["string", "number", "text"]), required=pick(["true", "false"]),
                             property=pick(["ref", "reff"]))

    def _caller(self) -> str:
        pick = self.chance.choice
        return CALLER.format(
            comment=pick(["x", "uses: ./b"]), on=pick(["push", "pussh"]),
            step=pick(["./", f"./{pick(FOLDERS)}", f"'./{pick(FOLDERS)}/'", "actions/checkout@v4"]),
            key=pick(["who", "more", "\U0001F600"]), value=pick(["1", "${{ github.x }}"]),
            emoji=pick(["", "é", "\U0001F600\U0001F600"]), out=pick(["out", "outt"]), needs=pick(["a", "b", "c"]),
            job="./" + WORKFLOWS + pick(["call.yml", "c.yml", "none.yml", "ü 1.yml"]))

    def edited(self, text: str) -> str:
        """What a person types: a few characters, or a line, are added or removed."""
        at = self.chance.randrange(len(text) + 1)
        kind = self.chance.randrange(5)
        if kind == 0:
            return text[:at] + self.chance.choice(TYPED) + text[at:]
        if kind == 1:
            return text[:at] + text[at + self.chance.randrange(1, 8):]
        lines = text.split("\n")
        where = self.chance.randrange(len(lines))
        if kind == 2:
            del lines[where]
        elif kind == 3:
            lines.insert(where, self.chance.choice(["", "# c", "name: x", "  a: 1"]))
        else:
            lines[where] = lines[where].replace("a", "b", 1)
        return "\n".join(lines)


class World:
    """A folder on disk, an editor of it, and a mirror that also has the unsaved texts."""

    def __init__(self, program: str, seed: int):
        self.chance = random.Random(seed)
        self.texts = Texts(self.chance)
        self.program = program
        self.root = tempfile.mkdtemp(prefix="actionlint-test-").encode() + b"/r\xe9po"
        self.mirror = self.root + b"-mirror"
        for top in (self.root, self.mirror):
            os.makedirs(os.path.join(top, WORKFLOWS.encode()))
        self.disk: dict[str, str] = {}
        self.buffers: dict[str, str] = {}
        for path in PATHS[:FIRST_FILES] + OTHERS:
            self.write(path, self.texts.new(path))
        self.editor = Editor(program, self.root, words=("--no-earlier-faults",))

    def write(self, path: str, text: str | None) -> None:
        """Writes a file on disk, or deletes it."""
        _write(self.root, path, text)
        self.disk.pop(path, None)
        if text is not None:
            self.disk[path] = text
        self.reflect(path)

    def reflect(self, path: str) -> None:
        _write(self.mirror, path, self.buffers.get(path, self.disk.get(path)))

    def step(self) -> str:
        """Makes one edit; returns what it was."""
        path = self.chance.choice(PATHS + OTHERS)
        if self.buffers and self.chance.random() < 0.6:
            path = self.chance.choice(sorted(self.buffers))
        if path in self.buffers:
            return self._edit_buffer(path)
        if path in self.disk and self.chance.random() < 0.6:
            self.buffers[path] = self.disk[path]
            self.editor.open(path, self.disk[path])
            return f"open {path}"
        return self._edit_disk(path)

    def _edit_buffer(self, path: str) -> str:
        kind = self.chance.randrange(12)
        if kind < 7:
            self._change(path, self.texts.new(path) if kind == 0 else self.texts.edited(self.buffers[path]))
            return f"change {path}"
        if kind == 7:
            self.write(path, self.buffers[path])
            self.editor.touched(path)
            self.editor.save(path)
            return f"save {path}"
        if kind == 8:
            return self._complete(path)
        if kind == 9:
            return self._rename(path)
        del self.buffers[path]
        self.editor.close(path)
        self.reflect(path)
        return f"close {path}"

    def _change(self, path: str, text: str) -> None:
        self.buffers[path] = text
        self.editor.change(path, text)
        self.reflect(path)

    def _complete(self, path: str) -> str:
        """Inserts something that is offered at a place of a buffer."""
        answer = self.editor.request("textDocument/completion", self._place(path))
        found = (answer["result"] or {}).get("items")
        if found:
            self._change(path, applied(self.buffers[path], [self.chance.choice(found)["textEdit"]]))
        return f"complete {path}"

    def _rename(self, path: str) -> str:
        """Renames what a name in a buffer refers to, also in files that aren't open, unless that is refused."""
        name = self.chance.choice(["more", "new_name", "a b"])
        answer = self.editor.request("textDocument/rename", {**self._place(path, RENAMED), "newName": name})
        changes = (answer.get("result") or {}).get("changes") or {}
        assert not (changes and name == "a b"), answer
        by_uri = {self.editor.uri(file): file for file in {*self.buffers, *self.disk}}
        for uri, edits in changes.items():
            file = by_uri[uri]
            if file in self.buffers:
                self._change(file, applied(self.buffers[file], edits))
            else:
                self.write(file, applied(self.disk[file], edits))
                self.editor.touched(file)
        return f"{'rename-name' if changes else 'refuse-name'} {path}"

    def _place(self, path: str, pattern: re.Pattern = WORD) -> dict:
        """A place in a word of a buffer, or its start if it has none."""
        words = list(pattern.finditer(self.buffers[path]))
        at = self.chance.choice(words).start() + self.chance.randrange(2) if words else 0
        before = LINE_BREAK.split(self.buffers[path][:at])
        return {"textDocument": {"uri": self.editor.uri(path)},
                "position": {"line": len(before) - 1, "character": len(before[-1].encode("utf-16-le")) // 2}}

    def _edit_disk(self, path: str) -> str:
        kind = self.chance.randrange(4)
        if kind == 0:
            self.write(path, None)
            self.editor.touched(path, kind=3)
            return f"delete {path}"
        if kind == 1 and path in self.disk:
            other = self.chance.choice([it for it in PATHS if (it in WORKFLOW_PATHS) == (path in WORKFLOW_PATHS)])
            text = self.disk[path]
            self.write(path, None)
            self.write(other, text)
            self.editor.touched(path, kind=3)
            self.editor.touched(other, kind=1)
            return f"rename {path} to {other}"
        self.write(path, self.texts.edited(self.disk[path]) if kind == 2 and path in self.disk else self.texts.new(path))
        self.editor.touched(path)
        return f"write {path}"

    def compare(self, told: str) -> int:
        """Returns how many faults are shown; ends the test if they differ from the linter's after an edit."""
        expected = set(reported(self.program, self.mirror))
        found = in_characters(self.editor.diagnostics(), {**self.disk, **self.buffers})
        # Open files and what they call are shown too.
        open_files = {path for path in self.buffers if path not in OTHERS}
        if open_files:
            expected |= set(reported(self.program, self.mirror, sorted(open_files)))
        # Messages name characters that can't be seen.
        expected = {(path, line, column, shown(message)) for path, line, column, message in expected}
        if sorted(found) != sorted(expected):
            print(f"  after {told}: only shown: {sorted(set(found) - expected)}; only expected: {sorted(expected - set(found))}; "
                  f"told: {self.editor.messages[-3:]}")
            raise SystemExit(1)
        return len(found)


def applied(text: str, edits: list[dict]) -> str:
    """A text after an editor's edits, which don't overlap."""
    starts = [0, *(match.end() for match in LINE_BREAK.finditer(text))]

    def offset(position: dict) -> int:
        line = LINE_BREAK.split(text[starts[position["line"]]:], 1)[0]
        return starts[position["line"]] + len(line.encode("utf-16-le")[:2 * position["character"]].decode("utf-16-le"))
    for start, end, new in sorted(((offset(edit["range"]["start"]), offset(edit["range"]["end"]), edit["newText"]) for edit in edits),
                                  reverse=True):
        text = text[:start] + new + text[end:]
    return text


def _write(top: bytes, path: str, text: str | None) -> None:
    whole = os.path.join(top, path.encode())
    if text is not None:
        os.makedirs(os.path.dirname(whole), exist_ok=True)
        with open(whole, "wb") as opened:
            opened.write(text.encode())
    elif os.path.exists(whole):
        os.remove(whole)


def main(words: list[str]) -> int:
    program, (edits, seed, burst) = os.path.abspath(words[0]), [int(word) for word in words[1:] + ["2000", "1", "1"][len(words) - 1:]]
    world, kinds, begun = World(program, seed), Counter(), time.monotonic()
    faults = compared = 0
    world.editor.settle()
    for number in range(edits):
        told = world.step()
        kinds[told.split()[0]] += 1
        if number < edits - 1 and world.chance.randrange(burst):
            continue
        world.editor.settle()
        faults += world.compare(f"edit {number}, {told}")
        compared += 1
    right = world.editor.quit() == 0 and faults > 0 and not world.editor.messages
    found = f"{dict(kinds)}; {world.editor.publications} publications; told: {world.editor.messages}"
    seconds = time.monotonic() - begun
    report(f"clients-random-edits-{edits}-{seed}-{burst}", f"0 comparisons={compared} faults={faults} seconds={seconds:.0f}",
           [] if right else [found])
    shutil.rmtree(os.path.dirname(world.root))
    return exit_status()


if __name__ == "__main__":
    sys.exit(main(sys.argv[1:]))
