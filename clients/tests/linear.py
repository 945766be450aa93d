#!/usr/bin/env python3
"""The server's work is linear in what it is sent: calls, reports, buffers, ranges and quick fixes, also for hostile files. Nothing is timed
here; the work is counted. bench/clients.py has the times.

    linear.py PROGRAM [NAME...]
"""
from __future__ import annotations

import os
import random
import shutil
import sys
import tempfile
from typing import Any
from pathlib import Path
from unittest import mock

from cases import Cases
from editor import memory
from promises import end, script, start
from readers import reader
from repositories import ACTION, CALLED, FILE, FILES, RIGHT, UNDEFINED, WORKFLOWS, WRONG, reported, write

from actionlint_client import disk, facts, folder as following, positions
from actionlint_client.diagnostics import Diagnostics
from actionlint_client.faults import Fault
from actionlint_client.files import may_call
from actionlint_client.folder import REASONS, REPORTS_TOO_MUCH, Folder, Program
from actionlint_client.program import find_facts
from actionlint_client.repository import Repository
from actionlint_client.workspace import Workspace

CASES = Cases("linear")
EVERYWHERE = {"start": {"line": 0, "character": 0}, "end": {"line": 1_000, "character": 0}}
HEAD = "on: push\njobs:\n  a:\n    runs-on: ubuntu-latest\n    steps:\n"
FOLDERS = ("a", "b", "d e", "é", ".github/x", "a/b")
# A workflow that calls another one.
CALL = "on: workflow_call\njobs: {a: {uses: ./.github/workflows/two.yml}}\n"
TWO_REQUIRED = "name: A\ndescription: d\ninputs:\n  who: {required: true}\n  what: {required: true}\nruns: {using: node20, main: m.js}\n"
# Values of `uses`, and the folders of the actions that they name.
USES: dict[str, list[str] | None] = {
    "./a": ["a"], "./a/": ["a"], "'./a'": ["a"], '"./a"': ["a"], '"\\x2e/a"': ["a"], '"./\\\n          a"': ["a"], "./a # ./b": ["a"],
    "|-\n          ./a": ["a"], "\n          ./a": ["a"], "./d e": ["d e"], "&x ./a": ["a"], "./é": ["é"], "./": [""],
    "'./a\n          b'": ["a b"], "./a, ./b": ["a, ./b"], "././a": [], "./a//b": [], "./../a": [], ".//a": [], "/a": [], "a": [],
    "./a\\b": [], '"./a\\tb"': [], "./${{ github.ref }}": [], "[./a]": [], "{./a: 1}": [], "!x ./a": None, "*y": None,
    "&x.y ./a": ["a"], "&é ./a": ["a"], "./a\n\t\n": ["a"], "./a # \u2028": ["a"],
}
NO_CALLS = (
    "      - run: |\n          uses: ./a\n          - uses: ./a\n", "      # - uses: ./a\n", "      - name: 'uses: ./a'\n",
    "      - run: x\n        with:\n          uses: ./a\n", "      - run: x\n        env: {uses: ./a}\n",
)


@CASES.case
def what_a_file_calls(_: str) -> None:
    """The candidates are those of the linter: the calls of steps, however they are written, and nothing that only looks like one."""
    for value, folders in USES.items():
        data = f"{HEAD}      - uses: {value}\n".encode()
        found = reader().calls(FILE, data)
        expected = folders and {f"{folder}/{name}".lstrip("/") for folder in folders for name in ("action.yml", "action.yaml")}
        assert found == (None if folders is None else frozenset(expected or ())), (value, found)
        assert may_call(data) or not folders, value
    for text in NO_CALLS:
        assert reader().calls(FILE, (HEAD + text).encode()) == frozenset(), text
    composite = "name: A\nruns:\n  using: {}\n  steps:\n    - uses: ./b\n"
    assert len(reader().calls(ACTION, composite.format("composite").encode()) or ()) == 2
    for path, using in ((ACTION, "node20"), (FILE, "composite")):
        assert reader().calls(path, composite.format(using).encode()) == frozenset(), path
    for text in ("uses: [", "a: b\n---\nuses: c\n", "? [uses]\n: a\n", "&a uses: b\n", "uses: " + "[" * 65 + "]" * 65, "uses: \t- a: [",
                 "uses: " + "[" * 500_000, "- " * 500_000 + "uses"):
        assert reader().calls(FILE, text.encode()) is None, text[:40]
    assert reader().calls(FILE, b"uses: \xff") is None


@CASES.case
def one_text_at_a_time(_: str) -> None:
    """What was read before has no part in an answer, whatever its path, and what can't be given has none."""
    text = f"{HEAD}      - uses: ./a\n".encode()
    both, others = frozenset({"a/action.yml", "a/action.yaml"}), frozenset({"b/action.yml", "b/action.yaml"})
    assert reader().calls(CALLED, text) == both and reader().calls(FILE, text.replace(b"./a", b"./b")) == others
    assert reader().calls("a/action.yml", b"name: a\n# uses\n") == frozenset() and reader().calls(FILE, text) == both
    for path, data in ((FILE, text + b"#" * 1_048_576), ("b.yml", text), ("a\\b/action.yml", text), ("d/" * 600 + "action.yml", text)):
        assert reader().calls(path, data) is None and reader().tree(path, data) is None and not reader().expressions(path, data), path
    assert reader().calls(FILE, text) == both


def random_steps(chance: random.Random) -> str:
    steps = []
    for _ in range(chance.randrange(1, 5)):
        value = chance.choice([one for one in USES if one != "*y"])
        other = f"./{chance.choice(FOLDERS)}"
        steps.append(chance.choice([
            f"      - uses: {value}\n", f"      - name: x\n        uses: {other}\n        with:\n          uses: ./b\n",
            f"      - {{uses: '{other}'}}\n", f"      - &s{chance.randrange(2)}\n        uses: {other}\n",
            f"      - *s{chance.randrange(2)}\n", *NO_CALLS]))
    text = HEAD + "".join(steps)
    # The two readers of YAML differ here only in the names of anchors.
    if chance.random() < 0.5 or "&" in text or "*" in text:
        return text
    at = chance.randrange(len(text))
    return text[:at] + chance.choice("-:'\"[{ \n") + text[at + chance.randrange(2):]


@CASES.case
def calls_by_chance(program: str) -> None:
    """In random files, the called actions that exist are those that the linter lints as well."""
    chance = random.Random(7)
    with tempfile.TemporaryDirectory(prefix="actionlint-test-") as root:
        actions = {f"{folder}/{name}" for folder in FOLDERS for name in ("action.yml", "action.yaml")} | {"action.yml"}
        write(root, {path: "name: A\n" for path in actions})
        called = 0
        for number in range(300):
            text = random_steps(chance)
            write(root, {FILE: text})
            linted = {fault[0] for fault in reported(program, os.fsencode(root))} - {FILE}
            found = (reader().calls(FILE, text.encode()) or frozenset()) & actions
            assert found == linted, (number, text, found, linted)
            called += len(found)
    assert called > 100


@CASES.case
def texts_that_look_like_calls(program: str) -> None:
    """A script of 368 KB that is full of `./` costs no more memory than another one."""
    for piece in ("./ ", "./a,", "uses: ./a'"):
        text = HEAD + "      - run: |\n          uses " + piece * (368_000 // len(piece)) + "\n"
        editor = start(program, {FILE: text})
        editor.open(FILE, text)
        editor.change(FILE, text + "#\n")
        editor.settle()
        assert editor.diagnostics() == {} and memory(editor.child.pid, "VmHWM") < 64 * 1_024, memory(editor.child.pid, "VmHWM")
        end(editor)


class Silent:
    """An editor that ignores everything."""

    def watches(self) -> bool:
        return True

    def publish(self, *_) -> None:
        pass

    def say(self, *_) -> None:
        pass


@CASES.case
def many_buffers(program: str) -> None:
    """However many buffers are opened, changed and closed in a burst, the disk is scanned once."""
    paths = [f"{WORKFLOWS}{number:03}.yml" for number in range(200)]
    root = tempfile.mkdtemp(prefix="actionlint-test-")
    write(root, {path: RIGHT for path in paths})
    looks = []
    rescan = disk.Disk.rescan
    disk.Disk.rescan = lambda one: [looks.append(1), rescan(one)][-1]
    try:
        linter = Program([program], 20.0)
        silent: Any = Silent()
        workspace = Workspace(lambda root: Repository(root, Folder(root, linter, print), True), silent, Diagnostics(None))
        for doing in (lambda uri: workspace.open(uri, 1, WRONG.encode()), lambda uri: workspace.change(uri, 2, RIGHT.encode()),
                      lambda uri: workspace.rescan(), workspace.close):
            looks.clear()
            for path in paths:
                doing(f"file://{root}/{path}")
            assert not looks
            workspace.refresh()
            assert len(looks) <= 1
        workspace.end()
    finally:
        disk.Disk.rescan = rescan
    shutil.rmtree(root)


@CASES.case
def bursts(program: str) -> None:
    """Many edits that arrive together are sent at once."""
    folder = tempfile.mkdtemp(prefix="actionlint-test-")
    log = folder + "/log"
    editor = start(script(folder, f'#!/bin/sh\ntee -a "{log}" | "{find_facts(program)}"\n'), FILES)
    editor.open(FILE, WRONG)
    editor.settle()
    before = Path(log).read_text(encoding="utf-8").count("\ncycles\n")
    for number in range(100):
        editor.change(FILE, WRONG + "#" * number + "\n", held=number < 99)
    editor.settle()
    assert Path(log).read_text(encoding="utf-8").count("\ncycles\n") - before < 10
    assert editor.texts(FILE) == [UNDEFINED]
    end(editor)
    shutil.rmtree(folder)


@CASES.case
def fixes_of_many_faults(program: str) -> None:
    """Quick fixes over 400 faults start one more linter besides that of the folder, and those of the first faults are offered."""
    folder = tempfile.mkdtemp(prefix="actionlint-test-")
    log = folder + "/log"
    text = HEAD + "".join(f"      - run: echo ${{{{ github.acto{number} }}}}\n" for number in range(400))
    editor = start(script(folder, f'#!/bin/sh\necho started >> "{log}"\nexec "{find_facts(program)}"\n'), {FILE: text})
    editor.open(FILE, text)
    editor.settle()
    assert len(editor.texts(FILE)) == 400
    found = editor.actions(FILE, EVERYWHERE)
    assert found and found[0]["title"] == 'change to "actor"', found[:1]
    assert Path(log).read_text(encoding="utf-8").count("started") == 2
    end(editor)
    shutil.rmtree(folder)


@CASES.case
def ranges_on_a_long_line(_: str) -> None:
    """Columns are those of a reader that counts from the start for each fault, and the line is scanned once."""
    chance = random.Random(3)
    text = "".join(chance.choice("aé\u2028\U0001F600 -") for _ in range(2_000))
    lines = positions.Lines(b"x\n" + text.encode(), True)
    positions._two_units.cache_clear()
    for _ in range(500):
        column, width = chance.randrange(1, 2_005), chance.randrange(5)
        found = lines.range_of(Fault("a", 2, column, "m", "k", width))
        units = [len(text[:before].encode("utf-16-le")) // 2 for before in (column - 1, column - 1 + width)]
        assert [found["start"]["character"], found["end"]["character"]] == units and found["start"]["line"] == 1
    assert positions._two_units.cache_info().misses == 1


@CASES.case
def many_missing_inputs(program: str) -> None:
    """600 calls that each lack 1,000 inputs: the first 1,000 faults are shown with the number of the others, and so are the other files'
    faults."""
    inputs = "".join(f"  i{number}: {{required: true}}\n" for number in range(1_000))
    calls = "".join(f"      - uses: ./a\n        with:\n          x{number}: 1\n" for number in range(600))
    texts = {FILE: WRONG, CALLED: HEAD + calls, ACTION: TWO_REQUIRED.replace("  who: {required: true}\n", inputs)}
    editor = start(program, texts, words=("--timeout", "300"))
    assert editor.texts(FILE) == [UNDEFINED] and not editor.messages, editor.messages
    shown = editor.texts(CALLED)
    # Each call lacks `what` too, and gives an input that isn't one.
    assert len(shown) == 1_001 and shown[-1] == f"{600 * 1_002 - 1_000} more faults in this file", shown[-1]
    assert memory(editor.child.pid, "VmHWM") < 128 * 1_024, "the server has held the whole report"
    editor.open(CALLED, FILES[CALLED])
    editor.settle()
    assert len(editor.texts(CALLED)) == 1_001 and editor.texts(FILE) == [UNDEFINED]
    end(editor)


@CASES.case
def a_report_that_is_too_long(program: str) -> None:
    """A file with too many faults is left out until it changes, with a message; the others are shown."""
    most = facts.MAX_FIRST_FAULTS_BYTES
    facts.MAX_FIRST_FAULTS_BYTES = 20_000
    root = tempfile.mkdtemp(prefix="actionlint-test-")
    write(root, {FILE: WRONG, CALLED: HEAD + "".join(f"      - run: echo ${{{{ github.a{number} }}}}\n" for number in range(1_000))})
    folder = Folder(os.fsencode(root), Program([program], 20.0), print)
    try:
        result = folder.refresh()
        assert set(result.faults) == {FILE} and result.refused == {CALLED: REASONS[REPORTS_TOO_MUCH]}, result.refused
        folder.edit(FILE, RIGHT.encode())
        assert folder.refresh().faults == {}
        folder.edit(CALLED, WRONG.encode())
        result = folder.refresh()
        assert len(result.faults[CALLED].faults) == 1 and result.refused == {}
    finally:
        facts.MAX_FIRST_FAULTS_BYTES = most
        folder.close()
    shutil.rmtree(root)


@CASES.case
def the_first_faults(program: str) -> None:
    """They are those of all, and the others are only counted."""
    one = facts.Facts([find_facts(program)], 20.0)
    for count in (0, 1, 2, 50):
        one.put(FILE, ("on: push\njobs: {}\n" + "".join(f"a{number}: 1\n" for number in range(count))).encode())
        found = one.faults(FILE)
        assert [fault["code"] for fault in found] == ["K1"] * count, found
        for most in (0, 1, 2, 60):
            assert one.first_faults(FILE, most) == (found[:most], max(count - most, 0)), (count, most)
    one.stop()


@CASES.case
def only_what_was_rechecked_is_asked(program: str) -> None:
    """Beside 300 files with a fault each, only the faults of the edited one are read, and of a call cycle those of its files. Those of all
    are read at once, if they aren't too long."""
    root = tempfile.mkdtemp(prefix="actionlint-test-")
    one, two = f"{WORKFLOWS}one.yml", f"{WORKFLOWS}two.yml"
    wrong = {f"{WORKFLOWS}{number:04}.yml": WRONG for number in range(300)}
    write(root, {**wrong, FILE: WRONG, one: CALL, two: CALL.replace("two", "three")})
    folder, asked = Folder(os.fsencode(root), Program([program], 20.0), print), []
    kind: Any = facts.Facts
    first_faults = kind.first_faults
    kind.first_faults = lambda this, path, most: (asked.append(path), first_faults(this, path, most))[1]
    try:
        first = folder.refresh().faults
        assert len(first) == 302 and not asked
        folder.close()
        with mock.patch.object(following, "MAX_REPORT_BYTES", 100):
            folder = Folder(os.fsencode(root), Program([program], 20.0), print)
            assert folder.refresh().faults == first and len(asked) == 303
        for path, text, paths in ((FILE, RIGHT, {FILE}), (FILE, RIGHT, set()), (FILE, WRONG, {FILE}),
                                  (two, CALL.replace("two", "one"), {one, two}), (two, RIGHT, {one, two})):
            asked.clear()
            folder.edit(path, text.encode())
            result = folder.refresh()
            assert set(asked) == paths and {FILE, *asked} >= result.changed, (path, asked, result.changed)
    finally:
        kind.first_faults = first_faults
        folder.close()
    shutil.rmtree(root)


if __name__ == "__main__":
    sys.exit(CASES.run(sys.argv[1:]))
