#!/usr/bin/env python3
"""The limits of the language server: the processor time of a request, and what it holds of the files of a folder.

    limits.py PROGRAM [NAME...]
"""
from __future__ import annotations

import os
import signal
import sys
import tempfile
import threading
import time
from pathlib import Path
from typing import Any

from cases import Cases
from completion_folder import project_of
from editor import Editor, linters
from promises import end, start
from readers import reader
from repositories import CALLED, CLIENTS, FILE, FILES, RIGHT, UNDEFINED, WORKFLOWS, WRONG, write

from actionlint_client.child import LinterEnded
from actionlint_client.diagnostics import Diagnostics
from actionlint_client.facts import Facts
from actionlint_client.folder import Folder, Program
from actionlint_client.limit import LIMIT, TimeLimit, TooSlow
from actionlint_client.program import find_facts
from actionlint_client.project import MAX_HELD, Project
from actionlint_client.references import callers, occurrences
from actionlint_client.repository import Repository
from actionlint_client.structure import parts_with
from actionlint_client.tree import Node

CASES = Cases("limits")
TOO_LONG = "actionlint: not answered, since it takes too long"
# A server with a function that doesn't end for a long time.
SERVER = """import sys
import time
sys.path.insert(0, {clients!r})
from actionlint_client import library
library.missing()
from actionlint_client import {module}
from actionlint_client.options import options
from actionlint_client.server import main

def endless(*_, **__):
    end = time.thread_time() + 6
    while time.thread_time() < end:
        try:
            while time.thread_time() < end:
                sum(range(1_000))
        except Exception:
            pass

{module}.{function} = endless
sys.exit(main(options()))
"""


def burn(seconds: float) -> None:
    """Uses the processor time, and lets no usual exception end that."""
    until = time.thread_time() + seconds
    while time.thread_time() < until:
        try:
            while time.thread_time() < until:
                sum(range(1_000))
        except Exception:
            pass


def is_cut(limit: TimeLimit, seconds: float, function) -> bool:
    try:
        limit.call(seconds, function)
    except TooSlow:
        return True
    return False


@CASES.case
def calls(_: str) -> None:
    """A call that takes longer ends by an exception, others return what they return or raise what they raise, and nothing comes later."""
    limit = TimeLimit()
    assert limit.call(5.0, lambda: "a") == "a"
    assert is_cut(limit, 0.1, lambda: burn(3))
    assert signal.getitimer(signal.ITIMER_REAL) == (0.0, 0.0)
    try:
        limit.call(5.0, lambda: [][1])
        raise AssertionError("no error")
    except IndexError:
        pass
    burn(0.5)
    assert not is_cut(limit, 5.0, lambda: burn(0.1))
    assert signal.getitimer(signal.ITIMER_REAL) == (0.0, 0.0)


@CASES.case
def a_call_that_goes_on(_: str) -> None:
    """If the exception is lost, it comes again."""
    seen = []

    def stubborn() -> None:
        for _ in range(2):
            try:
                burn(3)
            except TooSlow:
                seen.append(1)
        burn(3)

    assert is_cut(TimeLimit(), 0.1, stubborn) and len(seen) == 2


@CASES.case
def what_is_not_interrupted(_: str) -> None:
    """The exception comes after what must not be interrupted, not in it."""
    limit, done = TimeLimit(), []

    def careful() -> None:
        with limit.uninterrupted():
            with limit.uninterrupted():
                burn(0.5)
            burn(0.5)
            done.append(1)
        burn(3)
        done.append(2)

    assert is_cut(limit, 0.1, careful) and done == [1]


@CASES.case
def other_threads(_: str) -> None:
    """Their time isn't the call's, and they go on."""
    limit, ended = TimeLimit(), []
    other = threading.Thread(target=lambda: (burn(1.5), ended.append(1)))

    def waiting() -> None:
        other.start()
        other.join()

    assert not is_cut(limit, 0.5, waiting) and ended == [1]


class SlowFacts(Facts):
    """A run of the linter that takes long to send a command."""

    def _send(self, *parts: bytes) -> None:
        super()._send(*parts)
        burn(0.6)


@CASES.case
def commands(program: str) -> None:
    """A command isn't cut from its answer: the limit is raised after it."""
    linter = SlowFacts([find_facts(program)], 20.0)
    for number in range(3):
        text = f"{WRONG}#{number}".encode()

        def puts() -> None:
            linter.put(FILE, text)
            burn(1)

        try:
            assert is_cut(LIMIT, 0.01, puts)
            assert linter.put(FILE, text) == []
            assert [fault["code"] for fault in linter.faults(FILE)] == ["X13"], number
        except LinterEnded as error:
            raise AssertionError("the command was cut") from error
    linter.stop()


def endless_server(folder: str, module: str, function: str) -> Path:
    file = Path(folder) / f"{module}-{function}"
    file.write_text(SERVER.format(clients=str(CLIENTS), module=module, function=function), encoding="utf-8")
    return file


def asks(editor: Editor, method: str, line: int, character: int, **more) -> dict:
    return editor.request(method, {"textDocument": {"uri": editor.uri(FILE)}, "position": {"line": line, "character": character}, **more})


@CASES.case
def requests_that_never_end(program: str) -> None:
    """They are answered with an error, wherever they were; the server goes on, with its linter."""
    with tempfile.TemporaryDirectory(prefix="actionlint-test-") as folder:
        for module, function, method, more in (
                ("hover", "explanation", "textDocument/hover", {}),
                ("fixes", "counted", "textDocument/rename", {"newName": "b"})):
            editor = start(program, FILES, server=endless_server(folder, module, function))
            editor.open(FILE, RIGHT)
            answer = asks(editor, method, 2, 3, **more)
            assert answer.get("error") == {"code": -32803, "message": TOO_LONG}, (module, answer)
            assert asks(editor, "textDocument/definition", 2, 3)["result"], module
            editor.change(FILE, WRONG)
            editor.settle()
            assert editor.texts(FILE) == [UNDEFINED], module
            assert len(linters(editor.child.pid)) == 1, module
            end(editor)


def many(count: int) -> dict[str, str]:
    return {f"{WORKFLOWS}w{number}.yml": f"name: Flow {number}\non: push\njobs:\n  a:\n    runs-on: u\n    steps:\n      - uses: ./a\n"
            for number in range(count)}


@CASES.case
def symbols_of_a_folder(_: str) -> None:
    """No file is read that can't have the name, and each other one once; few are held."""
    texts, read = many(300), []
    project = project_of(texts)
    one: Any = reader()
    read_tree, one.tree = one.tree, lambda *text: (read.append(text), read_tree(*text))[1]
    try:
        # 57 of the numbers have a 7, and 11 begin with it.
        for query, count, reads in (("nowhere", 0, 0), ("flow 7", 11, 57), ("flow 7", 11, 57), ("flow", 300, 300)):
            found = [part.name for file in texts for part in parts_with(project, file, query, True)]
            assert len(found) == count and len(read) == reads, (query, len(found), len(read))
        assert len(project._known) <= MAX_HELD
        assert not parts_with(project_of(texts), next(iter(texts)), "flow", False)
    finally:
        one.tree = read_tree


@CASES.case
def a_search_that_is_cut(_: str) -> None:
    """What it has read is kept, so that a later one comes to an end."""
    project, read, cuts = project_of({**many(MAX_HELD * 3), "a/action.yml": "name: a\n"}), [], 0
    one: Any = reader()
    read_tree = one.tree

    def cut_short(path: str, data: bytes) -> Node | None:
        read.append(path)
        if len(read) % 9 == 0:
            raise TooSlow
        return read_tree(path, data)

    one.tree = cut_short
    try:
        while cuts < 100:
            try:
                assert len(callers(project, "a/action.yml")) == MAX_HELD * 3
                break
            except TooSlow:
                cuts += 1
    finally:
        one.tree = read_tree
    # Eight of nine are read.
    assert cuts == (MAX_HELD * 3 - 1) // 8 and len(read) == MAX_HELD * 3 + cuts, (cuts, len(read))


@CASES.case
def names_that_are_written_otherwise(_: str) -> None:
    """A name is found however it is written: over lines, with quotes that are doubled, with escapes."""
    for written, query in (("a\n      b c", "a b"), ("'it''s'", "it's"), ('"\\u0041bc"', "abc"), ('"a\\\n        bc"', "abc"),
                           (">-\n    a\n    b", "a b"), ("ÉCOLE", "école")):
        text = f"name: {written}\non: push\n"
        assert [part.name for part in parts_with(project_of({FILE: text}), FILE, query, True)], (written, query)
    steps = "on: push\njobs:\n  a:\n    runs-on: u\n    steps:\n      - {}\n"
    assert [part.name for part in parts_with(project_of({FILE: steps}), FILE, "step", True)] == ["step"]
    assert [part.name for part in parts_with(project_of({FILE: "on: push\n"}), FILE, "a.yml", True)] == ["a.yml"]


@CASES.case
def open_files_are_kept(_: str) -> None:
    """Others are forgotten first, and then read again."""
    texts = {**many(MAX_HELD * 2), CALLED: RIGHT, "a/action.yml": "name: a\n"}
    data = {file: text.encode() for file, text in texts.items()}
    project = Project(reader(), data.get, lambda: list(data), is_open=lambda file: file == CALLED)
    tree = project.tree(CALLED)
    assert len(callers(project, "a/action.yml")) == MAX_HELD * 2
    assert project.tree(CALLED) is tree and len(project._known) <= MAX_HELD + 1
    data[CALLED] = b"a: ["
    assert project.tree(CALLED) is None and project.good_tree(CALLED) is tree


class Silent:
    """An editor that ignores everything."""

    def publish(self, *_) -> None:
        pass

    def say(self, *_) -> None:
        pass


@CASES.case
def files_that_are_gone(program: str) -> None:
    """Nothing is remembered of a file that is no longer in the folder."""
    root = tempfile.mkdtemp(prefix="actionlint-test-")
    write(root, {FILE: RIGHT, CALLED: WRONG})
    folder = Folder(os.fsencode(root), Program([program], 20.0), print)
    repository = Repository(os.fsencode(root), folder, True)
    repository.refresh(Silent(), Diagnostics(None))
    for file in (FILE, CALLED):
        assert occurrences(repository.project, file) and parts_with(repository.project, file, "a", True)
        assert not repository.is_too_large(file)
    os.remove(os.path.join(root, CALLED))
    folder.rescan()
    repository.refresh(Silent(), Diagnostics(None))
    assert {file for _, file in repository.project.memory} == set(repository.project._known) == set(repository._too_large) == {FILE}
    folder.close()


@CASES.case
def files_that_are_too_large(program: str) -> None:
    """Where the linter refuses a file for its size, only its faults are shown."""
    head = "on: push\njobs:\n  a:\n    runs-on: u\n    steps:\n      - run: x\n"
    for what, text in (("too many nodes", head + "x: [" + "a," * 100_000 + "]\n"),
                       ("nesting is too deep", head + "x: " + "[" * 65 + "]" * 65 + "\n"),
                       ("expression is too long", head + "      - run: ${{ '" + "a" * 21_000 + "' }}\n"),
                       ("", head + "#" * 1_048_576 + "\n")):
        editor = start(program, {FILE: text, CALLED: RIGHT})
        editor.open(FILE, text)
        assert any(what in one for one in editor.texts(FILE)), what
        for method in ("definition", "documentSymbol", "foldingRange", "completion"):
            assert not asks(editor, "textDocument/" + method, 2, 2).get("result"), (what, method)
        assert not any(FILE in one["location"]["uri"] for one in editor.request("workspace/symbol", {"query": "a"})["result"]), what
        editor.change(FILE, head)
        for method in ("definition", "documentSymbol", "foldingRange", "completion"):
            assert asks(editor, "textDocument/" + method, 2, 2).get("result"), (what, method)
        end(editor)


if __name__ == "__main__":
    sys.exit(CASES.run(sys.argv[1:]))
