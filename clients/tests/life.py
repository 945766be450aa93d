#!/usr/bin/env python3
"""How long a folder has a linter, which URIs are the same file, and what the server opens on a hostile disk.

    life.py PROGRAM [NAME...]
"""
from __future__ import annotations

import os
import resource
import shutil
import sys
import tempfile
import time
import traceback
from types import SimpleNamespace
from typing import Any, Callable

from cases import Cases
from clones_and_releases import NOBODY
from editor import Editor, children, linters
from promises import end, save, start
from repositories import ACTION, CALLED, FILE, FILES, RIGHT, UNDEFINED, WORKFLOWS, WRONG, write

from actionlint_client.diagnostics import Diagnostics
from actionlint_client.disk import NOT_REGULAR, OPENED, Disk, actions_below
from actionlint_client.paths import path_of
from actionlint_client.workspace import Workspace

CASES = Cases("life")
OUTSIDE = "a symbolic link points outside the folder"
BROKEN_ACTION = "name: A\n"
# The first descriptor that `select` can't handle.
MANY_DESCRIPTORS = 1_030


def link(root: bytes, path: str, target: str) -> None:
    whole = os.path.join(os.fsdecode(root), path)
    os.makedirs(os.path.dirname(whole), exist_ok=True)
    os.symlink(target, whole)


@CASES.case
def a_folder_is_let_go(program: str) -> None:
    """A linter runs while a workflow or an action is open, and for the workspace's folders."""
    top = tempfile.mkdtemp(prefix="actionlint-test-")
    editor = Editor(program, None)
    editor.root = os.fsencode(top)
    for number in range(20):
        os.makedirs(f"{top}/{number}")
        editor.open(f"{number}/values.yml", "a: [")
    editor.settle()
    assert children(editor.child.pid) == [], "a YAML file that is neither a workflow nor an action has a linter"
    for number in range(20):
        editor.open(f"{number}/action.yml", BROKEN_ACTION)
    editor.settle()
    assert len(linters(editor.child.pid)) == 20 and len(editor.diagnostics()) == 20
    for number in range(20):
        editor.close(f"{number}/values.yml")
        if number:
            editor.close(f"{number}/action.yml")
    editor.settle()
    assert len(linters(editor.child.pid)) == 1 and set(editor.diagnostics()) == {"0/action.yml"}, editor.diagnostics()
    assert editor.quit() == 0
    shutil.rmtree(top)
    editor = start(program, FILES)
    editor.open(FILE, WRONG)
    editor.close(FILE)
    editor.settle()
    assert len(linters(editor.child.pid)) == 1 and editor.texts(FILE) == [UNDEFINED], "a folder of the workspace stays"
    end(editor)


@CASES.case
def a_folder_that_nobody_watches(program: str) -> None:
    """An editor watches only its workspace: if a file of another folder is open, the server checks that folder on disk itself."""
    editor = start(program, FILES)
    top = tempfile.mkdtemp(prefix="actionlint-test-")
    write(top, {ACTION: FILES[ACTION], FILE: RIGHT})
    editor.open_uri(f"file://{top}/{FILE}", RIGHT)
    editor.settle()
    write(top, {CALLED: FILES[CALLED]})
    deadline = time.monotonic() + 10
    while f"file://{top}/{CALLED}" not in editor.shown:
        assert time.monotonic() < deadline, "nobody looked"
        time.sleep(0.1)
    end(editor)
    shutil.rmtree(top)


@CASES.case
def a_folder_without_files(program: str) -> None:
    """A folder of the workspace has a linter once there is a file to lint."""
    editor = start(program, {"notes.yml": "a: 1\n"})
    assert children(editor.child.pid) == []
    save(editor, FILE, WRONG.encode())
    assert len(linters(editor.child.pid)) == 1 and editor.texts(FILE) == [UNDEFINED]
    os.remove(os.path.join(editor.root, FILE.encode()))
    editor.touched(FILE, kind=3)
    editor.settle()
    assert editor.diagnostics() == {}
    end(editor)


@CASES.case
def many_descriptors(program: str) -> None:
    """Descriptors too large for `select` work like others, and the limit that a program starts with doesn't limit the number of folders."""
    soft, hard = resource.getrlimit(resource.RLIMIT_NOFILE)
    resource.setrlimit(resource.RLIMIT_NOFILE, (hard, hard))
    opened = tuple(os.open(os.devnull, os.O_RDONLY) for _ in range(MANY_DESCRIPTORS))
    editor = start(program, FILES, inherited=opened)
    for descriptor in opened:
        os.close(descriptor)
    assert editor.texts(FILE) == [UNDEFINED] and not editor.messages, editor.messages
    end(editor)
    resource.setrlimit(resource.RLIMIT_NOFILE, (40, hard))
    editor = Editor(program, None)
    resource.setrlimit(resource.RLIMIT_NOFILE, (soft, hard))
    editor.root = tempfile.mkdtemp(prefix="actionlint-test-").encode()
    for number in range(30):
        os.makedirs(os.path.join(editor.root, b"%d" % number))
        editor.open(f"{number}/action.yml", BROKEN_ACTION)
    editor.settle()
    assert len(editor.diagnostics()) == 30 and not editor.messages, editor.messages
    end(editor)


@CASES.case
def the_first_pause_that_ends(_: str) -> None:
    """Among the folders whose linters are paused, the one that may start first doesn't wait for the others."""
    pauses = {b"/nowhere/a": 9.0, b"/nowhere/b": 0.5, b"/nowhere/c": 0.0}
    new: Any = lambda root: SimpleNamespace(folder=SimpleNamespace(delay=lambda: pauses[root]))
    editor: Any = SimpleNamespace(watches=lambda: True)
    workspace = Workspace(new, editor, Diagnostics(None))
    workspace.add_folders(list(pauses))
    assert workspace.wait_seconds() == 0.5
    pauses.update(dict.fromkeys(pauses, 0.0))
    assert workspace.wait_seconds() is None


@CASES.case
def uris_that_are_refused(program: str) -> None:
    """A URI that no file can have is ignored, and what comes after it is handled."""
    editor = start(program, FILES)
    before = len(linters(editor.child.pid))
    for uri in ("file:///x/a%00b/.github/workflows/a.yml", "file:///x%00/action.yml", "file:action.yml", "file://elsewhere/action.yml",
                "file://[/action.yml", "", "action.yml"):
        editor.open_uri(uri, WRONG)
        editor.settle()
        assert len(linters(editor.child.pid)) == before, uri
        answer = editor.request("textDocument/hover", {"textDocument": {"uri": uri}, "position": {"line": 5, "character": 30}})
        assert answer["result"] is None and path_of(uri) is None, uri
    editor.open(FILE, RIGHT)
    editor.settle()
    assert editor.texts(FILE) == [] and editor.texts(CALLED) and not editor.messages
    end(editor)


@CASES.case
def two_uris_of_one_path(program: str) -> None:
    """However a URI spells a path, it is one buffer, which is open until it is closed as often as it was opened."""
    editor = start(program, FILES)
    one = editor.uri(FILE)
    for other in (one.replace("a.yml", "%61%2eyml"), one.replace("workflows/", "workflows/./"), one.replace("file://", "file://localhost"),
                  one.replace("workflows/", "workflows//x/../"), one.replace("file://", "file:////"), one.replace("file:", "FILE:")):
        editor.open_uri(one, WRONG)
        editor.change_uri(other, RIGHT)
        editor.settle()
        assert editor.shown[one]["diagnostics"] == [], other
        editor.open_uri(other, WRONG)
        editor.settle()
        assert [len(editor.shown[uri]["diagnostics"]) for uri in (one, other)] == [1, 1], other
        editor.change_uri(one, RIGHT)
        editor.close_uri(one)
        editor.settle()
        assert editor.shown[other]["diagnostics"] == [], f"{other} is open still"
        editor.close_uri(other)
        editor.settle()
        assert len(editor.shown[one]["diagnostics"]) == 1, "closed, so that the file's text counts"
        editor.open_uri(one, RIGHT)
        editor.change_uri(other, RIGHT + "#")
        editor.close_uri(other)
        editor.settle()
        assert len(editor.shown[one]["diagnostics"]) == 1, "closed by the other URI"
    assert len(linters(editor.child.pid)) == 1
    end(editor)


@CASES.case
def opened_twice(program: str) -> None:
    """A file that is opened again, after a folder around its own was added to the workspace, is still one file."""
    top = tempfile.mkdtemp(prefix="actionlint-test-")
    os.makedirs(top + "/a")
    editor = Editor(program, None)
    editor.root = os.fsencode(top)
    editor.open(ACTION, BROKEN_ACTION)
    editor.notify("workspace/didChangeWorkspaceFolders", {"event": {"added": [{"uri": "file://" + top, "name": "x"}], "removed": []}})
    editor.open(ACTION, BROKEN_ACTION)
    editor.settle()
    assert len(editor.texts(ACTION)) == 2, editor.diagnostics()
    editor.change(ACTION, FILES[ACTION])
    editor.settle()
    assert editor.texts(ACTION) == []
    editor.close(ACTION)
    editor.settle()
    assert len(linters(editor.child.pid)) <= 1, "the first folder's linter still runs"
    end(editor)


@CASES.case
def a_root_path(program: str) -> None:
    """An old editor names its folder by a path; however that is spelled, its files are in it."""
    editor = start(program, FILES, root_path="{}/.github/../")
    editor.open(FILE, RIGHT)
    editor.settle()
    assert editor.texts(FILE) == [] and editor.texts(CALLED) and len(linters(editor.child.pid)) == 1, editor.diagnostics()
    end(editor)


@CASES.case
def links_that_leave_the_folder(program: str) -> None:
    """Files outside that links lead to are skipped, with one message; links within the folder are followed."""
    outside = tempfile.mkdtemp(prefix="actionlint-test-")
    write(outside, {"secret.yml": "SECRET: x\n", "action.yml": BROKEN_ACTION})
    first, second, third = WORKFLOWS + "first.yml", WORKFLOWS + "second.yml", WORKFLOWS + "third.yml"
    editor = start(program, {FILE: WRONG, "kept/real.yml": WRONG, first: RIGHT.replace("run: echo", "uses: ./out\n      - run: echo")})
    link(editor.root, second, outside + "/secret.yml")
    link(editor.root, third, "../../kept/real.yml")
    link(editor.root, "out/action.yml", outside + "/action.yml")
    link(editor.root, WORKFLOWS + ".#a.yml", "somebody@host.1234")
    link(editor.root, WORKFLOWS + "environ.yml", "/proc/self/environ")
    for _ in range(2):
        editor.touched(FILE)
        editor.settle()
    assert set(editor.diagnostics()) == {FILE, third}, editor.diagnostics()
    told = [said for said in editor.messages if OUTSIDE in said]
    assert len(told) == 3 and any("out/action.yml" in said for said in told) and len(editor.messages) == 3, editor.messages
    editor.open(second, WRONG)
    editor.settle()
    assert editor.texts(second) == [UNDEFINED], "the text of a buffer is the editor's"
    end(editor)
    shutil.rmtree(outside)


@CASES.case
def many_links_that_leave(_: str) -> None:
    """A folder full of them doesn't fill the screen."""
    with tempfile.TemporaryDirectory(prefix="actionlint-test-") as root:
        said: list[str] = []
        looked_at = Disk(os.fsencode(root), said.append)
        for number in range(50):
            link(os.fsencode(root), f"{WORKFLOWS}{number}.yml", "/proc/self/environ")
        for _ in range(2):
            looked_at.rescan()
            assert all(looked_at.file(path).data is None for path in looked_at.workflows) and len(looked_at.workflows) == 50
        assert len(said) == 11 and all(OUTSIDE in one for one in said[:10]) and said[10] == "more files are skipped", said


@CASES.case
def a_root_behind_a_link(program: str) -> None:
    """The folder itself may be a link; its real path counts."""
    top = tempfile.mkdtemp(prefix="actionlint-test-")
    write(top + "/real", FILES)
    os.symlink("real", top + "/link")
    editor = Editor(program, os.fsencode(top + "/link"))
    editor.settle()
    assert editor.texts(FILE) == [UNDEFINED] and editor.texts(CALLED) and not editor.messages, editor.messages
    assert editor.quit() == 0
    shutil.rmtree(top)


@CASES.case
def pipes_and_devices(program: str) -> None:
    """A listed one is skipped, a called one can't be read, and none is waited for."""
    editor = start(program, {**FILES, WORKFLOWS + "b.yml": RIGHT.replace("run: echo", "uses: ./pipe\n      - run: echo")})
    os.makedirs(os.path.join(editor.root, b"pipe"))
    os.mkfifo(os.path.join(editor.root, b"pipe/action.yml"))
    os.mkfifo(os.path.join(editor.root, WORKFLOWS.encode() + b"p.yml"))
    os.mkdir(os.path.join(editor.root, WORKFLOWS.encode() + b"d.yml"))
    for path, target in (("e.yml", "/dev/zero"), ("f.yml", "/proc/kmsg"), ("g.yml", "/dev/stdin"), ("h.yml", "../../pipe/action.yml")):
        link(editor.root, WORKFLOWS + path, target)
    editor.touched(FILE)
    editor.settle()
    assert editor.texts("pipe/action.yml") == [NOT_REGULAR], editor.diagnostics()
    assert set(editor.diagnostics()) == {FILE, CALLED, "pipe/action.yml"}, editor.diagnostics()
    end(editor)


@CASES.case
def actions_that_can_be_called(_: str) -> None:
    """What is offered after `uses` are actions that the linter reads, by names that a call can have."""
    with tempfile.TemporaryDirectory(prefix="actionlint-test-") as top:
        names = ("a", "b c", "é", "it's", "back\\slash", "esc\x1b", "line\nfeed", "${{ x }}", "node_modules", ".hidden")
        write(top + "/folder", {f"{name}/action.yml": "name: A\n" for name in names})
        write(top, {"action.yml": "name: A\n"})
        root = os.fsencode(top + "/folder")
        os.makedirs(root + b"/\xff")
        shutil.copy(root + b"/a/action.yml", root + b"/\xff/action.yml")
        os.makedirs(root + b"/pipe")
        os.mkfifo(root + b"/pipe/action.yml")
        os.makedirs(root + b"/folder/action.yml")
        for path, target in (("out", "../../action.yml"), ("loose", "nowhere"), ("link", "../a/action.yml")):
            link(root, f"{path}/action.yml", target)
        os.symlink("..", root + b"/a/above")
        assert actions_below(root) == [f"{name}/action.yml" for name in ("a", "b c", "it's", "link", "é")], actions_below(root)


@CASES.case
def what_may_not_be_read(_: str) -> None:
    """What the linter can't read is unreadable here too, and a link out of the folder is skipped whether or not its target is readable."""
    with tempfile.TemporaryDirectory(prefix="actionlint-test-") as top:
        root = top + "/folder"
        listed, outside = WORKFLOWS + "b.yml", WORKFLOWS + "c.yml"
        write(root, {FILE: RIGHT, listed: RIGHT, ACTION: FILES[ACTION]})
        write(top, {"hidden/c.yml": RIGHT, "closed.yml": RIGHT, "other/.github/workflows/a.yml": RIGHT})
        link(os.fsencode(root), outside, top + "/hidden/c.yml")
        link(os.fsencode(root), "out/action.yml", top + "/closed.yml")
        os.chmod(top, 0o755)
        for closed in (f"{root}/{listed}", root + "/a", top + "/hidden", top + "/closed.yml", top + "/other/.github/workflows"):
            os.chmod(closed, 0)
        as_nobody(lambda: check_unreadable(top, listed, outside))


def check_unreadable(top: str, listed: str, outside: str) -> None:
    said: list[str] = []
    looked_at = Disk(os.fsencode(top + "/folder"), said.append)
    looked_at.rescan()
    assert looked_at.workflows == {FILE, listed, outside}, looked_at.workflows
    assert looked_at.file(FILE).data == RIGHT.encode()
    for path in (listed, ACTION, "a/action.yaml"):
        assert looked_at.file(path).error == "cannot read this file: Permission denied", (path, looked_at.file(path))
    for path in (outside, "out/action.yml"):
        assert looked_at.file(path).is_outside and looked_at.file(path).error is None, (path, looked_at.file(path))
    assert looked_at.file("out/action.yaml").error is None, "there is none"
    assert len(said) == 2 and all(OUTSIDE in one for one in said), said
    for _ in range(2):
        Disk(os.fsencode(top + "/other"), said.append).rescan()
    assert said[2:] == ["skipped, since it can't be listed (Permission denied): '.github/workflows'"] * 2, said


def as_nobody(check: Callable[[], None]) -> None:
    """Runs a check as a user without permission to read everything, as root has."""
    if os.geteuid():
        check()
        return
    child = os.fork()
    if child == 0:
        try:
            os.setgroups([])
            os.setgid(NOBODY)
            os.setuid(NOBODY)
            check()
            os._exit(0)
        except BaseException:
            traceback.print_exc()
            os._exit(1)
    assert os.waitpid(child, 0)[1] == 0, "see standard error"


@CASES.case
def what_changes_between_the_look_and_the_opening(program: str) -> None:
    """The opened file is checked: a pipe that took a file's place isn't waited for, and a file outside isn't read."""
    with tempfile.TemporaryDirectory(prefix="actionlint-test-") as top:
        root, file = top + "/folder", top + "/folder/" + FILE
        for replaced in ("pipe", "link"):
            write(root, {FILE: RIGHT})
            write(top, {"outside.yml": "SECRET: x\n"})
            opened = os.open

            def replace(path, flags, *more, replaced=replaced, opened=opened):
                os.remove(file)
                os.mkfifo(file) if replaced == "pipe" else os.symlink(top + "/outside.yml", file)
                assert flags == OPENED and flags & os.O_NONBLOCK
                return opened(path, flags, *more)

            os.open = replace
            try:
                found = Disk(os.fsencode(root), lambda said: None).file(FILE)
            finally:
                os.open = opened
            assert found.data is None and (found.error == NOT_REGULAR) == (replaced == "pipe"), (replaced, found)
            assert found.is_outside == (replaced == "link")
            os.remove(file)


@CASES.case
def a_name_that_is_too_long(program: str) -> None:
    """A call of an action whose name no disk can hold is a call of a missing action."""
    editor = start(program, {FILE: WRONG.replace("run: echo", "uses: ./" + "n" * 300 + "\n      - run: echo"), ACTION: FILES[ACTION]})
    assert editor.texts(FILE) == [UNDEFINED] and not editor.messages
    assert set(editor.diagnostics()) == {FILE}
    end(editor)


if __name__ == "__main__":
    sys.exit(CASES.run(sys.argv[1:]))
