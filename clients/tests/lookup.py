#!/usr/bin/env python3
"""Which linter the clients run: the first of five that exists; if none does, one message says how to name one.

    lookup.py PROGRAM [NAME...]
"""
from __future__ import annotations

import os
import shutil
import subprocess
import sys
import tempfile
import time
from pathlib import Path
from typing import Sequence

from cases import Cases
from clones_and_releases import PATH
from editor import Editor
from repositories import CLIENTS, FILE, FILES, TOP, UNDEFINED, write

from actionlint_client.program import find_facts

CASES = Cases("lookup")
WHERE = "--program or the variable ACTIONLINT names the linter"
NONE = f"cannot start actionlint: there is none that runs here, beside the clients or on the PATH; {WHERE}"

# Runs a client by a Python that lacks some modules, on a system with another Python or none.
WITHOUT_MODULES = """
import os, runpy, sys
sys.path.insert(0, os.path.dirname({client!r}))
from actionlint_client import library
sys.modules.update(dict.fromkeys({modules!r}))
library.SYSTEM_PYTHON = {system_python!r}
sys.argv[0] = {client!r}
runpy.run_path(sys.argv[0], run_name="__main__")
"""
LIBRARY = ("pylsp_jsonrpc", "pylsp_jsonrpc.endpoint")

# Runs a program by a Python that claims to be old.
OLD_PYTHON = """
import runpy, sys
sys.argv = sys.argv[1:]
sys.version_info = (3, 8, 18, "final", 0)
runpy.run_path(sys.argv[0], run_name="__main__")
"""


def ran(words: Sequence[str | Path], **how) -> tuple[int, str, str]:
    """Runs a program without input; returns its status and both streams."""
    done = subprocess.run(words, stdin=subprocess.DEVNULL, stdout=subprocess.PIPE, stderr=subprocess.PIPE, text=True, check=False, **how)
    return done.returncode, done.stdout, done.stderr


class Tree:
    """Copies of the clients below share/actionlint of a folder, with what can be around them."""

    def __init__(self) -> None:
        self.room = Path(tempfile.mkdtemp(prefix="actionlint-test-"))
        self.top = self.room / "a prefix/share/actionlint"
        shutil.copytree(CLIENTS, self.top / "clients", ignore=shutil.ignore_patterns("tests", "__pycache__"))
        self.environment = {"PATH": PATH, "HOME": str(self.room)}

    def add(self, path: str, text: str = "exit 0") -> str:
        """Adds a program below the folder; returns its path."""
        whole = self.room / path
        whole.parent.mkdir(parents=True, exist_ok=True)
        whole.write_text(f"#!/bin/sh\n{text}\n", encoding="utf-8")
        whole.chmod(0o755)
        return str(whole)

    def link(self, program: str) -> str:
        """Makes a program below the folder that of the release; returns its path."""
        self.top.joinpath("actionlint").symlink_to(os.path.relpath(self.room / program, self.top))
        return str(self.room / program)

    def without(self, client: Path, modules: tuple[str, ...], system_python: str) -> Path:
        """A program that runs a client without these modules."""
        file = self.room / "without.py"
        file.write_text(WITHOUT_MODULES.format(client=str(client), modules=modules, system_python=system_python), encoding="utf-8")
        return file

    def found(self, *words: str, folder: str | None = None, **environment: str) -> tuple[int, str, str]:
        """The status and both streams of which-actionlint."""
        status, out, said = ran([self.top / "clients/which-actionlint", *words], cwd=folder or self.room,
                                env={**self.environment, **environment})
        return status, out.removesuffix("\n"), said.removesuffix("\n")

    def remove(self) -> None:
        shutil.rmtree(self.room)


@CASES.case
def order(_: str) -> None:
    """Each is found as soon as those before it are gone."""
    tree = Tree()
    beside = "a prefix/share/actionlint"
    named, variable, on_path = tree.add("named"), tree.add("variable"), tree.add("path/actionlint")
    release, fits = tree.add("a prefix/bin/its-own-name"), tree.add("fits")
    assert tree.link("a prefix/bin/its-own-name") == release
    built, carried = tree.add(f"{beside}/crates/actionlint/out/actionlint"), tree.add(f"{beside}/prebuilt/actionlint")
    own = {"PATH": f"{tree.room}/path:{PATH}"}
    assert tree.found(named, **own, ACTIONLINT=variable) == (0, named, "")
    assert tree.found(**own, ACTIONLINT=variable) == (0, variable, "")
    assert tree.found("", **own, ACTIONLINT="") == (0, release, "")
    os.remove(release)
    assert tree.found(**own) == (0, built, "")
    os.remove(tree.top / "actionlint")
    wrapper = tree.add(f"{beside}/actionlint", f'[ "$1" = --which ] && echo "{fits}"')
    assert tree.found(**own) == (0, fits, "")
    os.chmod(wrapper, 0o644)
    assert tree.found(**own) == (0, built, "")
    tree.add(f"{beside}/actionlint", "exit 3")
    assert tree.found(**own) == (0, built, "")
    tree.add(f"{beside}/crates/actionlint/out/actionlint", "exit 1")
    assert tree.found(**own) == (0, carried, ""), "one that doesn't run here is skipped"
    os.remove(carried)
    assert tree.found(**own) == (0, on_path, "")
    assert tree.found() == (3, "", NONE)
    tree.remove()


@CASES.case
def names(_: str) -> None:
    """A linter is named by its path, also relative to the current folder, or by its name on the PATH; nothing replaces one that doesn't
    exist."""
    tree = Tree()
    named = tree.add("my linters/it's")
    tree.add("a prefix/bin/actionlint")
    release = tree.link("a prefix/bin/actionlint")
    assert tree.found("./it's", folder=str(Path(named).parent)) == (0, f"{tree.room}/my linters/./it's", "")
    assert tree.found("it's", PATH=f"{tree.room}/my linters:{PATH}") == (0, named, "")
    assert tree.found("it's", folder=str(Path(named).parent), PATH=f".:{PATH}") == (0, f"{tree.room}/my linters/./it's", "")
    for wrong in ("it's", "nowhere/it", str(tree.room), "--help", "echo x"):
        said = f"cannot start {wrong}: there is no such program; {WHERE}"
        assert tree.found(wrong) == tree.found(ACTIONLINT=wrong) == (3, "", said), wrong
    link = tree.room / "link"
    link.symlink_to(tree.top / "clients/which-actionlint")
    assert ran([link], env=tree.environment) == (0, f"{release}\n", "")
    tree.remove()


@CASES.case
def its_own_tests(_: str) -> None:
    """`clients/test` calls the finder beside it, wherever CDPATH leads."""
    found = ran(["clients/test", "/nowhere"], cwd=TOP, env={**os.environ, "CDPATH": "."})
    assert found == (3, "", f"cannot start /nowhere: there is no such program; {WHERE}\n"), found


@CASES.case
def reports(program: str) -> None:
    """actionlint-report runs the program of its release, and if there is none it says how to name one."""
    tree = Tree()
    write(str(tree.room / "repository"), FILES)
    command = tree.room / "a prefix/bin/actionlint-report"
    how = {"cwd": tree.room / "repository", "env": tree.environment}
    command.parent.mkdir()
    command.symlink_to("../share/actionlint/clients/actionlint-report")
    status, out, said = ran([command, "--form", "jsonl"], **how)
    assert (status, out) == (3, "") and WHERE in said and said.count("\n") == 1, said
    release = tree.link("a prefix/bin/juzbrost")
    shutil.copy(program, release)
    shutil.copy(find_facts(program), f"{release}-facts")
    status, out, said = ran([command, "--form", "jsonl"], **how)
    assert status == 1 and '"X13"' in out and not said, (status, out, said)
    tree.remove()


@CASES.case
def language_server(program: str) -> None:
    """The same for the language server, which says so once."""
    tree = Tree()
    root = tree.room / "repository"
    write(str(root), FILES)
    server = tree.top / "clients/actionlint-lsp"

    def opened() -> Editor:
        editor = Editor(None, os.fsencode(root), server=server, environment=tree.environment)
        editor.open(FILE, FILES[FILE])
        editor.settle()
        return editor
    editor = opened()
    time.sleep(1)
    editor.change(FILE, FILES[FILE] + "\n")
    editor.settle()
    assert len(editor.messages) == 1 and WHERE in editor.messages[0] and editor.diagnostics() == {}, editor.messages
    editor.quit()
    (tree.room / "a prefix/bin").mkdir()
    release = tree.link("a prefix/bin/juzbrost")
    shutil.copy(program, release)
    shutil.copy(find_facts(program), f"{release}-facts")
    editor = opened()
    assert editor.texts(FILE) == [UNDEFINED] and not editor.messages, editor.messages
    editor.quit()
    tree.remove()


@CASES.case
def a_program_of_the_settings(program: str) -> None:
    """An editor's settings name the linter, as a path or by its name on the PATH, in place of the command line; only a text does."""
    with tempfile.TemporaryDirectory(prefix="actionlint-test-") as folder:
        write(folder, FILES)
        os.mkdir(folder + "/bin")
        shutil.copy(program, folder + "/bin/juzbrost")
        environment = {"PATH": f"{folder}/bin:{PATH}", "HOME": folder}
        for settings, given, is_found in (({"program": "juzbrost"}, "/nowhere", True), ({"program": folder + "/bin/juzbrost"}, None, True),
                                          ({"program": 1}, "juzbrost", True), ({"program": "nowhere"}, "juzbrost", False)):
            editor = Editor(given, os.fsencode(folder), environment=environment, settings=settings)
            editor.settle()
            assert editor.texts(FILE) == ([UNDEFINED] if is_found else []), (settings, editor.messages)
            assert editor.messages == [] if is_found else WHERE in editor.messages[0], (settings, editor.messages)
            editor.quit()


@CASES.case
def a_relative_program(program: str) -> None:
    """Both clients run the linter that a path from the current folder names."""
    with tempfile.TemporaryDirectory(prefix="actionlint-test-") as folder:
        write(folder, FILES)
        shutil.copy(program, folder + "/linter")
        found = ran([CLIENTS / "actionlint-report", "--program", "./linter", "--form", "jsonl"], cwd=folder)
        assert found[0] == 1 and '"X13"' in found[1], found
        editor = Editor("./linter", os.fsencode(folder), folder=folder)
        editor.settle()
        assert editor.texts(FILE) == [UNDEFINED] and not editor.messages, editor.messages
        editor.quit()


@CASES.case
def what_python_lacks(program: str) -> None:
    """An old Python is reported in one line. The status for a report that can't be made isn't that for faults."""
    for client in ("actionlint-lsp", "actionlint-report"):
        found = ran([sys.executable, "-c", OLD_PYTHON, CLIENTS / client, "--program", program])
        assert found == (3, "", f"actionlint: the clients need Python 3.9 or later, and {sys.executable} is older\n"), found
    tree = Tree()
    (tree.top / "clients/actionlint_client/faults.json").write_text("{", encoding="utf-8")
    status, out, said = ran([tree.top / "clients/actionlint-report", "--explain", "K1"])
    assert (status, out) == (3, "") and "JSONDecodeError" in said, (status, out, said)
    tree.remove()


@CASES.case
def a_python_without_the_library(program: str) -> None:
    """The system's Python runs the server instead; if that isn't possible, a line says what is missing."""
    tree = Tree()
    root = tree.room / "repository"
    write(str(root), FILES)
    server = CLIENTS / "actionlint-lsp"
    editor = Editor(program, os.fsencode(root), server=tree.without(server, LIBRARY, sys.executable))
    editor.settle()
    assert editor.texts(FILE) == [UNDEFINED] and not editor.messages, editor.diagnostics()
    assert editor.quit() == 0
    found = ran([sys.executable, tree.without(server, LIBRARY, "/bin/false")], cwd=root)
    said = f"{server.name}: {sys.executable} has no pylsp_jsonrpc.endpoint (Debian: apt-get install python3-pylsp-jsonrpc)\n"
    assert found == (3, "", said), found
    tree.remove()


@CASES.case
def without_actionlint_facts(program: str) -> None:
    """The server says so, and shows nothing, since it can't tell which actions are called. A report can't be made, and leaves no file."""
    tree = Tree()
    root = tree.room / "repository"
    nowhere = {**os.environ, "ACTIONLINT_FACTS": f"{tree.room}/nowhere"}
    # (first without calls)
    for files in ({FILE: FILES[FILE]}, FILES):
        write(str(root), files)
        editor = Editor(program, os.fsencode(root), environment=nowhere)
        editor.settle()
        assert not editor.diagnostics() and any(f"cannot start {tree.room}/nowhere" in said for said in editor.messages), editor.messages
        assert editor.quit() == 0
    report: list[str | Path] = [CLIENTS / "actionlint-report", "--program", program]
    for words in (["--form", "oneline"], ["--out", "report", "--form", "jsonl"], ["--fix"], ["--diff"]):
        status, out, said = ran([*report, *words], cwd=root, env=nowhere)
        assert (status, out) == (3, "") and said.startswith(f"actionlint-report: cannot start {tree.room}/nowhere: "), (words, said)
    assert sorted(os.listdir(root)) == [".github", "a"]
    tree.remove()


@CASES.case
def a_module_of_the_current_folder(program: str) -> None:
    """If PYTHONPATH puts one before the library, the library is found all the same. (The input is empty, so the server ends at once.)"""
    tree = Tree()
    write(str(tree.room), {"pylsp_jsonrpc.py": ""})
    found = ran([sys.executable, tree.without(CLIENTS / "actionlint-lsp", (), sys.executable), "--program", program], cwd=tree.room,
                env={**os.environ, "PYTHONPATH": "."}, timeout=20)
    assert found == (1, "", ""), found
    tree.remove()


@CASES.case
def options_of_the_server(program: str) -> None:
    """Help and version need no library; without it one line names its package. An editor may say `--stdio`."""
    tree = Tree()
    server = tree.top / "clients/actionlint-lsp"

    def run(*words: str) -> tuple[int, str, str]:
        return ran([sys.executable, tree.without(server, LIBRARY, "/nowhere"), *words], env=tree.environment)
    assert run("--help")[0] == 0 and "--no-earlier-faults" in run("--help")[1], run("--help")
    assert run("--version")[:2] == (0, "actionlint-lsp without a version\n"), run("--version")
    status, said, errors = run()
    assert (status, said) == (3, "") and "apt-get install python3-pylsp-jsonrpc)" in errors and errors.count("\n") == 1, errors
    for word in ("--help", "--version"):
        found = ran(["sh", "-c", 'exec "$@" > /dev/full', "sh", server, word])
        assert found == (3, "", "actionlint-lsp: cannot write standard output: No space left on device\n"), found
    for seconds in ("0", "-1", "nan", "inf", "x"):
        status, said, errors = run(f"--timeout={seconds}")
        assert (status, said) == (2, "") and "argument --timeout" in errors, (seconds, errors)
    found = ran([server, "--log", tree.room / "nowhere/log"])
    assert found == (2, "", f"actionlint-lsp: cannot write {tree.room}/nowhere/log: No such file or directory\n"), found
    editor = Editor(program, os.fsencode(tree.room), words=("--stdio",))
    assert editor.hello["result"]["serverInfo"]["name"] == "actionlint-lsp" and editor.quit() == 0
    tree.remove()


if __name__ == "__main__":
    sys.exit(CASES.run(sys.argv[1:]))
