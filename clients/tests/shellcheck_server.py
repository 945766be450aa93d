#!/usr/bin/env python3
"""Notes of shellcheck in the language server. Needs Debian's shellcheck and the libraries of the server.

    shellcheck_server.py PROGRAM [NAME...]
"""
from __future__ import annotations

import os
import shutil
import sys
import tempfile
import time
from pathlib import Path
from typing import Any, Callable

from cases import Cases
from editor import SERVER, Editor
from promises import end, start
from repositories import CLIENTS, FILE, RIGHT, WORKFLOWS, WRONG, write

CASES = Cases("shellcheck-server")
STEPS = "on: push\njobs:\n  a:\n    runs-on: ubuntu-latest\n    steps:\n"
NOTED = STEPS + "      - run: echo $x\n"
UNNOTED = STEPS + '      - run: echo "$x"\n'
OTHER = WORKFLOWS + "b.yml"
ON = ("--shellcheck",)
HANG_SECONDS = 60
# In place of shellcheck: it notes that it was started, and doesn't end at some scripts.
WRAPPER = """#!/bin/sh
echo started >> '{folder}/log'
if grep -q 'leave it' words; then sleep 120 & sleep 120; fi
exec /usr/bin/shellcheck "$@"
"""


def notes(editor: Editor, path: str) -> list[dict[str, Any]]:
    return [one for one in editor.diagnostics().get(path, []) if one["source"] == "shellcheck"]


def wait_until(holds: Callable[[], bool], what: str) -> None:
    """Waits for what a process beside the server does. The limit only ends a test that would hang."""
    deadline = time.monotonic() + HANG_SECONDS
    while not holds():
        assert time.monotonic() < deadline, what
        time.sleep(0.02)


def start_with(program: str, folder: str, server: Path = SERVER) -> Editor:
    """An editor whose server finds the wrapper, in a folder with the wrapper and its log."""
    write(folder, {"bin/shellcheck": WRAPPER.format(folder=folder), "log": ""})
    os.chmod(folder + "/bin/shellcheck", 0o755)
    return start(program, {FILE: RIGHT}, words=ON, server=server,
                 environment={**os.environ, "PATH": f"{folder}/bin:{os.environ['PATH']}"})


def patient_server(folder: str) -> Path:
    """A server that waits for a script as long as it takes, so that a test can look at what runs."""
    shutil.copytree(CLIENTS / "actionlint_client", folder + "/clients/actionlint_client", ignore=shutil.ignore_patterns("__pycache__"))
    module = Path(folder) / "clients/actionlint_client/shellcheck_run.py"
    text = module.read_text(encoding="utf-8")
    assert text.count("\nSECONDS = 4.0\n") == 1
    module.write_text(text.replace("\nSECONDS = 4.0\n", "\nSECONDS = 600.0\n"), encoding="utf-8")
    return Path(shutil.copy(CLIENTS / "actionlint-lsp", folder + "/clients"))


def check_of(editor: Editor) -> list[int]:
    """The process that checks scripts, and those below it."""
    found = [pid for pid in descendants(editor.child.pid) if "script_checks" in command_of(pid)]
    return [*found, *(below for pid in found for below in descendants(pid))]


def are_gone(processes: list[int]) -> bool:
    return not any(map(command_of, processes))


def starts(folder: str) -> int:
    """How often the wrapper was started."""
    with open(folder + "/log", encoding="utf-8") as opened:
        return len(opened.readlines())


@CASES.case
def notes_with_the_faults(program: str) -> None:
    """They come after the faults, with their own source, codes, links and levels, and go with the text that they are about."""
    editor = start(program, {FILE: RIGHT}, words=ON)
    text = WRONG + '      - run: |\n          echo "😀" $x\n          cd a; read b; for i in $(ls); do echo "$i"; done\n'
    editor.open(FILE, text)
    editor.settle()
    wait_until(lambda: bool(notes(editor, FILE)), "no notes")
    found = {one["code"]: one for one in notes(editor, FILE)}
    assert set(found) == {"SC2086", "SC2162", "SC2034", "SC2045"}, found
    # (the picture takes two units)
    assert found["SC2086"] == {
        "range": {"start": {"line": 7, "character": 20}, "end": {"line": 7, "character": 22}}, "severity": 3, "source": "shellcheck",
        "message": "Double quote to prevent globbing and word splitting.", "code": "SC2086",
        "codeDescription": {"href": "https://www.shellcheck.net/wiki/SC2086"}, "data": {"kind": "shellcheck"}}, found["SC2086"]
    # shellcheck's levels: 2162 is info, 2034 a warning, 2045 an error
    assert [found[code]["severity"] for code in ("SC2162", "SC2034", "SC2045")] == [3, 2, 2], found
    assert [one["code"] for one in editor.diagnostics()[FILE]][0] == "X13"
    editor.change(FILE, UNNOTED)
    editor.settle()
    assert notes(editor, FILE) == [], "notes on a text that is gone"
    editor.change(FILE, NOTED)
    wait_until(lambda: [one["code"] for one in notes(editor, FILE)] == ["SC2086"], "no note on the new text")
    editor.close(FILE)
    editor.settle()
    assert FILE not in editor.diagnostics()
    end(editor)


@CASES.case
def off_unless_asked_for(program: str) -> None:
    """An argument or an initialization option turns it on, and the option turns it off again."""
    for words, options, is_on in (((), None, False), (ON, None, True), ((), {"shellcheck": True}, True), (ON, {"shellcheck": False}, False),
                                  (ON, {"shellcheck": "no"}, True), ((), {"shellcheck": 1}, False), ((), ["shellcheck"], False)):
        with tempfile.TemporaryDirectory(prefix="actionlint-test-") as folder:
            write(folder, {"bin/shellcheck": WRAPPER.format(folder=folder), "log": ""})
            os.chmod(folder + "/bin/shellcheck", 0o755)
            editor = start(program, {FILE: RIGHT}, words=words, settings=options,
                           environment={**os.environ, "PATH": f"{folder}/bin:{os.environ['PATH']}"})
            editor.open(FILE, NOTED)
            editor.settle()
            if is_on:
                wait_until(lambda: bool(notes(editor, FILE)), f"no notes: {words} {options}")
            # Besides the first thread and the one that reads messages, the one that has scripts checked.
            assert len(os.listdir(f"/proc/{editor.child.pid}/task")) == (3 if is_on else 2), (words, options)
            assert editor.quit() == 0
            assert (starts(folder) > 0) == is_on, (words, options)
            shutil.rmtree(editor.root)


@CASES.case
def ignored_notes(program: str) -> None:
    """A list of ignored faults is for notes too: in all files, or in one."""
    with tempfile.TemporaryDirectory(prefix="actionlint-test-") as folder:
        write(folder, {"known": f"SC2086:{FILE}\nSC2162\n"})
        editor = start(program, {FILE: RIGHT}, words=(*ON, "--ignore-file", folder + "/known"))
        text = STEPS + "      - run: echo $x; read b; echo \"$b\"; for i in $(ls); do echo \"$i\"; done\n"
        for file, codes in ((FILE, {"SC2045"}), (OTHER, {"SC2086", "SC2045"})):
            editor.open(file, text)
            wait_until(lambda: bool(notes(editor, file)), "no notes")
            assert {one["code"] for one in notes(editor, file)} == codes, (file, notes(editor, file))
        write(folder, {"known": "SC2045\n"})
        editor.save(FILE)
        editor.settle()
        assert {one["code"] for one in notes(editor, FILE)} == {"SC2086", "SC2162"}, notes(editor, FILE)
        assert not editor.messages, editor.messages
        end(editor)


@CASES.case
def no_answer_waits(program: str) -> None:
    """While shellcheck doesn't end, requests are answered and faults are shown. A change of the text ends the check and what it started,
    and the new text is checked."""
    with tempfile.TemporaryDirectory(prefix="actionlint-test-") as folder:
        editor = start_with(program, folder, patient_server(folder))
        editor.open(FILE, NOTED + "      - run: leave it\n")
        wait_until(lambda: starts(folder) == 2 and sum("sleep" in command_of(pid) for pid in check_of(editor)) == 2, "not started")
        editor.open(OTHER, WRONG)
        editor.settle()
        assert editor.hover(FILE, 1, 1) is not None and len(editor.diagnostics()[OTHER]) == 1
        assert not notes(editor, FILE)
        processes = check_of(editor)
        editor.change(FILE, NOTED)
        wait_until(lambda: are_gone(processes), "the old check still runs")
        wait_until(lambda: [one["code"] for one in notes(editor, FILE)] == ["SC2086"], "no note on the new text")
        end(editor)


@CASES.case
def a_script_without_end(program: str) -> None:
    """It is named, and the notes on the others are shown."""
    with tempfile.TemporaryDirectory(prefix="actionlint-test-") as folder:
        editor = start_with(program, folder)
        editor.open(FILE, STEPS + "      - run: leave it\n      - run: echo $x\n")
        wait_until(lambda: len(notes(editor, FILE)) == 2, "no notes")
        noted, unchecked = notes(editor, FILE)
        assert (noted["code"], noted["range"]["start"]["line"]) == ("SC2086", 6), noted
        assert unchecked == {"range": {"start": {"line": 5, "character": 13}, "end": {"line": 5, "character": 14}}, "severity": 3,
                             "source": "shellcheck", "data": {"kind": "shellcheck"},
                             "message": "no shellcheck of this script, since shellcheck took more than 4 seconds"}, unchecked
        end(editor)


@CASES.case
def the_end_of_the_server(program: str) -> None:
    """Nothing that was started goes on when the editor ends the server, or only goes."""
    for is_polite in (True, False):
        with tempfile.TemporaryDirectory(prefix="actionlint-test-") as folder:
            editor = start_with(program, folder, patient_server(folder))
            editor.open(FILE, STEPS + "      - run: leave it\n")
            wait_until(lambda: sum("sleep" in command_of(pid) for pid in check_of(editor)) == 2, "not started")
            processes = check_of(editor)
            if is_polite:
                assert editor.quit() == 0
            else:
                editor.child.stdin.close()
                editor.child.wait(HANG_SECONDS)
            wait_until(lambda: are_gone(processes), "something still runs")
            shutil.rmtree(editor.root)


@CASES.case
def without_shellcheck(program: str) -> None:
    """That it is missing is said once, and the faults are shown as ever."""
    with tempfile.TemporaryDirectory(prefix="actionlint-test-") as folder:
        os.symlink(shutil.which("dash") or "/bin/sh", folder + "/sh")
        editor = start(program, {FILE: RIGHT}, words=ON, environment={**os.environ, "PATH": folder})
        for number in range(3):
            editor.open(FILE, NOTED) if not number else editor.change(FILE, NOTED + "#\n" * number)
            editor.settle()
            wait_until(lambda: bool(editor.messages), "nothing is said")
        editor.change(FILE, WRONG)
        editor.settle()
        assert len(editor.texts(FILE)) == 1
        assert editor.messages == ["actionlint: cannot start shellcheck: there is none on the PATH"], editor.messages
        end(editor)


@CASES.case
def a_shellcheck_that_fails(program: str) -> None:
    """What it says is told once, however often it fails."""
    with tempfile.TemporaryDirectory(prefix="actionlint-test-") as folder:
        editor = start_with(program, folder)
        write(folder, {"bin/shellcheck": f"#!/bin/sh\necho started >> '{folder}/log'\necho no libraries >&2\nexit 127\n"})
        for number in range(1, 5):
            editor.open(FILE, NOTED) if number == 1 else editor.change(FILE, NOTED + "#\n" * number)
            wait_until(lambda: starts(folder) == number and not check_of(editor), "not checked")
            # (what a check says is told before the next one begins)
            wait_until(lambda: bool(editor.messages), "nothing is said")
        editor.settle()
        assert editor.messages == ["actionlint: shellcheck ended with status 127: no libraries"], editor.messages
        end(editor)


@CASES.case
def what_is_no_yaml(program: str) -> None:
    """A text that the linter can't read isn't checked."""
    with tempfile.TemporaryDirectory(prefix="actionlint-test-") as folder:
        editor = start_with(program, folder)
        editor.open(FILE, NOTED.replace("on: push", "on: [push, pull_request: x]"))
        editor.open(OTHER, NOTED)
        # (the first that is opened would be checked first)
        wait_until(lambda: bool(notes(editor, OTHER)), "no notes")
        assert starts(folder) == 1 and not notes(editor, FILE), editor.diagnostics()
        assert [one["code"][0] for one in editor.diagnostics()[FILE]] == ["Y"], editor.diagnostics()
        end(editor)


def command_of(pid: int) -> str:
    """The command of a process, empty if it has ended."""
    try:
        with open(f"/proc/{pid}/cmdline", encoding="utf-8", errors="replace") as opened:
            return opened.read()
    except (FileNotFoundError, ProcessLookupError):
        return ""


def descendants(pid: int) -> list[int]:
    """The processes below a process, by their parents; a thread's children are the process's."""
    parents: dict[int, list[int]] = {}
    for name in filter(str.isdigit, os.listdir("/proc")):
        try:
            with open(f"/proc/{name}/stat", encoding="utf-8", errors="replace") as opened:
                parents.setdefault(int(opened.read().rpartition(")")[2].split()[1]), []).append(int(name))
        except (FileNotFoundError, ProcessLookupError):
            continue
    found = list(parents.get(pid, []))
    for one in found:
        found += parents.get(one, [])
    return found


if __name__ == "__main__":
    sys.exit(CASES.run(sys.argv[1:]))
