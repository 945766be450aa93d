#!/usr/bin/env python3
"""Files of ignored faults in the language server, in the hooks, and in reports: the same file has the same meaning in each.

    ignore_files.py PROGRAM [NAME...]
"""
from __future__ import annotations

import os
import shutil
import subprocess
import sys
import tempfile
from pathlib import Path

from cases import Cases
from clones_and_releases import PATH, carry, commit, copy_few_sources
from editor import Editor
from repositories import CALLED, FILE, FILES, RIGHT, UNDEFINED, WORKFLOWS, WRONG, write

CASES = Cases("ignore-files")
MISSING = 'required input "who" of "A" is missing [action]'
OTHER = WORKFLOWS + "b.yml"
EVERYWHERE = {"start": {"line": 0, "character": 0}, "end": {"line": 100, "character": 0}}


def folder_with(rules: str, files: dict[str, str] = FILES) -> tempfile.TemporaryDirectory:
    folder = tempfile.TemporaryDirectory(prefix="actionlint-test-")
    write(folder.name, {**files, "known": rules})
    return folder


def shown(editor: Editor) -> dict[str, list[str]]:
    """The messages of all files that have some."""
    editor.settle()
    return {path: [one["message"] for one in found] for path, found in editor.diagnostics().items()}


@CASES.case
def by_an_argument(program: str) -> None:
    """What is ignored isn't shown, explained or fixed; the rest is."""
    with folder_with(f"# known\nx13:{FILE}\nSC2086\n", {**FILES, OTHER: WRONG}) as folder:
        editor = Editor(program, os.fsencode(folder), words=("--ignore-file", folder + "/known"))
        editor.open(FILE, WRONG)
        editor.open(OTHER, WRONG)
        assert shown(editor) == {CALLED: [MISSING], OTHER: [UNDEFINED]}, shown(editor)
        assert not editor.actions(FILE, EVERYWHERE) and editor.actions(OTHER, EVERYWHERE)
        assert "X13" not in str(editor.hover(FILE, 5, 30)) and "X13" in str(editor.hover(OTHER, 5, 30))
        editor.change(FILE, WRONG + "      - run: echo ${{ github.reff }}\nkey: 1\n")
        assert shown(editor)[FILE] == ['unexpected key "key" [syntax-check]'], shown(editor)
        # While the buffer isn't YAML, earlier faults that are ignored stay hidden.
        editor.change(FILE, WRONG + "jobs\n")
        assert all("reff" not in text for text in shown(editor)[FILE]) and len(shown(editor)[FILE]) == 1, shown(editor)
        assert editor.quit() == 0 and not editor.messages, editor.messages


@CASES.case
def by_a_setting(program: str) -> None:
    """One path or several, with those of arguments; a relative one begins in the server's folder. Other values are none."""
    with folder_with("X13\n") as folder:
        write(folder, {"more": "C3\n"})
        for settings, words, expected in (({"ignoreFiles": folder + "/known"}, (), {CALLED: [MISSING]}),
                                          ({"ignoreFiles": ["known", "more"]}, (), {}),
                                          ({"ignoreFiles": ["known"]}, ("--ignore-file", "more"), {}),
                                          ({"ignoreFiles": [1, None]}, (), {FILE: [UNDEFINED], CALLED: [MISSING]}),
                                          ({"ignoreFiles": {"a": 1}}, (), {FILE: [UNDEFINED], CALLED: [MISSING]}),
                                          ({}, (), {FILE: [UNDEFINED], CALLED: [MISSING]}),
                                          (None, (), {FILE: [UNDEFINED], CALLED: [MISSING]})):
            editor = Editor(program, os.fsencode(folder), words=words, folder=folder, settings=settings)
            assert shown(editor) == expected, (settings, shown(editor))
            assert editor.quit() == 0


@CASES.case
def a_file_that_changes(program: str) -> None:
    """It is read again at the next message, for files that aren't open too. If it can't be used, all faults are shown and the user is told,
    once."""
    with folder_with("X13\nC3\n") as folder:
        known = Path(folder, "known")
        editor = Editor(program, os.fsencode(folder), words=("--ignore-file", str(known)))
        editor.open(FILE, WRONG)
        assert shown(editor) == {}
        known.write_text("C3\n", encoding="utf-8")
        editor.save(FILE)
        assert shown(editor) == {FILE: [UNDEFINED]}, shown(editor)
        known.write_text("X13\n# longer\n", encoding="utf-8")
        editor.save(FILE)
        assert shown(editor) == {CALLED: [MISSING]}, shown(editor)
        for change, why in ((lambda: known.write_text("X99\n", encoding="utf-8"), "'X99' is not a fault code"),
                            (known.unlink, f"cannot read {known}: No such file or directory"),
                            (lambda: os.mkfifo(known), f"cannot read {known}: it is not a regular file")):
            change()
            editor.messages.clear()
            editor.save(FILE)
            editor.save(FILE)
            assert shown(editor) == {FILE: [UNDEFINED], CALLED: [MISSING]}, shown(editor)
            assert editor.messages == [f"actionlint: no fault is ignored: {why}"], editor.messages
        assert editor.quit() == 0


@CASES.case
def not_found_by_itself(program: str) -> None:
    """A file in the linted folder turns nothing off, whatever its name."""
    names = (".actionlint-ignore", ".actionlintignore", ".ignore", "known", ".github/actionlint.yaml", ".github/known")
    with folder_with("X13\nC3\n") as folder:
        write(folder, {name: "X13\nC3\n" for name in names})
        editor = Editor(program, os.fsencode(folder), folder=folder)
        editor.open(FILE, WRONG)
        assert shown(editor) == {FILE: [UNDEFINED], CALLED: [MISSING]}, shown(editor)
        assert editor.quit() == 0


@CASES.case
def rules_that_ignore_nothing(program: str) -> None:
    """They are told once for each file of rules, and again when it changed. What may be about unknown faults is not: of notes, and of files
    that can't be read."""
    with folder_with("# a\nx13\nC3:nowhere.yml\nSC2086\nX13\n") as folder:
        write(folder, {"more": f"G8\nC3:{CALLED}\nK1\nG8\nK1:{OTHER}\n"})
        editor = Editor(program, os.fsencode(folder), words=("--ignore-file", folder + "/known", "--ignore-file", folder + "/more"))
        assert shown(editor) == {}
        told = [f"actionlint: {folder}/known: C3:nowhere.yml ignores nothing",
                f"actionlint: {folder}/more: G8, K1, K1:{OTHER} ignore nothing"]
        assert editor.messages == told, editor.messages
        for text in (RIGHT, WRONG):
            editor.open(FILE, text)
            editor.settle()
            editor.close(FILE)
        assert shown(editor) == {} and editor.messages == told, editor.messages
        write(folder, {"known": "".join(f"X{number}\n" for number in range(1, 14)), "more": f"C3:{CALLED}\n"})
        editor.save(FILE)
        assert shown(editor) == {}
        assert editor.messages[2:] == [f"actionlint: {folder}/known: X1, X2, X3, X4, X5 and 7 more rules ignore nothing"], editor.messages
        write(folder, {"known": f"K1:{OTHER}\nK1:{FILE}\nK1\n", "more": "SC2086\n", OTHER: "on: ["})
        editor.save(FILE)
        editor.settle()
        assert editor.messages[3:] == [f"actionlint: {folder}/known: K1:{FILE} ignores nothing"], editor.messages
        assert editor.quit() == 0


class Hook:
    """The script of the hooks in a clone that carries the linter."""

    def __init__(self, program: str, top: str):
        self._script = Path(top) / "clients/pre-commit"
        copy_few_sources(Path(top))
        carry(Path(top), program)
        commit(top)

    def run(self, folder: str, *words: str) -> tuple[int, list[str], str]:
        """The status, the lines of its output, and its standard error."""
        done = subprocess.run([self._script, *words], cwd=folder, stdout=subprocess.PIPE, stderr=subprocess.PIPE, check=False,
                              env={"PATH": PATH, "HOME": folder})
        return done.returncode, done.stdout.decode().splitlines(), done.stderr.decode()


@CASES.case
def hooks(program: str) -> None:
    """Options come before `--`; without it each word is a file, so that one that is named like an option is linted."""
    of_file, of_caller = f"{FILE}:6:30: {UNDEFINED}", f"{CALLED}:6:15: {MISSING}"
    path = "--root=clean/action.yml"
    with folder_with("X13\n") as folder, tempfile.TemporaryDirectory(prefix="actionlint-test-") as top:
        hook = Hook(program, top)
        write(folder, {path: "name: x\n", "clean/.github/workflows/a.yml": "on: push\njobs: {}\n"})
        assert hook.run(folder) == (1, [of_file, of_caller], "")
        assert hook.run(folder, FILE) == (1, [of_file], "")
        assert hook.run(folder, "--ignore-file=known", "--") == (1, [of_caller], "actionlint-report: 1 fault in 1 file, 1 ignored\n")
        assert hook.run(folder, "--ignore-file", "known", "--", FILE) == (0, [], "actionlint-report: 0 faults, 1 ignored\n")
        for words in ([path], ["--ignore=X13", "--", path]):
            status, lines, _ = hook.run(folder, *words)
            assert status == 1 and all(line.startswith(path + ":") for line in lines) and len(lines) > 1, lines
        status, lines, said = hook.run(folder, "--ignore-file=known")
        assert (status, lines, said) == (3, [], "actionlint: --ignore-file=known: refused E2\n"), (status, lines, said)
        # A program that wasn't built from these sources isn't run.
        write(top, {"prebuilt/sources.sha256": "0 x\n"})
        shutil.rmtree(Path(top, "crates/actionlint/out"))
        status, lines, said = hook.run(folder)
        assert status == 3 and not lines and "no program was built from these sources" in said, (status, lines, said)


if __name__ == "__main__":
    sys.exit(CASES.run(sys.argv[1:]))
