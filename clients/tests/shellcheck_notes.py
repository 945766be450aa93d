#!/usr/bin/env python3
"""Notes of shellcheck: each is at its place in the file, whatever the kind of scalar around its script. Needs Debian's shellcheck.

    shellcheck_notes.py PROGRAM [NAME...]
"""
from __future__ import annotations

import json
import os
import sys
import tempfile
import time
from pathlib import Path
from typing import Any

from cases import Cases
from readers import reader
from report_runs import run_report
from repositories import FILE, TOP, WORKFLOWS, write

from actionlint_client.faults import Fault
from actionlint_client.problems import Problem
from actionlint_client.scripts import Script, scripts_of, variable_of, without_expressions, word_of
from actionlint_client.shellcheck import notes_of_text

CASES = Cases("shellcheck")
STEPS = "on: push\njobs:\n  a:\n    runs-on: ubuntu-latest\n    steps:\n"
# Steps, and the place of a note about a variable without quotes (SC2086), counted by hand: the first line below STEPS is 6.
PLACES = {
    "plain": ('      - run: echo ${{ github.sha }} "é😀" $x\n', (6, 42)),
    "plain over lines": ("      - run: echo\n          a\n\n          echo $x\n", (9, 16)),
    "literal": ("      - run: |\n          if true; then\n            echo 'é😀' $x\n          fi\n", (8, 23)),
    "literal with an indent of its own": ("      - run: |2-  # two\n\n            echo  $x\n", (8, 19)),
    "literal with a tab": ("      - run: |\n          true\n          \techo $x\n", (8, 17)),
    "folded": ("      - run: >-\n          echo\n          a\n\n          echo b\n          $x\n", (11, 11)),
    "folded with deeper lines": ("      - run: >\n          echo a\n            echo b $x\n          echo\n", (8, 20)),
    "in single quotes": ("      - run: 'echo ''a''\n          b $x'\n", (7, 13)),
    "in double quotes": ('      - run: "echo \\"\\u00e9\\x41\\" \\\n          \\tb $x"\n', (7, 15)),
    "after a line break that is written": ('      - run: "true\\necho $x"\n', (6, 26)),
    "in a flow mapping": ("      - {name: a, run: echo $x}\n", (6, 29)),
    "an expression over lines": ("      - run: |\n          echo ${{ github.sha ||\n            '}}' }} $x\n", (8, 21)),
    "an alias": ("      - run: &r echo $x\n      - run: *r\n", (6, 22)),
    "an alias of another text": ("      - name: &r echo $x\n        run: *r\n", (6, 23)),
    "an anchor of a name that was used": ("      - run: &r echo a\n      - run: &r echo $x\n", (7, 22)),
    "an alias of a block": ("      - run: &r |\n          echo $x\n      - run: *r\n", (7, 16)),
}
# Jobs and steps, and the shell of their script; None if shellcheck isn't run.
SHELLS = {
    "  a:\n    runs-on: ubuntu-latest\n    steps:\n      - run: x\n": "bash",
    "  a:\n    runs-on: windows-latest\n    steps:\n      - run: x\n": None,
    "  a:\n    runs-on: windows-latest\n    steps:\n      - run: x\n        shell: bash\n": "bash",
    "  a:\n    runs-on: ${{ matrix.os }}\n    strategy: {matrix: {os: [windows-latest]}}\n    steps:\n      - run: x\n": None,
    "  a:\n    runs-on: ${{ matrix.os }}\n    strategy: {matrix: {os: [ubuntu-latest]}}\n    steps:\n      - run: x\n": "bash",
    "  a:\n    runs-on: ubuntu-latest\n    container: alpine\n    steps:\n      - run: x\n": "sh",
    "  a:\n    runs-on: ubuntu-latest\n    defaults: {run: {shell: '/bin/sh -e {0}'}}\n    steps:\n      - run: x\n": "sh",
    "  a:\n    runs-on: ubuntu-latest\n    steps:\n      - run: x\n        shell: python\n": None,
    "  a:\n    runs-on: ubuntu-latest\n    steps:\n      - run: x\n        shell: bash -euo pipefail {0}\n": "bash",
}


# The shell of a script with `cd a` and `cd ..`, and the codes of its notes: 2103 and 2164 are on what follows a `cd` that fails.
AS_RUN: dict[str | None, list[str]] = {
    None: [], "bash": [], "sh": [], "bash -e {0}": [], "bash -euo pipefail {0}": [], "sh -x -e {0}": [], "/bin/bash -o errexit {0}": [],
    "bash {0}": ["SC2164", "SC2103"], "bash --norc -o pipefail {0}": ["SC2164", "SC2103"], "sh -x {0}": ["SC2164", "SC2103"],
    "bash --noprofile --norc {0}": ["SC2164", "SC2103"]}
# Scripts whose only oddities would be those of a word or of a variable: SC2050, 2170, 2193, 2268, 2222, 2043, 2157, 2078, 2086, 2016 ..
ABOUT_EXPRESSIONS = (
    '[ "${{ a }}" = main ]', "[ ${{ a }} -eq 1 ]", "[ ${{ a }} = xyz ]", '[ "x${{ a }}" = "x" ]', "test ${{ a }} == true",
    'case ${{ a }} in b) echo c ;; esac', 'case "$1" in ${{ a }}) echo a ;; ${{ b }}) echo b ;; esac', '[ -n "${{ a }}" ]', "[ ${{ a }} ]",
    'for i in ${{ a }}; do echo "$i"; done', 'for i in "${{ a }}"; do echo "$i"; done',
    '[[ ${{ a }} == "${{ b }}" ]]', "[[ ${{ a }} =~ ^v ]]",
    "echo ${{ a }}", "echo '${{ a }}'", 'printf "${{ a }}"', "rm -rf ${{ a }}/b",
    "source ${{ a }}", "exit ${{ a }}", "while ${{ a }}; do :; done",
    "if [ ${{ a }} -gt ${{ b }} ]; then :; fi", 'echo "a "${{ a }}" b"', "cat <<< ${{ a }}", "for ${{ a }} in b c; do :; done")
ABOUT_OTHERS = {"[ a = main ]": ["SC2050"], "[ a -eq 1 ]": ["SC2170", "SC2050"], "[ -n a ]": ["SC2157"],
                "for i in a; do echo \"$i\"; done": ["SC2043"],
                "case a in b) echo c ;; esac": ["SC2194"]}
# In place of shellcheck: ends itself at some scripts, and at others leaves a process that doesn't end and keeps its output open.
WRAPPER = """#!/bin/sh
if grep -q 'kill it' words; then kill -9 $$; fi
if grep -q 'leave it' words; then cd '{folder}'; sleep 120 & sleep 120; fi
exec /usr/bin/shellcheck "$@"
"""
HANG_SECONDS = 120


def run(program: str, folder: str, *words: str, path: str = "") -> tuple[int, list[dict[str, Any]], str]:
    """The status, the lines of JSON and standard error. `path` comes before the usual PATH."""
    environment = {**os.environ, "PATH": path + os.environ["PATH"]}
    status, said, errors = run_report(program, folder, "--form", "jsonl", "--shellcheck", *words, env=environment)
    return status, [json.loads(line) for line in said.splitlines()], errors


def notes_on(script: str, shell: str | None = None) -> list[Problem]:
    """The notes on a script in a block, whose later lines are indented by ten."""
    text = f"{STEPS}      - run: |\n          {script}\n" + (f"        shell: {shell}\n" if shell else "")
    said: list[Fault] = []
    found = list(notes_of_text(reader(), FILE, text.encode(), said.append))
    assert not said, (script, said)
    return found


def scripts_in(text: str, file: str = FILE) -> list[Script]:
    tree = reader().tree(file, text.encode())
    return scripts_of(tree, text.encode()) if tree else []


def codes_of(script: str, shell: str | None = None) -> list[str]:
    return [one.code for one in notes_on(script, shell)]


def running_in(folder: str) -> list[str]:
    """The processes whose current folder is this one or is below it, or was."""
    found = []
    for process in Path("/proc").glob("[0-9]*"):
        try:
            where, said = os.readlink(process / "cwd"), (process / "cmdline").read_bytes()
        except OSError:
            continue
        if where.startswith(os.path.realpath(folder)) or said.startswith(b"shellcheck"):
            found.append(f"{process.name}: {said!r} in {where}")
    return found


@CASES.case
def places(program: str) -> None:
    """In each kind of scalar, and after multibyte characters."""
    with tempfile.TemporaryDirectory(prefix="actionlint-test-") as folder:
        for what, (steps, place) in PLACES.items():
            write(folder, {FILE: STEPS + steps})
            status, found, errors = run(program, folder)
            assert status == 1 and not errors, (what, status, errors)
            assert [(one["line"], one["column"], one["end_column"]) for one in found if one["code"] == "SC2086"] == [
                (*place, place[1] + 2)], (what, found)
            assert all(one["kind"] == "shellcheck" and one["link"].endswith("/wiki/" + one["code"]) for one in found), found
        write(folder, {FILE: "\ufeff" + (STEPS + PLACES["folded"][0]).replace("\n", "\r\n")})
        assert [(one["line"], one["column"]) for one in run(program, folder)[1] if one["code"] == "SC2086"] == [PLACES["folded"][1]]


def check_script(text: str, script: Script) -> None:
    """Each character of a script, except blanks, is at the place computed for it, unless an escape or an expression is written there."""
    assert len(script.offsets) == len(script.text) + 1 and script.offsets == sorted(script.offsets), script
    for character, offset in zip(script.text, script.offsets):
        assert character.isspace() or text[offset] == character or character == "x" or text[offset] in "\\'", (character, offset, script)


@CASES.case
def every_character(program: str) -> None:
    """In all scripts of the examples and of the files of the cases above."""
    texts = [path.read_text(encoding="utf-8") for path in Path(TOP / "examples").rglob("*.yml")]
    texts += [STEPS + steps for steps, _ in PLACES.values()]
    scripts = [(text, script) for text in texts for script in scripts_in(text)]
    assert len(scripts) >= 30, len(scripts)
    for text, script in scripts:
        check_script(text, script)


@CASES.case
def shells(program: str) -> None:
    for jobs, shell in SHELLS.items():
        scripts = scripts_in("on: push\njobs:\n" + jobs)
        assert [script.shell for script in scripts] == ([shell] if shell else []), (jobs, scripts)
    scripts = scripts_in("defaults: {run: {shell: sh}}\njobs: {a: {steps: [{run: x}]}}\n")
    assert [script.shell for script in scripts] == ["sh"], scripts
    scripts = scripts_in("runs: {using: composite, steps: [{run: x, shell: sh}, {run: y}]}\n")
    assert [(script.shell, script.text) for script in scripts] == [("sh", "x")], scripts


@CASES.case
def expressions(program: str) -> None:
    """Words of the same length replace them; braces in quotes don't end them, and an unclosed one stays."""
    assert without_expressions("a${{ b }}c ${{ '}}' }}${{ d", word_of) == "axxxxxxxxc " + "x" * 11 + "${{ d"
    assert without_expressions("${{ a\nb }}", word_of) == "x" * 10
    assert without_expressions("a${{ b }}c ${{}}$${{ d }}", variable_of) == "a${x0___}c ${x1}$${x2___}"


@CASES.case
def as_the_runner_runs_them(program: str) -> None:
    """The shell ends at the first command that fails, unless `shell` has options without `-e`; the added line changes no place, and takes
    nothing from a first line of the script's own, or from a directive for the whole script."""
    for shell, codes in AS_RUN.items():
        assert codes_of("cd a\n          cd ..\n", shell) == codes, (shell, codes_of("cd a\n          cd ..\n", shell))
    assert codes_of("! grep -q a b\n          true\n") == ["SC2251"], "with -e, a negated command doesn't end the script"
    for first, shell in (("#!/bin/sh\n", "bash"), ("#!/usr/bin/env python\n", "sh"), ("true\n", "bash"), ("true\n", "bash {0}")):
        found = notes_on(f"{first}          echo $x\n", shell)
        assert [(one.code, one.fault.line, one.fault.column) for one in found] == [("SC2086", 8, 16)], (first, shell, found)
    assert codes_of("# shellcheck disable=SC2086\n          true\n          echo $x\n") == []
    assert codes_of("true\n          # shellcheck disable=SC2086\n          echo $x\n          echo $x\n") == ["SC2086"]


@CASES.case
def what_stands_in_place_of_an_expression(program: str) -> None:
    """Neither a note on constants nor one on variables is about an expression. The same notes are given where there is none."""
    for script in ABOUT_EXPRESSIONS:
        assert codes_of(script) == [], (script, codes_of(script))
    for script, codes in ABOUT_OTHERS.items():
        assert codes_of(script) == codes, (script, codes_of(script))
    found = notes_on("for ${{ a }} in b c; do\n          :\n          done\n          echo $x\n")
    assert [(one.code, one.fault.line, one.fault.column) for one in found] == [("SC2086", 10, 16)], "a variable can't be there"
    assert codes_of("source ./lib.sh\n          echo \"$FROM_ENV\"") == [], "files and variables come from elsewhere"
    found = notes_on('[ "${{ a }}" = b ] && echo $x\n')
    assert [(one.code, one.fault.column) for one in found] == [("SC2086", 38)], found


@CASES.case
def a_script_without_end(program: str) -> None:
    """shellcheck doesn't end on two of the scripts: they are named, after some seconds, and everything else is reported. Nothing that was
    started still runs."""
    endless = "$((" * 20
    steps = f'      - run: echo $x\n      - run: "{endless}"\n      - run: |\n          true\n          {endless}\n      - run: echo $y\n'
    with tempfile.TemporaryDirectory(prefix="actionlint-test-") as folder:
        write(folder, {FILE: STEPS + "      - run: echo ${{ github.reff }}\n" + steps})
        begun = time.monotonic()
        status, found, errors = run(program, folder)
        assert status == 1 and [(one["code"], one["line"]) for one in found] == [("X13", 6), ("SC2086", 7), ("SC2086", 12)], (found, errors)
        why = "no shellcheck of this script, since shellcheck took more than 4 seconds"
        assert errors == "".join(f"actionlint-report: {FILE}:{line}: {why}\n" for line in (8, 10)), errors
        assert time.monotonic() - begun < HANG_SECONDS
        assert running_in(folder) == []


@CASES.case
def a_script_at_which_it_dies(program: str) -> None:
    """A shellcheck that starts others, and doesn't end, is ended with them; one that a signal ends loses only its own script."""
    with tempfile.TemporaryDirectory(prefix="actionlint-test-") as folder:
        write(folder, {FILE: STEPS + "      - run: echo $x\n      - run: kill it\n      - run: leave it\n      - run: echo $y\n",
                       "bin/shellcheck": WRAPPER.format(folder=folder)})
        os.chmod(folder + "/bin/shellcheck", 0o755)
        status, found, errors = run(program, folder, path=folder + "/bin:")
        assert status == 1 and [(one["code"], one["line"]) for one in found] == [("SC2086", 6), ("SC2086", 9)], (found, errors)
        assert errors == (f"actionlint-report: {FILE}:7: no shellcheck of this script, since shellcheck was ended by signal 9\n"
                          f"actionlint-report: {FILE}:8: no shellcheck of this script, since shellcheck took more than 4 seconds\n"), errors
        assert running_in(folder) == []


@CASES.case
def many_scripts_without_end(program: str) -> None:
    """After twelve, the rest isn't checked, and that is said."""
    with tempfile.TemporaryDirectory(prefix="actionlint-test-") as folder:
        write(folder, {FILE: STEPS + "      - run: kill it\n" * 14 + "      - run: echo $x\n",
                       "bin/shellcheck": WRAPPER.format(folder=folder)})
        os.chmod(folder + "/bin/shellcheck", 0o755)
        status, found, errors = run(program, folder, path=folder + "/bin:")
        *named, last = errors.splitlines()
        assert (status, found) == (0, []) and len(named) == 12, (status, found, errors)
        assert last == f"actionlint-report: {FILE}:17: no shellcheck of later scripts, since there was none of 12", last


@CASES.case
def each_file_once(program: str) -> None:
    """However often a file is called, named or called by another spelling, its notes come once."""
    action = "name: a\ndescription: b\nruns:\n  using: composite\n  steps:\n    - run: echo $x\n      shell: sh\n"
    with tempfile.TemporaryDirectory(prefix="actionlint-test-") as folder:
        write(folder, {FILE: STEPS + "      - uses: ./a\n" * 3 + "      - uses: ./a/\n",
                       WORKFLOWS + "b.yml": STEPS + "      - uses: ./a\n" * 2, "a/action.yml": action})
        for words in ((), ("--", FILE), ("--", FILE, "./" + FILE, FILE), ("--", "a/action.yml", FILE),
                      ("--", "a/action.yml", "./a/action.yml", "a/action.yml")):
            _, found, errors = run(program, folder, *words)
            assert [(one["path"], one["code"]) for one in found] == [("a/action.yml", "SC2086")] and not errors, (words, found, errors)


@CASES.case
def files_that_are_called(program: str) -> None:
    """What the workflows call is checked too, in each shell, with its own notes; a file that the linter can't read is skipped."""
    action = "name: a\ndescription: b\nruns:\n  using: composite\n  steps:\n    - run: echo $x\n      shell: sh\n"
    with tempfile.TemporaryDirectory(prefix="actionlint-test-") as top:
        folder = top + "/repository"
        write(folder, {FILE: STEPS + "      - uses: ./a\n      - run: echo ok\n", "a/action.yml": action, "b/action.yml": action,
                       WORKFLOWS + "wrong.yml": "on: push\nname: 'x\n"})
        status, found, errors = run(program, folder)
        assert status == 1 and not errors and [(one["path"], one["code"]) for one in found] == [
            (WORKFLOWS + "wrong.yml", "Y5"), ("a/action.yml", "SC2086")], (found, errors)
        status, found, _ = run(program, folder, "--ignore", "SC2086", "--ignore", f"Y5:{WORKFLOWS}wrong.yml")
        assert (status, found) == (0, []), found
        write(folder, {"../outside/action.yml": action})
        write(folder, {FILE: STEPS + "      - uses: ./../outside\n      - uses: ./a/../b\n      - uses: .//b\n      - run: echo ok\n"})
        _, found, errors = run(program, folder)
        assert [one["code"] for one in found if one["kind"] == "shellcheck"] == [] and not errors, (found, errors)
        os.symlink("/etc/passwd", f"{folder}/{WORKFLOWS}out.yml")
        _, _, errors = run(program, folder)
        assert errors == f"actionlint: skipped {WORKFLOWS}out.yml: symbolic link points outside the folder\n", errors
        _, found, _ = run(program, folder, "--", "b/action.yml")
        assert [(one["path"], one["line"], one["column"]) for one in found] == [("b/action.yml", 6, 17)], found


@CASES.case
def a_file_that_only_a_job_names(program: str) -> None:
    """The linter doesn't read it, so it may contain anything."""
    with tempfile.TemporaryDirectory(prefix="actionlint-test-") as folder:
        for text in ("[" * 100_000, "- " * 100_000, "{a: " * 100_000):
            write(folder, {FILE: "on: push\njobs:\n  a:\n    uses: ./b/c.yml\n", "b/c.yml": text})
            status, found, errors = run(program, folder)
            assert status == 1 and [one["kind"] for one in found] == ["workflow-call"] and not errors, (status, errors)


@CASES.case
def off_unless_asked_for(program: str) -> None:
    """And if shellcheck is missing, the run doesn't pass for one without notes."""
    with tempfile.TemporaryDirectory(prefix="actionlint-test-") as folder:
        write(folder, {FILE: STEPS + PLACES["plain"][0]})
        assert run_report(program, folder, "--form", "text") == (0, "0 faults\n", "")
        status, said, errors = run_report(program, folder, "--shellcheck", env={**os.environ, "PATH": folder})
        assert (status, said) == (3, "") and "cannot start shellcheck" in errors, errors
        _, said, _ = run_report(program, folder, "--form", "text", "--shellcheck")
        assert said.splitlines()[-1] == "0 faults and 1 note of shellcheck (not proved) in 1 file", said


@CASES.case
def another_program(program: str) -> None:
    """A shellcheck that prints something other than notes ends the run with status 3 and one line."""
    with tempfile.TemporaryDirectory(prefix="actionlint-test-") as folder:
        write(folder, {FILE: STEPS + PLACES["plain"][0]})
        for said, status in (("", 3), ("nonsense", 0), ("[]", 0), ("{}", 0)):
            write(folder, {"shellcheck": f"#!/bin/sh\necho '{said}'\nexit {status}\n"})
            os.chmod(folder + "/shellcheck", 0o755)
            found = run_report(program, folder, "--shellcheck", env={**os.environ, "PATH": folder + ":" + os.environ["PATH"]})
            assert found == (3, "", f"actionlint-report: shellcheck ended with status {status}: {said}\n"), found


if __name__ == "__main__":
    sys.exit(CASES.run(sys.argv[1:]))
