#!/usr/bin/env python3
"""The formats of actionlint-report for people and for GitHub, its explanation of a code, and ignored faults.

    report_forms.py PROGRAM [NAME...]
"""
from __future__ import annotations

import json
import os
import pty
import re
import subprocess
import sys
import tempfile

from cases import Cases
from report_runs import REPORT, command, run_report
from repositories import FILE, FILES, RIGHT, TOP, WORKFLOWS, write

from actionlint_client.advice import SLIPS, first_sentence
from actionlint_client.characters import terminal_text
from actionlint_client.entries import entries, plain_text
from actionlint_client.lint_run import LintRun
from actionlint_client.sarif import MAX_RESULTS

from fault_entries import cases_of_entries, files_of
from running import write_files

CASES = Cases("report-forms")
DOCS = "https://example.org/docs"
BROKEN = """.github/workflows/release.yml:4:5: unexpected key "branch" [syntax-check, K1]
  4 |     branch: [main]
    |     ^~~~~~
  Fix: change to "branches"
  Look for the key in its section: it is misspelled, or it is one level too high or too deep.

.github/workflows/release.yml:11:13: condition is always true [if-cond, G18]
  11 |         if: ${{ github.event_name == 'push' }} && success()
     |             ^~~~~~~~~~~~~~~~~~~~~~~~~~~~~~~~~~~~~~~~~~~~~~~
  Fix: put all of it into one pair of braces
  Put the whole condition into the braces, or leave them out: a condition needs none.

.github/workflows/release.yml:13:13: job "tests" is not defined [job-needs, G8]
  13 |     needs: [tests]
     |             ^~~~~
  Fix: change to "test"
  Write the key of a job of this file (not its `name`), or delete the entry.

.github/workflows/release.yml:20:30: property "versoin" is not defined [expression, X13]
  20 |           VERSION: ${{ steps.versoin.outputs.number }}
     |                              ^~~~~~~
  Fix: change to "version"
  To read the outputs of a step, give the step an `id`, and read them after it.

.github/workflows/release.yml:21:15: required input "channel" of "Announce" is missing [action, C3]
  21 |       - uses: ./announce
     |               ^~~~~~~~~~
  Guess: add "channel: ''"
  Set the input under `with`, or give it a `default` in the called file if it can be left out.

5 faults in 1 file
"""
# Files whose faults are on lines with tabs, wide characters, controls, a byte order mark, other line breaks, or none at the end.
ODD_LINES = (b"on: push\njobs:\n  a:\n    runs-on: x\n    steps:\n      - run: 'a\tb ${{ x }}\t${{ y }}'\n",
             b"on: push\njobs: {}\n\xe8\xa1\xa8\xf0\x9f\x98\x80: 1",
             "on: push\njobs: {}\n'表\t😀é': 1\r\n\"b\u0085\u2028\u202e\": 2\rc: 3\n".encode(), b"\xef\xbb\xbfname: x\nnam: y\n",
             b"\xef\xbb\xbfnam: x\n", b"on: push\njobs: {}\nname: a\x1b[0m\x01b\n", b"on: push\nname: a\xffb\n", b"", b"\n\n", b"a: 'b\n",
             b"on: push\njobs:\n  a:\n    runs-on: x\n    steps: {run: '\xc3\xa9',\n      name: y}\n")
IS_FIX = re.compile(" +(Fix|Guess): ")
STEP = "on: push\njobs:\n  a:\n    runs-on: ubuntu-latest\n    steps:\n      - "
# The most common mistakes, each with the advice shown first.
ADVICE = {
    'on: {push: {branches: [**/x]}}\n': 'Y18: Text that begins with `*`, such as a branch pattern, needs quotes.',
    "on: push\njobs:\n  a:\n    if: !cancelled()\n": "Y8: Text that begins with `!` needs quotes, such as a pattern",
    "on: push\nname: {x} y\n": "Y13: Text that begins with `[`, `{`, `*`, `@`, `%` or a backtick, or contains `: `, needs quotes, and",
    "on:\n  push:\n    branches:\n      - *\n": "Y13: Text that begins with `[`, `{`, `*`, `@`, `%` or a backtick, or contains `: `, needs",
    "on: push\nname: a: b\n": "Y13: Text that begins with `[`, `{`, `*`, `@`, `%` or a backtick, or contains `: `, needs quotes, and",
    "on: push\nname: a\n  b: c\n":
        "Y13: If the place is the colon of a key, look at the line above: its colon has no space after it, or it",
    "on: push\njobs:\n  a:\n    runs-on:x\n    steps:\n": "Y13: If the place is the colon of a key, look at the line above: its colon",
    "on: push\nname: 'a\njobs: {}\nenv: {A: 'b'}\n": "Y13: Text that begins with `[`, `{`, `*`, `@`, `%` or a backtick, or contains",
    "on: push\n<<<<<<< HEAD\njobs: {}\n": "Y13: Lines that begin with `<<<<<<<`, `=======` or `>>>>>>>` are left from a merge: keep one",
    "on: push\njobs:\n  a:\n    runs-on: x\n    steps:\n      - run: a\n      -run: b\n":
        "Y4: A dash before an entry needs a space after it.",
    "on: push\njobs:\n  a:\n    runs-on: x\n     steps: []\n": "Y13: If the place is the colon of a key, look at the line above: its",
    "on: push\nname: x\njobs: {}\n  env: {}\n": "Y4: Give the line the same indentation as the entries it belongs with.",
    "on: push\njobs: {}\nenv:\n  A: {{ github.ref }}\n": "Y17: An expression has a dollar before its braces.",
    "on: push\njobs: {}\n[a, b]: c\n": "Y17: Write the key as a scalar on one line, and its value after the colon.",
    "on: push\njobs:\n  a: &a {runs-on: x, steps: []}\n  b: {<<: *a}\n":
        "K1: `<<` doesn't merge anything; an alias stands for a whole value.",
    "on: push\njobs:\n  a: {runs-on: x, steps: [], if: always}\n": "X7: A function needs parentheses after its name, as in `always()`.",
    "on: push\njobs:\n  a: {runs-on: x, steps: [], if: github.ref == main}\n": "X7: Write the name of a context, or put a string in single",
    STEP + "run: echo ${{ github.run_number + 1 }}\n": "X1: Do arithmetic in a step's script.",
    STEP + "run: echo ${{ matrix.os }}\n":
        "X13: `matrix` has only the rows of the job's own matrix and what `include` adds to them: add the",
    STEP + "run: echo ${{ matrix['os'] || 'x' }}\n": "X13: `matrix` has only the rows of the job's own matrix and what `include` adds",
    "on: push\njobs: {a: {runs-on: x, strategy: {matrix: {os: [{a: b}]}}, steps: [{run: 'echo ${{ matrix.os.c }}'}]}}\n":
        "X13: `matrix` has only the rows of the job's own matrix and what `include` adds to them: add the property there,",
    STEP + "run: echo ${{ steps.x.outputs.y }}\n": "X13: To read the outputs of a step, give the step an `id`, and read them after it.",
    "on: {workflow_call: {inputs: {x: {type: string}}}}\njobs: {a: {runs-on: x, steps: [{run: 'echo ${{ inputs.y }}'}]}}\n":
        "X13: An input has to be declared by the event or the action.",
    "on: push\njobs: {a: {runs-on: x, steps: []}, b: {runs-on: x, needs: a, steps: [{run: 'echo ${{ needs.a.outputs.o }}'}]}}\n":
        "X13: A job must declare the `outputs` that others read.",
    "on: push\n&x jobs: {}\n": "Y7: Text that begins with `*` or `&` needs quotes.",
    STEP + 'run: echo ${{ github.ref == "a" }}\n':
        "X1: Write a string in single quotes, a choice as `TEST && THIS || THAT`, and equality as `==`.",
    STEP + "run: echo ${{ needs.build.result }}\n": "X13: A job must list in its own `needs` each job whose results it reads.",
    STEP + "run: echo ${{ needs['build'].result }}\n": "X13: A job must list in its own `needs` each job whose results it reads.",
    STEP + "run: |\n          echo ${{ needs\n            .build.result }}\n": "X13: A job must list in its own `needs` each job whose",
    STEP + "run: echo ${{ steps . x . outputs }}\n": "X13: To read the outputs of a step, give the step an `id`, and read them after",
    STEP + "run: echo ${{ steps[('x')].outputs.y }}\n": "X13: To read the outputs of a step, give the step an `id`, and read them after",
    STEP + "run: echo ${{ github[format(inputs[ 'x' ])] }}\n": "X13: An input has to be declared by the event or the action.",
    STEP + 'run: "echo ${{ matrix\\x2eos }}"\n': "X13: `matrix` has only the rows of the job's own matrix and what `include` adds",
    STEP + "run: echo ${{ github.build }}\n": "X13: Write a property that the context has here.",
    STEP + "uses: actions/checkout\n":
        "C7: An action or a workflow in another repository needs `@REF` at its end: a branch, a tag or a commit.",
    STEP + "uses: checkout\n": "C7: Write `OWNER/REPO@REF`, `./DIR` or `docker://IMAGE` for a step, `./.github/workflows/FILE` or",
    "on: {schedule: [{cron: '0 0 * *'}]}\njobs: {}\n": "G4: Write five fields: minute, hour, day of the month, month, day of the week.",
    "on: push\njobs:\n  a:\n    runs-on: x\n    steps: make\n": "K4: A list is expected, with each entry on its own line",
    "on: push\njobs:\n  a:\n    runs-on: x\n    steps:\n      -run: make\n": "K4: A list is expected, with each entry on its own line",
    "on: push\njobs:\n  a:\n    runs-on: x\n    steps:\n      run: make\n": "K4: A list is expected, with each entry on its own line",
    "on: push\njobs: [make]\n": "K4: A mapping is expected, as lines of the form `KEY: VALUE`.",
    "on: push\njobs:\n  - make\n": "K4: A mapping is expected, as lines of the form `KEY: VALUE`.",
    "on: push\njobs:\n  a:\n    runs-on: x\n    steps:\n      - make\n": "K4: Write a value of the kind that its section takes.",
    "on: push\njobs: make\n": "K4: A mapping is expected, as lines of the form `KEY: VALUE`.",
    "on: push\njobs:\n  a:\n    runs-on: x\n    steps: [make]\n": "K4: Write a value of the kind that its section takes.",
    "on: push\njobs: {a: {runs-on: x, timeout-minutes: ten}}\n": "K5: A number is expected, without quotes.",
    "on: push\njobs: {a: {runs-on: x, continue-on-error: 'true'}}\n": "K5: `true` or `false` is expected, without quotes.",
    "on:\njobs: {}\n": "K5: `on` needs an event.",
    "on: {push: {paths: [./src]}}\njobs: {}\n": "G3: Paths begin at the repository's root, without `./` in front.",
    "on: {push: {branches: ['a b']}}\njobs: {}\n":
        "G3: Write the pattern as in GitHub's cheat sheet: `*` matches any text without a slash,",
    "name: x\njobs: {}\n": "K2: Add the key to the mapping that begins at this place.",
    STEP + "run: echo ${{ MATRIX.os }}\n": "X13: `matrix` has only the rows of the job's own matrix and what `include` adds",
    STEP + "name: x\n": "K2: A step needs `run` or `uses`.",
    "on: push\njobs: {a: {steps: []}}\n": "K2: Add the key to the mapping that begins at this place.",
}


def run(program: str, folder: str, *words: str, **variables: str) -> tuple[int, str, str]:
    """The status and both streams of actionlint-report."""
    return run_report(program, folder, *words, env={**os.environ, **variables})


@CASES.case
def text(program: str) -> None:
    """Each fault has its line, its code, a similar name and the repair; the last line has the count. Links lead to the pages."""
    broken = str(TOP / "examples/broken")
    assert run(program, broken, "--form", "text") == (1, BROKEN, "")
    status, said, _ = run(program, str(TOP), "--form", "text", "--docs", DOCS, "--root", broken)
    assert said.count(f"  {DOCS}/FAULTS") == 5 and f"  {DOCS}/FAULTS.md#k1-unexpected-key-0\n" in said, said
    with tempfile.TemporaryDirectory(prefix="actionlint-test-") as folder:
        write(folder, {FILE: RIGHT})
        assert run(program, folder, "--form", "text") == (0, "0 faults\n", "")
        write(folder, FILES)
        assert run(program, folder, "--form", "text")[1].endswith("\n\n2 faults in 2 files\n")
        assert run(program, folder, "--form", "text", "no.yml") == (
            3, "the faults are unknown: the linter could not go on\n", "actionlint: no.yml: refused E2\n")


def printed(program: str, folder: str, files: list[str]) -> str:
    """The report of the linter, with the lines of files."""
    return subprocess.run([program, "--", *files], cwd=folder, stdout=subprocess.PIPE, check=False).stdout.decode("utf-8", "replace")


@CASES.case
def lines_of_files(program: str) -> None:
    """The line of each fault and the marks below it are, character for character, those of the linter."""
    odd = {f"{WORKFLOWS}{number}.yml": data for number, data in enumerate(ODD_LINES)}
    count = 0
    for files in (*map(files_of, cases_of_entries(TOP).values()), odd):
        with tempfile.TemporaryDirectory(prefix="actionlint-test-") as folder:
            write_files(folder, files)
            with LintRun(program, folder, list(files), True) as run:
                found = [(problem.fault, problem.snippet()) for problem in run]
            lines = (line for one, snippet in found for line in (
                f"{one.path}:{one.line}:{one.column}: {one.message} [{one.kind}]", *snippet))
            wanted = printed(program, folder, list(files))
            assert "".join(f"{line}\n" for line in lines) == wanted, (found, wanted)
            assert all((one.width or 1) == 1 + snippet[-1].count("~") for one, snippet in found), found
            count += len(found)
    assert count > 100, count


def in_the_terminal(program: str, files: dict[str, bytes]) -> list[list[str]]:
    """The lines of files in the form `text`, each with the marks below it."""
    with tempfile.TemporaryDirectory(prefix="actionlint-test-") as folder:
        write_files(folder, files)
        return [paragraph.split("\n")[1:3] for paragraph in run(program, folder, "--form", "text")[1].split("\n\n")[:-1]]


@CASES.case
def lines_in_the_terminal(program: str) -> None:
    """The form `text` has these lines, with controls as code points."""
    files = {f"{WORKFLOWS}{number}.yml": data for number, data in enumerate(ODD_LINES)}
    with tempfile.TemporaryDirectory(prefix="actionlint-test-") as folder:
        write_files(folder, files)
        lines = printed(program, folder, []).split("\n")[2::4]
    shown = [line for line, _ in in_the_terminal(program, files)]
    assert shown == [f"  {terminal_text(line)}" for line in lines] and len(shown) > len(ODD_LINES), (shown, lines)


@CASES.case
def marks_in_the_terminal(program: str) -> None:
    """The marks are below the fault as it is shown: behind all signs of a code point before it, and below all of one in it."""
    text = "on: push\njobs: {}\n\"\u202ea\": 1\n'\t\u200bb': ${{ 'c\u2028d' }}\n"
    assert in_the_terminal(program, {FILE: text.encode()}) == [
        ['  3 | "<U+202E>a": 1', "    | ^~~~~~~~~~~"], ["  4 | '\t<U+200B>b': ${{ 'c<U+2028>d' }}", "    | ^~~~~~~~~~~~"]]
    file = "on: push\njobs: {a: {name: '\u202e', runs-on: x, b: []}}\n"
    assert in_the_terminal(program, {FILE: file.encode()}) == [
        ["  2 | jobs: {a: {name: '<U+202E>', runs-on: x, b: []}}", "    |                                          ^"]]


@CASES.case
def long_lines_in_the_terminal(program: str) -> None:
    """A line of 300 characters is shown, and none of more, however many bytes it has."""
    for size in (300, 301):
        line = "\xe9" * size
        with tempfile.TemporaryDirectory(prefix="actionlint-test-") as folder:
            write(folder, {FILE: f"on: push\njobs: {{}}\n{line}\n"})
            assert (line in run(program, folder, "--form", "text")[1]) == (size == 300), size


@CASES.case
def advice(program: str) -> None:
    """For the most common mistakes, the text below the fault's line is the sentence that helps."""
    with tempfile.TemporaryDirectory(prefix="actionlint-test-") as folder:
        write(folder, {f"{WORKFLOWS}{number}.yml": file for number, file in enumerate(ADVICE)})
        found: dict[str, list[str]] = {}
        for paragraph in run(program, folder, "--form", "text")[1].split("\n\n")[:-1]:
            head, *lines = paragraph.splitlines()
            said = " ".join(line.strip() for line in lines[2:] if not IS_FIX.match(line))
            found.setdefault(head.partition(":")[0], []).append(f"{head.rpartition(', ')[2][:-1]}: {said}")
        for number, (file, expected) in enumerate(ADVICE.items()):
            of_file = found.get(f"{WORKFLOWS}{number}.yml", [])
            assert any(one.startswith(expected) for one in of_file), (file, expected, of_file)


@CASES.case
def sentences_of_entries(program: str) -> None:
    """What is printed in place of the first sentence is in the entry too, and every entry has a sentence."""
    by_code = {entry.code: plain_text(entry.repair).lower() for entry in entries()}
    for slip in SLIPS:
        assert slip.sentence.lower().removesuffix(".") in by_code[slip.code], slip
    for code, repair in by_code.items():
        assert first_sentence(repair).endswith(".") and "](" not in repair and "(the list)" not in repair, (code, repair)


@CASES.case
def color(program: str) -> None:
    """On a terminal, unless NO_COLOR is set; anywhere if requested."""
    broken = str(TOP / "examples/broken")
    plain = run(program, broken, "--form", "text")[1]
    colored = run(program, broken, "--form", "text", "--color", "always")[1]
    assert "\x1b[" not in plain and "\x1b[31munexpected key" in colored
    assert "".join(part.partition("m")[2] if number else part for number, part in enumerate(colored.split("\x1b["))) == plain
    for variables, words, expected in (({"TERM": "xterm"}, [], True), ({"TERM": "xterm", "NO_COLOR": "1"}, [], False),
                                       ({"TERM": "dumb"}, [], False), ({"TERM": "xterm"}, ["--color", "never"], False)):
        shown = on_terminal(command(program, "--form", "text", "--root", broken, *words), variables)
        assert (b"\x1b[" in shown) == expected, (variables, words)


def on_terminal(command: list[str], variables: dict[str, str]) -> bytes:
    """What a command writes to a terminal."""
    environment = {name: value for name, value in os.environ.items() if name != "NO_COLOR"} | variables
    parent, child = pty.openpty()
    with subprocess.Popen(command, stdin=child, stdout=child, stderr=child, env=environment):
        os.close(child)
        blocks = []
        while True:
            try:
                block = os.read(parent, 65_536)
            except OSError:
                break
            if not block:
                break
            blocks.append(block)
    os.close(parent)
    return b"".join(blocks)


@CASES.case
def github(program: str) -> None:
    """Annotations as GitHub's toolkit writes them, with what to write instead on lines of their own."""
    status, said, errors = run(program, str(TOP / "examples/broken"), "--form", "github")
    lines = said.splitlines()
    assert (status, errors, len(lines), lines[-1]) == (1, "", 6, "5 faults in 1 file"), said
    assert lines[0] == ('::error file=.github/workflows/release.yml,line=4,endLine=4,col=5,endColumn=11,title=K1::unexpected key "branch" '
                        '[syntax-check]%0AFix: change to "branches"%0ALook for the key in its section: it is misspelled, or it is one '
                        "level too high or too deep."), lines[0]


@CASES.case
def levels(program: str) -> None:
    """What GitHub itself only warns about is a warning in each format that has levels, and counts as a fault."""
    step = "on: push\njobs:\n  a:\n    runs-on: ubuntu-latest\n    steps:\n      - "
    warned = step + "run: echo '::set-output name=x::y'\n"
    failing = step + "run: echo '::set-env name=x::y'\n"
    with tempfile.TemporaryDirectory(prefix="actionlint-test-") as folder:
        for text, github_command, level, severity in ((warned, "warning", "warning", "minor"), (failing, "error", "error", "major")):
            write(folder, {FILE: text})
            status, said, _ = run(program, folder, "--form", "github")
            assert status == 1 and said.startswith(f"::{github_command} file="), said
            (run_of_sarif,) = json.loads(run(program, folder)[1])["runs"]
            (rule,) = run_of_sarif["tool"]["driver"]["rules"]
            assert run_of_sarif["results"][0]["level"] == level and rule["defaultConfiguration"] == {"level": "error"}, run_of_sarif
            assert json.loads(run(program, folder, "--form", "codequality")[1])[0]["severity"] == severity
            assert json.loads(run(program, folder, "--form", "jsonl")[1])["level"] == level


@CASES.case
def sarif(program: str) -> None:
    """What GitHub's page asks for: texts, help with the entry, its address, and the version."""
    status, said, _ = run(program, str(TOP / "examples/broken"), "--docs", DOCS + "/")
    driver = json.loads(said)["runs"][0]["tool"]["driver"]
    assert driver["version"] == (TOP / "VERSION").read_text(encoding="utf-8").strip() and driver["informationUri"] == DOCS, driver
    rule = driver["rules"][0]
    entry = next(entry for entry in entries() if entry.code == "K1")
    assert rule["id"] == "K1" and rule["shortDescription"]["text"] == 'unexpected key ".."', rule
    assert rule["fullDescription"]["text"] == plain_text(entry.text) and entry.repair.split("```")[1] in rule["help"]["markdown"], rule
    assert rule["helpUri"] == f"{DOCS}/FAULTS.md#k1-unexpected-key-0" and "Repair: Look for the key" in rule["help"]["text"], rule
    assert "{0}" not in said and MAX_RESULTS == 25_000
    assert f"]({DOCS}/LISTS.md#" in rule["help"]["markdown"] and DOCS + "//" not in said, rule
    assert "informationUri" not in run(program, str(TOP / "examples/broken"))[1]


@CASES.case
def links_in_json_lines(program: str) -> None:
    """Each has the address of its entry if that of the pages is given."""
    for words, expected in ((["--docs", DOCS], f"{DOCS}/FAULTS.md#k1-unexpected-key-0"), ([], None)):
        _, said, _ = run(program, str(TOP / "examples/broken"), "--form", "jsonl", *words)
        assert json.loads(said.splitlines()[0])["link"] == expected, said


@CASES.case
def explain(program: str) -> None:
    """The entry of a code; any other text is a wrong argument."""
    status, said, errors = run(program, "/", "--explain", "x13")
    assert (status, errors) == (0, "") and said.startswith('X13: property ".." is not defined\n\n'), said
    assert "(the list in docs/LISTS.md)" in said and max(map(len, said.splitlines())) <= 100, said
    assert "\n\nRepair: Write a property" in said and "\n    on: push\n" in said and "```" not in said and "](" not in said, said
    assert all(run(program, "/", "--explain", code)[0] == 0 for code in ("Y1", "K7", "C9"))
    assert run(program, "/", "--explain", "X99") == (2, "", "actionlint-report: 'X99' is not a fault code\n")


@CASES.case
def ignored_faults(program: str) -> None:
    """They don't count, not even for the status, but their number is shown; a wrong rule or a missing file of rules ends the run."""
    with tempfile.TemporaryDirectory(prefix="actionlint-test-") as folder:
        write(folder, {**FILES, WORKFLOWS + "b.yml": FILES[FILE], "kept": f"\ufeff# known\r\n\nC3\r\n  X13:{FILE}\n"})
        for words, status, count in (
                ([], 1, "3 faults in 3 files"), (["--ignore", "X13"], 1, "1 fault in 1 file, 2 ignored"),
                (["--ignore", f"x13:{FILE}", "--ignore", "c3"], 1, "1 fault in 1 file, 2 ignored"),
                (["--ignore-file", "kept"], 1, "1 fault in 1 file, 2 ignored"),
                (["--ignore-file", "kept", "--ignore", "X13"], 0, "0 faults, 3 ignored"),
                (["--ignore", "X13:b.yml"], 1, "3 faults in 3 files")):
            found, said, errors = run(program, folder, "--form", "text", *words)
            assert (found, said.splitlines()[-1]) == (status, count), (words, said)
            assert errors == ("actionlint-report: X13:b.yml ignores nothing\n" if "X13:b.yml" in words else ""), (words, errors)
        found, said, errors = run(program, folder, "--form", "jsonl", "--ignore-file", "kept")
        assert (found, errors) == (1, "actionlint-report: 1 fault in 1 file, 2 ignored\n") and len(said.splitlines()) == 1, (said, errors)
        # A run that could not go on is reported as such, whatever is ignored.
        assert run(program, folder, "--ignore", "X13", "no.yml")[0] == 3
        os.mkfifo(folder + "/pipe")
        for words, why in ((["--ignore", "X99"], "'X99' is not a fault code"), (["--ignore", "expression"], "is not a fault code"),
                           (["--ignore", "X13:"], "names no file"), (["--ignore-file", "none"], "cannot read none: No such file"),
                           (["--ignore-file", "pipe"], "cannot read pipe: it is not a regular file"),
                           (["--ignore-file", "."], "cannot read .: Is a directory")):
            found, said, errors = run(program, folder, *words)
            assert (found, said) == (2, "") and why in errors, (words, errors)


@CASES.case
def rules_that_ignore_nothing(program: str) -> None:
    """They are told in each form, if what they are about was looked at, and change no status."""
    b, said = WORKFLOWS + "b.yml", "ignores nothing"
    with tempfile.TemporaryDirectory(prefix="actionlint-test-") as folder:
        write(folder, {FILE: FILES[FILE], b: RIGHT, "kept": f"x13:{FILE}\nX13:{b}\nK1\nSC2086\n"})
        for words, expected in (([], [f"X13:{b}", "K1"]), ([FILE], []), ([b], [f"X13:{b}"]), (["no.yml"], [])):
            for form in ("text", "jsonl", "oneline", "codequality"):
                status, _, errors = run(program, folder, "--form", form, "--ignore-file", "kept", "--", *words)
                told = [line for line in errors.splitlines() if said in line]
                wanted = [f"actionlint-report: {rule} {said}" for rule in expected]
                assert (status, told) == (3 if words == ["no.yml"] else 0, wanted), errors
        _, found, errors = run(program, folder, "--form", "github", "--ignore", "K1", "--", FILE)
        assert said not in found + errors
        _, found, errors = run(program, folder, "--form", "github", "--ignore", f"K1:{FILE}")
        assert f"::warning title=actionlint::K1:{FILE} {said}\n" in found and not errors, (found, errors)
        (log,) = json.loads(run(program, folder, "--ignore", "K1")[1])["runs"]
        assert log["invocations"] == [{"executionSuccessful": True, "exitCode": 1, "toolExecutionNotifications": [
            {"level": "warning", "message": {"text": f"K1 {said}"}}]}], log


@CASES.case
def without_libraries(program: str) -> None:
    """Reports need only python3, also for their fixes."""
    # (without its folders of packages)
    words = [sys.executable, "-S", "-E", REPORT, "--program", program, "--form", "text", "--root", str(TOP / "examples/broken")]
    done = subprocess.run(words, stdout=subprocess.PIPE, stderr=subprocess.PIPE, check=False)
    assert (done.returncode, done.stdout.decode(), done.stderr) == (1, BROKEN, b""), done


if __name__ == "__main__":
    sys.exit(CASES.run(sys.argv[1:]))
