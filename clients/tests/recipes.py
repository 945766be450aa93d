#!/usr/bin/env python3
"""Each step in a workflow on the pages, in the repository's workflows or in the composite action that runs the linter: which lines of its
output a runner would take for commands. The texts are run by bash, in a folder whose paths and keys look like commands.

    recipes.py PROGRAM [NAME...]
"""
from __future__ import annotations

import os
import re
import shlex
import subprocess
import sys
import tempfile
import textwrap

from cases import Cases
from repositories import CLIENTS, FILE, TOP, write

CASES = Cases("recipes")
FENCED = re.compile(r"^```ya?ml[^\n]*\n(.*?)^```$", re.M | re.S)
RUN = re.compile(r"^( *)(?:- )?run: (?:\|\n((?:\1   *[^\n]*\n|\n)+)|([^\n|>][^\n]*)\n)", re.M)
LINTS = re.compile(r"(^|[\s/*])actionlint(-report)?( |$)", re.M)
# As GitHub's runner reads a line: the newer form is at its start, the older one anywhere in it.
COMMAND = re.compile(r"^\s*::(?P<new>[\w-]+)[^:]*(?:::|$)|##\[(?P<old>[\w-]+)")
STOP = re.compile(r"^::stop-commands::(\S+)$")
OWN = {"add-matcher", "remove-matcher"}
HOSTILE = {
    FILE: 'on: push\njobs: {}\n"##[add-mask]x": 1\n"::set-env name=A::b": 2\n',
    "::set-output name=x::1/action.yml": "name: x\n",
}
UNREADABLE = "##[add-mask]x"
CALLS = "jobs:\n  a:\n    runs-on: u\n    steps:\n      - uses: './::set-output name=x::1'\n"


def obeyed(lines: list[str]) -> list[str]:
    """The commands that a runner obeys in these lines, except those that stop and resume commands."""
    found, token = [], None
    for line in lines:
        if token is not None:
            token = None if line == f"::{token}::" else token
        elif stop := STOP.match(line):
            token = stop[1]
        elif command := COMMAND.search(line):
            found.append(command["new"] or command["old"])
    assert token is None, "commands aren't resumed"
    return found


def steps_that_lint() -> dict[str, str]:
    """The texts under `run` that start the linter, by their origin."""
    pages = [*TOP.glob("*.md"), *(TOP / "docs").glob("*.md"), CLIENTS / "README.md"]
    texts = [(f"{page.name}", block) for page in pages for block in FENCED.findall(page.read_text(encoding="utf-8"))]
    texts += [(path.name, path.read_text(encoding="utf-8")) for path in (TOP / ".github/workflows").glob("*.yml")]
    found = {}
    for name, text in texts:
        for number, step in enumerate(RUN.finditer(text)):
            script = (textwrap.dedent(step[2]) if step[2] else step[3]).replace("/opt/juzbrost/actionlint", "actionlint")
            if LINTS.search(script):
                found[f"{name} {number}"] = script
    return found


def hostile_folder(program: str) -> tempfile.TemporaryDirectory:
    """A folder with hostile names, in which the linter is wherever a step looks for it."""
    folder = tempfile.TemporaryDirectory(prefix="actionlint-test-")
    write(folder.name, {**HOSTILE, ".github/workflows/b.yml": "on: push\n" + CALLS})
    for path in ("actionlint", "actionlint-1/bin/actionlint", "bin/actionlint"):
        os.makedirs(os.path.dirname(os.path.join(folder.name, path)), exist_ok=True)
        os.symlink(program, os.path.join(folder.name, path))
    return folder


def output_of(script: str, folder: str, **variables: str) -> tuple[int, list[str]]:
    """Runs a step like the runner; returns the status, and the lines of both streams together."""
    environment = {**os.environ, "PATH": f"{folder}/bin:{os.environ['PATH']}", **variables}
    done = subprocess.run(["bash", "-e", "-c", script], cwd=folder, env=environment, stdout=subprocess.PIPE, stderr=subprocess.STDOUT,
                          check=False)
    return done.returncode, done.stdout.decode().split("\n")[:-1]


@CASES.case
def the_folder_is_hostile(program: str) -> None:
    """Without the lines around it, the report gives the runner commands, on both streams."""
    with hostile_folder(program) as folder:
        status, lines = output_of("actionlint --oneline", folder)
        assert status == 1 and {"set-output", "add-mask"} <= set(obeyed(lines)), lines
        status, lines = output_of("actionlint --oneline '##[add-mask]x'", folder)
        assert status == 3 and obeyed(lines) == ["add-mask"], lines


@CASES.case
def steps(program: str) -> None:
    """No step gives commands except its own, and each has the linter's status."""
    found = steps_that_lint()
    assert found, "no page shows a step that runs the linter"
    with hostile_folder(program) as folder:
        for name, script in found.items():
            status, lines = output_of(script, folder)
            assert status == 1 and set(obeyed(lines)) <= OWN and any("add-mask" in line for line in lines), (name, status, lines)
    with hostile_folder(program) as folder:
        write(folder, {".github/workflows/b.yml": "on: push\n" + CALLS.replace("::set-output name=x::1", UNREADABLE)})
        os.mkdir(f"{folder}/{UNREADABLE}")
        os.mkfifo(f"{folder}/{UNREADABLE}/action.yml")
        for name, script in found.items():
            status, lines = output_of(script, folder)
            assert status == 3 and set(obeyed(lines)) <= OWN, (name, status, lines)
            assert f"actionlint: cannot read {UNREADABLE}/action.yml" in lines, (name, lines)


@CASES.case
def composite_action(program: str) -> None:
    """The step of the action, with SARIF too, and with a file that is refused."""
    for files in ("", "##[add-mask]x", "::set-output name=x::1/action.yml"):
        with hostile_folder(program) as folder:
            status, lines = output_of(shlex.quote(str(CLIENTS / "github/run")), folder, HERE=str(TOP), PROGRAM=program, FILES=files,
                                      SARIF="x.sarif", GITHUB_OUTPUT=folder + "/output")
            assert status in (1, 3) and set(obeyed(lines)) == OWN and len(lines) > 4, (files, lines)


@CASES.case
def annotations(program: str) -> None:
    """The format for GitHub gives only annotations, on both streams."""
    report = shlex.join([sys.executable, str(CLIENTS / "actionlint-report"), "--form", "github", "--program", "actionlint"])
    for files in ("", "-- '##[add-mask]x'"):
        with hostile_folder(program) as folder:
            status, lines = output_of(f"{report} {files}", folder)
            assert status in (1, 3) and {"error"} <= set(obeyed(lines)) <= {"error", "warning"}, lines


if __name__ == "__main__":
    sys.exit(CASES.run(sys.argv[1:]))
