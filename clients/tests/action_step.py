#!/usr/bin/env python3
"""The step of the composite action, started as a runner would: its report, its SARIF and its status; and the linter finds no fault in the
action and the example workflow. No runner of GitHub is involved.

    action_step.py PROGRAM [NAME...]
"""
from __future__ import annotations

import json
import os
import shutil
import subprocess
import sys
import tempfile

from cases import Cases
from repositories import CALLED, CLIENTS, FILE, FILES, RIGHT, TOP, UNDEFINED, WORKFLOWS, reported, write

CASES = Cases("step")
FAULT = '.github/workflows/wrong.yml:1:5: unknown event "pussh" [events]'


class Runner:
    """A repository and the step in it."""

    def __init__(self, program: str, files: dict[str, str], here: str = str(TOP)):
        self.program, self.here = program, here
        self.root = tempfile.mkdtemp(prefix="actionlint-test-")
        write(self.root, files)

    def step(self, files: str = "", sarif: str = "", path: str = "/usr/bin:/bin", root: str = "", ignore_file: str = "",
             shellcheck: str = "false") -> tuple[int, list[str]]:
        """The step's status and the lines of its log."""
        output = self.root + "/output"
        environment = {"PATH": path, "HERE": self.here, "PROGRAM": self.program, "FILES": files, "SARIF": sarif, "ROOT": root,
                       "IGNORE_FILE": ignore_file, "SHELLCHECK": shellcheck, "GITHUB_OUTPUT": output}
        done = subprocess.run([self.here + "/clients/github/run"], cwd=self.root, env=environment, stdout=subprocess.PIPE,
                              stderr=subprocess.PIPE, check=False)
        assert not done.stderr, done.stderr
        with open(output, encoding="utf-8") as opened:
            assert opened.read() == f"status={done.returncode}\n"
        os.remove(output)
        return done.returncode, done.stdout.decode().split("\n")[:-1]


@CASES.case
def own_files(program: str) -> None:
    """The action and the example workflow have no fault."""
    files = {WORKFLOWS + "lint.yml": CLIENTS / "github/example.yml", "action.yml": TOP / "action.yml"}
    runner = Runner(program, {path: file.read_text(encoding="utf-8") for path, file in files.items()})
    assert runner.step()[0] == 0
    assert runner.step("action.yml")[0] == 0
    assert reported(program, os.fsencode(runner.root), list(files)) == []
    shutil.rmtree(runner.root)


@CASES.case
def reports_and_statuses(program: str) -> None:
    """The faults are between the lines that stop and resume commands, before the matcher is removed."""
    runner = Runner(program, {WORKFLOWS + "wrong.yml": "on: pussh\njobs: {}\n", WORKFLOWS + "right.yml": "on: push\njobs: {}\n",
                              "my action/action.yml": "name: x\n"})
    status, lines = runner.step(sarif="faults.sarif")
    assert status == 1 and lines[2:-2] == [FAULT], lines
    assert lines[0].startswith("::add-matcher::") and lines[-1] == "::remove-matcher owner=actionlint::"
    assert lines[1].startswith("::stop-commands::") and lines[-2] == f"::{lines[1].removeprefix('::stop-commands::')}::"
    assert len(lines[-2]) == len("::::") + 32, "the word that resumes commands can be guessed"
    with open(runner.root + "/faults.sarif", encoding="utf-8") as opened:
        (one,) = json.load(opened)["runs"][0]["results"]
    assert one["ruleId"] == "G1"
    status, lines = runner.step(f"my action/action.yml\n{WORKFLOWS}right.yml")
    assert status == 1 and all(line.startswith("my action/action.yml:") for line in lines[2:-2]) and len(lines) > 4, lines
    assert runner.step(f"{WORKFLOWS}right.yml")[0] == 0
    status, lines = runner.step("none.yml", "faults.sarif")
    assert status == 3 and lines[2:-2] == ["actionlint: none.yml: refused E2"] * 2, lines
    with open(runner.root + "/faults.sarif", encoding="utf-8") as opened:
        assert json.load(opened)["runs"][0]["invocations"][0]["executionSuccessful"] is False
    shutil.rmtree(runner.root)


@CASES.case
def no_linter(_: str) -> None:
    """If the named linter or any linter is missing, the status is 3 and a line says how to name one."""
    with tempfile.TemporaryDirectory(prefix="actionlint-test-") as here:
        shutil.copytree(CLIENTS, here + "/clients", ignore=shutil.ignore_patterns("tests"))
        for program, why in (("nowhere/it", "there is no such program"),
                             ("", "there is none that runs here, beside the clients or on the PATH")):
            runner = Runner(program, FILES, here)
            status, lines = runner.step()
            said = f"cannot start {program or 'actionlint'}: {why}; --program or the variable ACTIONLINT names the linter"
            assert status == 3 and lines[2:-2] == [said], lines
            shutil.rmtree(runner.root)


@CASES.case
def nothing_to_write_sarif_with(program: str) -> None:
    """Without python3 the faults are printed, and the status is 3."""
    runner = Runner(program, FILES)
    os.mkdir(runner.root + "/bin")
    for command in ("bash", "sh", "env", "head", "od", "tr"):
        os.symlink(str(shutil.which(command)), f"{runner.root}/bin/{command}")
    status, lines = runner.step(sarif="faults.sarif", path=runner.root + "/bin")
    assert status == 3 and "python3" in lines[2] and any(UNDEFINED in line for line in lines[3:-2]), lines
    assert runner.step(path=runner.root + "/bin")[0] == 1
    shutil.rmtree(runner.root)


@CASES.case
def lines_that_look_like_commands(program: str) -> None:
    """Paths and standard error are between the lines that stop and resume commands, from before the first run. The report breaks them too,
    and the linter prints them as they are."""
    path, refused = "::error::x/action.yml", "##[add-mask]x"
    runner = Runner(program, {path: "name: x\n", **FILES})
    status, lines = runner.step(path)
    assert status == 1 and all(line.startswith("::error::x/action.yml:") for line in lines[2:-2]) and len(lines) > 4, lines
    status, lines = runner.step(refused, "faults.sarif")
    assert status == 3 and lines[2:-2] == [f"actionlint: {text}: refused E2" for text in ("#<U+0023>[add-mask]x", refused)], lines
    shutil.rmtree(runner.root)


@CASES.case
def a_root(program: str) -> None:
    """The folder of a checkout: lines have paths below the current folder, and SARIF those below the root."""
    runner = Runner(program, {f"my repo/{path}": text for path, text in FILES.items()})
    expected = [f"my repo/{FILE}:6:30: {UNDEFINED}", f'my repo/{CALLED}:6:15: required input "who" of "A" is missing [action]']
    for root in ("my repo", "my repo/"):
        status, lines = runner.step(sarif="faults.sarif", root=root)
        assert status == 1 and lines[2:-2] == expected, lines
    with open(runner.root + "/faults.sarif", encoding="utf-8") as opened:
        (first, _) = json.load(opened)["runs"][0]["results"]
    assert first["locations"][0]["physicalLocation"]["artifactLocation"]["uri"] == FILE, first
    status, lines = runner.step(FILE, root="my repo")
    assert status == 1 and lines[2:-2] == expected[:1], lines
    status, lines = runner.step(root="none")
    assert status == 3 and lines[2:-2] == ["actionlint: cannot read .github/workflows"], lines
    shutil.rmtree(runner.root)


@CASES.case
def ignored_faults(program: str) -> None:
    """They are neither printed nor in SARIF, and don't count. Paths in the file begin in the root."""
    runner = Runner(program, {**{f"repo/{path}": text for path, text in FILES.items()}, "known": f"X13:{FILE}\nK1\n", "all": "X13\nC3\n"})
    status, lines = runner.step(sarif="faults.sarif", root="repo", ignore_file="known")
    missing = f'repo/{CALLED}:6:15: required input "who" of "A" is missing [action]'
    assert status == 1 and [line for line in lines[2:-2] if not line.startswith("actionlint-report: ")] == [missing], lines
    assert "actionlint-report: K1 ignores nothing" in lines, lines
    with open(runner.root + "/faults.sarif", encoding="utf-8") as opened:
        assert [one["ruleId"] for one in json.load(opened)["runs"][0]["results"]] == ["C3"]
    assert runner.step(root="repo", ignore_file="all")[0] == 0
    status, lines = runner.step(root="repo", ignore_file="none")
    assert status == 2 and lines[2:-2] == ["actionlint-report: cannot read none: No such file or directory"], lines
    shutil.rmtree(runner.root)


@CASES.case
def shellcheck(program: str) -> None:
    """Without shellcheck the step fails; other values than true and false are none."""
    runner = Runner(program, {FILE: RIGHT})
    os.mkdir(runner.root + "/bin")
    for command in ("bash", "sh", "env", "head", "od", "tr", "python3"):
        os.symlink(shutil.which(command), f"{runner.root}/bin/{command}")
    status, lines = runner.step(shellcheck="true", path=runner.root + "/bin")
    assert status == 3 and "shellcheck" in lines[2] and len(lines) == 5, lines
    os.remove(runner.root + "/bin/python3")
    write(runner.root, {"bin/shellcheck": "#!/bin/sh\necho '{\"comments\":[]}'\n"})
    os.chmod(runner.root + "/bin/shellcheck", 0o755)
    assert runner.step(shellcheck="false", path=runner.root + "/bin")[0] == 0 == runner.step(shellcheck="")[0]
    status, lines = runner.step(shellcheck="yes")
    assert status == 2 and lines[2:-2] == ["the input shellcheck is neither true nor false"], lines
    shutil.rmtree(runner.root)


@CASES.case
def names_that_look_like_options(program: str) -> None:
    """A file named like an option is linted, and doesn't lead the linter to another folder. The SARIF file can have such a name too."""
    path = "--root=clean/action.yml"
    runner = Runner(program, {path: "name: x\n", "clean/.github/workflows/a.yml": FILES[FILE].replace("reff", "ref")})
    status, lines = runner.step(path, "--faults.sarif")
    assert status == 1 and all(line.startswith(path + ":") for line in lines[2:-2]) and len(lines) > 4, lines
    with open(runner.root + "/--faults.sarif", encoding="utf-8") as opened:
        found = json.load(opened)["runs"][0]["results"]
    assert len(found) == len(lines) - 4 and {one["ruleId"] for one in found} == {"K2"}, found
    shutil.rmtree(runner.root)


@CASES.case
def a_link_in_the_place_of_the_report(program: str) -> None:
    """SARIF isn't written through a link in the repository, and the step fails."""
    runner = Runner(program, {FILE: FILES[FILE].replace("reff", "ref"), "other": "x"})
    os.symlink("other", runner.root + "/faults.sarif")
    status, lines = runner.step(sarif="faults.sarif")
    assert status == 3 and lines[2:-2] == ["actionlint-report: cannot write faults.sarif: it is not a regular file"], lines
    with open(runner.root + "/other", encoding="utf-8") as opened:
        assert opened.read() == "x"
    shutil.rmtree(runner.root)


if __name__ == "__main__":
    sys.exit(CASES.run(sys.argv[1:]))
