#!/usr/bin/env python3
"""pre-commit with the hooks of this repository, from a clone that carries the linter, in a git repository, without a network.

    pre_commit.py PROGRAM [NAME...]
"""
from __future__ import annotations

import os
import shutil
import subprocess
import sys
import tempfile
from pathlib import Path

from cases import Cases
from clones_and_releases import PATH, carry, commit, copy_few_sources
from repositories import ACTION, FILE, FILES, git, write

CASES = Cases("pre-commit")
CONFIGURATION = "repos:\n  - repo: {repository}\n    rev: {revision}\n    hooks:\n      - id: {hook}\n        args: {arguments}\n"
CALLER, REUSABLE = ".github/workflows/caller.yml", ".github/workflows/reusable.yml"
CALLS = f"on: push\njobs:\n  call:\n    uses: ./{REUSABLE}\n"
MISSING = f'workflow "./{REUSABLE}" is not in the folder [workflow-call]'
OPTION = "--root=clean/action.yml"
FAULT = '.github/workflows/a.yml:6:30: property "reff" is not defined [expression]'


class Commits:
    """A repository in which each commit runs a hook."""

    def __init__(self, program: str, hook: str, arguments: str = "[]"):
        self.top = tempfile.mkdtemp(prefix="actionlint-test-")
        hooks, self.root = self.top + "/hooks", self.top + "/repo"
        os.makedirs(self.root)
        self.environment = {"PATH": PATH, "HOME": self.top, "PRE_COMMIT_HOME": self.top + "/cache"}
        copy_few_sources(Path(hooks))
        carry(Path(hooks), program)
        commit(hooks)
        revision = git(hooks, "rev-parse", "HEAD").strip()
        git(self.root, "init", "-q")
        right = {path: text.replace("reff", "ref").replace("required: true", "required: false") for path, text in FILES.items()}
        write(self.root, {**right, "README": "x\n", ".pre-commit-config.yaml": CONFIGURATION.format(
            repository=hooks, revision=revision, hook=hook, arguments=arguments)})
        subprocess.run(["pre-commit", "install"], cwd=self.root, check=True, env=self.environment, stdout=subprocess.DEVNULL)

    def commit(self, files: dict[str, str], status: int = 0) -> str:
        """Commits changed files; returns what was printed."""
        git(self.root, "reset", "-q", "--hard") if self._has_commit() else None
        write(self.root, files)
        git(self.root, "add", ".")
        return git(self.root, "commit", "-m", "change", status=status, environment=self.environment)

    def delete(self, path: str, status: int = 0) -> str:
        """Commits only the deletion of a file; returns what was printed."""
        git(self.root, "rm", "-q", path)
        return git(self.root, "commit", "-m", "deletion", status=status, environment=self.environment)

    def _has_commit(self) -> bool:
        return os.path.exists(self.root + "/.git/refs/heads/main")


def check(program: str, hook: str, all_files: bool) -> None:
    """The hook passes right files and stops wrong ones; the one for all files stops what breaks a caller, and the other one is skipped if
    no workflow and no action changed."""
    commits = Commits(program, hook)
    assert "Passed" in commits.commit({})
    assert FAULT in commits.commit({FILE: FILES[FILE]}, status=1)
    # A file named like an option is linted by the hook that gets files, and leads neither hook to another folder.
    said = commits.commit({OPTION: "name: x\n"}, status=0 if all_files else 1)
    assert all_files or OPTION + ":1:1:" in said, said
    # A fault that a changed action causes in an unchanged workflow.
    said = commits.commit({ACTION: FILES[ACTION]}, status=1 if all_files else 0)
    assert ("required input" in said) == all_files, said
    assert ("Passed" if all_files else "Skipped") in commits.commit({"README": "y\n"})
    commits.commit({CALLER: CALLS, REUSABLE: "on: workflow_call\njobs: {}\n"})
    said = commits.delete(REUSABLE, status=1 if all_files else 0)
    assert (MISSING in said) == all_files, said
    shutil.rmtree(commits.top)


@CASES.case
def all_workflows(program: str) -> None:
    check(program, "actionlint", True)


@CASES.case
def changed_files(program: str) -> None:
    check(program, "actionlint-files", False)


@CASES.case
def an_ignore_list(program: str) -> None:
    """Each hook takes the file that its arguments name."""
    for hook in ("actionlint", "actionlint-files"):
        commits = Commits(program, hook, "[--ignore-file=known, --]")
        assert "Passed" in commits.commit({"known": "X13\n", FILE: FILES[FILE]})
        said = commits.commit({"known": "K1\n", FILE: FILES[FILE] + "# new\n"}, status=1)
        assert FAULT in said and ("K1 ignores nothing" in said) == (hook == "actionlint"), said
        shutil.rmtree(commits.top)


if __name__ == "__main__":
    sys.exit(CASES.run(sys.argv[1:]))
