#!/usr/bin/env python3
"""Mutations of the clients: each is one edit of a copy. The test in its row has to pass in a copy without it, and to fail with it.

    wrong_versions.py PROGRAM [NAME...]         NAME can also be `shellcheck` or `mypy`: the rows whose tests need it, which run only so
"""
from __future__ import annotations

import itertools
import os
import shutil
import subprocess
import sys
import tempfile
import time
from concurrent.futures import ThreadPoolExecutor
from pathlib import Path
from typing import NamedTuple

from cases import exit_status, report
from wrong_fixes import WRONG_FIXES
from wrong_notes import WRONG_NOTES
from wrong_offers import WRONG_OFFERS
from wrong_repairs import WRONG_REPAIRS
from wrong_reports import WRONG_REPORTS
from wrong_server import WRONG_SERVER

CLIENTS = Path(__file__).resolve().parent.parent
SECONDS = 600
SIDE_BY_SIDE = 4
PASSED, REFUSED = "didn't fail", "failed"


class WrongVersion(NamedTuple):
    """A file, named from actionlint_client, a test with its arguments after PROGRAM, the right text in the file, and the wrong one."""

    file: str
    test: str
    right: str
    wrong: str


WRONG_VERSIONS = {name: WrongVersion(*row) for name, *row in (
    *WRONG_FIXES,
    *WRONG_REPAIRS,
    *WRONG_NOTES,
    *WRONG_REPORTS,
    *WRONG_OFFERS,
    *WRONG_SERVER,
)}
# The rows whose tests need more than the libraries of the server.
TOOLS = {"shellcheck": "shellcheck_", "mypy": "types_of_clients"}


def copy_repository(top: Path) -> Path:
    """Copies the repository to a folder, with links to all its folders but the clients', and returns that one."""
    for path in CLIENTS.parent.iterdir():
        if not path.is_dir():
            shutil.copy(path, top, follow_symlinks=False)
        elif path.name not in (CLIENTS.name, ".git"):
            (top / path.name).symlink_to(path)
    return Path(shutil.copytree(CLIENTS, top / CLIENTS.name, ignore=shutil.ignore_patterns("__pycache__")))


def edit(clients: Path, version: WrongVersion) -> None:
    """Puts the wrong text in place of the right one."""
    file = clients / "actionlint_client" / version.file
    text = file.read_text(encoding="utf-8")
    assert text.count(version.right) == 1, f"{version.file} has this {text.count(version.right)} times: {version.right}"
    wrong = text.replace(version.right, version.wrong)
    if version.file.endswith(".py"):
        compile(wrong, version.file, "exec")
    file.write_text(wrong, encoding="utf-8")


def ending(test: str, program: str, version: WrongVersion | None = None) -> str:
    """How a test ends in a copy of the repository, with or without an edit: PASSED, REFUSED if an assertion failed, or in other words."""
    script, *words = test.split()
    with tempfile.TemporaryDirectory(prefix="actionlint-test-") as top:
        clients = copy_repository(Path(top))
        if version:
            edit(clients, version)
        try:
            done = subprocess.run([sys.executable, str(clients / "tests" / script), program, *words], stdin=subprocess.DEVNULL,
                                  stdout=subprocess.PIPE, stderr=subprocess.STDOUT, timeout=SECONDS, check=False)
        except subprocess.TimeoutExpired:
            return f"didn't end in {SECONDS} seconds"
    if done.returncode == 0:
        return PASSED
    if done.returncode == 1 and (b"AssertionError" in done.stdout or b"only shown: " in done.stdout):
        return REFUSED
    return f"ended with status {done.returncode}: " + done.stdout.decode("utf-8", "replace").strip().rpartition("\n")[2].strip()


def try_version(name: str, program: str, without_edit: dict[str, str]) -> tuple[float, list[str]]:
    """How many seconds the test of a wrong version took, and what is wrong. The endings of the tests without an edit are known."""
    version = WRONG_VERSIONS[name]
    begun = time.monotonic()
    before = without_edit[version.test]
    found = ending(version.test, program, version) if before == PASSED else f"has to pass without the edit, but {before}"
    return time.monotonic() - begun, [] if found == REFUSED else [f"{version.test} {found}"]


def rows_of(tool: str | None) -> list[str]:
    """The rows whose tests need a tool, or none of them."""
    needed = {name: next((one for one, start in TOOLS.items() if version.test.startswith(start)), None)
              for name, version in WRONG_VERSIONS.items()}
    return [name for name, one in needed.items() if one == tool]


def main(words: list[str]) -> int:
    # In parallel, since they mostly wait.
    names = [name for word in words[1:] for name in (rows_of(word) if word in TOOLS else [word])] or rows_of(None)
    program = os.path.abspath(words[0])
    tests = sorted({WRONG_VERSIONS[name].test for name in names})
    with ThreadPoolExecutor(max_workers=SIDE_BY_SIDE) as pool:
        without_edit = dict(zip(tests, pool.map(ending, tests, itertools.repeat(program))))
        for name, (seconds, wrong) in zip(names, pool.map(try_version, names, itertools.repeat(program), itertools.repeat(without_edit))):
            report(f"clients-wrong-version-{name}", f"0 seconds={seconds:.1f}", wrong)
    return exit_status()


if __name__ == "__main__":
    sys.exit(main(sys.argv[1:]))
