"""Runs of actionlint-report in small folders."""
from __future__ import annotations

import os
import subprocess
import sys
import tempfile
from typing import Any

from repositories import CLIENTS, write

from actionlint_client.program import find_facts

REPORT = str(CLIENTS / "actionlint-report")


def command(program: str, *words: str) -> list[str]:
    """The words that start it with a linter."""
    return [sys.executable, REPORT, "--program", program, *words]


def run_report(program: str, folder: str | None, *words: str, **how: Any) -> tuple[int, str, str]:
    """The status and both streams."""
    done = subprocess.run(command(program, *words), cwd=folder, stdout=subprocess.PIPE, stderr=subprocess.PIPE, check=False, **how)
    return done.returncode, done.stdout.decode(), done.stderr.decode()


def folder_with(files: dict[str, str]) -> tempfile.TemporaryDirectory:
    """A folder of its own with these files."""
    folder = tempfile.TemporaryDirectory(prefix="actionlint-test-")
    write(folder.name, files)
    return folder


def facts_in(folder: str, program: str, to_lint: str = 'exec "$facts" "$@"', to_answer: str = 'exec "$facts" "$@"') -> dict[str, str]:
    """The environment in which a script of the shell is run in place of actionlint-facts, which it finds as `$facts`, to lint or to answer
    questions. It is a file of the folder."""
    path = os.path.join(folder, "facts")
    script = f'facts="{find_facts(program)}"\nif [ "$1" = lint ]; then\n{to_lint}\nelse\n{to_answer}\nfi\n'
    write(folder, {"facts": f"#!/bin/sh\n{script}"})
    os.chmod(path, 0o755)
    return {**os.environ, "ACTIONLINT_FACTS": path}
