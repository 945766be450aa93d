"""Small repositories for the tests, and what the linter itself reports for them."""
from __future__ import annotations

import os
import re
import subprocess
import tempfile
from pathlib import Path
from typing import Sequence

CLIENTS = Path(__file__).resolve().parent.parent
TOP = CLIENTS.parent
WORKFLOWS = ".github/workflows/"
CALLED = WORKFLOWS + "c.yml"
ACTION = "a/action.yml"
FILE = WORKFLOWS + "a.yml"
# A workflow with a property that isn't defined, a caller that lacks a required input, and the action that it calls.
FILES = {
    FILE: """on: push
jobs:
  a:
    runs-on: ubuntu-latest
    steps:
      - run: echo ${{ github.reff }}
""",
    CALLED: """on: push
jobs:
  a:
    runs-on: ubuntu-latest
    steps:
      - uses: ./a
""",
    ACTION: """name: A
description: d
inputs:
  who:
    required: true
runs:
  using: node20
  main: m.js
""",
}
WRONG = FILES[FILE]
RIGHT = WRONG.replace("reff", "ref")
UNDEFINED = 'property "reff" is not defined [expression]'
FAULT = re.compile(r"(.+?):(\d+):(\d+): (.+ \[[a-z-]+\])")
OF_A_HOOK = ("GIT_DIR", "GIT_WORK_TREE", "GIT_INDEX_FILE")
LINE_BREAK = re.compile("\r\n|\n|\r")


def write(root: str, files: dict[str, str]) -> None:
    for path, text in files.items():
        whole = os.path.join(root, path)
        os.makedirs(os.path.dirname(whole), exist_ok=True)
        with open(whole, "w", encoding="utf-8", newline="") as opened:
            opened.write(text)


def git(root: str, *words: str, status: int = 0, environment: dict | None = None) -> str:
    """Runs git; returns what it printed. If the test runs in a git hook, that hook's repository isn't used."""
    given = {name: value for name, value in (environment or os.environ).items() if name not in OF_A_HOOK}
    done = subprocess.run(["git", "-c", "user.name=t", "-c", "user.email=t@t", "-c", "init.defaultBranch=main", *words], cwd=root,
                          stdout=subprocess.PIPE, stderr=subprocess.STDOUT, env=given, check=False)
    said = done.stdout.decode()
    assert (done.returncode == 0) == (status == 0), f"git {' '.join(words)}: status {done.returncode}\n{said}"
    return said


def new_folder(files: dict[str, str]) -> str:
    """A git repository with these files, in a folder of its own whose name isn't ASCII."""
    root = os.path.join(tempfile.mkdtemp(prefix="actionlint-test-"), "répo")
    write(root, files)
    git(root, "init", "-q")
    git(root, "add", ".")
    git(root, "commit", "-qm", "files")
    return root


def reported(program: str, root: bytes, files: Sequence[str] = ()) -> list[tuple]:
    """(path, line, column, message with kind) of each fault that the linter prints."""
    # The folder is the current one, since the argument of --root must be UTF-8 and its name need not be.
    done = subprocess.run([program, "--oneline", *files], cwd=root, stdout=subprocess.PIPE, stderr=subprocess.PIPE, check=False)
    assert done.returncode in (0, 1), f"status {done.returncode}: {done.stderr!r}"
    found = [FAULT.fullmatch(line) for line in done.stdout.decode().split("\n")[:-1]]
    return [(match[1], int(match[2]), int(match[3]), match[4]) for match in found]


def in_characters(diagnostics: dict[str, list[dict]], texts: dict[str, str]) -> list[tuple]:
    """The same of an editor's diagnostics, whose columns are UTF-16 units."""
    found: list[tuple] = []
    for path in sorted(diagnostics, key=str.encode):
        lines = LINE_BREAK.split(texts[path])
        for one in diagnostics[path]:
            start = one["range"]["start"]
            line = lines[start["line"]] if start["line"] < len(lines) else ""
            before = line.encode("utf-16-le", "surrogatepass")[: 2 * start["character"]].decode("utf-16-le", "surrogatepass")
            found.append((path, start["line"] + 1, len(before) + 1, one["message"]))
    return found
