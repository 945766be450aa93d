#!/usr/bin/env python3
"""Vim's and Neovim's :make with the compiler file: the quickfix list has exactly the faults of the linter, at their characters.

    compiler.py PROGRAM [vim] [nvim]
"""
from __future__ import annotations

import json
import os
import re
import shutil
import subprocess
import sys
from pathlib import Path

from cases import exit_status, report
from repositories import CLIENTS, FILES, WORKFLOWS, new_folder, reported

SCRIPT = str(Path(__file__).resolve().parent / "compiler.vim")
KIND = re.compile(r" \[[a-z-]+\]$")
MORE_FILES = {**FILES, WORKFLOWS + "é 1.yml": 'on: push\njobs:\n  a:\n    runs-on: u\n    steps:\n'
              '      - run: "😀é ${{ github.reff }} [x] ${{ env.x.y }}"\n'}
COMMANDS = {"vim": ["vim.nox", "-Nes", "-u", "NONE"], "nvim": ["nvim", "--headless", "-u", "NONE", "-i", "NONE"]}


def run(vim: str, program: str) -> None:
    root = new_folder(MORE_FILES)
    out = root + ".json"
    environment = {**os.environ, "FOLDER": root, "CLIENTS": str(CLIENTS), "OUT": out, "LC_ALL": "C.UTF-8", "ACTIONLINT": program}
    subprocess.run([*COMMANDS[vim], "-S", SCRIPT], env=environment, stdin=subprocess.DEVNULL, stdout=subprocess.DEVNULL,
                   stderr=subprocess.DEVNULL, timeout=60, check=False)
    with open(out, encoding="utf-8") as opened:
        found = [tuple(item[:4]) for item in json.load(opened) if item[4]]
    said = [(path, line, column, KIND.sub("", message)) for path, line, column, message in reported(program, root.encode())]
    wrong = [] if found == said and said else [f"{found} is shown, and the linter says {said}"]
    report(f"clients-make-{vim}", f"0 faults={len(found)}", wrong)
    shutil.rmtree(os.path.dirname(root))


if __name__ == "__main__":
    for each in sys.argv[2:] or COMMANDS:
        run(each, sys.argv[1])
    sys.exit(exit_status())
