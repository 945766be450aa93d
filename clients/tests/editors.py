#!/usr/bin/env python3
"""Real editors: each opens and edits the files of a small repository, and after each step it shows what the linter reports for the folder
with the unsaved buffers in place of the saved files.

    editors.py PROGRAM [neovim] [emacs] [vim]
    EDITS=100 SEED=1 editors.py PROGRAM neovim        random edits in Neovim instead of the fixed steps
"""
from __future__ import annotations

import fcntl
import json
import os
import pty
import select
import shutil
import signal
import struct
import sys
import termios
import time
from pathlib import Path

from cases import exit_status, report
from repositories import CLIENTS, FILES, new_folder, reported, write

HERE = Path(__file__).resolve().parent
COMMANDS = {
    "neovim": ["nvim", "--headless", "-u", "NONE", "-i", "NONE", "-S", str(HERE / "neovim.lua")],
    "emacs": ["emacs", "-Q", "-nw", "-l", str(HERE / "emacs.el")],
    "vim": ["vim.nox", "-N", "-u", str(HERE / "vim.vim"), "-i", "NONE"],
}
ROWS, COLUMNS = 50, 160
SECONDS, SECONDS_AN_EDIT = 180, 5


def expected(program: str, root: str, buffers: dict[str, str]) -> list[tuple]:
    """What the linter reports for a copy of the folder with the buffers written."""
    copy = root + "-copy"
    shutil.copytree(root, copy)
    write(copy, buffers)
    found = set(reported(program, copy.encode()))
    if buffers:
        found |= set(reported(program, copy.encode(), sorted(buffers)))
    shutil.rmtree(copy)
    return sorted(found)


def in_terminal(words: list[str], environment: dict[str, str], seconds: float, rows: int = ROWS, columns: int = COLUMNS,
                folder: str = ".", user: int | None = None) -> bytes:
    """Runs an editor in a terminal of its own; returns what it wrote there."""
    child, screen = pty.fork()
    if child == 0:
        os.chdir(folder)
        if user is not None:
            os.setgroups([])
            os.setresgid(user, user, user)
            os.setresuid(user, user, user)
        os.execvpe(words[0], words, {**environment, "TERM": "xterm"})
    fcntl.ioctl(screen, termios.TIOCSWINSZ, struct.pack("HHHH", rows, columns, 0, 0))
    written, deadline = b"", time.monotonic() + seconds
    while time.monotonic() < deadline:
        if select.select([screen], [], [], 1)[0]:
            try:
                written += os.read(screen, 65536)
            except OSError:
                break
        elif os.waitpid(child, os.WNOHANG)[0]:
            return written
    else:
        os.kill(child, signal.SIGKILL)
    os.waitpid(child, 0)
    return written


def steps_of(editor: str, program: str, root: str) -> dict:
    """The editor's log: its steps, each with what it shows, its buffers, and the files that were written."""
    out = root + ".json"
    environment = {**os.environ, "FOLDER": root, "CLIENTS": str(CLIENTS), "PROGRAM": program, "OUT": out, "HOME": os.path.dirname(root),
                   "LC_ALL": "C.UTF-8"}
    screen = in_terminal(COMMANDS[editor], environment, SECONDS + SECONDS_AN_EDIT * int(os.environ.get("EDITS", "0")))
    if not os.path.exists(out):
        return {"ok": False, "wrong": f"it wrote nothing: {screen[-2000:]!r}", "steps": []}
    with open(out, encoding="utf-8") as opened:
        return json.load(opened)


def run(editor: str, program: str) -> None:
    root = new_folder(FILES)
    told = steps_of(editor, program, root)
    wrong = [] if told["ok"] and told["steps"] else [f"the editor failed: {told['wrong']}"]
    disk = dict(FILES)
    faults = 0
    for number, step in enumerate(told["steps"]):
        disk.update(step.get("disk") or {})
        shutil.rmtree(root)
        write(root, {path: text for path, text in disk.items() if text is not None})
        shown = sorted((path, line, column, message) for path, line, column, message, *_ in step["shown"])
        said = expected(program, root, dict(step["buffers"] or {}))
        faults += len(said)
        if shown != said:
            wrong.append(f"step {number}: {shown} is shown, and the linter says {said}")
    if not faults:
        wrong.append("there was no fault")
    report(f"clients-editor-{editor}", f"0 steps={len(told['steps'])} faults={faults}", wrong)
    shutil.rmtree(os.path.dirname(root))


def main(words: list[str]) -> int:
    for editor in words[1:] or COMMANDS:
        run(editor, words[0])
    return exit_status()


if __name__ == "__main__":
    sys.exit(main(sys.argv[1:]))
