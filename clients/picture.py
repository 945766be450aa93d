#!/usr/bin/python3
"""Draws docs/neovim*.svg: a terminal with Neovim that shows the faults of a workflow, completion at a cursor, and the meaning of a key,
from what the editor really writes to the terminal.

    picture.py PROGRAM [NAME...]        needs Neovim and a terminal emulator in Python (Debian: neovim, python3-pyte)
"""
from __future__ import annotations

import html
import os
import shutil
import sys
import tempfile
from pathlib import Path

import pyte

sys.path.insert(0, str(Path(__file__).resolve().parent / "tests"))
from editors import in_terminal
from repositories import CLIENTS, TOP, WORKFLOWS, write

ROWS, COLUMNS = 22, 110
WIDTH, HEIGHT, MARGIN = 8.4, 18, 12
BACKGROUND, FOREGROUND = "#1d2021", "#ebdbb2"
COLOURS = {"default": FOREGROUND, "red": "#fb4934", "green": "#b8bb26", "brown": "#fabd2f", "blue": "#83a598", "magenta": "#d3869b",
           "cyan": "#8ec07c", "white": FOREGROUND, "black": "#928374"}
WORKFLOW = """name: Build
on: [push, pul_request]

jobs:
  test:
    runs-on: ubuntu-latest
    timeout: 10
    steps:
      - uses: actions/checkout@v4
      - name: Greet
        run: echo "Hello ${{ github.acto }}"
        shell: bsh
      - uses: ./greet
        with:
          whom: everybody
"""
ACTION = """name: Greet
description: Says hello.
inputs:
  who:
    description: Whom to greet.
    required: true
runs:
  using: composite
  steps:
    - run: echo Hello
      shell: bash
"""
INIT = """
vim.opt.runtimepath:append(os.getenv('CLIENTS') .. '/neovim')
require('actionlint').setup({ cmd = { os.getenv('CLIENTS') .. '/actionlint-lsp', '--program', os.getenv('PROGRAM') } })
vim.opt.number, vim.opt.signcolumn, vim.opt.ruler, vim.opt.swapfile = true, 'yes', false, false
vim.opt.pumheight = 8
vim.opt.shortmess:append('F')
vim.cmd('syntax on')
local keys = function(text) vim.api.nvim_feedkeys(vim.api.nvim_replace_termcodes(text, true, false, true), 'n', false) end
vim.defer_fn(function() KEYS end, 4000)
vim.defer_fn(function() vim.cmd('redraw!') end, 7000)
vim.defer_fn(function() vim.cmd('qall!') end, 8000)
"""
# For each picture, the text that it shows, and what is typed before it is taken.
PICTURES = {
    "neovim": ("faults of a workflow", ""),
    "neovim-completion": ("completion at a cursor", "keys('11G$F.lC<C-x><C-o>')"),
    "neovim-hover": ("what a key means", "vim.cmd('normal! 6G6|') vim.lsp.buf.hover()"),
}
LEAVES_SCREEN = b"\x1b[?1049l"
SECONDS = 30


def screen_of(program: str, keys: str) -> pyte.Screen:
    """The terminal just before the editor ended."""
    top = tempfile.mkdtemp(prefix="actionlint-picture-")
    write(top, {WORKFLOWS + "build.yml": WORKFLOW, "greet/action.yml": ACTION, "init.lua": INIT.replace("KEYS", keys)})
    environment = {**os.environ, "CLIENTS": str(CLIENTS), "PROGRAM": os.path.abspath(program), "HOME": top, "LC_ALL": "C.UTF-8"}
    os.chdir(top)
    written = in_terminal(["nvim", "-i", "NONE", "-u", "init.lua", WORKFLOWS + "build.yml"], environment, SECONDS, ROWS, COLUMNS)
    os.chdir("/")
    shutil.rmtree(top)
    screen = pyte.Screen(COLUMNS, ROWS)
    pyte.ByteStream(screen).feed(written[:written.rindex(LEAVES_SCREEN)])
    return screen


def runs_of(row: dict) -> list[tuple[int, str, str, bool]]:
    """The runs of equal style in a row: the first column, the text, its color, and whether it is bold."""
    runs: list[tuple[int, str, str, bool]] = []
    for column in range(COLUMNS):
        cell = row[column]
        look = COLOURS.get(cell.fg, FOREGROUND), cell.bold
        if runs and runs[-1][2:] == look:
            runs[-1] = (runs[-1][0], runs[-1][1] + cell.data, *look)
        else:
            runs.append((column, cell.data, *look))
    return [run for run in runs if run[1].strip()]


def svg_of(screen: pyte.Screen, title: str) -> str:
    width, height = COLUMNS * WIDTH + 2 * MARGIN, ROWS * HEIGHT + 2 * MARGIN
    lines = [f'<svg xmlns="http://www.w3.org/2000/svg" viewBox="0 0 {width:.0f} {height}" font-family="monospace" font-size="14">',
             f"<title>Neovim with {title}</title>", f'<rect width="100%" height="100%" rx="6" fill="{BACKGROUND}"/>']
    for number in range(ROWS):
        for column, text, colour, bold in runs_of(screen.buffer[number]):
            shown = text.rstrip()
            weight = ' font-weight="bold"' if bold else ""
            lines.append(f'<text x="{MARGIN + column * WIDTH:.1f}" y="{MARGIN + (number + 0.75) * HEIGHT:.1f}" fill="{colour}"{weight} '
                         f'textLength="{len(shown) * WIDTH:.1f}" xml:space="preserve">{html.escape(shown, quote=False)}</text>')
    return "\n".join([*lines, "</svg>"]) + "\n"


def main(words: list[str]) -> int:
    for name in words[1:] or PICTURES:
        title, keys = PICTURES[name]
        screen = screen_of(words[0], keys)
        (TOP / f"docs/{name}.svg").write_text(svg_of(screen, title), encoding="utf-8")
        print("\n".join(line.rstrip() for line in screen.display))
    return 0


if __name__ == "__main__":
    sys.exit(main(sys.argv[1:]))
