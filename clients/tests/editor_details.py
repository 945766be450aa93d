#!/usr/bin/env python3
"""What editors do besides showing the faults of a workflow: other files keep their server, one client is started, the matcher of a task
recognizes each fault.

    editor_details.py PROGRAM [NAME...]
"""
from __future__ import annotations

import json
import os
import re
import shutil
import subprocess
import sys
from pathlib import Path

from cases import Cases
from editors import in_terminal
from repositories import FILE, FILES, TOP, WORKFLOWS, new_folder, write

CASES = Cases("editor-details")
ANYWHERE = "/opt/juzbrost"
SECONDS = 180
# Opens a workflow, and then another file of the repository, with the server that Emacs knows for YAML: one that never answers.
LISP_OF_OTHERS = """
(add-to-list 'auto-mode-alist '("\\\\.ya?ml\\\\'" . yaml-mode))
(setq eglot-connect-timeout 60 eglot-sync-connect 60)
(defun test-run ()
  (find-file (getenv "FILE"))
  (run-hooks 'post-command-hook)
  (let ((end (+ (float-time) 60)))
    (while (and (< (float-time) end) (null (flymake-diagnostics)))
      (sit-for 0.1 t)))
  (setq eglot-connect-timeout 1 eglot-sync-connect 1)
  (let ((first (list major-mode (length (flymake-diagnostics)))))
    (find-file (expand-file-name "../../other.yml" (file-name-directory (getenv "FILE"))))
    (run-hooks 'post-command-hook)
    (sit-for 0.5 t)
    (let ((managed (bound-and-true-p eglot--managed-mode)))
      (ignore-errors (call-interactively #'eglot))
      (with-temp-file (getenv "OUT")
        (insert (format "%S\\n%S\\n%S\\n" first managed
                        (file-exists-p (concat (getenv "HOME") "/yaml-language-server-was-started")))))))
  (kill-emacs 0))
(run-with-timer 0.5 nil #'test-run)
"""
# As in Neovim 0.8 and later: a start that reuses a client with the same name and folder.
LUA_OF_LATER = """
local started, clients = {}, {}
vim.lsp.start = function(config, options)
  local key = config.name .. config.root_dir
  clients[key] = clients[key] or vim.lsp.start_client(config)
  table.insert(started, key == 'actionlint' .. vim.fn.getcwd() and options.bufnr == vim.api.nvim_get_current_buf())
  vim.lsp.buf_attach_client(options.bufnr, clients[key])
  return clients[key]
end
vim.cmd('filetype on')
vim.cmd('edit ' .. os.getenv('FILE'))
vim.wait(60000, function() return #vim.diagnostic.get(0) > 0 end, 50)
vim.cmd('edit other.yml')
vim.fn.writefile({ vim.inspect(started) }, os.getenv('OUT'))
vim.cmd('qall!')
"""
# In a worktree `.git` is a file. There a workflow and an action have one client.
LUA_IN_A_WORKTREE = """
vim.fn.rename('.git', '../repository')
vim.fn.writefile({ 'gitdir: ../repository' }, '.git')
vim.cmd('filetype on')
local clients = {}
for _, file in ipairs({ os.getenv('FILE'), 'a/action.yml' }) do
  vim.cmd('edit ' .. file)
  vim.wait(60000, function() return next(vim.lsp.buf_get_clients(0)) ~= nil end, 50)
  for client in pairs(vim.lsp.buf_get_clients(0)) do
    clients[client] = true
  end
end
vim.fn.writefile({ tostring(vim.tbl_count(clients)) }, os.getenv('OUT'))
vim.cmd('qall!')
"""
VIM_IN_A_WORKTREE = """
call rename('.git', '../repository')
call writefile(['gitdir: ../repository'], '.git')
let linter = ale#linter#Get('yaml')[0]
let roots = []
for file in [$FILE, 'a/action.yml']
  execute 'edit' fnameescape(file)
  call add(roots, linter.name . (linter.project_root(bufnr('')) is# getcwd()))
endfor
call writefile(roots, $OUT)
qall!
"""
# Reads lines from standard input; of those that match an expression, writes the groups that a pattern names.
MATCHER = """
const pattern = JSON.parse(process.argv[1]);
const lines = require('fs').readFileSync(0, 'utf8').split('\\n');
const found = lines.map((line) => new RegExp(pattern.regexp).exec(line)).filter((match) => match);
const names = ['file', 'line', 'column', 'message', 'code'];
console.log(JSON.stringify(found.map((match) => names.map((name) => match[pattern[name]]))));
"""


def snippet(name: str) -> str:
    """The snippet with a name on the page, for this folder."""
    page = (TOP / "docs/EDITORS.md").read_text(encoding="utf-8")
    found = re.search(rf"<!-- run: {name} -->\n^```\w+\n(.*?)^```$", page, re.M | re.S)
    assert found, name
    return found[1].replace(ANYWHERE, str(TOP))


def lines_of(words: list[str], program: str, files: dict[str, str]) -> list[str]:
    """What an editor writes in a folder with a workflow and another YAML file. `{}` in the arguments is the folder of `files`."""
    root = new_folder({**FILES, "other.yml": "a: b\n"})
    top = os.path.dirname(root)
    write(top, {f"configuration/{name}": text for name, text in files.items()})
    write(top, {"bin/yaml-language-server": f"#!/bin/sh\ntouch {top}/yaml-language-server-was-started\n"})
    os.chmod(top + "/bin/yaml-language-server", 0o755)
    environment = {**os.environ, "ACTIONLINT": program, "FILE": os.path.join(root, FILE), "OUT": top + "/out", "HOME": top,
                   "LC_ALL": "C.UTF-8", "PATH": top + "/bin:" + os.environ["PATH"]}
    before = os.getcwd()
    os.chdir(root)
    try:
        screen = in_terminal([word.replace("{}", top + "/configuration") for word in words], environment, SECONDS)
    finally:
        os.chdir(before)
    assert os.path.exists(top + "/out"), screen[-2000:]
    found = Path(top + "/out").read_text(encoding="utf-8").splitlines()
    shutil.rmtree(top)
    return found


@CASES.case
def emacs_other_files(program: str) -> None:
    """A YAML file that the linter doesn't lint keeps the server that Emacs has for it."""
    folders = "(dolist (folder (directory-files \"/usr/share/emacs/site-lisp/elpa\" t \"\\\\`[^.]\")) (add-to-list 'load-path folder))\n"
    found = lines_of(["emacs", "-Q", "-nw", "-l", "{}/init.el", "-l", "{}/test.el"], program,
                     {"init.el": folders + snippet("emacs"), "test.el": LISP_OF_OTHERS})
    assert found == ["(actionlint-mode 1)", "nil", "t"], found


@CASES.case
def neovim_with_start(program: str) -> None:
    """If Neovim has `vim.lsp.start`, it is called for the client of a buffer, and not for other files."""
    assert lines_of(["nvim", "--headless", "-i", "NONE", "-u", "{}/init.lua", "-S", "{}/test.lua"], program,
                    {"init.lua": snippet("neovim"), "test.lua": LUA_OF_LATER}) == ["{ true }"]


@CASES.case
def neovim_in_a_worktree(program: str) -> None:
    assert lines_of(["nvim", "--headless", "-i", "NONE", "-u", "{}/init.lua", "-S", "{}/test.lua"], program,
                    {"init.lua": snippet("neovim"), "test.lua": LUA_IN_A_WORKTREE}) == ["1"]


@CASES.case
def ale_in_a_worktree(program: str) -> None:
    """Both files belong to the worktree's folder."""
    assert lines_of(["vim.nox", "-N", "-i", "NONE", "-n", "-u", "{}/vimrc", "-S", "{}/test.vim"], program,
                    {"vimrc": snippet("ale"), "test.vim": VIM_IN_A_WORKTREE}) == ["actionlint_lsp1"] * 2


@CASES.case
def tasks(program: str) -> None:
    """The matcher finds each fault in the task's output, whole, and nothing else."""
    (task,) = json.loads(snippet("tasks"))["tasks"]
    environment = {**os.environ, "ACTIONLINT": program}
    for folder in sorted(path for path in (TOP / "examples").iterdir() if (path / WORKFLOWS).is_dir()):
        outputs = [subprocess.run(command, cwd=folder, env=environment, stdout=subprocess.PIPE, check=False).stdout
                   for command in ([task["command"], *task["args"]], [task["command"], "--form", "jsonl"])]
        done = subprocess.run(["node", "-e", MATCHER, json.dumps(task["problemMatcher"]["pattern"])], input=outputs[0],
                              stdout=subprocess.PIPE, check=True)
        expected = [[one["path"], str(one["line"]), str(one["column"]), one["message"], one["code"]]
                    for one in map(json.loads, outputs[1].splitlines())]
        assert json.loads(done.stdout) == expected, (folder, done.stdout)


if __name__ == "__main__":
    sys.exit(CASES.run(sys.argv[1:]))
