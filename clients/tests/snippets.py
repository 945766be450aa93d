#!/usr/bin/env python3
"""The snippets of the pages: each is run here, under the name in the comment before it, unless the comment says `not run`.

    snippets.py PROGRAM [NAME...]

Each runs as its page says, with a PATH that has neither the linter nor the kit: in a clone in which nothing was built and which carries
PROGRAM, in the same clone as a user who can't write to it, and as such a user in an unpacked release.
"""
from __future__ import annotations

import json
import os
import re
import subprocess
import sys
import tempfile
from pathlib import Path

from cases import Cases
from clones_and_releases import ANYWHERE, Place, Room, in_each_clone, in_each_place
from editors import in_terminal
from readers import values
from repositories import CLIENTS, FILE, FILES, TOP, UNDEFINED, WORKFLOWS, git, reported, write

CASES = Cases("snippets")
PAGES = ("README.md", "docs/EDITORS.md", "docs/CI.md", "docs/COMMAND-LINE.md")
FENCED = re.compile(r"(?:<!-- (?:run: ([\w-]+)|(not run)) -->\n)?^```\w+(?: file=\S+)?\n(.*?)^```$", re.M | re.S)
ARGUMENTS = re.compile(r"`(args: \[.*\])`")
SECONDS = 60
EXPRESSION = re.compile(r"\$\{\{ ([\w.-]+) \}\}")
# What each editor does after its snippet: opens the file, waits for the fault, and writes its messages.
LUA = """
vim.cmd('filetype on')
vim.cmd('edit ' .. os.getenv('FILE'))
vim.wait(20000, function() return #vim.diagnostic.get(0) > 0 end, 50)
vim.fn.writefile(vim.tbl_map(function(one) return one.message end, vim.diagnostic.get(0)), os.getenv('OUT'))
vim.cmd('qall!')
"""
LISP = """
(add-to-list 'auto-mode-alist '("\\\\.ya?ml\\\\'" . yaml-mode))
(defun test-run ()
  (find-file (getenv "FILE"))
  (run-hooks 'post-command-hook)
  (let ((end (+ (float-time) 20)))
    (while (and (< (float-time) end) (null (flymake-diagnostics)))
      (sit-for 0.1 t)))
  (let ((texts (mapcar #'flymake-diagnostic-text (flymake-diagnostics))))
    (with-temp-file (getenv "OUT") (insert (mapconcat #'identity texts "\\n") "\\n")))
  (kill-emacs 0))
(run-with-timer 0.5 nil #'test-run)
"""
VIM = """
function! Test(timer) abort
  execute 'edit ' . fnameescape($FILE)
  let begun = reltime()
  while reltimefloat(reltime(begun)) < 20 && empty(ale#engine#GetLoclist(bufnr('%')))
    sleep 50m
  endwhile
  call writefile(map(copy(ale#engine#GetLoclist(bufnr('%'))), 'v:val.text'), $OUT)
  qall!
endfunction
autocmd VimEnter * call timer_start(300, 'Test')
"""
QUICKFIX = """
call writefile(map(filter(getqflist(), 'v:val.valid'), 'v:val.text'), $OUT)
qall!
"""


def snippets() -> dict[str, list[str]]:
    """The snippets by name."""
    found: dict[str, list[str]] = {}
    for page in PAGES:
        text = (TOP / page).read_text(encoding="utf-8")
        for name, mark, snippet in FENCED.findall(text):
            assert name or mark, f"{page}: a snippet without a comment: {snippet[:60]}"
            if name:
                found.setdefault(name, []).append(snippet)
    return found


def of_page(name: str, place: Place) -> list[str]:
    """The snippets with a name, for a place. Two pages may have the same one."""
    return [text.replace(ANYWHERE, str(place.folder)) for text in snippets()[name]]


def messages_in(words: list[str], place: Place, files: dict[str, str]) -> list[str]:
    """What an editor shows for the file with the fault. `{}` in the arguments is the folder of `files`, its configuration."""
    with place.repository(FILES) as room:
        write(room.top, {f"configuration/{name}": text for name, text in files.items()})
        environment = {**room.environment, "FILE": os.path.join(room.root, FILE), "OUT": room.top + "/out", "LC_ALL": "C.UTF-8"}
        screen = in_terminal([word.replace("{}", room.top + "/configuration") for word in words], environment, SECONDS,
                             folder=room.root, user=place.user)
        assert os.path.exists(room.top + "/out"), screen[-2000:]
        return Path(room.top + "/out").read_text(encoding="utf-8").splitlines()


@in_each_place(CASES)
def neovim(place: Place) -> None:
    (text,) = of_page("neovim", place)
    assert messages_in(["nvim", "--headless", "-i", "NONE", "-u", "{}/init.lua", "-S", "{}/test.lua"], place,
                       {"init.lua": text, "test.lua": LUA}) == [UNDEFINED]


@in_each_place(CASES)
def emacs(place: Place) -> None:
    folders = "(dolist (folder (directory-files \"/usr/share/emacs/site-lisp/elpa\" t \"\\\\`[^.]\")) (add-to-list 'load-path folder))\n"
    (text,) = of_page("emacs", place)
    (shown,) = messages_in(["emacs", "-Q", "-nw", "-l", "{}/init.el", "-l", "{}/test.el"], place,
                           {"init.el": folders + text, "test.el": LISP})
    assert shown.endswith(UNDEFINED) and "X13" in shown, shown


@in_each_place(CASES)
def ale(place: Place) -> None:
    (text,) = of_page("ale", place)
    assert messages_in(["vim.nox", "-N", "-i", "NONE", "-n", "-u", "{}/vimrc"], place, {"vimrc": text + VIM}) == [UNDEFINED]


def made(place: Place, script: str) -> list[str]:
    """What :make puts into the quickfix list after a script."""
    return messages_in(["vim.nox", "-Nes", "-u", "NONE", "-S", "{}/make.vim"], place, {"make.vim": script + "silent make!\n" + QUICKFIX})


@in_each_place(CASES)
def make(place: Place) -> None:
    for text in of_page("make", place):
        found = made(place, text.removesuffix("make\n"))
        assert found[0] == UNDEFINED.removesuffix(" [expression]") and len(found) == 2, found


@in_each_place(CASES)
def workflow(place: Place) -> None:
    """The one in clients/github. Like any other, its steps are those of the action, and it has no fault."""
    (text,) = snippets()["workflow"]
    assert text == (CLIENTS / "github/example.yml").read_text(encoding="utf-8")
    run_workflow(place, text)


@in_each_place(CASES)
def scanning(place: Place) -> None:
    (text,) = snippets()["scanning"]
    run_workflow(place, text, uploaded="actionlint.sarif")


@CASES.case
def archive(program: str) -> None:
    """tests/release.py runs its steps; here it has no fault."""
    (text,) = snippets()["archive"]
    with tempfile.TemporaryDirectory(prefix="actionlint-test-") as root:
        write(root, {WORKFLOWS + "lint.yml": text})
        assert reported(program, os.fsencode(root)) == []


def run_workflow(place: Place, text: str, uploaded: str | None = None) -> None:
    """Runs the steps of a workflow's one job as a runner would, in a repository with a fault beside the workflow."""
    with place.repository({**FILES, WORKFLOWS + "lint.yml": text}) as room:
        assert {one[0] for one in reported(place.program, os.fsencode(room.root))} == {FILE, WORKFLOWS + "c.yml"}
        ((job),) = values(text)["jobs"].values()
        for step in job["steps"]:
            name, _, reference = step["uses"].partition("@")
            if name == "OWNER/REPOSITORY":
                assert reference == "COMMIT"
                status, said = run_action(place, room, step.get("with", {}))
                assert status == 1 and f"{FILE}:6:30: {UNDEFINED}" in said.splitlines(), (status, said)
            elif name == "github/codeql-action/upload-sarif":
                assert step["with"] == {"sarif_file": uploaded} and "X13" in Path(room.root, uploaded or "").read_text(encoding="utf-8")
            else:
                assert name == "actions/checkout", name


def run_action(place: Place, room: Room, inputs: dict[str, str]) -> tuple[int, str]:
    """Runs the only step of the action like a runner, with the clone as the folder into which the action was downloaded."""
    action = values((place.folder / "action.yml").read_text(encoding="utf-8"))
    (step,) = action["runs"]["steps"]
    given = {f"inputs.{name}": inputs.get(name, one["default"]) for name, one in action["inputs"].items()}
    given["github.action_path"] = str(place.folder)
    own = {name: EXPRESSION.sub(lambda found: given[found[1]], value) for name, value in step["env"].items()}
    write(room.top, {"step.sh": step["run"], "output": ""})
    os.chmod(room.top + "/output", 0o666)
    assert step["shell"] == "bash"
    done = subprocess.run(["bash", "--noprofile", "--norc", "-e", "-o", "pipefail", room.top + "/step.sh"], cwd=room.root,
                          env={**room.environment, **own, "GITHUB_OUTPUT": room.top + "/output"}, stdout=subprocess.PIPE,
                          stderr=subprocess.STDOUT, check=False, **place.as_user())
    assert Path(room.top + "/output").read_text(encoding="utf-8") == f"status={done.returncode}\n"
    return done.returncode, done.stdout.decode()


def run_lines(place: Place, name: str, room: Room) -> list[int]:
    """Runs the lines of a snippet, or the commands of its `script`; returns their statuses."""
    (text,) = of_page(name, place)
    lines = text.splitlines() if not text.startswith("actionlint:\n") else values(text)["actionlint"]["script"]
    return [subprocess.run(["sh", "-c", line], cwd=room.root, env=room.environment, stdout=subprocess.PIPE, check=False,
                           **place.as_user()).returncode for line in lines]


# names of clones that have quotes or blanks, or look like an option, each with the same files
CLONES = ["r0", "r 1 ", "it's", "-r", r"a\b"]
OF_CLONES = {f"{name}/{path}": text for name in CLONES for path, text in FILES.items()}


@in_each_place(CASES)
def many(place: Place) -> None:
    with place.repository({**OF_CLONES, "folders.txt": "".join(name + "\n" for name in CLONES)}) as room:
        assert run_lines(place, "many", room) == [123]
        assert all("X13" in Path(room.root, name, "actionlint.sarif").read_text(encoding="utf-8") for name in CLONES)


@in_each_place(CASES)
def organisation(place: Place) -> None:
    """The faults of all clones, and the one that could not be linted. Needs GNU parallel and jq."""
    (text,) = of_page("organisation", place)
    listed = "".join(name + "\n" for name in [*CLONES, "none"])
    with place.repository({**OF_CLONES, "none/README.md": "x\n", "folders.txt": listed}) as room:
        done = subprocess.run(["bash", "-c", text], cwd=room.root, env=room.environment, stdout=subprocess.PIPE, check=False,
                              **place.as_user())
        told = [json.loads(line) for line in Path(room.root, "faults.jsonl").read_text(encoding="utf-8").splitlines()]
        assert [(one["clone"], one["code"]) for one in told] == [(name, code) for name in CLONES for code in ("X13", "C3")], told
        (line,) = done.stdout.decode().splitlines()
        assert line.startswith("3 ") and line.endswith("--root=none"), line


@in_each_place(CASES)
def gitlab(place: Place) -> None:
    with place.repository(FILES) as room:
        assert run_lines(place, "gitlab", room) == [1]
        problems = json.loads(Path(room.root, "gl-code-quality-report.json").read_text(encoding="utf-8"))
        assert {"X13", "C3"} == {one["check_name"] for one in problems}, problems


@in_each_place(CASES)
def log(place: Place) -> None:
    with place.repository(FILES) as room:
        assert run_lines(place, "log", room) == [1]


def finds_a_fault(room: Room, words: list[str], shown: str = UNDEFINED) -> None:
    status, said = room.run(words)
    assert status == 1 and shown in said, said


@in_each_clone(CASES)
def pre_commit(place: Place) -> None:
    """Hooks are taken from a git repository, which a release isn't. The page shows arguments for one in its text."""
    revision = git(str(place.folder), "-c", f"safe.directory={place.folder}", "rev-parse", "HEAD").strip()
    (text,) = snippets()["pre-commit"]
    text = text.replace("https://github.com/OWNER/REPOSITORY", str(place.folder)).replace("COMMIT", revision)
    with place.repository({**FILES, ".pre-commit-config.yaml": text}) as room:
        finds_a_fault(room, ["pre-commit", "run", "--all-files"])
    (arguments,) = ARGUMENTS.findall((TOP / "docs/CI.md").read_text(encoding="utf-8"))
    text = text.replace("- id: actionlint\n", f"- id: actionlint\n        {arguments}\n")
    with place.repository({FILE: FILES[FILE], "known-faults.txt": "X13\n", ".pre-commit-config.yaml": text}) as room:
        status, said = room.run(["pre-commit", "run", "--all-files"])
        assert status == 0 and "Passed" in said, said


@in_each_place(CASES)
def local_hook(place: Place) -> None:
    (text,) = of_page("local-hook", place)
    with place.repository({**FILES, ".pre-commit-config.yaml": "repos:\n" + text}) as room:
        finds_a_fault(room, ["pre-commit", "run", "--all-files"])


@in_each_place(CASES)
def git_hook(place: Place) -> None:
    (text,) = of_page("git-hook", place)
    with place.repository({**FILES, ".git/hooks/pre-commit": text}) as room:
        os.chmod(room.root + "/.git/hooks/pre-commit", 0o755)
        finds_a_fault(room, ["git", "-c", "user.name=t", "-c", "user.email=t@t", "commit", "--allow-empty", "-m", "change"])


@in_each_place(CASES)
def tasks(place: Place) -> None:
    """The command of the task; editor_details.py parses its output with the matcher."""
    (text,) = of_page("tasks", place)
    (task,) = json.loads(text)["tasks"]
    with place.repository(FILES) as room:
        finds_a_fault(room, [task["command"], *task["args"]], "X13")


if __name__ == "__main__":
    sys.exit(CASES.run(sys.argv[1:]))
