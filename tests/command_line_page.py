"""Tests that the program prints and accepts what docs/COMMAND-LINE.md and docs/CI.md show.

    python3 tests/command_line_page.py PROGRAM

The problem matcher is applied to the lines of a report with known faults, and the pattern of the pre-commit hook to paths, some of which
are linted. Both hooks run in a git repository, one of them by pre-commit if it is installed. The commands of "What to do at status 3" and
the example of a fault with its line are run. Prints one line for each case.
"""

import json
import os
import pathlib
import re
import shlex
import shutil
import subprocess
import sys
import tempfile

from running import differences_of, exit_status, report, skip, write_files

TOP = pathlib.Path(__file__).resolve().parent.parent
PAGE = (TOP / "docs" / "COMMAND-LINE.md").read_text(encoding="utf-8")
CI = (TOP / "docs" / "CI.md").read_text(encoding="utf-8")
SLIPS = TOP / "examples" / "slips"
MATCHER = TOP / "clients/github/matcher.json"
PATH = ".github/workflows/release.yml"

# places and messages of the example's faults, by hand
FAULTS = [
    (PATH, 9, 5, '"paths-ignore" cannot stand beside "paths"', "syntax-check"),
    (PATH, 64, 22, 'wrong type of value for "timeout-minutes"', "syntax-check"),
    (PATH, 69, 9, 'wrong kind of value for "steps"', "syntax-check"),
    (PATH, 113, 9, 'unexpected key "working_directory"', "syntax-check"),
    (PATH, 164, 5, '"runs-on" cannot stand beside "uses"', "syntax-check"),
]


def block(name):
    """A code block of docs/CI.md, with the program's name in place of the path of a clone."""
    text = re.search(rf"^<!-- run: {name} -->\n```\w+\n(.*?)^```$", CI, re.M | re.S)[1]
    return text.replace("/opt/juzbrost/actionlint", "actionlint")


def run(words, folder):
    """Runs the program in a folder."""
    return subprocess.run([sys.argv[1], *words], cwd=folder, stdout=subprocess.PIPE, stderr=subprocess.PIPE, check=False, timeout=60)


def has_all(name, found):
    """Whether the known faults are all among those found."""
    return [f"{name} does not find {fault}" for fault in FAULTS if fault not in found]


def matcher(lines):
    """The problem matcher, on every line."""
    pattern = json.loads(MATCHER.read_text(encoding="utf-8"))["problemMatcher"][0]["pattern"][0]
    found, bad = [], []
    for line in lines:
        match = re.search(pattern["regexp"], line)
        if match:
            path, number, column, message, code = (match[pattern[it]] for it in ("file", "line", "column", "message", "code"))
            found.append((path, int(number), int(column), message, code))
        else:
            bad.append(f"the matcher does not match {line!r}")
    report("problem-matcher", 0, bad + has_all("the matcher", found))


def hook():
    """The hook's pattern selects the files that are linted, and its arguments lint them."""
    text = block("local-hook")
    pattern = re.search(r"files: (.*)$", text, re.M)[1]
    words = re.search(r"entry: (.*)$", text, re.M)[1].split()
    taken = [".github/workflows/a.yml", ".github/workflows/a.b.yaml", "action.yml", "a/b/action.yaml", ".github/workflows/action.yml"]
    passed = [".github/workflows/.yml", ".github/workflows/.yaml", "a.yml", ".github/workflows/a/b.yml", "a/.github/workflows/b.yml",
              "my-action.yml", "action.yml/x", "a/action.json", ".github/workflows/a.yml.txt"]
    bad = [] if words[0] == "actionlint" else [f"the hook runs {words[0]}"]
    bad += [f"the hook passes {path} over" for path in taken if not re.search(pattern, path)]
    bad += [f"the hook takes {path}" for path in passed if re.search(pattern, path)]
    with tempfile.TemporaryDirectory() as folder:
        write_files(folder, {path: b"" for path in taken + passed if path != "action.yml/x"})
        empty = "".join(f"{path}:1:1: file is empty [syntax-check]\n" for path in sorted(taken)).encode()
        bad += differences_of(run([*words[1:], *taken], folder), 1, empty, b"")
        for path in passed:
            ran = run([*words[1:], path], folder)
            if (ran.returncode, ran.stdout) != (3, b"") or not ran.stderr.endswith(b": refused E2\n"):
                bad.append(f"{path} is taken: {ran.returncode}, {ran.stdout!r} and {ran.stderr!r}")
    report("pre-commit-hook", 0, bad)


CALLER = b"""on: push
jobs:
  a:
    runs-on: ubuntu-latest
    steps:
      - uses: ./greet
        with:
          who: you
  b:
    uses: ./.github/workflows/called.yml
"""
CALLED = b"on: workflow_call\njobs:\n  a:\n    runs-on: ubuntu-latest\n    steps:\n      - run: echo\n"
ACTION = b"""name: Greet
description: Says hello.
inputs:
  who:
    description: Whom to greet.
    required: true
runs:
  using: node20
  main: main.js
"""
RENAMED = """.github/workflows/caller.yml:6:15: required input "whom" of "Greet" is missing [action]
.github/workflows/caller.yml:8:11: input "who" is not defined in "Greet" [action]
"""
DELETED = """.github/workflows/caller.yml:10:11: workflow "./.github/workflows/called.yml" is not in the folder [workflow-call]
"""


class Repository:
    """A git repository in a folder, with the program on the PATH."""

    def __init__(self, room):
        self.folder = os.path.join(room, "repository")
        programs = os.path.join(room, "bin")
        os.makedirs(self.folder)
        os.makedirs(programs)
        os.symlink(sys.argv[1], os.path.join(programs, "actionlint"))
        kept = {name: value for name, value in os.environ.items() if not name.startswith(("GIT_", "PRE_COMMIT"))}
        people = {f"GIT_{who}_{what}": "someone" for who in ("AUTHOR", "COMMITTER") for what in ("NAME", "EMAIL")}
        own = {"HOME": room, "PATH": programs + os.pathsep + kept.get("PATH", os.defpath), "GIT_CONFIG_NOSYSTEM": "1"}
        self.environment = {**kept, **people, **own}
        self.run("git", "init", "-q")

    def run(self, *words, below="."):
        """Runs a command in the repository; returns its status and what it printed."""
        how = {"cwd": os.path.join(self.folder, below), "env": self.environment, "timeout": 60}
        ran = subprocess.run(words, stdout=subprocess.PIPE, stderr=subprocess.STDOUT, check=False, **how)
        return ran.returncode, ran.stdout.decode()

    def commit(self, files=None, deleted=()):
        """Writes and deletes files and commits all changes; returns the status and what was printed, and undoes a refused commit."""
        write_files(self.folder, files or {})
        for path in deleted:
            os.remove(os.path.join(self.folder, path))
        self.run("git", "add", "--all")
        status, said = self.run("git", "commit", "-qm", "change")
        if status:
            self.run("git", "reset", "-q", "--hard")
        return status, said


def hook_differences(repository, deletions):
    """What the hooks of a repository miss: a fault in a caller that doesn't change, after a renaming and after a deletion."""
    bad = []
    start = {".github/workflows/caller.yml": CALLER, ".github/workflows/called.yml": CALLED, "greet/action.yml": ACTION}
    status, said = repository.commit({**start, "README.md": b"one\n"})
    if status:
        return [f"a folder without faults is not committed: {said!r}"]
    status, said = repository.commit({"greet/action.yml": ACTION.replace(b"who:", b"whom:")})
    if not status or RENAMED not in said:
        bad.append(f"an action with a renamed input is committed: {status} and {said!r}")
    # the changed file alone has no fault, so a hook that is given only changed files misses this
    alone = repository.run("actionlint", "--oneline", "greet/action.yml")
    if alone != (0, ""):
        bad.append(f"the action alone has faults: {alone}")
    status, said = repository.commit(deleted=[".github/workflows/called.yml"])
    if (status != 0, DELETED in said) != (deletions, deletions):
        bad.append(f"a called workflow is deleted: {status} and {said!r}")
    return bad


def git_hook():
    """The page's git hook, in a git repository."""
    with tempfile.TemporaryDirectory() as room:
        repository = Repository(room)
        path = os.path.join(repository.folder, ".git", "hooks", "pre-commit")
        write_files(repository.folder, {".git/hooks/pre-commit": block("git-hook").encode()})
        os.chmod(path, 0o755)
        report("git-hook-in-a-repository", 0, hook_differences(repository, deletions=True))


def pre_commit_hook(name, text, deletions):
    """A pre-commit hook, in a git repository."""
    if not shutil.which("pre-commit"):
        skip(name, "pre-commit isn't there")
        return
    with tempfile.TemporaryDirectory() as room:
        repository = Repository(room)
        write_files(repository.folder, {".pre-commit-config.yaml": f"repos:\n{text}".encode()})
        status, said = repository.run("pre-commit", "install")
        bad = [f"pre-commit is not installed: {said!r}"] if status else hook_differences(repository, deletions)
        report(name, 0, bad)


def pre_commit_hooks():
    """The page's hook, which doesn't see a commit that only deletes files, and the same with `always_run`, which does."""
    text = block("local-hook")
    pre_commit_hook("pre-commit-in-a-repository", text, deletions=False)
    always, count = re.subn(r"files: .*", "always_run: true", text)
    report("pre-commit-hook-names-files-once", 0, [] if count == 1 else [f"{count} lines with `files`"])
    pre_commit_hook("pre-commit-at-each-commit", always, deletions=True)


def ends_at_3():
    """Each row of the page's table of commands that end with status 3."""
    rows = re.findall(r"^\| `(actionlint[^`]*)` \| `(actionlint: [^`]*)` \|", PAGE, re.M)
    wanted = {"actionlint", "actionlint ../x", "actionlint README.md", "actionlint -", "actionlint --root many"}
    report("rows-of-status-3", 0, [] if wanted < {words for words, _ in rows} else [f"the page has {rows}"])
    with tempfile.TemporaryDirectory() as folder:
        large = CALLED + b"#" * (1_048_577 - len(CALLED))
        write_files(folder, {"README.md": b"", "src/x": b"", ".github/workflows/large.yml": large, ".github/workflows/a\\b.yml": CALLED})
        write_files(folder, {f"many/.github/workflows/w{number:04}.yml": CALLED for number in range(4_097)})
        for words, line in rows:
            below = "src" if words == "actionlint" else "."
            ran = run(shlex.split(words)[1:], os.path.join(folder, below))
            report(f"status-3-of-{words!r}", 0, differences_of(ran, 3, b"", line.encode() + b"\n"))


def from_below():
    """The page's command that lints a repository from a folder below its top."""
    hint = re.search(r"`(actionlint --root \"[^`]*)`", PAGE)[1]
    with tempfile.TemporaryDirectory() as room:
        repository = Repository(room)
        write_files(repository.folder, {".github/workflows/a.yml": b"", "src/x": b""})
        status, said = repository.run("bash", "-c", hint + " --oneline", below="src")
        wanted = (1, ".github/workflows/a.yml:1:1: file is empty [syntax-check]\n")
        report("from-a-folder-below", 0, [] if (status, said) == wanted else [f"{hint} answers {status} and {said!r}"])
        helped = run(["--help"], repository.folder).stdout.decode()
        report("from-a-folder-below-in-help", 0, [] if hint in helped else [f"help does not say {hint}"])


def snippet():
    """The page's example of a fault is what the program prints."""
    shown = re.search(r"^    (\.github.*\n(?:    .*\n){3})", PAGE, re.M)[1].replace("\n    ", "\n").encode()
    ran = run([], SLIPS)
    report("fault-with-its-line", 0, [] if shown in ran.stdout else [f"the program does not print {shown!r}"])


def main():
    if len(sys.argv) != 2:
        print("command_line_page.py PROGRAM", file=sys.stderr)
        return 2
    sys.argv[1] = os.path.abspath(sys.argv[1])
    ran = run(["--oneline"], SLIPS)
    lines = ran.stdout.decode().splitlines()
    report("example-has-faults", 0, [] if ran.returncode == 1 and ran.stderr == b"" else [f"status {ran.returncode}, {ran.stderr!r}"])
    matcher(lines)
    hook()
    git_hook()
    pre_commit_hooks()
    ends_at_3()
    from_below()
    snippet()
    return exit_status()


if __name__ == "__main__":
    sys.exit(main())
