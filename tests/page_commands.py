"""Runs the commands that pages show, and compares what they print: page_commands.py PROGRAM [PAGE]...

Fenced blocks of a page (by default README.md, all of docs/ and the other pages at the top) are marked in the line that opens them:

    ```console run          each line `$ COMMAND` is run by bash in a copy of the repository that carries the program and has nothing
                            built; the lines below it are what it prints on both streams, where `...` stands for any lines
    ```console run empty    the same in an empty folder, with the program as `actionlint` on the PATH
    ```LANGUAGE file=PATH   the block is a file; if it is a workflow or an action, the program finds no fault in it

A block's commands share one shell, with only /usr/bin and /bin of the system. Prints a line for each block, and fails if there is none.
"""

import os
import pathlib
import re
import subprocess
import sys
import tempfile

from copying import TOP, carry, copy_files
from running import exit_status, report, show, write_files

LINTED = re.compile(r"^\.github/workflows/[^/]+\.ya?ml$|(?:^|/)action\.ya?ml$")
BLOCK = re.compile(r"^```(\w+) (run|run empty|file=(\S+))\n(.*?)^```$", re.DOTALL | re.MULTILINE)
MARK = "\x1e"
SECONDS = 120


def commands_of(text):
    """The commands of a block, each with the lines that it prints; lines that begin with `> ` continue a command."""
    found = []
    for line in text.splitlines():
        if line.startswith("$ "):
            found.append([line[2:], []])
        elif line.startswith("> ") and found and not found[-1][1]:
            found[-1][0] += "\n" + line[2:]
        else:
            found[-1][1].append(line)
    return found


def script_of(commands):
    """A script that marks where the output of each command begins, and keeps the status of the previous command for each."""
    parts = [f"printf '{MARK}'\n(exit $status)\n{command}\nstatus=$?\n" for command, _ in commands]
    return "status=0\n" + "".join(parts)


def matches(lines, wanted):
    """Whether lines match the expected ones, where `...` matches any lines."""
    parts = ["(?:.*\n)*" if it == "..." else re.escape(it) + "\n" for it in wanted]
    return re.fullmatch("".join(parts), "".join(it + "\n" for it in lines)) is not None


class Machine:
    """A copy of the repository, an empty folder, and the program beside them."""

    def __init__(self, program, room):
        self.room = pathlib.Path(room)
        self.copy = self.room / "juzbrost"
        copy_files(self.copy)
        carry(self.copy, program)
        self.program = self.copy / "prebuilt/actionlint"
        (self.room / "bin").mkdir()
        (self.room / "bin/actionlint").symlink_to(self.program)
        # a first run may say what it runs, which no page shows
        self.outputs([["./actionlint --help", []], ["./actionlint-facts --help", []]], False)

    def path(self, with_program):
        """The PATH of a block's commands."""
        return ":".join([str(self.room / "bin")] * with_program + ["/usr/bin", "/bin"])

    def outputs(self, commands, empty):
        """What each command prints, and what went wrong."""
        folder = self.copy
        if empty:
            folder = pathlib.Path(tempfile.mkdtemp(dir=self.room))
        env = {"PATH": self.path(empty), "HOME": str(self.room), "LC_ALL": "C.UTF-8"}
        how = {"cwd": folder, "env": env, "stdout": subprocess.PIPE, "stderr": subprocess.STDOUT, "timeout": SECONDS}
        ran = subprocess.run(["bash"], input=script_of(commands).encode(), check=False, **how)
        return [it.splitlines() for it in ran.stdout.decode(errors="replace").split(MARK)[1:]]

    def run(self, text, empty):
        """The commands of a block that print something else."""
        commands = commands_of(text)
        outputs = self.outputs(commands, empty)
        found = [f"{len(outputs)} of {len(commands)} commands were run"] if len(outputs) != len(commands) else []
        for (command, wanted), lines in zip(commands, outputs):
            if not matches(lines, wanted):
                found.append(f"{command} prints {show(os.linesep.join(lines).encode())}")
        return found

    def lint(self, path, text):
        """What the program says about a file on a page, if it lints such files."""
        if not LINTED.search(path):
            return []
        folder = pathlib.Path(tempfile.mkdtemp(dir=self.room))
        write_files(folder, {path: text.encode()})
        ran = subprocess.run([self.program, "--oneline", path], cwd=folder, capture_output=True, check=False, timeout=SECONDS)
        return [] if ran.returncode == 0 else [f"status {ran.returncode}: {show(ran.stdout + ran.stderr)}"]


def pages():
    """All pages with a marked block."""
    found = [*TOP.glob("*.md"), *(TOP / "docs").glob("*.md"), *(TOP / "clients").glob("*.md")]
    return sorted(it for it in found if BLOCK.search(it.read_text(encoding="utf-8")))


def main():
    if len(sys.argv) < 2:
        print("page_commands.py PROGRAM [PAGE]...", file=sys.stderr)
        return 2
    given = [pathlib.Path(it).resolve() for it in sys.argv[2:]] or pages()
    with tempfile.TemporaryDirectory(prefix="actionlint-pages-") as room:
        machine = Machine(sys.argv[1], room)
        for page in given:
            text = page.read_text(encoding="utf-8")
            for match in BLOCK.finditer(text):
                line = text.count("\n", 0, match.start()) + 1
                wrong = machine.lint(match[3], match[4]) if match[3] else machine.run(match[4], match[2] == "run empty")
                report(f"{page.relative_to(TOP)}:{line}", "-", wrong)
    return exit_status()


if __name__ == "__main__":
    sys.exit(main())
