"""Lints this repository with its own program: own_repository.py PROGRAM.

Its workflows and its action have no fault, and in a copy with one misspelled key the program finds it. Prints a line for each case.
"""

import pathlib
import shutil
import subprocess
import sys
import tempfile

from running import WORKFLOWS, differences_of, exit_status, report

TOP = pathlib.Path(__file__).resolve().parent.parent


def lint(program, words):
    """A run over this repository."""
    return subprocess.run([program, "--oneline", *words], capture_output=True, check=False, timeout=60)


def clean(name, program, words):
    """Reports a case without a fault."""
    ran = lint(program, words)
    report(name, ran.returncode, differences_of(ran, 0, b"", b""))


def misspelled(program):
    """A copy whose first workflow has a misspelled key."""
    first = sorted((TOP / WORKFLOWS).glob("*.yml"))[0]
    text = first.read_text(encoding="utf-8").replace("    runs-on:", "    run-on:", 1)
    row = text.splitlines().index("    run-on: ubuntu-latest") + 1
    with tempfile.TemporaryDirectory() as folder:
        shutil.copytree(TOP / WORKFLOWS, pathlib.Path(folder, WORKFLOWS))
        pathlib.Path(folder, WORKFLOWS, first.name).write_text(text, encoding="utf-8")
        ran = lint(program, ["--root", folder])
    wanted = f'{WORKFLOWS}/{first.name}:{row}:5: unexpected key "run-on" [syntax-check]\n'.encode()
    report("misspelled-key", ran.returncode, differences_of(ran, 1, lambda out: wanted in out, b""))


def main():
    if len(sys.argv) != 2:
        print("own_repository.py PROGRAM", file=sys.stderr)
        return 2
    program = pathlib.Path(sys.argv[1]).resolve()
    clean("workflows", program, ["--root", TOP])
    clean("action", program, ["--root", TOP, "action.yml"])
    misspelled(program)
    return exit_status()


if __name__ == "__main__":
    sys.exit(main())
