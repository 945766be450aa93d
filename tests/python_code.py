"""Checks the Python of tests/, tools/ and bench/ by flake8 and mypy, and that of clients/ by flake8, as setup.cfg says: python_code.py TOP.

Prints a line for each; what isn't installed is skipped. clients/tests/types_of_clients.py checks the types of the clients.
"""

import os
import pathlib
import shutil
import subprocess
import sys

from running import exit_status, report, skip

FOLDERS = ("tests", "tools", "bench")
# beside the files of clients/ whose names end in .py
CLIENTS = ("clients", "clients/actionlint-lsp", "clients/actionlint-report")


def check(top, name, *words):
    """Reports what a command says about the code."""
    if not shutil.which(words[0]):
        skip(name, f"{words[0]} isn't there")
        return
    ran = subprocess.run(words, cwd=top, stdout=subprocess.PIPE, stderr=subprocess.STDOUT, text=True, check=False)
    report(name, ran.returncode, ran.stdout.splitlines() if ran.returncode else [])


def main(folder):
    top = pathlib.Path(folder).resolve()
    check(top, "flake8", "flake8", *FOLDERS, *CLIENTS)
    for name in FOLDERS:
        files = [str(it.relative_to(top)) for it in sorted((top / name).glob("*.py"))]
        check(top, f"mypy-of-{name}", "mypy", f"--cache-dir={os.devnull}", *files)
    return exit_status()


if __name__ == "__main__":
    sys.exit(main(*sys.argv[1:]))
