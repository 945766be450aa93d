#!/usr/bin/env python3
"""The types of the clients, checked by Debian's mypy with mypy.ini.

    types_of_clients.py PROGRAM [NAME...]
"""
from __future__ import annotations

import shutil
import subprocess
import sys
import tempfile
from pathlib import Path

from cases import Cases
from repositories import CLIENTS

CASES = Cases("types")
# What a module of the package must not do, and the code of the fault.
REFUSED = {
    "def one():\n    return 1\n": "no-untyped-def",
    "def one() -> dict:\n    return {}\n": "type-arg",
    "from .protocol import Position\nstart: Position = {'line': 0, 'column': 0}\n": "typeddict-item",
    "from .protocol import Diagnostic\n\n\ndef severity(one: Diagnostic) -> str:\n    return one['severity']\n": "return-value",
    "from .completion import Offer\nOffer('a', 'key', 'a', 'text', 'a description')\n": "arg-type",
    "from .tree import Node\n\n\ndef text(node: Node) -> str:\n    return node.get('a').value\n": "union-attr",
}


def mypy(folder: Path, *words: str) -> tuple[int, str]:
    """The status and the lines of a check, with the configuration of a folder."""
    done = subprocess.run(["/usr/bin/mypy", "--config-file", "mypy.ini", *words], cwd=folder, stdout=subprocess.PIPE,
                          stderr=subprocess.STDOUT, text=True, check=False)
    return done.returncode, done.stdout


@CASES.case
def what_is_written(_: str) -> None:
    """No file of the clients has a fault."""
    status, said = mypy(CLIENTS)
    assert status == 0, said


@CASES.case
def what_is_refused(_: str) -> None:
    """The check finds what it is for."""
    with tempfile.TemporaryDirectory(prefix="actionlint-test-") as folder:
        copy = Path(folder) / "clients"
        shutil.copytree(CLIENTS, copy, ignore=shutil.ignore_patterns("__pycache__", "tests"))
        modules = []
        for number, text in enumerate(REFUSED):
            modules.append(f"actionlint_client/refused{number}.py")
            (copy / modules[-1]).write_text("from __future__ import annotations\n\n" + text, encoding="utf-8")
        status, said = mypy(copy, *modules)
        assert status == 1, said
        for module, code in zip(modules, REFUSED.values()):
            assert any(line.startswith(module + ":") and line.endswith(f"[{code}]") for line in said.splitlines()), (module, code, said)


if __name__ == "__main__":
    sys.exit(CASES.run(sys.argv[1:]))
