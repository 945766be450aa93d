"""The libraries of the clients. If this Python lacks one, the system's Python, for which Debian packages them, runs the program instead."""
from __future__ import annotations

import importlib
import os
import subprocess
import sys
from typing import Iterable

SYSTEM_PYTHON = "/usr/bin/python3"
# The modules that the language server needs, and the package of each.
DEBIAN_PACKAGES = {"pylsp_jsonrpc.endpoint": "python3-pylsp-jsonrpc"}


def missing(names: Iterable[str] = DEBIAN_PACKAGES) -> str:
    """Says which modules can't be imported, and is empty if all can. If only the system's Python has them all, this doesn't return: that
    Python runs the program, with the same arguments, from its start. It takes nothing from PYTHONPATH, which may be why one is missing."""
    absent = [name for name in names if not _is_here(name)]
    if not absent:
        return ""
    if not sys.flags.ignore_environment and _system_python_has(names):
        os.execv(SYSTEM_PYTHON, [SYSTEM_PYTHON, "-E", *sys.argv])
    packages = " ".join(DEBIAN_PACKAGES[name] for name in absent)
    return f"{sys.executable} has no {', '.join(absent)} (Debian: apt-get install {packages})"


def _is_here(name: str) -> bool:
    try:
        importlib.import_module(name)
    except ImportError:
        return False
    return True


def _system_python_has(names: Iterable[str]) -> bool:
    # Modules of the current directory, which may be a stranger's, aren't imported.
    words = [SYSTEM_PYTHON, "-E", "-c", f"import {', '.join(names)}"]
    try:
        return subprocess.run(words, cwd="/", stdin=subprocess.DEVNULL, stderr=subprocess.DEVNULL, check=False).returncode == 0
    except OSError:
        return False
