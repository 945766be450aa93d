"""Runs the cases of a test, and prints a line for each, like tests/running.py. Before that it makes the modules of the clients, their
libraries and the modules of tests/ available to the test."""
from __future__ import annotations

import os
import sys
import time
import traceback
from pathlib import Path
from typing import Callable

CLIENTS = Path(__file__).resolve().parent.parent
sys.path.insert(0, str(CLIENTS))
sys.path.append(str(CLIENTS.parent / "tests"))
from running import exit_status, report

from actionlint_client import library

# (a test that needs none of them runs without)
library.missing()
Case = Callable[[str], None]


class Cases:
    def __init__(self, subject: str):
        self.subject = subject
        self.all: dict[str, Case] = {}
        self.only_by_name: set[str] = set()

    def case(self, function: Case) -> Case:
        """A case is given the path of the linter, and fails by an exception."""
        self.all[function.__name__] = function
        return function

    def long_case(self, function: Case) -> Case:
        """A case that runs only where it is named, since it takes minutes."""
        self.only_by_name.add(function.__name__)
        return self.case(function)

    def run(self, words: list[str]) -> int:
        """PROGRAM [NAME...]: these cases, or all."""
        if not words or any(name not in self.all for name in words[1:]):
            print(f"{sys.argv[0]} PROGRAM [NAME...]; names are {', '.join(self.all)}", file=sys.stderr)
            return 2
        names = words[1:] or [name for name in self.all if name not in self.only_by_name]
        for name in names:
            begun, wrong = time.monotonic(), []
            try:
                self.all[name](os.path.abspath(words[0]))
            except Exception:
                wrong = traceback.format_exc().splitlines()
            report(f"clients-{self.subject}-{name}", f"{1 if wrong else 0} seconds={time.monotonic() - begun:.1f}", wrong)
        return exit_status()
