"""Runs that reach the program's code: the folders of examples/, the scripts of tests/cases and tests/faults, valid and invalid arguments,
and files that are refused. All run in the repository's root directory.
"""

import pathlib

from case_files import read_cases
from running import SCRIPT, WORKFLOWS

TOP = pathlib.Path(__file__).resolve().parent.parent
CALLS = ["--root", "examples/calls"]
COMMAND_LINES = {
    "help": ["--help"],
    "two-files": [*CALLS, f"{WORKFLOWS}/build.yml", "./greet/action.yml"],
    "file-that-is-not-there": [*CALLS, f"{WORKFLOWS}/none.yml"],
    "folder-that-is-not-there": ["--root", "none"],
    "file-that-is-refused": [*CALLS, "none.yml"],
    "session-beside-a-file": ["--session", "action.yml"],
    "unknown-option": ["--unknown"],
    "unknown-option-like-one": ["--version"],
    "short-option": ["-h"],
    "option-twice": ["--root", "a", "--root", "b"],
    "option-without-its-value": ["--root"],
    "option-with-an-empty-value": ["--root="],
    "flag-with-a-value": ["--oneline=x"],
}
LARGEST = 1_048_576


def scripts_in(path, prefix):
    """The scripts of the cases at a path, by name: the arguments and the standard input of each."""
    return {f"{prefix}/{name}": (SCRIPT if case.words is None else case.words, case.input) for name, case in read_cases(path).items()}


def refused_files(folder):
    """The same for folders with refused files or without files, which are made below this one."""
    place = pathlib.Path(folder)
    (place / "large").mkdir()
    (place / "large" / "action.yml").write_bytes(b"#" * (LARGEST + 1))
    (place / "folder" / "action.yml").mkdir(parents=True)
    (place / "named" / WORKFLOWS).mkdir(parents=True)
    (place / "named" / WORKFLOWS / "a\\b.yml").write_bytes(b"")
    (place / "gone" / WORKFLOWS).mkdir(parents=True)
    (place / "gone" / WORKFLOWS / "a.yml").symlink_to("none")
    words = {"large": ["action.yml"], "folder": ["action.yml"], "named": [], "gone": []}
    return {f"files/{name}": (["--root", str(place / name), *more], b"") for name, more in words.items()}


def all_runs(folder):
    """All runs, by name: the arguments and the standard input of each. Some read files that are made below a folder."""
    runs = {f"examples/{it.name}": (["--root", f"examples/{it.name}"], b"") for it in sorted((TOP / "examples").iterdir()) if it.is_dir()}
    runs |= {f"words/{name}": (words, b"") for name, words in COMMAND_LINES.items()}
    runs |= refused_files(folder)
    return runs | scripts_in(TOP / "tests/cases", "tests/cases") | scripts_in(TOP / "tests/faults.cases", "tests/faults")
