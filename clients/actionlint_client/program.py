"""The linter that the clients run."""
from __future__ import annotations

import errno
import os
import shutil
import subprocess
from pathlib import Path

FINDER = Path(__file__).resolve().parents[1] / "which-actionlint"
FACTS = "actionlint-facts"
SUFFIX = "-facts"
FACTS_OF_A_CLONE = ("crates/al_facts/out/al_facts", f"prebuilt/{FACTS}")
WHICH = "the one that the variable ACTIONLINT names, else that of this release or clone, else actionlint on the PATH"
WHERE_NAMED = "--program or the variable ACTIONLINT names the linter"
FACTS_NAMED = "the variable ACTIONLINT_FACTS names it"


def find_program(named: str | None) -> str:
    """The absolute path of the linter, or of the named one. If `which-actionlint` finds none, the name that it searched for."""
    words = ["/bin/sh", str(FINDER), named or ""]
    found = subprocess.run(words, stdin=subprocess.DEVNULL, stdout=subprocess.PIPE, stderr=subprocess.DEVNULL, check=False)
    return os.fsdecode(found.stdout).removesuffix("\n") or named or os.environ.get("ACTIONLINT") or "actionlint"


def cannot_start(program: str, error: OSError) -> str:
    """Why a program can't be started, and how to name another one."""
    where = FACTS_NAMED if program.endswith(SUFFIX) else WHERE_NAMED
    return f"cannot start {program}: {error.strerror}; {where}"


def find_facts(linter: str) -> str:
    """The absolute path of actionlint-facts: the one that the variable ACTIONLINT_FACTS names, else the one beside the linter, by its name,
    else in a clone the one that was built last or is prebuilt, else the one on the PATH."""
    named = os.environ.get("ACTIONLINT_FACTS")
    if named:
        return os.path.abspath(named)
    # (a linter without a folder is none that was found)
    linters = [Path(linter), Path(os.path.realpath(linter))] if os.path.dirname(linter) else []
    beside = [one.with_name(one.name + SUFFIX) for one in linters]
    folders = [*(one.parent for one in linters[:1]), FINDER.parents[1]]
    places = beside + [folder / path for folder in folders for path in (FACTS, *FACTS_OF_A_CLONE)]
    found = next((os.path.abspath(place) for place in places if _is_facts(place)), None)
    return found or shutil.which(FACTS) or str(Path(linter).with_name(FACTS))


def _is_facts(place: Path) -> bool:
    """Whether there is such a program. The link in a clone points to a script, which builds the program if none fits."""
    return os.access(place, os.X_OK) and place.resolve().name.endswith((SUFFIX, FACTS_OF_A_CLONE[0].rpartition("/")[2]))


def missing_linter(linter: str) -> str:
    """Says that the linter can't be run, and is empty if it can."""
    why = errno.EACCES if os.path.exists(linter) else errno.ENOENT
    return "" if shutil.which(linter) else cannot_start(linter, OSError(why, os.strerror(why)))


def missing_facts(linter: str) -> str:
    """Says that actionlint-facts can't be run, and is empty if it can."""
    found = find_facts(linter)
    return "" if os.access(found, os.X_OK) else f"cannot start {found}: there is no such program; {FACTS_NAMED}"
