"""The places where a user has the clients, for tests of what pages show: a clone in which nothing was built, or a release; writable or
not."""
from __future__ import annotations

import atexit
import os
import shutil
import subprocess
import tempfile
from contextlib import contextmanager
from dataclasses import dataclass
from functools import lru_cache
from pathlib import Path
from typing import Callable, Iterator

from cases import Case, Cases
from repositories import git, write

from copying import carry, commit, copy_few_sources, facts_beside

ANYWHERE = "/opt/juzbrost"
# No linter is there, and nothing of the kit.
PATH = "/usr/bin:/bin"
NOBODY = 65_534


@dataclass(frozen=True)
class Room:
    """A repository with a fault, the folder around it, which is the user's home, and the environment."""

    top: str
    root: str
    environment: dict[str, str]
    place: Place

    def run(self, words: list[str]) -> tuple[int, str]:
        """Runs a command in the repository; returns its status and what it printed."""
        done = subprocess.run(words, cwd=self.root, env=self.environment, stdout=subprocess.PIPE, stderr=subprocess.STDOUT, check=False,
                              **self.place.as_user())
        return done.returncode, done.stdout.decode()


@dataclass(frozen=True)
class Place:
    """What the pages call /opt/juzbrost, the program that has to be found there, and the user, if it isn't this one."""

    name: str
    folder: Path
    program: str
    user: int | None

    def as_user(self) -> dict:
        return {} if self.user is None else {"user": self.user, "group": self.user, "extra_groups": []}

    @contextmanager
    def repository(self, files: dict[str, str]) -> Iterator[Room]:
        """A git repository with these files, which belongs to the user, and whose name isn't ASCII."""
        top = tempfile.mkdtemp(prefix="actionlint-test-")
        root = os.path.join(top, "répo")
        git_files = {path: text for path, text in files.items() if path.startswith(".git/")}
        write(root, {path: text for path, text in files.items() if path not in git_files})
        git(root, "init", "-q")
        git(root, "add", ".")
        git(root, "commit", "-qm", "files")
        # (whoever clones a repository of another user of this machine has to trust it)
        write(top, {".gitconfig": "[safe]\n\tdirectory = *\n"})
        write(root, git_files)
        if self.user is not None:
            subprocess.run(["chown", "-R", f"{self.user}:{self.user}", top], check=True)
        try:
            yield Room(top, root, {"PATH": PATH, "HOME": top}, self)
        finally:
            shutil.rmtree(top)


@lru_cache(maxsize=None)
def places(program: str) -> tuple[Place, ...]:
    """A clone that carries a program, the same for a user who can't write there, and an unpacked release for that user."""
    assert not shutil.which("actionlint", path=PATH) and not shutil.which("rt", path=PATH), f"a linter or the kit is on {PATH}"
    room = Path(tempfile.mkdtemp(prefix="actionlint-test-"))
    atexit.register(shutil.rmtree, room, ignore_errors=True)
    room.chmod(0o755)
    clone = room / "clone"
    copy_few_sources(clone)
    carry(clone, program)
    commit(clone)
    subprocess.run([clone / "release", "--program", program, "--facts", facts_beside(program), "--to", room], check=True,
                   stdout=subprocess.DEVNULL)
    (packed,) = room.glob("*.tar.gz")
    subprocess.run(["tar", "-xzf", packed], cwd=room, check=True)
    (unpacked,) = room.glob("actionlint-*/")
    carried = str(clone / "prebuilt/actionlint")
    if os.geteuid() == 0:
        other, theirs = NOBODY, clone
    else:
        other, theirs = None, room / "theirs"
        shutil.copytree(clone, theirs, symlinks=True)
        subprocess.run(["chmod", "-R", "a-w", theirs, unpacked], check=True)
        atexit.register(lambda: subprocess.run(["chmod", "-R", "u+w", theirs, unpacked], check=False))
    return (Place("clone", clone, carried, None), Place("another user's clone", theirs, carried, other),
            Place("another user's release", unpacked / "share/actionlint", str(unpacked / "bin/actionlint"), other))


def in_each(cases: Cases, is_taken: Callable[[Place], bool]) -> Callable[[Callable[[Place], None]], Case]:
    """Makes a function of a place a case in each of some places."""
    def as_case(function: Callable[[Place], None]) -> Case:
        def case(program: str) -> None:
            for place in filter(is_taken, places(program)):
                shutil.rmtree(place.folder / "crates/actionlint/out", ignore_errors=True)
                try:
                    function(place)
                except Exception as error:
                    raise AssertionError(f"in {place.name}") from error
        case.__name__ = function.__name__
        return cases.case(case)
    return as_case


def in_each_place(cases: Cases) -> Callable[[Callable[[Place], None]], Case]:
    return in_each(cases, lambda place: True)


def in_each_clone(cases: Cases) -> Callable[[Callable[[Place], None]], Case]:
    return in_each(cases, lambda place: place.folder.joinpath("crates").exists())
