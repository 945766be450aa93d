"""Copies of this repository's files, for tests that run its scripts."""

import os
import pathlib
import shutil
import stat
import subprocess
import sys

TOP = pathlib.Path(__file__).resolve().parent.parent
COMMITTED = {"GIT_AUTHOR_DATE": "2026-01-02T03:04:05Z", "GIT_COMMITTER_DATE": "2026-01-02T03:04:05Z", "GIT_CONFIG_GLOBAL": "/dev/null"}
AS = ["-c", "user.name=a", "-c", "user.email=a@example.com"]
HASH = 'top=$0; name=$1; . "$0/tools/find_program.sh"; sources=$(list_sources); hash_of_sources "$2"'
# The carried programs, each with the file of its sources' hash.
CARRIED = {"actionlint": "sources.sha256", "actionlint-facts": "actionlint-facts.sha256"}

# A test may run in a hook of git, which names its repository to each git below it. That of a test must not change it.
for name in ("GIT_DIR", "GIT_WORK_TREE", "GIT_INDEX_FILE"):
    os.environ.pop(name, None)


def copy_files(folder, is_wanted=lambda name: True):
    """Copies the files that git tracks or would add, if `is_wanted` accepts their path from the top. The copies are writable, and links are
    links."""
    given = ["git", "-C", TOP, "ls-files", "-z", "--cached", "--others", "--exclude-standard"]
    listed = subprocess.run(given, capture_output=True, check=False)
    if listed.returncode:
        sys.exit(f"a copy takes the files that git knows, and git says: {listed.stderr.decode()}")
    names = listed.stdout.decode().split("\0")
    for name in filter(None, names):
        if is_wanted(name) and (TOP / name).is_file():
            copy = folder / name
            copy.parent.mkdir(parents=True, exist_ok=True)
            shutil.copy2(TOP / name, copy, follow_symlinks=False)
            if not copy.is_symlink():
                copy.chmod(copy.stat().st_mode | stat.S_IWUSR)


def copy_few_sources(folder):
    """A copy with the sources of only one crate and without tests. The carried program is found as in a complete copy, but the copy is
    quick to make."""
    copy_files(folder, lambda name: not name.startswith(("crates/", "tests/", "clients/tests/")) or name.startswith("crates/actionlint/"))


def facts_beside(program):
    """The actionlint-facts that was built beside a linter, or else the carried one."""
    built = pathlib.Path(program).resolve().parent.parent.parent / "al_facts/out/al_facts"
    return built if built.is_file() else TOP / "prebuilt/actionlint-facts"


def carry(folder, program):
    """Makes a copy of the repository carry a linter, and the actionlint-facts beside it, as if they had been built from its sources."""
    programs = {"actionlint": program, "actionlint-facts": facts_beside(program)}
    version = subprocess.run(["rt", "version"], capture_output=True, text=True, check=False).stdout.strip() if shutil.which("rt") else "kit"
    (folder / "prebuilt").mkdir(exist_ok=True)
    for name, file in CARRIED.items():
        carried = folder / "prebuilt" / name
        shutil.copyfile(programs[name], carried)
        carried.chmod(0o755)
        hashed = subprocess.run(["sh", "-c", HASH, folder, name, version], capture_output=True, text=True, check=True)
        (folder / "prebuilt" / file).write_text(hashed.stdout)


def commit(folder):
    """Makes a folder a git repository with its files in one commit, which is always the same."""
    for words in (["init", "-q"], ["add", "-A"], [*AS, "commit", "-q", "-m", "all"]):
        subprocess.run(["git", *words], cwd=folder, env=os.environ | COMMITTED, capture_output=True, check=True)
