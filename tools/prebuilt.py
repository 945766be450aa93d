"""Renews or compares the carried programs: prebuilt.py --renew | --compare.

--renew copies each program of crates/ to prebuilt/, with the hash of its sources, none of which may be newer. --compare prints `fits` if
each program of prebuilt/ was built from these sources by this kit and is byte for byte the built one, `older` if one was built from others
or by another kit, or isn't there, and `none` if there is none. The status is 1 if one should be the same and isn't.
"""

import pathlib
import shutil
import subprocess
import sys

TOP = pathlib.Path(__file__).resolve().parent.parent
# Runs a function of tools/find_program.sh for the repository at $0 and a program.
ASK = 'top=$0; name=$1; shift; . "$0/tools/find_program.sh"; sources=$(list_sources); "$@"'


class Carried:
    """A carried program: where it is, where it is built, and the file with the hash of its sources."""

    def __init__(self, name, crate, hashed):
        self.name = name
        self.built = TOP / "crates" / crate / "out" / crate
        self.prebuilt = TOP / "prebuilt" / name
        self.hashed = TOP / "prebuilt" / hashed

    def ask(self, *words):
        """The output of a function of tools/find_program.sh, or None if it fails."""
        ran = subprocess.run(["sh", "-c", ASK, str(TOP), self.name, *words], stdout=subprocess.PIPE, text=True, check=False)
        return ran.stdout.strip() if ran.returncode == 0 else None

    def without_built(self, more=""):
        return f"{self.built.relative_to(TOP)} isn't there{more}: ./{self.name} --build-anew builds it"

    def renew(self, version):
        if self.ask("built_fits") is None:
            sys.exit(self.without_built(", or a source is newer"))
        self.prebuilt.parent.mkdir(exist_ok=True)
        shutil.copyfile(self.built, self.prebuilt)
        self.prebuilt.chmod(0o755)
        self.hashed.write_text(self.ask("hash_of_sources", version) + "\n")

    def compared(self, version):
        """`fits`, `older` or `none`."""
        if not self.prebuilt.is_file():
            return "none"
        if self.ask("kit_of_prebuilt") != version:
            return "older"
        if not self.built.is_file():
            sys.exit(self.without_built())
        if self.prebuilt.read_bytes() != self.built.read_bytes():
            sys.exit(f"prebuilt/{self.name} isn't the program that these sources give, though its hash is theirs")
        return "fits"


def programs():
    """The programs of this repository."""
    crates = {line.partition(":")[0] for line in (TOP / "crates.txt").read_text(encoding="utf-8").splitlines()}
    rows = [("actionlint", "actionlint", "sources.sha256"), ("actionlint-facts", "al_facts", "actionlint-facts.sha256")]
    return [Carried(*row) for row in rows if row[1] in crates]


def kit():
    """The kit's identity, or None if there is no kit."""
    if not shutil.which("rt"):
        return None
    return subprocess.run(["rt", "version"], stdout=subprocess.PIPE, text=True, check=False).stdout.strip()


def renew():
    version = kit()
    for program in programs():
        if version is None and program.ask("built_fits") is not None:
            sys.exit("the kit's command rt isn't on the PATH")
        program.renew(version)


def compare():
    version = kit()
    found = {program.compared(version) for program in programs()}
    print(found.pop() if len(found) == 1 else "older")


if __name__ == "__main__":
    commands = {"--renew": renew, "--compare": compare}
    commands.get(" ".join(sys.argv[1:]), lambda: sys.exit(__doc__))()
