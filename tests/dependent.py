"""Compiles and runs the crate of docs/LIBRARY.md that uses this repository from another one: dependent.py TOP.

The files that the page shows go into a folder beside a copy of the crates, and a test for the crate with them. The kit's interpreter runs
the test (`rt try`), which proves nothing. Without the kit the case is skipped.
"""

import os
import pathlib
import re
import shutil
import subprocess
import sys
import tempfile

from copying import copy_files
from running import exit_status, report, skip

FILE = re.compile(r"^```\w+ file=(mine/\S+)\n(.*?)^```$", re.DOTALL | re.MULTILINE)
CLONE = "juzbrost"
SECONDS = 1800
PASSED = "test result: ok. 1 passed; 0 failed"
TEST = """
#[cfg(test)]
mod tests {
    use super::*;

    #[test]
    fn tells_yaml(rt: HostRuntime) -> Result<(), AllocError> {
        assert!(rt; is_yaml(rt.alloc(), b"a: [b]\\n")? && !is_yaml(rt.alloc(), b"a: [b\\n")?);
        Ok(())
    }
}
"""


def write_crate(top, folder):
    """Writes the files of the page below a folder, with the test; returns their paths."""
    found = FILE.findall((top / "docs/LIBRARY.md").read_text(encoding="utf-8"))
    for path, text in found:
        file = folder / path
        file.parent.mkdir(parents=True, exist_ok=True)
        file.write_text(text + (TEST if file.suffix == ".rt" else ""), encoding="utf-8")
    return sorted(path for path, _ in found)


def run_test(folder):
    """Runs the test of the crate: the status, and what it printed."""
    words = ["rt", "try", "--test"]
    ran = subprocess.run(words, cwd=folder, stdout=subprocess.PIPE, stderr=subprocess.STDOUT, text=True, check=False, timeout=SECONDS)
    return ran.returncode, ran.stdout.splitlines()


def main(folder):
    top = pathlib.Path(folder).resolve()
    if not shutil.which("rt"):
        skip("a-crate-beside-the-clone", "rt isn't there")
        return 0
    with tempfile.TemporaryDirectory(prefix="actionlint-test-") as room:
        place = pathlib.Path(room)
        subprocess.run(["git", "init", "-q", place], check=True, env=os.environ | {"GIT_CONFIG_GLOBAL": "/dev/null"})
        copy_files(place / CLONE, lambda name: name.startswith("crates"))
        files = write_crate(top, place)
        if files != ["mine/BUILD.bazel", "mine/src/lib.rt"]:
            report("a-crate-beside-the-clone", "-", [f"the page shows these files: {files}"])
            return exit_status()
        status, said = run_test(place / "mine")
        is_right = status == 0 and any(it.startswith(PASSED) for it in said)
        report("a-crate-beside-the-clone", status, [] if is_right else said)
    return exit_status()


if __name__ == "__main__":
    sys.exit(main(*sys.argv[1:]))
