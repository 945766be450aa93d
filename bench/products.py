"""What folders take for which a lint could take the product of two counts, in time or memory: bench/products.py, after ./test or a build of
crates/actionlint, otherwise with the carried program. Needs GNU time (Debian's time).

The folders are those of tests/products.py and of tests/limited_folders.py, which tests/hostile.py lints under limits. Each is linted
several times; the least processor time is shown, with the greatest memory of a run and the bytes of the report.
"""

import subprocess
import sys
import tempfile

from common import TOP, is_there, measured, program, tell, write_files

sys.path.insert(0, str(TOP / "tests"))
from limited_folders import LIMITED_FOLDERS
from products import FOLDERS  # type: ignore[attr-defined]  # of tests/: mypy takes it for this file

RUNS = 3


def reported(folder):
    """The report on a folder."""
    return subprocess.run([program("actionlint"), "--oneline"], cwd=folder, stdout=subprocess.PIPE, check=False).stdout


def main():
    """Prints a line for each folder."""
    if not is_there("time", "time", "time and memory"):
        return
    print(f"{'folder':50} {'seconds':>8} {'memory':>10} {'report':>10}")
    for name, make in [*FOLDERS.items(), *((name, it.make) for name, it in LIMITED_FOLDERS.items())]:
        files, told = make()
        with tempfile.TemporaryDirectory() as folder:
            write_files(folder, [(path, data.decode()) for path, data in files.items()])
            if reported(folder) != told:
                sys.exit(f"{name}: the report isn't the one that is told")
            seconds, memory = zip(*(measured([program("actionlint"), "--oneline"], folder=folder) for _ in range(RUNS)))
        line = f"{name:50} {min(seconds):7.2f}s {max(memory) / 1e6:7.0f} MB {len(told) / 1e6:7.1f} MB"
        tell(line, name, this=min(seconds), memory=max(memory), report=len(told))


if __name__ == "__main__":
    sys.exit(main())
