"""Compares the pages with the sources: pages.py TOP [--write]. `--write` first rewrites what follows from the sources.

Runs fault_pages.py, links.py, edits_by_hand.py, each NAME_page.py of this folder that doesn't need the built program, tidy.py and
case_copies.py, and looks whether the changes of bench/changes can be made; those that can write say so (`--write`) in their head.
Prints a line for each, and what is wrong. The status is 0 if all were as expected.
"""

import pathlib
import subprocess
import sys

HERE = pathlib.Path(__file__).resolve().parent
PAGES = sorted({"edits_by_hand.py", "fault_pages.py", "links.py", *(it.name for it in HERE.glob("*_page.py"))} - {"command_line_page.py"})
TIDY = ["src", "specs", "proofs", "heads", "names", "kinds", "words", "pages"]
CASES = ["cases", "yaml-trees.cases", "expressions.cases", "chunks.cases"]


def run(script, *words):
    """Runs a script: its status, and what it printed."""
    ran = subprocess.run([sys.executable, HERE / script, *words], stdout=subprocess.PIPE, stderr=subprocess.STDOUT, check=False)
    return ran.returncode, ran.stdout.decode()


def can_write(script):
    """Whether a script can rewrite its page."""
    return "--write" in (HERE / script).read_text(encoding="utf-8").partition('"""\n\n')[0]


def main(top, *words):
    results = []
    for script in PAGES if "--write" in words else []:
        if can_write(script):
            run(script, top, "--write")
    runs = {script: [top] for script in PAGES}
    runs |= {"../bench/price.py": ["--check"], "tidy.py": [top, *TIDY]}
    runs |= {"case_copies.py": [str(pathlib.Path(top) / "tests" / it) for it in CASES]}
    for script, its in runs.items():
        status, said = run(script, *its)
        print(f"case={script} output={'wrong' if status else 'expected'} status={status}")
        print(said, end="")
        results.append(status)
    return 1 if any(results) else 0


if __name__ == "__main__":
    sys.exit(main(*sys.argv[1:]))
