"""Shows which functions of a crate take the prover's time: functions.py TOP CRATE [COUNT].

    cd crates/al_base && rm -r out && rt check --jobs 1; cd ../..
    python3 bench/functions.py . al_base

A check with one job keeps each proved module in the crate's out/, one after another, so the time between two files is that of the later
one. TOP is the repository. Prints the COUNT (20) functions that took the longest, each with the seconds of its proof and those of what the
prover derives from its code (moves, drops, loans); the functions of a cycle, which are proved together, are shown as `+` and the cycle's
name. Files that an earlier check kept don't count, so only a check from scratch shows everything.
"""

import collections
import pathlib
import re
import sys

# Longer than any module takes: two files this far apart are from two checks.
BREAK = 300.0
MODULE = re.compile(r"Rattle-\w+?[.-](?:proofs\.)?(?P<function>.+?)(?P<proof>\.Proof)?(?:\.[\w+-]+?)?(?:\.decls)?\.oantt")


def kept_files(folder):
    """When each module was kept, in seconds, with its file's name, sorted by time."""
    return sorted((it.stat().st_mtime_ns / 1e9, it.name) for it in folder.rglob("*.oantt"))


def seconds_of(files):
    """The seconds of each function's proof, and of the rest of its modules."""
    proofs, others = collections.Counter(), collections.Counter()
    for (before, _), (after, name) in zip(files, files[1:]):
        found = MODULE.fullmatch(name)
        if found and after - before < BREAK:
            (proofs if found["proof"] else others)[found["function"]] += after - before
    return proofs, others


def main(top, crate, count="20"):
    files = kept_files(pathlib.Path(top) / "crates" / crate / "out" / "incremental")
    if not files:
        sys.exit(f"functions.py: no check of {crate} is kept: run rt check in its folder")
    proofs, others = seconds_of(files)
    print(f"{crate}: {files[-1][0] - files[0][0]:.0f} seconds")
    print(" proof   code  function")
    both = proofs + others
    for function, _ in both.most_common(int(count)):
        print(f"{proofs[function]:6.1f} {others[function]:6.1f}  {function}")


if __name__ == "__main__":
    main(*sys.argv[1:])
