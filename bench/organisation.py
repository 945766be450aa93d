"""What an organisation's clones take through GNU parallel: bench/organisation.py [CLONES].

There are CLONES (500) of five workflows and an action. The commands are those that docs/CI.md shows. They need GNU parallel and jq
(Debian's parallel and jq). Every hundredth clone has no workflows, and can't be linted. The time is the elapsed one of all commands; the
merged file must have each fault once.
"""

import os
import pathlib
import re
import subprocess
import sys
import tempfile
import time

from clients import workflow, workflows
from common import TOP, is_there, program, tell

sys.path.insert(0, str(TOP / "clients/tests"))
from repositories import FILES, write

COMMANDS = re.compile(r"^```sh\n(parallel .*?)^```$", re.MULTILINE | re.DOTALL)
# one clone in so many has no workflows
EMPTY = 100


def faults_of(clone):
    """The number of faults of a clone, by the linter itself."""
    return subprocess.run([program("actionlint"), "--oneline"], cwd=clone, stdout=subprocess.PIPE, check=False).stdout.count(b"]\n")


def measure(count):
    """Lints this many clones, and prints how long it takes."""
    (commands,) = COMMANDS.findall((TOP / "docs/CI.md").read_text(encoding="utf-8"))
    with tempfile.TemporaryDirectory() as top:
        names = [f"{top}/{number:04}" for number in range(count)]
        for number, name in enumerate(names):
            write(name, {"README.md": "x\n"} if number % EMPTY == 0 else {**FILES, **workflows(3, workflow(1))})
        pathlib.Path(top, "folders.txt").write_text("".join(f"{name}\n" for name in names), encoding="utf-8")
        environment = {**os.environ, "ACTIONLINT": str(program("actionlint"))}
        begun = time.monotonic()
        ran = subprocess.run(["bash", "-c", commands.replace("/opt/juzbrost", str(TOP))], cwd=top, env=environment, stdout=subprocess.PIPE,
                             stderr=subprocess.DEVNULL, text=True, check=False)
        took = time.monotonic() - begun
        empty = len(range(0, count, EMPTY))
        told, wanted = pathlib.Path(top, "faults.jsonl").read_bytes().count(b"\n"), (count - empty) * faults_of(names[1])
        if told != wanted or len(ran.stdout.splitlines()) != empty:
            sys.exit(f"{told} faults in place of {wanted}, and these clones could not be linted: {ran.stdout}")
    at_a_time = os.cpu_count()
    line = f"{count} clones, {at_a_time} at a time, {empty} of them without workflows: {took:.1f} s, {count / took:.1f} a second"
    tell(line, "clones", this=took, clones=count, at_a_time=at_a_time)


if __name__ == "__main__":
    if all([is_there("parallel", "parallel", "clones"), is_there("jq", "jq", "clones")]):
        measure(int(sys.argv[1]) if len(sys.argv) > 1 else 500)
