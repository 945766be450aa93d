#!/usr/bin/env python3
"""actionlint-report --diff and --fix: the patch and the files have the same bytes, whatever the files and their names are like; what isn't
written is told; and nothing else changes.

    applied_fixes.py PROGRAM [NAME...]
"""
from __future__ import annotations

import ctypes
import os
import random
import shutil
import signal
import stat
import subprocess
import sys
import tempfile
from dataclasses import replace
from pathlib import Path
from typing import Any
from unittest import mock

from cases import Cases
from report_forms import on_terminal
from report_runs import command, facts_in, folder_with
from repositories import ACTION, CALLED, FILE, FILES, RIGHT, WORKFLOWS, git, write

from actionlint_client import fixing
from actionlint_client.faults import Fault
from actionlint_client.fixes import Fix
from actionlint_client.fixing import MAX_COMPARED_LINES, unified_diff
from actionlint_client.folder import Program
from actionlint_client.repair import Edit, Repair
from actionlint_client.text import Span

CASES = Cases("applied-fixes")
# Of linux/prctl.h and linux/capability.h.
PR_CAPBSET_DROP, CAP_DAC_OVERRIDE = 24, 1
WRONG = FILES[FILE]
TWICE = WRONG + "      - run: echo ${{ github.shaa }} ${{ github.reff }}\n"
TWICE_RIGHT = TWICE.replace("reff", "ref").replace("shaa", "sha")
# Files with safe fixes, as they are and as they are to be.
TEXTS = {
    FILE: (TWICE, TWICE_RIGHT),
    WORKFLOWS + "no end.yml": (WRONG.removesuffix("\n"), RIGHT.removesuffix("\n")),
    WORKFLOWS + "returns.yml": (WRONG.replace("\n", "\r\n"), RIGHT.replace("\n", "\r\n")),
    WORKFLOWS + "returns without end.yml": (WRONG.replace("\n", "\r\n").removesuffix("\r\n"),
                                            RIGHT.replace("\n", "\r\n").removesuffix("\r\n")),
    WORKFLOWS + "mark.yml": ("\ufeff" + WRONG, "\ufeff" + RIGHT),
    WORKFLOWS + "mark at the fault.yml": ("\ufeffon: pussh\njobs: {}\n", "\ufeffon: push\njobs: {}\n"),
    WORKFLOWS + "old line ends.yml": (WRONG.replace("\n", "\r"), RIGHT.replace("\n", "\r")),
    WORKFLOWS + " é 'a' \"b\" \U0001F600.yml":
        ("# \U0001F600 é\n" + WRONG.replace("echo", "echo \U0001F600é"),
         "# \U0001F600 é\n" + RIGHT.replace("echo", "echo \U0001F600é")),
    WORKFLOWS + "-r.yml": (WRONG, RIGHT),
    WORKFLOWS + "far.yml": (WRONG + "#\n" * 30 + "env: {A: '${{ github.shaa }}'}\n",
                            RIGHT + "#\n" * 30 + "env: {A: '${{ github.sha }}'}\n"),
}

# What Python runs first: the program is ended before these calls for a new file, or after those with a plus.
ENDING = """import os, signal

def ending(name, is_after):
    real = getattr(os, name)

    def call(path, *words, **how):
        if ".actionlint-report." not in os.fsdecode(path):
            return real(path, *words, **how)
        if not is_after:
            os.kill(os.getpid(), signal.SIGTERM)
        done = real(path, *words, **how)
        if is_after:
            os.kill(os.getpid(), signal.SIGTERM)
        return done
    setattr(os, name, call)

for word in os.environ["ENDING"].split():
    ending(word.removesuffix("+"), word.endswith("+"))
"""


def report(program: str, folder: str, *words: str, **how: Any) -> tuple[int, bytes, list[str]]:
    """The status, the output, and the lines of standard error, without the client's name."""
    done = subprocess.run(command(program, *words), cwd=folder, stdout=subprocess.PIPE, stderr=subprocess.PIPE, check=False, **how)
    return done.returncode, done.stdout, [line.removeprefix("actionlint-report: ") for line in done.stderr.decode().splitlines()]


def contents(folder: str) -> dict[str, bytes]:
    """The bytes of each file below a folder."""
    return {os.path.relpath(os.path.join(top, name), folder): Path(top, name).read_bytes()
            for top, _, names in os.walk(folder) for name in names}


def after_patch(files: dict[str, bytes], patch: bytes, command: list[str]) -> dict[str, bytes]:
    """The files after a command that applies a patch."""
    with tempfile.TemporaryDirectory(prefix="actionlint-test-") as folder:
        for path, data in files.items():
            Path(folder, path).parent.mkdir(parents=True, exist_ok=True)
            Path(folder, path).write_bytes(data)
        git(folder, "init", "-q")
        done = subprocess.run(command, cwd=folder, input=patch, stdout=subprocess.PIPE, stderr=subprocess.STDOUT, check=False)
        assert done.returncode == 0, (command, done.stdout.decode(), patch.decode("utf-8", "replace"))
        shutil.rmtree(folder + "/.git")
        return contents(folder)


def patched(files: dict[str, bytes], patch: bytes) -> dict[str, bytes]:
    """The files after `git apply`, and after `patch -p1`, if it is there."""
    found = after_patch(files, patch, ["git", "apply", "-p1", "--whitespace=nowarn"])
    if shutil.which("patch"):
        assert after_patch(files, patch, ["patch", "-p1", "--quiet", "--fuzz=0"]) == found, patch
    return found


@CASES.case
def the_same_bytes(program: str) -> None:
    """The patch and --fix change each file to the text that was meant, to the byte; --diff changes nothing. Then no fault is left."""
    right = {path: text.encode() for path, (_, text) in TEXTS.items()}
    with folder_with({path: text for path, (text, _) in TEXTS.items()}) as folder:
        before = contents(folder)
        status, patch, said = report(program, folder, "--diff")
        assert (status, said) == (1, []) and contents(folder) == before, (status, said)
        assert patched(before, patch) == right
        status, out, said = report(program, folder, "--fix", "--form", "text")
        assert (status, out) == (0, b"0 faults\n") and said == [f"{path}: fixed" for path in sorted(TEXTS)], (status, out, said)
        assert contents(folder) == right
        assert report(program, folder, "--diff") == (0, b"", []) and report(program, folder, "--fix", "--form", "jsonl") == (0, b"", [])


@CASES.case
def a_hunk(program: str) -> None:
    """Three lines around what changes, and only these."""
    lines = "".join(f"# {number}\n" for number in range(1, 8))
    with folder_with({FILE: lines + WRONG + lines}) as folder:
        _, patch, _ = report(program, folder, "--diff")
        assert patch.decode() == f"""--- a/{FILE}\t
+++ b/{FILE}\t
@@ -10,7 +10,7 @@
   a:
     runs-on: ubuntu-latest
     steps:
-      - run: echo ${{{{ github.reff }}}}
+      - run: echo ${{{{ github.ref }}}}
 # 1
 # 2
 # 3
""", patch
        assert report(program, folder, "--diff", "--out", "x.patch") == (1, b"", [])
        assert Path(folder, "x.patch").read_bytes() == patch


@CASES.case
def patches_by_chance(_: str) -> None:
    """Patches of random texts, also of some whose line ends are missing or returns, and of long ones."""
    chance = random.Random(7)
    before, after = {}, {}
    for number in range(150):
        lines = [chance.choice(("a", "b", "c", "")) + chance.choice(("\n", "\n", "\n", "\r\n")) for _ in range(chance.randrange(40))]
        changed = [one for line in lines for one in chance.choice(([line],) * 12 + ([], ["x\n"], [line, "y\n"]))]
        cut = ("".join(some)[:chance.choice((None, None, -1))].encode() for some in (lines, changed))
        before[f"{number} x"], after[f"{number} x"] = cut
    assert unified_diff("x", b"", b"a\n") == b"--- a/x\t\n+++ b/x\t\n@@ -0,0 +1,1 @@\n+a\n"
    long = [b"%d\n" % (number % 9) for number in range(3 * MAX_COMPARED_LINES)]
    before["long"], after["long"] = b"".join(long), b"first\n" + b"".join(long[1:-1]) + b"last"
    patch = b"".join(unified_diff(path, data, after[path]) for path, data in before.items())
    kept = {path: data for path, data in before.items() if data or after[path]}
    # (both programs delete a file that becomes empty)
    assert patched(kept, patch) == {path: after[path] for path in kept if after[path]}


@CASES.case
def guesses(program: str) -> None:
    """They are taken only on request, and what isn't fixed is reported."""
    given = FILES[CALLED] + "        with:\n          who: ''\n"
    with folder_with(FILES) as folder:
        status, out, said = report(program, folder, "--fix", "--form", "oneline")
        assert (status, said) == (1, [f"{FILE}: fixed"]), said
        assert out.decode() == f'{CALLED}:6:15: required input "who" of "A" is missing [action]\n', out
        assert contents(folder)[CALLED].decode() == FILES[CALLED]
        assert report(program, folder, "--fix", "--guesses", "--form", "oneline") == (0, b"", [f"{CALLED}: fixed"])
        assert contents(folder)[CALLED].decode() == given and contents(folder)[ACTION].decode() == FILES[ACTION]
        write(folder, {CALLED: FILES[CALLED].replace("\n", "\r\n")})
        assert report(program, folder, "--fix", "--guesses", "--form", "oneline") == (0, b"", [f"{CALLED}: fixed"])
        assert contents(folder)[CALLED].decode() == given.replace("\n", "\r\n")


@CASES.case
def safe_fixes_before_guesses(program: str) -> None:
    """A misspelled key is not added a second time."""
    action = FILES[ACTION].replace("main:", "mian:")
    with folder_with({ACTION: action}) as folder:
        assert report(program, folder, "--fix", "--guesses", "--form", "oneline", "--", ACTION) == (0, b"", [f"{ACTION}: fixed"])
        assert contents(folder) == {ACTION: FILES[ACTION].encode()}


@CASES.case
def what_is_left_alone(program: str) -> None:
    """Ignored faults, and files that aren't linted."""
    other = WORKFLOWS + "b.yml"
    with folder_with({FILE: WRONG, other: WRONG}) as folder:
        assert report(program, folder, "--diff", "--ignore", "X13") == (0, b"", [])
        status, patch, _ = report(program, folder, "--diff", "--ignore", f"X13:{FILE}")
        assert status == 1 and b"+++ b/" + other.encode() in patch and FILE.encode() not in patch, patch
        assert report(program, folder, "--fix", "--form", "jsonl", "--", FILE) == (0, b"", [f"{FILE}: fixed"])
        assert contents(folder) == {FILE: RIGHT.encode(), other: WRONG.encode()}


@CASES.case
def modes_and_links(program: str) -> None:
    """A mode stays; a link isn't replaced, nor is what it leads to, and neither is a file in a linked folder."""
    link, linked = WORKFLOWS + "link.yml", "linked/action.yml"
    action = FILES[ACTION].replace("inputs:", "inpts:").replace("required: true", "required: false")
    caller = FILES[CALLED].replace("./a", "./linked")
    with folder_with({FILE: WRONG, "elsewhere/w.yml": WRONG, "actions/action.yml": action, CALLED: caller}) as folder:
        os.chmod(os.path.join(folder, FILE), 0o640)
        os.symlink("../../elsewhere/w.yml", os.path.join(folder, link))
        os.symlink("actions", os.path.join(folder, "linked"))
        why = "not fixed, since a symbolic link points to it"
        for words in (["--diff"], ["--fix", "--form", "jsonl"]):
            status, _, said = report(program, folder, *words)
            assert status == 1 and {f"{link}: {why}", f"{linked}: {why}"} <= set(said), said
        assert stat.S_IMODE(os.stat(os.path.join(folder, FILE)).st_mode) == 0o640
        assert os.readlink(os.path.join(folder, link)) == "../../elsewhere/w.yml" and os.readlink(folder + "/linked") == "actions"
        found = contents(folder)
        assert found["elsewhere/w.yml"].decode() == WRONG and found["actions/action.yml"].decode() == action
        assert found[FILE].decode() == RIGHT and len(found) == 5, found.keys()


@CASES.case
def a_file_that_changes_meanwhile(program: str) -> None:
    """It is left as it is now, and told; the others are written."""
    other = WORKFLOWS + "b.yml"
    with folder_with({FILE: WRONG, other: WRONG}) as folder:
        environment = facts_in(folder, program, to_answer=f'echo "# new" >> "{folder}/{FILE}"; exec "$facts"')
        status, _, said = report(program, folder, "--fix", "--form", "jsonl", env=environment)
        assert status == 3 and said == [f"{FILE}: not fixed, since it changed meanwhile", f"{other}: fixed"], (status, said)
        found = contents(folder)
        assert found[FILE].decode().startswith(WRONG + "# new\n") and found[other].decode() == RIGHT and len(found) == 3, found


def obey_modes() -> None:
    """Modes of files hold for root too: what is run next can't get the capability to override them."""
    ctypes.CDLL(None).prctl(PR_CAPBSET_DROP, CAP_DAC_OVERRIDE, 0, 0, 0)


@CASES.case
def a_folder_that_is_read_only(program: str) -> None:
    """The files stay, no other file is left there, and the status is 3."""
    with folder_with({FILE: WRONG}) as folder:
        os.chmod(folder, 0o755)
        workflows = os.path.dirname(os.path.join(folder, FILE))
        os.chmod(workflows, 0o555)
        status, _, said = report(program, folder, "--fix", "--form", "jsonl", preexec_fn=obey_modes)
        os.chmod(workflows, 0o755)
        assert status == 3 and said == [f"{FILE}: not fixed, since Permission denied"], (status, said)
        assert contents(folder) == {FILE: WRONG.encode()}


@CASES.case
def signals_while_a_file_is_replaced(program: str) -> None:
    """Once the new file is there, once it has its name, and once more while it is cleared away: the signal ends the program, the file has
    its old or its new text, and there is no other one."""
    for calls, text in (("open+", WRONG), ("rename+", RIGHT), ("rename unlink", WRONG)):
        with folder_with({"sitecustomize.py": ENDING}) as first, folder_with({FILE: WRONG}) as folder:
            environment = {**os.environ, "PYTHONPATH": first, "ENDING": calls}
            status, _, said = report(program, folder, "--fix", "--form", "jsonl", env=environment,
                                     preexec_fn=lambda: signal.signal(signal.SIGTERM, signal.SIG_DFL))
            assert (status, said, contents(folder)) == (-signal.SIGTERM, [], {FILE: text.encode()}), (calls, status, said, contents(folder))


@CASES.case
def runs_that_cannot_go_on(program: str) -> None:
    """Without a linter, or if it refuses a file, nothing is changed, and the status says so."""
    with folder_with({FILE: WRONG}) as folder:
        for words in (["--diff"], ["--fix"]):
            assert report("/nonexistent", folder, *words)[0] == 3
            assert report(program, folder, *words, env={**os.environ, "ACTIONLINT_FACTS": "/bin/true"})[0] == 3
            status, _, said = report(program, folder, *words, "no.yml")
            assert status == 3 and said[0] == "actionlint: no.yml: refused E2", said
        for words in (["--diff", "--fix"], ["--guesses"]):
            assert report(program, folder, *words)[0] == 2
        assert contents(folder) == {FILE: WRONG.encode()}


@CASES.case
def a_terminal(program: str) -> None:
    """It gets no character that controls it."""
    with folder_with({FILE: WRONG.replace("  steps:", "  # \u202e\n    steps:")}) as folder:
        shown = on_terminal(command(program, "--diff", "--root", folder), {"TERM": "xterm"})
        assert b"\r\n     # <U+202E>\r\n" in shown, shown


def changes(program: str, folder: str, repairs: dict[str, list[Repair]]) -> dict[str, str]:
    """The texts after fixes that stand here by their faults' messages, each of which is taken for right."""
    def fixes(_: object, __: object, ___: object, faults: list[Fault], **____: object) -> list[Fix]:
        return [Fix(fault, repair) for fault in faults for repair in repairs.get(fault.message, [])]
    with mock.patch.object(fixing, "fixes", fixes):
        found = fixing.Fixing(Program([program], 60), os.fsencode(folder), fixing.Choice(lambda fault: True, True), print)
        return {path: change.after.decode() for path, change in found.changes([FILE]).items()}


def replacing(line: int, start: int, end: int, text: str) -> Repair:
    return Repair("", {FILE: (Edit(Span.on_line(line, start, end), text),)})


@CASES.case
def fixes_that_do_not_go_together(program: str) -> None:
    """Each of two is right alone. Only the first is taken, and the fault that both cause isn't there."""
    text = "on: push\njobs:\n  a: {runs-on: x, steps: []}\n  b: {runs-on: x, steps: []}\n"
    text += "  c: {runs-on: x, steps: [], needs: d}\n  e: {runs-on: x, steps: [], needs: [d, f]}\n"
    with folder_with({FILE: text}) as folder:
        first, second = replacing(2, 2, 3, "d"), replacing(3, 2, 3, "d")
        found = changes(program, folder, {'job "d" is not defined': [first], 'job "f" is not defined': [second]})
        assert found == {FILE: text.replace("  a:", "  d:")}, found


@CASES.case
def fixes_that_touch(program: str) -> None:
    """Of two that change the same text, one is taken in the first round, and the other, as its places are then, in the second."""
    text = "on: push\nname: ${{ github.reff }}\njobs: {}\nkey: 1\n"
    with folder_with({FILE: text}) as folder:
        first = replacing(1, 6, 24, "x")
        second = Repair("", {FILE: (Edit(Span.on_line(3, 0, 6), "#"), Edit(Span.on_line(1, 7, 7), "y"))})
        found = changes(program, folder, {'property "reff" is not defined': [first], 'unexpected key "key"': [second]})
        assert found == {FILE: "on: push\nname: xy\njobs: {}\n#\n"}, found


@CASES.case
def what_a_safe_fix_repairs(program: str) -> None:
    """It isn't guessed at the same time."""
    both = "{A: '${{ github.reff }} ${{ github.shaa }}'}"
    with folder_with({FILE: f"on: push\njobs: {{}}\nenv: {both}\n"}) as folder:
        guess, safe = replacing(0, 8, 8, " # guess"), replace(replacing(2, 5, 5 + len(both), "{}"), is_safe=True)
        found = changes(program, folder, {'property "reff" is not defined': [guess], 'property "shaa" is not defined': [safe]})
        assert found == {FILE: "on: push\njobs: {}\nenv: {}\n"}, found


@CASES.case
def what_a_fault_hides(program: str) -> None:
    """A guess that repairs YAML is taken, also beside others; then what it shows is fixed. A safe fix shows nothing new."""
    text = WRONG.replace("runs-on: ubuntu", "runs-on:ubuntu")
    with folder_with({FILE: text, CALLED: FILES[CALLED], ACTION: FILES[ACTION]}) as folder:
        status, _, _ = report(program, folder, "--fix", "--guesses", "--form", "jsonl")
        assert contents(folder)[FILE].decode() == RIGHT and status == 0, contents(folder)
    text = "name: A: b\non: push\njobs: {a: {runs-on: u, steps: [{run: make}]}}\nrun-name: C: d\n"
    with folder_with({FILE: text}) as folder:
        status, _, _ = report(program, folder, "--fix", "--guesses", "--form", "jsonl")
        assert contents(folder)[FILE].decode() == text.replace("A: b", "'A: b'").replace("C: d", "'C: d'") and status == 0, contents(folder)


@CASES.case
def fixes_that_never_end(program: str) -> None:
    """Fixes that leave as many faults as before are given up, and the text is what it was."""
    text = "on: push\njobs: {}\nk0: 1\n"
    with folder_with({FILE: text}) as folder:
        # (of 100 rounds, the last one wouldn't lead back to the first text)
        to = {f'unexpected key "k{number}"': [replacing(2, 0, 2, f"k{(number + 1) % 7}")] for number in range(7)}
        assert changes(program, folder, to) == {}


@CASES.case
def a_limit(program: str) -> None:
    """Beyond it no fault is tried."""
    with folder_with({FILE: "on: push\njobs: {}\nkey: 1\n"}) as folder:
        repairs = {'unexpected key "key"': [replacing(2, 0, 6, "#")]}
        # (without a safe fix each fault is tried twice)
        for most, expected in ((2, {FILE: "on: push\njobs: {}\n#\n"}), (1, {})):
            with mock.patch.object(fixing, "MAX_TRIED", most):
                assert changes(program, folder, repairs) == expected, most
        with mock.patch.object(fixing, "SECONDS_OF_ALL", -1.0):
            assert changes(program, folder, repairs) == {}


@CASES.case
def many_faults_of_a_file(program: str) -> None:
    """More than are tried at once, and the last ones have fixes too."""
    text = "on: push\njobs: {}\n" + "".join(f"zzz{number}: 1\n" for number in range(50)) + "env: {A: '${{ github.reff }}'}\n"
    with folder_with({FILE: text}) as folder:
        status, patch, _ = report(program, folder, "--diff")
        assert status == 1 and b"+env: {A: '${{ github.ref }}'}\n" in patch, patch


if __name__ == "__main__":
    sys.exit(CASES.run(sys.argv[1:]))
