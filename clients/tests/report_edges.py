#!/usr/bin/env python3
"""What hostile files and folders can do to actionlint-report: names, long messages, many faults, characters, and the file to write.

    report_edges.py PROGRAM [NAME...]
"""
from __future__ import annotations

import itertools
import json
import os
import resource
import shutil
import signal
import subprocess
import sys
import tempfile
import time

from cases import Cases
from report_runs import command, facts_in, folder_with, run_report
from repositories import CLIENTS, FILE, FILES, RIGHT, UNDEFINED, WORKFLOWS, write

CASES = Cases("report-edges")
SECONDS = 200
ALL_FORMS = ("text", "jsonl", "sarif", "github", "codequality")
MEMORY = 300 * 1_048_576
MANY = 150_000
TAKEN_BY_GITHUB = 25_000
FAULT = {"path": FILE, "code": "K1", "kind": "syntax-check", "message": "unexpected key", "arguments": ["x"], "start": 0, "end": 1,
         "line": 1, "column": 1, "end_line": 1, "end_column": 2, "source": "x"}
# Prints a fault on each of many lines.
FAULT_OF_A_LINE = json.dumps({**FAULT, "line": "&", "end_line": "&"}).replace('"&"', "&")
MANY_FAULTS = f"""seq {MANY} | sed 's|.*|{FAULT_OF_A_LINE}|'; echo '{{"status": 1}}'; exit 1"""


def run(program: str, folder: str, *words: str, environment: dict[str, str] | None = None) -> tuple[int, str, str]:
    """The status and both streams of actionlint-report, under limits of memory and of time."""
    held = lambda: resource.setrlimit(resource.RLIMIT_AS, (MEMORY, MEMORY))
    return run_report(program, folder, *words, timeout=SECONDS, preexec_fn=held, env=environment)


@CASES.case
def names_that_look_like_options(program: str) -> None:
    """What comes after `--` is a FILE, whatever its name."""
    path = "--root=clean/action.yml"
    with folder_with({path: "name: x\n", "clean/" + FILE: RIGHT}) as folder:
        status, text, _ = run(program, folder, "--form", "jsonl", "--", path)
        assert status == 1 and {json.loads(line)["path"] for line in text.splitlines()} == {path}, text


@CASES.case
def long_messages(program: str) -> None:
    """A text of a megabyte that contains the fixed parts of messages, or beginnings of faults, takes time linear in it."""
    for part in ('" is not defined in "', "a:1:1: "):
        text = part * (900_000 // len(part))
        with folder_with({FILE: f"on: push\njobs:\n  a:\n    uses: '{text}'\n"}) as folder:
            for form in ALL_FORMS:
                status, said, errors = run(program, folder, "--form", form)
                assert status == 1 and len(said) > len(text) and not errors, (form, status, errors)


@CASES.case
def many_faults(program: str) -> None:
    """They are written as they arrive; SARIF has as many as GitHub accepts in a run, and says how many were left out."""
    with folder_with({}) as folder:
        environment = facts_in(folder, program, MANY_FAULTS)
        status, text, errors = run(program, folder, "--out", "faults.sarif", environment=environment)
        left_out = f"{MANY - TAKEN_BY_GITHUB} more were left out: GitHub takes {TAKEN_BY_GITHUB} results of a run"
        assert status == 1 and not text and errors == f"actionlint-report: {left_out}\n", (status, errors)
        with open(folder + "/faults.sarif", encoding="utf-8") as opened:
            (found,) = json.load(opened)["runs"]
        assert [one["locations"][0]["physicalLocation"]["region"]["startLine"] for one in found["results"]] == list(
            range(1, TAKEN_BY_GITHUB + 1))
        (said,) = found["invocations"][0]["toolExecutionNotifications"]
        assert said == {"level": "warning", "message": {"text": left_out}}, said
        status, text, errors = run(program, folder, "--form", "jsonl", "--ignore", "K1", environment=environment)
        assert (status, text, errors) == (0, "", f"actionlint-report: 0 faults, {MANY} ignored\n"), (status, errors)


@CASES.case
def long_lines(program: str) -> None:
    """Where the lines of files would be too many bytes, the report is made without them. Then only the faults of one line have an end."""
    keys = [f"k{number}" for number in range(5_000)]
    text = f"{{on: push, jobs: {{a: {{runs-on: x, steps: {{run: x,\n  name: y}}}}}}, {', '.join(f'{key}: 1' for key in keys)}}}\n"
    with folder_with({FILE: text}) as folder:
        status, said, _ = run(program, folder, "--form", "jsonl")
        steps, *found = map(json.loads, said.splitlines())
        assert status == 1 and (steps["code"], steps["end_column"]) == ("K4", None), steps
        assert [one["end_column"] - one["column"] for one in found] == list(map(len, keys)), len(found)
        _, said, _ = run(program, folder)
        assert said.count('"startLine"') == 5_001 == said.count('"endColumn"'), "GitHub asks for the end of each region"


@CASES.case
def characters(program: str) -> None:
    """No form has a character that a reader takes for the end of a line or that changes the direction of text. Messages have code points in
    their place, also for who reads the JSON."""
    hidden = "".join(chr(one) for one in (0x85, 0x9B, 0x2028, 0x2029, 0x202A, 0x202E, 0x2066, 0x2069))
    written, path = "a\\x85\\x9b\\u2028\\u2029\\u202a\\u202e\\u2066\\u2069b", WORKFLOWS + "\u202ea.yml"
    called = 'name: x\ndescription: x\ninputs: {"check\\u202e\\u2066out": {}}\nruns: {using: node20, main: m.js}\n'
    calls = 'on: push\njobs: {b: {runs-on: x, steps: [{uses: ./c, with: {"check\\u202e\\u2066our": 1}}]}}\n'
    with folder_with({path: f'on: push\njobs: {{}}\n"{written}": 1\n'}) as folder:
        for form in ("sarif", "jsonl", "codequality"):
            status, text, _ = run(program, folder, "--form", form)
            assert status == 1 and not set(text) & set(hidden), (form, text)
            assert "a" + "".join(f"<U+{ord(one):04X}>" for one in hidden) + "b" in json_texts(json.loads(text)), (form, text)
        for form in ("text", "oneline"):
            status, text, _ = run(program, folder, "--form", form)
            assert status == 1 and not set(text) & set(hidden) and "<U+202E>a.yml:3:1" in text and "<U+009B><U+2028>" in text, text
    with folder_with({path: calls, "c/action.yml": called}) as folder:
        for form in ("text", "oneline"):
            status, text, _ = run(program, folder, "--form", form)
            assert status == 1 and not set(text) & set(hidden) and "<U+202E>a.yml:2:51" in text, text
            assert "check<U+202E><U+2066>our" in text and (form == "oneline" or 'change to "check<U+202E><U+2066>out"' in text), text


def json_texts(value: object) -> str:
    """All texts inside a JSON value, one after another."""
    if isinstance(value, str):
        return value
    items = value.values() if isinstance(value, dict) else value if isinstance(value, list) else []
    return "\n".join(map(json_texts, items))


@CASES.case
def links_in_messages(program: str) -> None:
    """A key that looks like a SARIF link is shown as text: its brackets and backslashes are preceded by a backslash."""
    with folder_with({FILE: 'on: push\njobs: {}\n"[a](https://example.org/)\\\\": 1\n'}) as folder:
        _, text, _ = run(program, folder)
        (one,) = json.loads(text)["runs"][0]["results"]
        assert one["message"]["text"] == 'unexpected key "\\[a\\](https://example.org/)\\\\"', one
        status, text, _ = run(program, folder, "no[b](c).yml")
        (said,) = json.loads(text)["runs"][0]["invocations"][0]["toolExecutionNotifications"]
        assert status == 3 and said["message"]["text"] == "actionlint: no\\[b\\](c).yml: refused E2", said


@CASES.case
def commands_in_annotations(program: str) -> None:
    """Whatever a path, a key or standard error contains is in the text of an annotation, and never begins a line."""
    path = "::set-output name=x::1, 50%/action.yml"
    with folder_with({path: 'name: x\n"##[add-mask]x": 1\n', FILE: RIGHT}) as folder:
        status, text, errors = run(program, folder, "--form", "github", "--", path)
        *lines, last = text.splitlines()
        assert status == 1 and not errors and last == "3 faults in 1 file", (text, errors)
        start = " file=%3A%3Aset-output name=x%3A%3A1%2C 50%25/action.yml,line="
        assert len(lines) == 3 and all(line.startswith((f"::error{start}", f"::warning{start}")) for line in lines), lines
        assert '::unexpected key "#<U+0023>[add-mask]x" [syntax-check]%0A' in lines[-1], lines
        status, text, errors = run(program, folder, "--form", "github", "--", "##[add-mask]x")
        assert (status, errors) == (3, "") and text.splitlines() == [
            "::error title=actionlint::actionlint: #<U+0023>[add-mask]x: refused E2",
            "the faults are unknown: the linter could not go on"], text


@CASES.case
def reports_that_are_not_whole(program: str) -> None:
    """The last line has to be the status of the program, which `true` doesn't print, nor one that can't be loaded, which ends with status
    1, nor one that is cut off. The reason is told, with what was printed on standard error."""
    fault, end, other = json.dumps(FAULT) + "\n", '{"status": 1}\n', '{"status": 0}\n'
    rows = (("", 0, "has no end"), ("", 1, "has no end"), (other, 1, "with 0"), (fault, 1, "has no end"), (fault + end, 0, "with 1"))
    with folder_with({FILE: RIGHT}) as folder:
        for (lines, status, why), form in zip(rows, itertools.cycle(ALL_FORMS)):
            write(folder, {"lines": lines})
            found = run(program, folder, "--form", form, environment=facts_in(folder, program, f"cat lines; echo told >&2; exit {status}"))
            why = f"it ended with status {status}, but its report {why}: told"
            assert found == (3, "", f"actionlint-report: {folder}/facts is not actionlint-facts: {why}\n"), (lines, found)


@CASES.case
def lines_that_are_no_faults(program: str) -> None:
    """The beginning of the line is told, and nothing is reported."""
    fault, end = json.dumps(FAULT), '{"status": 1}'
    rows = {f"{end}\n{fault}\n": fault + "\n", f"{fault}\n{end}\n{end}\n": end + "\n", f"{fault}\n{end}\n{end[:5]}": end[:5],
            f"{fault}\n{end}": end, f"[{fault}]\n{end}\n": f"[{fault}]\n", "words\n": "words\n", '{"path": "a"}\n': '{"path": "a"}\n',
            fault.replace('"column": 1, "end_line": 1', '"column": null, "end_line": 1') + "\n": '{"path"', "é\n": "é\n"}
    with folder_with({FILE: RIGHT}) as folder:
        for (lines, told), form in zip(rows.items(), itertools.cycle(ALL_FORMS)):
            write(folder, {"lines": lines})
            status, text, errors = run(program, folder, "--form", form, environment=facts_in(folder, program, "cat lines; exit 1"))
            begin = f"actionlint-report: {folder}/facts is not actionlint-facts: it reported {told[:200]!r}"
            assert (status, text) == (3, "") and errors.startswith(begin[:-1]) and len(errors) < len(begin) + 200, (lines, errors)


@CASES.case
def runs_that_end_early(program: str) -> None:
    """What was printed until then is no report."""
    with folder_with({FILE: RIGHT, "lines": json.dumps(FAULT)}) as folder:
        for script, why in (("exit 127", "actionlint-facts: ended with status 127"), ("kill -9 $$", "actionlint-facts: ended by signal 9"),
                            ("echo 'actionlint: write failed' >&2; exit 3", "actionlint: write failed")):
            found = run(program, folder, "--form", "jsonl", environment=facts_in(folder, program, f"cat lines; {script}"))
            assert found == (3, "", f"{why}\n"), found


@CASES.case
def odd_files_to_write(program: str) -> None:
    """Anything but a regular file is neither written nor replaced, nor waited for; no link below the current folder is followed."""
    with folder_with({FILE: RIGHT, "kept": "old", "elsewhere/kept": "old"}) as folder:
        os.symlink("kept", folder + "/link")
        os.symlink("nowhere", folder + "/loose")
        os.symlink("elsewhere", folder + "/linked")
        os.mkfifo(folder + "/pipe")
        before = sorted(os.listdir(folder))
        for out in ("link", "loose", "pipe", "elsewhere", "linked/kept", "nowhere/kept"):
            status, text, errors = run(program, folder, "--out", out)
            assert (status, text) == (3, "") and errors.startswith(f"actionlint-report: cannot write {out}: "), (out, status, errors)
        assert sorted(os.listdir(folder)) == before and os.listdir(folder + "/elsewhere") == ["kept"]
        status, text, errors = run(program, folder, "--out", "")
        assert (status, text) == (2, "") and errors.endswith("argument --out: it names no file\n"), errors
        for kept in ("kept", "elsewhere/kept"):
            with open(f"{folder}/{kept}", encoding="utf-8") as opened:
                assert opened.read() == "old"


def redirected(program: str, folder: str, where: str, words: list[str]) -> tuple[int, str, str]:
    """The status and both streams of actionlint-report, some of them redirected by a shell."""
    done = subprocess.run(["sh", "-c", f'exec "$@" {where}', "sh", *command(program, *words)], cwd=folder,
                          stdout=subprocess.PIPE, stderr=subprocess.PIPE, text=True, check=False)
    return done.returncode, done.stdout, done.stderr


@CASES.case
def closed_or_full_output(program: str) -> None:
    """What nobody can read isn't lost silently."""
    with folder_with(FILES) as folder:
        for words in (["--form", "text"], ["--form", "jsonl"], ["--explain", "K1"], ["--help"], ["--version"]):
            for where, why in ((">&-", "Bad file descriptor"), ("> /dev/full", "No space left on device")):
                said = f"actionlint-report: cannot write standard output: {why}\n"
                assert redirected(program, folder, where, words) == (3, "", said), (where, words)
            assert redirected(program, folder, ">&- 2>&-", words) == (3, "", ""), words


@CASES.case
def closed_or_full_errors(program: str) -> None:
    """Standard error that accepts nothing changes neither the report nor the status."""
    with folder_with(FILES) as folder:
        for words in (["--form", "jsonl", "--ignore", "K1"], ["--form", "jsonl", "--ignore", "X13"], ["no.yml"], ["--bogus"],
                      ["--out", "x"]):
            status, text, _ = run(program, folder, *words)
            for where in ("2>&-", "2> /dev/full", "<&- 2>&-"):
                assert redirected(program, folder, where, words) == (status, text, ""), (where, words)


@CASES.case
def another_locale(program: str) -> None:
    """Paths on the command line are UTF-8, as in the report."""
    path = WORKFLOWS + "ü.yml"
    with folder_with({path: FILES[FILE]}) as folder:
        environment = {**os.environ, "LC_ALL": "C", "PYTHONUTF8": "0"}
        found = run_report(program, folder, "--form", "text", "--ignore", "X13:" + path, env=environment)
        assert found == (0, "0 faults, 1 ignored\n", ""), found


@CASES.case
def a_module_that_cannot_be_loaded(program: str) -> None:
    """The status isn't that of faults."""
    with folder_with(FILES) as folder:
        copy = folder + "/clients"
        shutil.copytree(CLIENTS, copy, ignore=shutil.ignore_patterns("tests"))
        with open(copy + "/actionlint_client/problems.py", "a", encoding="utf-8") as module:
            module.write("raise MemoryError\n")
        done = subprocess.run([sys.executable, copy + "/actionlint-report", "--program", program], cwd=folder, stdout=subprocess.PIPE,
                              stderr=subprocess.PIPE, check=False)
        assert (done.returncode, done.stdout, done.stderr[-12:]) == (3, b"", b"MemoryError\n"), done


@CASES.case
def the_old_report_stays_whole(program: str) -> None:
    """A report replaces the old one at once, and only when it is complete."""
    with folder_with(FILES) as folder:
        out = folder + "/x/faults"
        write(folder, {"x/faults": "old"})
        assert run(program, folder, "--out", "x/faults", environment={**os.environ, "ACTIONLINT_FACTS": "/bin/echo"})[0] == 3
        for form in ("codequality", "jsonl"):
            assert run(program, folder, "--form", form, "--out", "x/faults", "no.yml") == (
                3, "", "actionlint: no.yml: refused E2\n"), "an empty list would say that there is no fault"
            assert run(program, folder, "--form", form, "no.yml")[:2] == (3, "")
        assert os.listdir(folder + "/x") == ["faults"]
        with open(out, encoding="utf-8") as before:
            assert run(program, folder, "--form", "text", "--out", "x/faults")[0] == 1
            assert before.read() == "old" and os.listdir(folder + "/x") == ["faults"]
        with open(out, encoding="utf-8") as opened:
            assert UNDEFINED.partition(" [")[0] in opened.read()


@CASES.case
def output_that_does_not_block(program: str) -> None:
    """The program waits for a pipe that is full for a while, even if it is non-blocking."""
    keys = "".join(f"k{number}: 1\n" for number in range(2_000))
    with folder_with({FILE: "on: push\njobs: {}\n" + keys}) as folder:
        read, written = os.pipe()
        os.set_blocking(written, False)
        child = subprocess.Popen(command(program, "--form", "jsonl"), cwd=folder, stdout=written)
        os.close(written)
        with open(read, encoding="utf-8") as opened:
            assert len(opened.readlines()) == 2_000
        assert child.wait(SECONDS) == 1


@CASES.case
def signals(program: str) -> None:
    """They end the program by the signal, without a message, and leave no file."""
    for number in (signal.SIGINT, signal.SIGTERM, signal.SIGHUP):
        end_by(program, number)


def end_by(program: str, number: signal.Signals) -> None:
    with tempfile.TemporaryDirectory(prefix="actionlint-test-") as folder:
        write(folder, FILES)
        environment = facts_in(folder, program, ": > started; exec sleep 60")
        # (what runs in the background of a shell, or of nohup, would pass on that it ignores the signal)
        with subprocess.Popen(command(program, "--out", "x.sarif"), cwd=folder, stdout=subprocess.PIPE,
                              stderr=subprocess.PIPE, start_new_session=True, env=environment,
                              preexec_fn=lambda: signal.signal(number, signal.SIG_DFL)) as child:
            while not os.path.exists(os.path.join(folder, "started")):
                time.sleep(0.02)
            # (it may not know yet that the linter has begun)
            time.sleep(0.3)
            os.killpg(child.pid, number)
            assert child.communicate(timeout=SECONDS) == (b"", b"") and child.returncode == -number, child.returncode
        assert sorted(os.listdir(folder)) == sorted({*(path.partition("/")[0] for path in FILES), "facts", "started"}), os.listdir(folder)


@CASES.case
def a_reader_that_goes(program: str) -> None:
    """One line says that nobody reads the rest, of a report as well as of an entry, and nothing else is printed."""
    with tempfile.TemporaryDirectory(prefix="actionlint-test-") as folder:
        write(folder, FILES)
        for words in (["--explain", "X13"], ["--form", "text"], ["--form", "sarif"]):
            reading, writing = os.pipe()
            os.close(reading)
            done = subprocess.run(command(program, *words), cwd=folder, stdout=writing, stderr=subprocess.PIPE, check=False)
            os.close(writing)
            assert (done.returncode, done.stderr) == (3, b"actionlint-report: cannot write standard output: Broken pipe\n"), (words, done)


if __name__ == "__main__":
    sys.exit(CASES.run(sys.argv[1:]))
