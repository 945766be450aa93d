#!/usr/bin/env python3
"""Notes: each entry of docs/NOTES.md has its cases, each row of the tables is found, and reports and the language server show them. Needs
actionlint-facts and the libraries of the server.

    notes.py PROGRAM [NAME...]
"""
from __future__ import annotations

import json
import os
import re
import subprocess
import sys
import tempfile
import time

from cases import Cases
from editor import Editor
from note_cases import cases_by_name, note_cases
from promises import end
from report_runs import REPORT, facts_in
from repositories import CLIENTS, TOP, WORKFLOWS, write

from actionlint_client.entries import plain_text
from actionlint_client.notes.file import HERE, entries_of_notes, is_slip
from actionlint_client.notes.outputs import names_written
from actionlint_client.notes.run import notes

from fault_entries import entries_of
from fault_pages import have

CASES = Cases("notes")
FILE = WORKFLOWS + "a.yml"
SECONDS = 60.0
JOB = "on: push\njobs:\n  a:\n    runs-on: ubuntu-latest\n    steps:\n"
FAILING = {FILE: JOB + "      - uses: actions/download-artifact@v3\n"}
MESSAGE = 'GitHub fails each run of "actions/download-artifact@v3"'
LINE = f"{FILE}:6:15: {MESSAGE} [note]"
# A shell's program in place of actionlint-facts: it is gone, answers nothing that is JSON, has no answer, or doesn't answer.
WRONG_FACTS = {"ends": "exit 0", "words": "echo words; cat", "list": "echo []; cat",
               "refuses": """while read -r _; do echo '{"error": "no"}'; done"""}


def lines_of(program: str, files: dict[str, str]) -> list[str]:
    """The notes on a folder with these files, as PATH:LINE:COLUMN: MESSAGE."""
    with tempfile.TemporaryDirectory(prefix="actionlint-test-") as folder:
        write(folder, files)
        named = [path for path in files if path.endswith((".yml", ".yaml"))]
        return [f"{one.fault.path}:{one.fault.line}:{one.fault.column}: {one.fault.message}"
                for one in notes(program, folder, named, False, print)]


def report(program: str, files: dict[str, str], *words: str, environment: dict[str, str] | None = None) -> subprocess.CompletedProcess:
    with tempfile.TemporaryDirectory(prefix="actionlint-test-") as folder:
        write(folder, files)
        return subprocess.run([REPORT, "--program", program, f"--root={folder}", *words], stdout=subprocess.PIPE, stderr=subprocess.PIPE,
                              check=False, env={**os.environ, **(environment or {})}, text=True)


@CASES.case
def each_case(program: str) -> None:
    wrong = [(case.code, case.name, found, case.notes) for case in note_cases()
             if sorted(found := lines_of(program, case.files)) != sorted(case.notes)]
    assert not wrong, "\n".join(map(str, wrong))


@CASES.case
def each_entry(program: str) -> None:
    """Each entry of the page has a case with its note alone, a repaired one and one that nearly has it, which the linter accepts; the lines
    of its repair are those of the first two. Each rule has an entry."""
    cases, listed = cases_by_name(), entries_of(TOP / "docs/NOTES.md")
    assert [entry.code for entry in listed] == [f"N{number}" for number in range(1, len(listed) + 1)] == list(entries_of_notes())
    for entry in listed:
        has, repaired, near = (cases[entry.code, name] for name in ("has", "repaired", "near"))
        assert entry.what and entry.why and entry.repair and entry.shown, entry.code
        assert has.notes and all(is_of(entry.message, line) for line in has.notes) and not repaired.notes and not near.notes, entry.code
        for case, left_out in ((has, "+"), (repaired, "-")):
            assert have([line[1:] for line in entry.shown if line[0] != left_out], next(iter(case.files.values())).encode()), entry.code
    named = {code for file in HERE.glob("*.py") for code in re.findall(r'"(N\d+)"', file.read_text(encoding="utf-8"))}
    assert named == set(entries_of_notes()), named ^ set(entries_of_notes())


def is_of(message: str, line: str) -> bool:
    """Whether a line ends with a message with any arguments."""
    return re.search(": " + ".*".join(map(re.escape, re.split(r"\{[01]\}", message))) + "$", line) is not None


@CASES.case
def accepted_by_the_linter(program: str) -> None:
    """The files of the cases have no faults, but for those whose rule is also a matter of the linter."""
    accepted = {("N1", "each")}
    wrong = []
    for case in note_cases():
        faults = report(program, case.files, "--form=oneline").stdout
        if faults and (case.code, case.name) not in accepted:
            wrong.append(f"{case.code} {case.name}: {faults}")
    assert not wrong, "".join(wrong)


@CASES.case
def each_row(program: str) -> None:
    """Each label that ended, each version of an action, and each type and filter of an event, by the tables alone."""
    labels, actions = table("runners"), table("actions")["actions"]
    jobs = "".join(f"  j{number}:\n    runs-on: {label}\n    steps: [run: a]\n".replace("[run: a]", "[{run: a}]")
                   for number, label in enumerate([*labels["ended"], *labels["known"]]))
    found = lines_of(program, {FILE: "on: push\njobs:\n" + jobs})
    assert [re.findall('"(.*?)"', line)[0] for line in found] == list(labels["ended"]), found
    uses = [f"{name}@v{major}" for name, row in actions.items() for kind in ("fail", "node 12", "node 16") for major in row.get(kind, [])]
    newest = [f"{name}@v{max(row.get('node 16') or row.get('fail') or row['node 12']) + 1}" for name, row in actions.items()]
    lines = lines_of(program, {FILE: JOB + "".join(f"      - uses: {one}\n" for one in [*uses, *newest])})
    found = [line for line in lines if " needs input " not in line]
    assert [re.findall('"(.*?)"', line)[0] for line in found] == uses, found
    events = table("../github")["activity types"]
    text = "on:\n" + "".join(f"  {name}: {{types: [{', '.join([*types, 'no'])}]}}\n" for name, types in events.items())
    found = lines_of(program, {FILE: text + JOB.partition("\n")[2] + "      - run: a\n"})
    assert [re.findall('"(.*?)"', line) for line in found] == [[name, "no"] for name in events], found


@CASES.case
def each_interface(program: str) -> None:
    """Each input and output of a known action is taken; with a letter more each is found, and so is each input that is needed."""
    for more in ("", "q"):
        steps, wanted = "", []
        for number, (name, row) in enumerate(table("interfaces")["actions"].items()):
            given = "".join(f"          {one}{more}: a\n" for one in row["inputs"])
            read = "".join(f"      - run: echo ${{{{ steps.i{number}.outputs.{one}{more} }}}}\n" for one in row.get("outputs", []))
            steps += f"      - uses: {name}@v{row['closed'] + 1}\n        id: i{number}\n        with:\n{given}{read}"
            wanted += [one + more for one in row["inputs"] + row.get("outputs", [])] + row.get("needed", [])
        found = [re.findall('"(.*?)"', line)[1] for line in lines_of(program, {FILE: JOB + steps})]
        assert sorted(found) == (sorted(wanted) if more else []), (more, found)


def table(name: str) -> dict:
    return json.loads((HERE / f"{name}.json").read_text(encoding="utf-8"))


@CASES.case
def sources(program: str) -> None:
    """Each table says where its rows come from, and a day."""
    files = [file for file in HERE.glob("*.json") if file.name != "notes.json"]
    assert len(files) >= 8, files
    for file in files:
        said = table(file.stem)["sources"]
        assert said and all(re.fullmatch(r"20\d\d-\d\d-\d\d", one["day"]) and one["from"] for one in said.values()), file
    rows = [*table("runners")["ended"].values(), *table("actions")["actions"].values()]
    assert all(row["from"].startswith("https://github") for row in rows)


@CASES.case
def slips(program: str) -> None:
    for name, known, wanted in (("lastest", "latest", True), ("lates", "latest", True), ("latset", "latest", True),
                                ("latext", "latest", True),
                                ("latest", "latest", False), ("latests1", "latest", False), ("l-test", "latest", True),
                                ("ubuntu-22.04", "ubuntu-24.04", False), ("a_b", "a-b", False), ("", "a", True), ("ab", "ba", True)):
        assert is_slip(name, known) is wanted, (name, known)


@CASES.case
def scripts(program: str) -> None:
    """The outputs that a script writes; None where more may be written."""
    wanted = {
        'echo "a=1" >> "$GITHUB_OUTPUT"': {"a"}, "echo a=1 >> $GITHUB_OUTPUT\necho 'B=2' >> ${GITHUB_OUTPUT}": {"a", "b"},
        "x=$(git log | head -n 1)\necho a=$x >> $GITHUB_OUTPUT": {"a"}, "if [ -f a ]; then\n  echo a=1 >> $GITHUB_OUTPUT\nfi": {"a"},
        "# ./a.sh\necho a=1 >>$GITHUB_OUTPUT": {"a"}, 'echo "a<<EOF" >> $GITHUB_OUTPUT\necho b >> $GITHUB_OUTPUT': None,
        "./a.sh\necho a=1 >> $GITHUB_OUTPUT": None, "A=1 make\necho a=1 >> $GITHUB_OUTPUT": None,
        "echo a=1 >> $GITHUB_OUTPUT; echo b=2 >> $GITHUB_OUTPUT": None, "echo $x=1 >> $GITHUB_OUTPUT": None,
        "echo a=1 | tee -a $GITHUB_OUTPUT": None, "x=$(python3 a.py)\necho a=1 >> $GITHUB_OUTPUT": None,
        'printf "a=1\\nb=2\\n" >> $GITHUB_OUTPUT': None, "printf 'a=%s' 1 >> $GITHUB_OUTPUT": {"a"},
        "echo a=$(python3 a.py) >> $GITHUB_OUTPUT": None, "echo a=$(date) >> $GITHUB_OUTPUT": {"a"},
        "find . -exec ./a.sh {} +\necho a=1 >> $GITHUB_OUTPUT": None, "ls | xargs ./a.sh\necho a=1 >> $GITHUB_OUTPUT": None}
    for script, names in wanted.items():
        assert names_written(script) == names, (script, names_written(script))


@CASES.case
def reports(program: str) -> None:
    """A note is in each form, by its level; it counts only if that is asked for, and can be ignored. Without the option there is none."""
    assert report(program, FAILING, "--form=text").stdout == "0 faults\n"
    for words, level, status in ((["--notes"], "note", 0), (["--notes=error"], "error", 1)):
        ran = report(program, FAILING, "--form=jsonl", *words)
        told = json.loads(ran.stdout)
        assert (ran.returncode, told["code"], told["level"], told["message"], told["kind"]) == (status, "N15", level, MESSAGE, "note"), told
        assert told["advice"] == "Use the newest major version." and told["end_column"] - told["column"] == 28, told
        sarif = json.loads(report(program, FAILING, *words).stdout)["runs"][0]
        assert sarif["results"][0]["level"] == level and sarif["tool"]["driver"]["rules"][0]["id"] == "N15", sarif
    text = report(program, FAILING, "--form=text", "--notes").stdout
    assert text.endswith("0 faults and 1 note (not proved) in 1 file\n") and "      - uses: actions/download-artifact@v3\n" in text, text
    assert report(program, FAILING, "--form=github", "--notes").stdout.startswith("::notice file=.github/workflows/a.yml,line=6,"), text
    assert json.loads(report(program, FAILING, "--form=codequality", "--notes").stdout)[0]["severity"] == "info"
    ran = report(program, FAILING, "--form=oneline", "--notes=error", "--ignore=N15", "--ignore=n13")
    assert (ran.returncode, ran.stdout) == (0, "") and "N13 ignores nothing" in ran.stderr, ran
    ran = report(program, FAILING, "--form=oneline", "--ignore=N15")
    assert (ran.returncode, ran.stdout, ran.stderr) == (0, "", ""), ran


@CASES.case
def files_with_faults(program: str) -> None:
    """A file that isn't valid YAML has no note, one with other faults has, and a file after `--notes` is one."""
    other = WORKFLOWS + "b.yml"
    ran = report(program, {**FAILING, other: FAILING[FILE] + "'\n"}, "--form=oneline", "--notes", other)
    assert ran.returncode == 1 and "[note]" not in ran.stdout and "quoted text is not closed" in ran.stdout, ran
    ran = report(program, {FILE: FAILING[FILE] + "nam: x\n"}, "--form=oneline", "--notes")
    assert [line.rpartition(" ")[2] for line in ran.stdout.splitlines()] == ["[syntax-check]", "[note]"], ran


@CASES.case
def without_facts(program: str) -> None:
    """Where actionlint-facts gives no answers, there is no report, the status is 3, and the reason is told."""
    with tempfile.TemporaryDirectory(prefix="actionlint-test-") as folder:
        for name, script in WRONG_FACTS.items():
            ran = report(program, FAILING, "--form=oneline", "--notes", environment=facts_in(folder, program, to_answer=script))
            if name == "refuses":
                assert ran.returncode == 3 and "no" in ran.stderr, (name, ran)
            assert (ran.returncode, ran.stdout) == (3, "") and "no notes, since actionlint-facts can't be used" in ran.stderr, (name, ran)


@CASES.case
def in_hooks_and_the_action(program: str) -> None:
    """The hooks take the option, and the action has an input for it."""
    with tempfile.TemporaryDirectory(prefix="actionlint-test-") as folder:
        write(folder, FAILING)
        for notes_input, status, shown in (("false", 0, []), ("true", 0, [LINE]), ("error", 1, [LINE]),
                                           ("yes", 2, ["the input notes is neither true, false nor error"])):
            environment = {**os.environ, "HERE": str(TOP), "PROGRAM": program, "FILES": "", "SARIF": "", "NOTES": notes_input,
                           "GITHUB_OUTPUT": f"{folder}/output"}
            ran = subprocess.run([str(CLIENTS / "github/run")], cwd=folder, env=environment, stdout=subprocess.PIPE, text=True, check=False)
            assert (ran.returncode, ran.stdout.splitlines()[2:-2]) == (status, shown), (notes_input, ran)
    action = (TOP / "action.yml").read_text(encoding="utf-8")
    assert "        NOTES: ${{ inputs.notes }}\n" in action and "  notes:\n" in action
    hook = (CLIENTS / "pre-commit").read_text(encoding="utf-8")
    assert 'exec "$here/actionlint-report" --program "$program" --form oneline "$@"' in hook, hook


@CASES.case
def explained(program: str) -> None:
    for code, entry in entries_of_notes().items():
        ran = subprocess.run([REPORT, "--explain", code.lower()], stdout=subprocess.PIPE, check=True, text=True)
        assert ran.stdout.startswith(f"{code}: ") and plain_text(entry.why)[:40] in ran.stdout.replace("\n", " "), code


def wait_for(editor: Editor, texts: list[str]) -> None:
    """Waits until these are the texts of the file's diagnostics, or for so long that they never will be."""
    deadline = time.monotonic() + SECONDS
    while editor.texts(FILE) != texts:
        assert time.monotonic() < deadline, editor.texts(FILE)
        time.sleep(0.05)


@CASES.case
def in_the_server(program: str) -> None:
    """Notes on open files are shown as information, explained, and go with the text."""
    with tempfile.TemporaryDirectory(prefix="actionlint-test-") as folder:
        editor = open_in_editor(program, folder)
        wait_for(editor, [MESSAGE])
        shown = editor.diagnostics()[FILE][0]
        assert (shown["severity"], shown["code"], shown["source"]) == (3, "N15", "actionlint"), shown
        place = {"textDocument": {"uri": editor.uri(FILE)}, "position": {"line": 5, "character": 20}}
        assert "**N15**" in editor.request("textDocument/hover", place)["result"]["contents"]["value"]
        editor.change(FILE, FAILING[FILE].replace("@v3", "@v4"))
        wait_for(editor, [])
        end(editor)


@CASES.case
def switched_off(program: str) -> None:
    """An option switches notes off, and a setting off or on, whatever the option says: only where they are on has the server a thread for
    them."""
    threads: dict[bool, set[int]] = {True: set(), False: set()}
    for words, settings, is_on in (((), None, True), (("--no-notes",), {"notes": True}, True),
                                   (("--no-notes",), None, False), ((), {"notes": False}, False)):
        with tempfile.TemporaryDirectory(prefix="actionlint-test-") as folder:
            editor = open_in_editor(program, folder, words, settings)
            editor.settle()
            threads[is_on].add(len(os.listdir(f"/proc/{editor.child.pid}/task")))
            end(editor)
    assert len(threads[False]) == 1 and threads[True] == {number + 1 for number in threads[False]}, threads


def open_in_editor(program: str, folder: str, words: tuple[str, ...] = (), settings: dict | None = None) -> Editor:
    """An editor with a file open that has a note."""
    write(folder, FAILING)
    editor = Editor(program, os.fsencode(folder), words=words, settings=settings, notes=True)
    editor.open(FILE, FAILING[FILE])
    return editor


if __name__ == "__main__":
    sys.exit(CASES.run(sys.argv[1:]))
