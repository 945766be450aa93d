#!/usr/bin/env python3
"""What the language server promises at limits and when things go wrong: nothing is stale, nothing is lost, and the user is told.

    promises.py PROGRAM [NAME...]         `many_reads` and `many_edits` run only if named, since they take minutes
"""
from __future__ import annotations

import os
import shutil
import signal
import stat
import sys
import tempfile
import time
from pathlib import Path

from cases import Cases
from editor import Editor, children, linters, memory
from repositories import ACTION, CALLED, FILE, FILES, RIGHT, UNDEFINED, WORKFLOWS, WRONG, in_characters, reported, write

from actionlint_client.faults import NO_FAULTS
from actionlint_client.folder import Folder, Program
from actionlint_client.program import find_facts

CASES = Cases("promises")
TOO_LARGE = "not linted, since it has more than 1,048,576 bytes"
BAD_PATH = "not linted, since its path has more than 1,024 bytes, a control character or a backslash"
FULL = "not linted, since the folder has 4,096 other workflows and actions"
ENDED_AT = "not linted, since the linter stopped at it twice"
MAX_BYTES = 1_048_576
MAX_FILES = 4_096
MAX_READS = 1_048_576
PAUSE_SECONDS = 10


def start(program: str, files: dict[str, str], **options) -> Editor:
    """An editor in a new repository with these files, once everything is shown."""
    root = tempfile.mkdtemp(prefix="actionlint-test-")
    os.makedirs(root + "/.git")
    write(root, files)
    editor = Editor(program, os.fsencode(root), **options)
    editor.settle()
    return editor


def end(editor: Editor) -> None:
    assert editor.quit() == 0
    shutil.rmtree(editor.root)


def save(editor: Editor, path: str, data: bytes) -> None:
    """Another program writes a file, and the editor reports it."""
    whole = os.path.join(editor.root, path.encode())
    os.makedirs(os.path.dirname(whole), exist_ok=True)
    Path(os.fsdecode(whole)).write_bytes(data)
    editor.touched(path)
    editor.settle()


def script(folder: str, text: str) -> str:
    """A linter with this program in place of actionlint-facts."""
    file = folder + "/actionlint"
    for name in (file, file + "-facts"):
        Path(name).write_text(text, encoding="utf-8")
        os.chmod(name, stat.S_IRWXU)
    return file


@CASES.case
def large_files(program: str) -> None:
    editor = start(program, FILES)
    editor.open(FILE, WRONG)
    editor.settle()
    assert editor.texts(FILE) == [UNDEFINED]
    for size in (MAX_BYTES + 1, 10_000_001):
        editor.change(FILE, "#" * size)
        editor.settle()
        assert editor.texts(FILE) == [TOO_LARGE], editor.texts(FILE)
        editor.change(FILE, "#" * MAX_BYTES)
        editor.settle()
        assert editor.texts(FILE) == ["file is empty [syntax-check]"], editor.texts(FILE)
    assert editor.texts(CALLED), "the other file's fault is gone"
    save(editor, ACTION, b"#" * (MAX_BYTES + 1))
    assert editor.texts(CALLED) == [], "the action is called as it was before it was too large"
    assert editor.texts(ACTION) == [TOO_LARGE]
    save(editor, ACTION, FILES[ACTION].encode())
    assert len(editor.texts(CALLED)) == 1 and editor.texts(ACTION) == []
    editor.close(FILE)
    editor.settle()
    assert editor.texts(FILE) == [UNDEFINED]
    assert len(editor.messages) == 1 and TOO_LARGE in editor.messages[0], editor.messages
    end(editor)


@CASES.case
def a_full_folder(program: str) -> None:
    """4,096 files and one more; once one is deleted, the file that did not fit is linted."""
    last = WORKFLOWS + "zz.yml"
    editor = start(program, {**{f"{WORKFLOWS}{number:04}.yml": "on: push\njobs: {}\n" for number in range(MAX_FILES)}, last: WRONG})
    assert editor.texts(last) == [FULL]
    os.remove(os.path.join(editor.root, (WORKFLOWS + "0007.yml").encode()))
    editor.touched(WORKFLOWS + "0007.yml", kind=3)
    editor.settle()
    assert editor.texts(last) == [UNDEFINED]
    one = WORKFLOWS + "0001.yml"
    editor.open(one, "on: pussh\njobs: {}\n")
    editor.settle()
    assert editor.texts(one) == ['unknown event "pussh" [events]']
    editor.change(one, "on: pusssh\njobs: {}\n")
    editor.settle()
    assert editor.texts(one) == ['unknown event "pusssh" [events]']
    end(editor)


@CASES.case
def names_that_are_refused(program: str) -> None:
    backslash, line_feed = WORKFLOWS + "b\\c.yml", WORKFLOWS + "l\nf.yml"
    editor = start(program, {FILE: WRONG, backslash: WRONG, WORKFLOWS + "notes.txt": "x", "docs/x.yml": "a: ["})
    save(editor, line_feed, WRONG.encode())
    folder = os.path.join(editor.root, WORKFLOWS.encode())
    Path(os.fsdecode(folder + b"\xe9.yml")).write_text(WRONG, encoding="utf-8")
    os.mkdir(folder + b"x.yml")
    os.mkfifo(folder + b"y.yml")
    for _ in range(2):
        editor.touched(FILE)
        editor.settle()
    for path in (backslash, line_feed):
        assert editor.texts(path) == [BAD_PATH], path
    assert editor.texts(FILE) == [UNDEFINED]
    assert sum("not UTF-8" in said for said in editor.messages) == 1, editor.messages
    editor.open("docs/x.yml", "a: [")
    editor.change("docs/x.yml", "a: [b")
    untitled = {"uri": "untitled:Untitled-1", "languageId": "yaml", "version": 1, "text": WRONG}
    editor.notify("textDocument/didOpen", {"textDocument": untitled})
    editor.notify("textDocument/didChange", {"textDocument": {"uri": untitled["uri"], "version": 2}, "contentChanges": [{"text": WRONG}]})
    editor.settle()
    assert set(editor.diagnostics()) == {FILE, backslash, line_feed}
    end(editor)


@CASES.case
def control_characters_of_a_name(program: str) -> None:
    """A message is one line, and can't control a terminal."""
    editor = start(program, {FILE: RIGHT, WORKFLOWS + "\x1b[31m\n\u202e.yml": RIGHT})
    (said,) = editor.messages
    assert "/<U+001B>[31m<U+000A><U+202E>.yml: " in said and said.endswith(BAD_PATH), said
    end(editor)


@CASES.case
def a_long_path(program: str) -> None:
    """A path of 1,024 bytes is linted, and one that is a byte longer is refused; a command's line could not hold it."""
    editor = start(program, {FILE: RIGHT})
    for length in (1_024, 1_025, 3_000):
        path = "d/" * ((length - len("action.yml")) // 2) + "action.yml"
        path = "d" * (length - len(path)) + path
        assert len(path) == length
        editor.open(path, "author: x\n")
        editor.settle()
        missing = [f'key "{key}" is missing [syntax-check]' for key in ("description", "name", "runs")]
        found = sorted(editor.texts(path))
        assert found == (missing if length == 1_024 else [BAD_PATH]), (length, found)
        editor.close(path)
        editor.settle()
        assert editor.texts(path) == []
    end(editor)


@CASES.case
def a_root_that_is_not_text(program: str) -> None:
    root = tempfile.mkdtemp(prefix="actionlint-test-").encode() + b"/r\xe9 po%41#?"
    os.makedirs(root + b"/.git")
    write(os.fsdecode(root), FILES)
    editor = Editor(program, root)
    editor.settle()
    assert editor.texts(FILE) == [UNDEFINED]
    editor.open(FILE, RIGHT)
    editor.settle()
    assert editor.texts(FILE) == []
    assert in_characters(editor.diagnostics(), FILES) == [fault for fault in reported(program, root) if fault[0] != FILE]
    assert editor.quit() == 0
    shutil.rmtree(os.path.dirname(root))


@CASES.case
def the_linter_is_killed(program: str) -> None:
    editor = start(program, FILES)
    editor.open(FILE, WRONG)
    editor.settle()
    for text, expected in ((RIGHT, []), (WRONG, [UNDEFINED]), (RIGHT, [])):
        for child in linters(editor.child.pid):
            os.kill(child, signal.SIGKILL)
        editor.change(FILE, text)
        editor.settle()
        assert editor.texts(FILE) == expected
        assert editor.texts(CALLED)
    assert len(editor.messages) == 3 and all("started again" in said for said in editor.messages), editor.messages
    end(editor)


@CASES.case
def the_linter_goes_and_comes_back(program: str) -> None:
    """Without a linter nothing is shown, since what was shown may be wrong; once there is one, everything is."""
    folder = tempfile.mkdtemp(prefix="actionlint-test-")
    link = folder + "/actionlint"
    os.symlink(program, link)
    editor = start(link, FILES)
    editor.open(FILE, WRONG)
    editor.settle()
    assert editor.texts(FILE) == [UNDEFINED]
    os.remove(link)
    for child in children(editor.child.pid):
        os.kill(child, signal.SIGKILL)
    editor.change(FILE, RIGHT)
    editor.settle()
    assert editor.diagnostics() == {}, editor.diagnostics()
    assert [said for said in editor.messages if "cannot start" in said and "--program" in said and "ACTIONLINT" in said], editor.messages
    assert len(editor.messages) <= 2, "the linter ended, and then there was none, which is told once"
    os.symlink(program, link)
    time.sleep(PAUSE_SECONDS + 1)
    editor.settle()
    assert editor.texts(FILE) == [] and editor.texts(CALLED), "the linter is there now"
    end(editor)
    shutil.rmtree(folder)


@CASES.case
def a_linter_that_answers_nonsense(program: str) -> None:
    """A linter that prints nonsense, reads without answering, neither reads nor answers, or ends."""
    folder = tempfile.mkdtemp(prefix="actionlint-test-")
    for body in ("echo hello", "cat > /dev/null", "exec sleep 100", "exit 3", "head -c 300 > /dev/null; exit 3",
                 'while read -r line; do echo "{}"; done', 'while read -r line; do echo "{\\"error\\": \\"no\\"}"; done'):
        editor = start(script(folder, f"#!/bin/sh\n{body}\n"), FILES, words=("--timeout", "1"))
        assert editor.diagnostics() == {} and editor.messages, body
        end(editor)
    shutil.rmtree(folder)


@CASES.case
def a_linter_that_hangs(program: str) -> None:
    """It is stopped and replaced after a pause, and the user is told."""
    folder = tempfile.mkdtemp(prefix="actionlint-test-")
    editor = start(script(folder, f'#!/bin/sh\nif [ -e "{folder}/hang" ]; then exec sleep 100; fi\nexec "{find_facts(program)}"\n'), FILES,
                   words=("--timeout", "1"))
    assert editor.texts(FILE) == [UNDEFINED]
    stopped = linters(editor.child.pid)
    for child in stopped:
        os.kill(child, signal.SIGSTOP)
    begun = time.monotonic()
    save(editor, FILE, RIGHT.encode())
    assert time.monotonic() - begun < 6, "it was waited for too long"
    assert any("in time" in said for said in editor.messages) and editor.diagnostics() == {}, editor.messages
    assert not all(os.path.exists(f"/proc/{child}") for child in stopped), "the linter that hung still runs"
    time.sleep(PAUSE_SECONDS + 1)
    editor.settle()
    assert editor.texts(FILE) == [] and editor.texts(CALLED)
    end(editor)
    shutil.rmtree(folder)


@CASES.case
def a_file_that_ends_the_linter(program: str) -> None:
    """Only that file is left out, until it changes."""
    folder = tempfile.mkdtemp(prefix="actionlint-test-")
    editor = start(script(folder, f"""#!{sys.executable}
import os, subprocess, sys
child = subprocess.Popen(["{find_facts(program)}"], stdin=subprocess.PIPE)
while True:
    block = os.read(0, 65536)
    if not block or b"DEADLY" in block:
        child.stdin.close()
        sys.exit(child.wait() if not block else 9)
    child.stdin.write(block)
    child.stdin.flush()
"""), FILES)
    editor.open(CALLED, FILES[CALLED] + "# DEADLY\n")
    editor.settle()
    assert editor.texts(CALLED) == [ENDED_AT], editor.diagnostics()
    assert editor.texts(FILE) == [UNDEFINED]
    editor.change(CALLED, FILES[CALLED])
    editor.settle()
    assert len(editor.texts(CALLED)) == 1 and "required" in editor.texts(CALLED)[0]
    end(editor)
    shutil.rmtree(folder)


@CASES.case
def many_faults_on_a_line(program: str) -> None:
    """The source lines in the report would take the number of faults times the length of the line, here some 75 MB: they are left out."""
    count, path = 2_000, WORKFLOWS + "long.yml"
    editor = start(program, {FILE: WRONG})
    editor.open(path, "{" + ",".join(f"k{number}: 1" for number in range(count)) + "}\n")
    editor.settle()
    shown = editor.texts(path)
    assert len(shown) == 1_001 and shown[-1].endswith("more faults in this file"), (len(shown), shown[-1:])
    assert editor.texts(FILE) == [UNDEFINED]
    assert memory(editor.child.pid, "VmHWM") < 128 * 1_024, "the server has read the whole report"
    editor.change(path, WRONG)
    editor.settle()
    assert editor.texts(path) == [UNDEFINED]
    end(editor)


@CASES.case
def ranges(program: str) -> None:
    """Columns are UTF-16 units, after byte order marks, all kinds of line breaks, and invalid bytes; ends are those of the marks."""
    editor = start(program, {FILE: WRONG})
    mark, path = WORKFLOWS + "mark.yml", WORKFLOWS + "b.yml"
    save(editor, mark, b"\xef\xbb\xbfnam: x\n")
    assert [one["range"]["start"] for one in editor.diagnostics()[mark]] == [{"line": 0, "character": 0}] * 3
    save(editor, mark, b"on: push\nname: a\xe2\x28\n")
    (one,) = editor.diagnostics()[mark]
    assert one["range"]["start"] == {"line": 1, "character": 7} and one["code"] == "Y1"
    for line_break in ("\n", "\r\n", "\r"):
        editor.open(path, WRONG.replace("echo", "\U0001F600é").replace("\n", line_break))
        editor.settle()
        (one,) = editor.diagnostics()[path]
        assert one["range"] == {"start": {"line": 5, "character": 28}, "end": {"line": 5, "character": 32}}, one
        editor.close(path)
    for text, expected in (("on: push\nname: \ud800\n", "file is not UTF-8 [syntax-check]"), ("", "file is empty [syntax-check]")):
        editor.open(path, text)
        editor.settle()
        assert editor.texts(path) == [expected]
        editor.close(path)
    end(editor)


@CASES.case
def a_fault_of_several_lines(program: str) -> None:
    """Its range ends with its first line, as the linter's marks do."""
    text = "on: push\njobs:\n  a:\n    runs-on: ubuntu-latest\n    steps: {run: x,\n      nam: y}\n"
    editor = start(program, {FILE: text})
    root = os.fsdecode(editor.root)
    assert in_characters(editor.diagnostics(), {FILE: text}) == reported(program, os.fsencode(root))
    found = editor.diagnostics()[FILE]
    assert [one["range"]["end"] for one in found] == [{"line": 4, "character": 19}], found
    end(editor)


@CASES.case
def hovering_at_the_ends(program: str) -> None:
    """A fault is explained before its first character, behind its last one and between them, and not further away."""
    editor = start(program, FILES)
    editor.open(FILE, WRONG)
    editor.settle()
    (fault,) = editor.diagnostics()[FILE]
    line, first, last = fault["range"]["start"]["line"], fault["range"]["start"]["character"], fault["range"]["end"]["character"]
    assert last - first == len("reff")
    for character in (first - 2, first, first + 1, last, last + 1):
        found = editor.hover(FILE, line, character)
        assert (found is not None and "X13" in found["contents"]["value"]) == (first <= character <= last), (character, found)
    end(editor)


@CASES.case
def what_a_diagnostic_carries(program: str) -> None:
    """Code, kind, message, severity, source, and the address of the fault's entry."""
    editor = start(program, {FILE: WRONG}, words=("--docs", "https://example.org/docs/"))
    (one,) = editor.diagnostics()[FILE]
    assert one == {
        "range": {"start": {"line": 5, "character": 29}, "end": {"line": 5, "character": 33}}, "severity": 1, "source": "actionlint",
        "code": "X13", "message": UNDEFINED, "data": {"kind": "expression"},
        "codeDescription": {"href": "https://example.org/docs/FAULTS-EXPRESSIONS.md#x13-property-0-is-not-defined"}}, one
    end(editor)


@CASES.case
def several_folders(program: str) -> None:
    """Folders are added and removed; nothing of a removed one is shown any more. A file without a folder has its repository's."""
    first = start(program, FILES)
    second = tempfile.mkdtemp(prefix="actionlint-test-")
    write(second, {FILE: WRONG})
    folder = {"uri": "file://" + second, "name": "x"}
    there = f"{folder['uri']}/{FILE}"
    first.notify("workspace/didChangeWorkspaceFolders", {"event": {"added": [folder], "removed": []}})
    first.settle()
    assert len(first.shown[there]["diagnostics"]) == 1
    first.notify("workspace/didChangeWorkspaceFolders", {"event": {"added": [], "removed": [folder]}})
    first.settle()
    assert first.shown[there]["diagnostics"] == [] and first.texts(FILE) == [UNDEFINED]
    third = Editor(program, None)
    third.root = os.fsencode(second)
    third.open(FILE, RIGHT)
    third.settle()
    assert third.diagnostics() == {}
    third.change(FILE, WRONG)
    third.settle()
    assert third.texts(FILE) == [UNDEFINED]
    shutil.rmtree(second)
    third.close(FILE)
    third.settle()
    assert third.diagnostics() == {}
    assert third.quit() == 0
    end(first)


@CASES.case
def a_renamed_file(program: str) -> None:
    """The old name has no fault any more, and the new one has it."""
    editor = start(program, FILES)
    new = WORKFLOWS + "new.yml"
    os.rename(os.path.join(editor.root, FILE.encode()), os.path.join(editor.root, new.encode()))
    editor.touched(FILE, kind=3)
    editor.touched(new, kind=1)
    editor.settle()
    assert editor.texts(FILE) == [] and editor.texts(new) == [UNDEFINED]
    end(editor)


@CASES.case
def without_asking(program: str) -> None:
    """Diagnostics arrive unasked, also for files that aren't open."""
    editor = start(program, FILES)
    editor.open(FILE, WRONG)
    editor.open(ACTION, FILES[ACTION])
    editor.settle()
    editor.change(FILE, RIGHT)
    editor.change(ACTION, FILES[ACTION].replace("true", "false"))
    deadline = time.monotonic() + 5
    while editor.diagnostics() and time.monotonic() < deadline:
        time.sleep(0.02)
    assert editor.diagnostics() == {}
    end(editor)


@CASES.case
def without_watching(program: str) -> None:
    """If the editor doesn't watch the disk, the server does."""
    editor = start(program, FILES, watches=False)
    assert not editor.requests
    write(os.fsdecode(editor.root), {FILE: RIGHT})
    deadline = time.monotonic() + 5
    while editor.texts(FILE) and time.monotonic() < deadline:
        time.sleep(0.1)
    assert editor.texts(FILE) == []
    end(editor)


@CASES.long_case
def many_reads(program: str) -> None:
    """The linter ends after 1,048,576 reads; another one replaces it, and the user is told."""
    root = tempfile.mkdtemp(prefix="actionlint-test-")
    write(root, FILES)
    said: list[str] = []
    folder = Folder(os.fsencode(root), Program([program], 20.0), said.append)
    number = 0
    while not said and number < MAX_READS:
        number += 1
        folder.edit(FILE, (RIGHT if number % 2 else WRONG).encode())
        found = folder.refresh().faults
        assert len(found.get(FILE, NO_FAULTS).faults) == (number + 1) % 2 and len(found[CALLED].faults) == 1, (number, found)
    print(f"  after {number} edits: {said}")
    assert len(said) == 1 and number > MAX_READS // 4
    folder.close()
    shutil.rmtree(root)


@CASES.long_case
def many_edits(program: str) -> None:
    """Over 20,000 edits the memory of the server and of the linter stays the same."""
    editor = start(program, FILES)
    editor.open(FILE, WRONG)
    sizes = []
    for number in range(21_000):
        editor.change(FILE, WRONG + "#" * (number % 40) + "\n")
        editor.settle()
        if number % 1_000 == 999:
            sizes.append((memory(editor.child.pid), sum(map(memory, linters(editor.child.pid)))))
    print(f"  resident KiB of server and linter after each 1,000 edits: {sizes}")
    for before, after in zip(sizes[0], sizes[-1]):
        assert after <= before + 512, "more than 512 KiB more than after the first 1,000 edits"
    end(editor)


if __name__ == "__main__":
    sys.exit(CASES.run(sys.argv[1:]))
