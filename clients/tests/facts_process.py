#!/usr/bin/env python3
"""The process of actionlint-facts: its answers as values, and what happens if it is missing, ends, hangs or answers something else.

    facts_process.py PROGRAM [NAME...]
"""
from __future__ import annotations

import os
import signal
import subprocess
import sys
import tempfile
from contextlib import contextmanager
from pathlib import Path
from typing import Iterator

from cases import Cases
from repositories import ACTION, CALLED, CLIENTS, FILE, FILES, RIGHT, WRONG, write

from actionlint_client import facts as module
from actionlint_client.child import LinterEnded, LinterMissing, LinterSilent
from actionlint_client.facts import EditRefused, Facts, NoAnswer, NoTree
from actionlint_client.facts_tree import Chain, Path as Dotted, Word, walk
from actionlint_client.folder import Folder, Program
from actionlint_client.program import FACTS, find_facts
from actionlint_client.reader import Reader, Started

CASES = Cases("facts-process")
SECONDS = 60.0
# A program that answers each line by one, after a line of its own.
ECHO = 'while read -r line; do printf "%s\\n" "{answer}"; done'
ANSWERS = {'{\\"error\\": \\"no\\"}': NoAnswer, "words": LinterEnded, "[1]": LinterEnded,
           '{\\"lacks\\": [\\"' + "x" * 300 + '\\"]}': NoAnswer}


def fake(folder: str, script: str) -> list[str]:
    file = Path(folder) / "facts"
    file.write_text(f"#!/bin/sh\n{script}\n", encoding="utf-8")
    file.chmod(0o755)
    return [str(file)]


def raised(facts: Facts, kind: type[Exception]) -> bool:
    try:
        facts.lacks()
    except kind as error:
        return type(error) is kind
    return False


@CASES.case
def answers(program: str) -> None:
    facts = Facts([find_facts(program)], SECONDS)
    text = FILES[CALLED].encode()
    assert facts.put(CALLED, text) == [CALLED] and facts.lacks() == ["a/action.yaml", "a/action.yml"]
    assert facts.put(ACTION, FILES[ACTION].encode()) == [CALLED, ACTION] and facts.lacks() == ["a/action.yaml"]
    found = facts.faults(CALLED)
    shown = [(fault["code"], fault["arguments"], fault["line"], fault["column"]) for fault in found]
    assert shown == [("C3", ["who", "A"], 6, 15)], found
    assert list(facts.report()) == [CALLED] and facts.cycles() == {}
    facts.delete(ACTION)
    assert facts.faults(CALLED) == []
    try:
        facts.put("b.yml", b"")
        raise AssertionError("a file that isn't linted was taken")
    except EditRefused as error:
        assert error.code == "E2", error.code
    try:
        facts.of_bytes("tree", FILE, b"a: 'b\n")
        raise AssertionError("a tree of what isn't YAML")
    except NoTree as error:
        assert str(error) == "quoted text is not closed", error
    assert facts.stop() == 0


@CASES.case
def trees(program: str) -> None:
    started = Started(program, SECONDS)
    reader = Reader(started)
    text = "name: é\nrun-name: \"\\x41 ${{ github.ref == 'x' }}\"\non: &a [push]\njobs: {}\n".encode()
    root = reader.tree(FILE, text)
    assert root and root.names() == ["name", "run-name", "on", "jobs"], root
    name, on, jobs = root.get("name"), root.get("on"), root.get("jobs")
    assert name and on and jobs and (name.value, name.start, name.end, name.style, name.schema_class) == ("é", 6, 8, "", "str"), name
    assert on.anchor == "a" and root.text("on", 0) == "push" and root.get("on", 1) is None and jobs.entries == [] and root.get("x") is None
    title = root.get("run-name")
    assert title and title.value.startswith("A ${{") and title.pieces == [[0, 20], [1, text.index(b" ${{")]], title
    place = reader.expressions(FILE, text)[0]
    assert (place.start, place.end) == (title.start, title.end), place
    tree = place.chunks[0].tree
    assert isinstance(tree, Chain) and tree.rest[0][0] == "==" and isinstance(tree.first, Dotted) and tree.first.steps[0].text == "ref"
    assert [part.text for part in walk(tree) if isinstance(part, Word)] == ["github", "'x'"]
    started().stop()


@CASES.case
def aliases(program: str) -> None:
    """An alias has its own place, and the contents and the class of the last anchor of its name before it, which can be in a node of that
    name."""
    started = Started(program, SECONDS)
    text = b"a: &x\n  b: &x {c: 1}\nd: [*x, &y 2, *y]\ne: &y ~\nf: *y\n"
    root = Reader(started).tree(FILE, text)
    assert root
    for path, anchored, spelled in ((("d", 0), ("a", "b"), "*x"), (("d", 2), ("d", 1), "*y"), (("f",), ("e",), "*y")):
        alias, node = root.get(*path), root.get(*anchored)
        assert alias and node and alias.origin is node is node.origin and alias.alias == node.anchor == spelled[1:], path
        assert text[alias.start:alias.end] == spelled.encode() and (alias.value, alias.kind) == (node.value, node.kind), path
    null, number = root.get("f"), root.get("d", 0, "c")
    assert null and null.is_null and number and number.schema_class == "int" and not number.is_null, root
    started().stop()


@CASES.case
def wrong_programs(_: str) -> None:
    """After an answer that is none the program goes on; after one that isn't JSON, or too late, it is gone."""
    longest = module.MAX_ANSWER_BYTES
    module.MAX_ANSWER_BYTES = 200
    with tempfile.TemporaryDirectory(prefix="actionlint-test-") as folder:
        for answer, kind in ANSWERS.items():
            facts = Facts(fake(folder, ECHO.replace("{answer}", answer)), SECONDS)
            assert raised(facts, kind) and raised(facts, kind), answer
            facts.stop()
        facts = Facts(fake(folder, "exec sleep 600"), 0.5)
        assert raised(facts, LinterSilent)
        assert raised(Facts(fake(folder, "exit 3"), SECONDS), LinterEnded)
        try:
            Facts([folder + "/absent"], SECONDS)
            raise AssertionError("a program that isn't there was started")
        except LinterMissing as error:
            assert "cannot start" in str(error), error
    module.MAX_ANSWER_BYTES = longest


@CASES.case
def a_reader_whose_program_ends(program: str) -> None:
    """Another program answers. One that ends at a text is asked twice, and one that isn't there or hangs once."""
    text, started = FILES[CALLED].encode(), Started(program, SECONDS)
    reader = Reader(started)
    for path in (CALLED, FILE):
        assert reader.calls(path, text) == frozenset(("a/action.yml", "a/action.yaml")) and reader.tree(path, text)
        os.kill(started()._child.pid, signal.SIGKILL)
        assert not fails_with(reader, LinterEnded, path, text)
    started().stop()
    with tempfile.TemporaryDirectory(prefix="actionlint-test-") as folder:
        begun = Path(folder) / "begun"
        for end, kind, times in (("exit 3", LinterEnded, 2), ("exec sleep 600", LinterSilent, 1)):
            begun.write_text("", encoding="utf-8")
            reader = Reader(Started(program, 0.5))
            with using(fake(folder, f"echo >> {begun}; {end}")[0]):
                assert fails_with(reader, kind) and len(begun.read_text(encoding="utf-8")) == times, end
        with using(folder + "/absent"):
            assert fails_with(reader, LinterMissing)


@CASES.case
def a_folder_whose_program_reads(program: str) -> None:
    """One program has the folder and reads other texts, which have no part in the faults. One that ends at a text is followed by another
    one, which gets the folder."""
    with tempfile.TemporaryDirectory(prefix="actionlint-test-") as root:
        write(root, {FILE: WRONG, CALLED: FILES[CALLED], ACTION: FILES[ACTION]})
        folder = Folder(os.fsencode(root), Program([program], SECONDS), print)
        before = folder.refresh()
        assert before and set(before.faults) == {FILE, CALLED}, before
        running = folder._facts
        assert running
        asked = [running.faults(path) for path in (FILE, CALLED)]
        for path, data in ((FILE, b"name: a\n"), (CALLED, b"a: ["), (ACTION, b"name: a\n")):
            assert (folder.reader.tree(path, data) is None) == (data == b"a: ["), path
        assert [running.faults(path) for path in (FILE, CALLED)] == asked
        called = before.faults[CALLED]
        folder.edit(FILE, RIGHT.encode())
        after = folder.refresh()
        assert running is folder._facts and after and after.faults == {CALLED: called} and after.changed == {FILE}, after
        os.kill(running._child.pid, signal.SIGKILL)
        assert folder.reader.tree(FILE, b"name: a\n") and folder._facts is not running
        folder.edit(CALLED, FILES[CALLED].encode() + b"#\n")
        again = folder.refresh()
        assert again and again.faults == {CALLED: called}, again
        folder.close()


@contextmanager
def using(facts: str) -> Iterator[None]:
    """Within this, clients run another program."""
    before = os.environ.get("ACTIONLINT_FACTS")
    os.environ["ACTIONLINT_FACTS"] = facts
    yield
    del os.environ["ACTIONLINT_FACTS"]
    os.environ |= {"ACTIONLINT_FACTS": before} if before else {}


def fails_with(reader: Reader, kind: type[LinterEnded], path: str = FILE, data: bytes = b"a: b\n") -> bool:
    try:
        reader.tree(path, data)
    except LinterEnded as error:
        return type(error) is kind
    return False


@CASES.case
def which_program(_: str) -> None:
    """The named one, else the one beside the linter, which may have the linter's own name, also behind links, else those of a clone, else
    the one on the PATH; never the script that builds it."""
    finder = f"import sys; sys.path.insert(0, {str(CLIENTS)!r}); from actionlint_client.program import find_facts; "
    finder += "print(find_facts(sys.argv[1]))"
    with tempfile.TemporaryDirectory(prefix="actionlint-test-") as folder:
        programs = (f"bin/{FACTS}", "bin/juzbrost", "bin/juzbrost-facts", f"clone/prebuilt/{FACTS}", "clone/actionlint")
        write(folder, {**dict.fromkeys(programs, "#!/bin/sh\n"), f"named/{FACTS}": ""})
        links = {f"clone/{FACTS}": "actionlint", "link": "bin/juzbrost", f"share/{FACTS}": "../bin/juzbrost-facts"}
        for link, leads_to in links.items():
            os.makedirs(os.path.dirname(f"{folder}/{link}"), exist_ok=True)
            os.symlink(leads_to, f"{folder}/{link}")
        for path in programs:
            os.chmod(f"{folder}/{path}", 0o755)
        for linter, named, wanted in (("bin/actionlint", None, f"bin/{FACTS}"), ("bin/juzbrost", None, "bin/juzbrost-facts"),
                                      ("clone/actionlint", None, f"clone/prebuilt/{FACTS}"), ("link", None, "bin/juzbrost-facts"),
                                      ("share/actionlint", None, f"share/{FACTS}"),
                                      ("bin/actionlint", f"{folder}/named/{FACTS}", f"named/{FACTS}")):
            environment = {name: value for name, value in os.environ.items() if name != "ACTIONLINT_FACTS"}
            environment |= {"ACTIONLINT_FACTS": named} if named else {}
            ran = subprocess.run([sys.executable, "-c", finder, f"{folder}/{linter}"], env=environment, stdout=subprocess.PIPE, text=True,
                                 check=True)
            assert ran.stdout.strip() == f"{folder}/{wanted}", (linter, named, ran.stdout)


if __name__ == "__main__":
    sys.exit(CASES.run(sys.argv[1:]))
