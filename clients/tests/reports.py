#!/usr/bin/env python3
"""The report formats on folders, by default the examples: the faults are those of the linter, at their characters.

    reports.py PROGRAM [FOLDER...]
"""
from __future__ import annotations

import json
import os
import re
import sys
import tempfile
from typing import Any
from urllib.parse import unquote

from cases import Cases
from report_runs import run_report
from repositories import FILE, FILES, RIGHT, TOP, WORKFLOWS, reported, write

CASES = Cases("reports")
DOCS = "https://example.org/docs"
EXAMPLES = sorted(str(folder) for folder in (TOP / "examples").iterdir() if (folder / WORKFLOWS).is_dir())
FOLDERS: list[str] = []


def run(program: str, form: str, *words: str, **how: Any) -> tuple[int, str, bytes]:
    """The status and both streams of actionlint-report."""
    status, said, errors = run_report(program, None, "--form", form, "--docs", DOCS, *words, **how)
    return status, said, errors.encode()


def escaped(message: str) -> str:
    """Text of a message in SARIF, where `[a](b)` would be a link (3.11.6)."""
    return re.sub(r"([][\\])", r"\\\1", message)


def compare(program: str, folder: str) -> None:
    """Compares both formats of a folder's report with what the linter prints."""
    expected = reported(program, os.fsencode(folder))
    status, text, _ = run(program, "sarif", "--root", folder)
    log = json.loads(text)
    (found,) = log["runs"]
    assert status == (1 if expected else 0) == found["invocations"][0]["exitCode"], status
    assert found["columnKind"] == "unicodeCodePoints" and found["invocations"][0]["executionSuccessful"] is True
    rules = [rule["id"] for rule in found["tool"]["driver"]["rules"]]
    assert len(set(rules)) == len(rules) and all(rules[one["ruleIndex"]] == one["ruleId"] for one in found["results"])
    results = []
    for one in found["results"]:
        place = one["locations"][0]["physicalLocation"]
        region = place["region"]
        assert region["endColumn"] > region["startColumn"] and region["endLine"] == region["startLine"]
        results.append((unquote(place["artifactLocation"]["uri"]), region["startLine"], region["startColumn"], one["message"]["text"]))
    assert results == [(path, line, column, escaped(message.rsplit(" [", 1)[0])) for path, line, column, message in expected], folder
    status, text, _ = run(program, "jsonl", "--root", folder)
    lines = [json.loads(line) for line in text.splitlines()]
    assert [(one["path"], one["line"], one["column"], f"{one['message']} [{one['kind']}]") for one in lines] == expected, folder
    assert all(one["code"] for one in lines) and status == (1 if expected else 0)


@CASES.case
def folders(program: str) -> None:
    """The folders given as arguments, otherwise the examples."""
    assert FOLDERS or EXAMPLES
    for folder in FOLDERS or EXAMPLES:
        compare(program, folder)


@CASES.case
def code_quality(program: str) -> None:
    """GitLab's format has all faults; fingerprints stay the same when lines move, and no two equal faults have the same."""
    with tempfile.TemporaryDirectory(prefix="actionlint-test-") as folder:
        twice = FILES[FILE] + "      - run: echo ${{ github.reff }}\n"
        prints = []
        for text in (twice, "# moved\n" + twice):
            write(folder, {FILE: text})
            status, said, _ = run(program, "codequality", "--root", folder)
            found = json.loads(said)
            assert status == 1 and [(one["location"]["path"], one["location"]["lines"]["begin"], one["description"], one["check_name"])
                                    for one in found] == [(FILE, line, 'property "reff" is not defined', "X13")
                                                          for line in ((6, 7) if text == twice else (7, 8))], found
            assert all(one["severity"] == "major" for one in found)
            prints.append([one["fingerprint"] for one in found])
        assert prints[0] == prints[1] and len(set(prints[0])) == 2, prints
        write(folder, {FILE: RIGHT})
        assert run(program, "codequality", "--root", folder)[:2] == (0, "[]\n")


@CASES.case
def characters(program: str) -> None:
    """Columns are characters, also after those of two UTF-16 units and of four bytes; names are escaped in addresses."""
    with tempfile.TemporaryDirectory(prefix="actionlint-test-") as folder:
        path = WORKFLOWS + "é 1%.yml"
        write(folder, {path: FILES[FILE].replace("echo", "\U0001F600é")})
        compare(program, folder)
        _, text, _ = run(program, "sarif", "--root", folder)
        (one,) = json.loads(text)["runs"][0]["results"]
        place = one["locations"][0]["physicalLocation"]
        assert place["artifactLocation"] == {"uri": ".github/workflows/%C3%A9%201%25.yml", "uriBaseId": "%SRCROOT%"}, place
        assert place["region"] == {"startLine": 6, "startColumn": 28, "endLine": 6, "endColumn": 32}, place
        assert one["ruleId"] == "X13" and one["message"]["text"] == 'property "reff" is not defined', one
        _, text, _ = run(program, "jsonl", "--root", folder)
        assert json.loads(text) == {"path": path, "line": 6, "column": 28, "end_column": 32, "code": "X13", "kind": "expression",
                                    "level": "error", "message": 'property "reff" is not defined',
                                    "link": DOCS + "/FAULTS-EXPRESSIONS.md#x13-property-0-is-not-defined",
                                    "advice": "Write a property that the context has here.", "fix": 'change to "ref"',
                                    "fix_is_safe": True}, text


@CASES.case
def runs_that_cannot_go_on(program: str) -> None:
    """The status is the linter's, and SARIF reports it; without a linter there is no report."""
    status, text, errors = run(program, "sarif", "--root", "/nonexistent")
    (found,) = json.loads(text)["runs"]
    assert status == 3 and errors.startswith(b"actionlint: cannot read"), (status, errors)
    assert not found["results"] and found["invocations"][0]["executionSuccessful"] is False and found["invocations"][0]["exitCode"] == 3
    status, text, errors = run("/nonexistent", "sarif")
    assert status == 3 and not text and b"cannot start" in errors, (status, text, errors)
    status, text, errors = run(program, "sarif", env={**os.environ, "ACTIONLINT_FACTS": "/bin/echo"})
    assert status == 3 and not text and b"not actionlint-facts" in errors, (status, text, errors)


if __name__ == "__main__":
    FOLDERS += sys.argv[2:]
    sys.exit(CASES.run(sys.argv[1:2]))
