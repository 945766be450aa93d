"""SARIF 2.1.0 as GitHub's page "SARIF support for code scanning" describes it, written as the problems come."""
from __future__ import annotations

import re
from typing import TYPE_CHECKING, BinaryIO
from urllib.parse import quote

from .characters import json_text, shown
from .entries import explained, markdown_of, plain_text, title_of
from .forms import Form, Outcome
from .output import version
from .problems import ERROR, Problem

if TYPE_CHECKING:
    from .repair import Edit, Repair

SCHEMA = "https://json.schemastore.org/sarif-2.1.0.json"
# GitHub refuses a run that has more results.
MAX_RESULTS = 25_000
SPECIAL = re.compile(r"[\[\]\\]")


class Sarif(Form):
    """A log of one run (3.14). Columns are characters (3.14.27)."""

    def __init__(self, out: BinaryIO, docs: str | None):
        super().__init__(out, docs)
        self._rules: dict[str, dict[str, object]] = {}
        self._results = 0

    tells_failure = True

    def begin(self) -> None:
        self.write(f'{{"$schema": {json_text(SCHEMA)}, "version": "2.1.0", "runs": [{{\n"columnKind": "unicodeCodePoints",\n"results": [')

    def add(self, problem: Problem) -> None:
        if self._results == MAX_RESULTS:
            self.left_out += 1
            return
        self.write(("," if self._results else "") + "\n" + json_text(self._result(problem)))
        self._results += 1

    def end(self, outcome: Outcome) -> None:
        invocation: dict[str, object] = {"executionSuccessful": outcome.is_known(), "exitCode": outcome.status}
        notifications = [{"level": "error", "message": _message(outcome.errors.strip())}] if outcome.errors else []
        warnings = outcome.warnings + ([left_out_line(self.left_out)] if self.left_out else [])
        notifications += [{"level": "warning", "message": _message(warning)} for warning in warnings]
        if notifications:
            invocation["toolExecutionNotifications"] = notifications
        driver: dict[str, object] = {"name": "actionlint", "rules": list(self._rules.values())}
        if known := version():
            driver["version"] = known
        if self.docs:
            driver["informationUri"] = self.docs
        self.write(f'],\n"tool": {json_text({"driver": driver}, indent=1)},\n"invocations": {json_text([invocation])}\n}}]}}\n')

    def _result(self, problem: Problem) -> dict[str, object]:
        """A result. Adds its rule if it is new."""
        fault = problem.fault
        if problem.code not in self._rules:
            self._rules[problem.code] = _rule(problem, self.docs)
        region = {"startLine": fault.line, "startColumn": fault.column, "endLine": fault.line,
                  "endColumn": fault.column + (fault.width or 1)}
        place = {"artifactLocation": _artifact(fault.path), "region": region}
        result = {"ruleId": problem.code, "ruleIndex": list(self._rules).index(problem.code), "level": problem.level,
                  "message": _message(fault.message), "locations": [{"physicalLocation": place}]}
        return {**result, "fixes": [_fix(problem.fix)]} if problem.fix and not problem.fix.new_files else result


def left_out_line(count: int) -> str:
    return f"{count} more were left out: GitHub takes {MAX_RESULTS} results of a run"


def _artifact(path: str) -> dict[str, object]:
    return {"uri": quote(path), "uriBaseId": "%SRCROOT%"}


def _fix(repair: Repair) -> dict[str, object]:
    """A fix (3.55), which replaces texts of files (3.57)."""
    changes = [{"artifactLocation": _artifact(path), "replacements": list(map(_replacement, edits))}
               for path, edits in repair.edits.items()]
    return {"description": _message(repair.title), "artifactChanges": changes}


def _replacement(edit: Edit) -> dict[str, object]:
    (start, end), text = edit
    region = {"startLine": start.line + 1, "startColumn": start.column + 1, "endLine": end.line + 1, "endColumn": end.column + 1}
    return {"deletedRegion": region, "insertedContent": {"text": text}}


def _rule(problem: Problem, docs: str | None) -> dict[str, object]:
    """The reporting descriptor of a code."""
    entry = problem.entry
    level = problem.level if problem.is_note() else ERROR
    rule: dict[str, object] = {"id": problem.code, "name": problem.fault.kind, "defaultConfiguration": {"level": level}}
    if entry:
        rule |= {"shortDescription": {"text": title_of(entry)}, "fullDescription": {"text": plain_text(entry.text)},
                 "help": {"text": explained(entry), "markdown": markdown_of(entry, docs)}}
    else:
        rule |= {"shortDescription": {"text": problem.code}, "fullDescription": {"text": f"{problem.code} of {problem.fault.kind}"},
                 "help": {"text": problem.link or problem.code}}
    if link := problem.link_in(docs):
        rule["helpUri"] = link
    return rule


def _message(text: str) -> dict[str, str]:
    """A message's text, in which brackets are escaped, since they would be links (3.11.6)."""
    text = "\n".join(map(shown, text.split("\n")))
    return {"text": SPECIAL.sub(r"\\\g<0>", text)}
