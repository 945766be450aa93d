#!/usr/bin/env python3
"""Text of strangers in reports, logs and editors: it is shown, and nothing obeys it.

    strangers.py PROGRAM [NAME...]
"""
from __future__ import annotations

import json
import re
import string
import sys
import tempfile
import unicodedata
from typing import Any

from cases import Cases
from editor import Editor
from promises import end, start
from report_runs import run_report
from repositories import FILE, RIGHT, WORKFLOWS, write

from actionlint_client.characters import shown, terminal_text
from actionlint_client.markdown import MAX_SHOWN_CHARACTERS, code, escaped, plain

CASES = Cases("strangers")
FORMS = ("text", "github", "jsonl", "codequality", "sarif")
# Characters that aren't text, as the Unicode Standard has them: controls, directions (UAX #9), separators, and those without a width.
HIDDEN = ("\x00\x07\x1b\x7f\x80\x85\x9b\u00ad\u061c\u115f\u180e\u200b\u200c\u200d\u200e\u200f\u2028\u2029\u202a\u202b\u202c\u202d\u202e"
          "\u2060\u2061\u2066\u2067\u2068\u2069\u3164\ufeff\ufff9\U000e0041")
# What GitHub's runner, Azure's agent and TeamCity take for a command in a line of output.
OBEYED = re.compile(r"^\s*::(?!(?:error|warning|notice) )|##\[|##\w+\[", re.M)
EVIL = "https://evil.example/t.png"
# Markdown that would do something, in CommonMark and with GitHub's additions.
MARKDOWN = (
    f"![p]({EVIL})", f"[x]({EVIL})", "[run](command:workbench.action.quit)", f"<{EVIL}>", EVIL, "see www.evil.example now",
    "mail someone@evil.example", f"[x][1]\n\n[1]: {EVIL}", f"[1]: {EVIL}\n\n[1]", "<img src=x onerror=alert(1)>", "<script>x</script>",
    "<!-- x", "&lt;b&gt; &#104;ttp", "# head", "head\n====", "head\n----", "> quoted", "- item", "* item", "+ item", "1. item", "1) item",
    "    indented", "\tindented", "```\nfence", "~~~\nfence", "`code`", f"`` `{EVIL}` ``", "*a* **b** _c_ ~~d~~",
    "| a | b |\n|---|---|\n| c | d |",
    "a\\\nb", "a  \nb", "***", "[^1]\n\n[^1]: note", "- [x] task", "$(icon) :smile: @someone #1", f"`{EVIL}", f"\\{EVIL}", f"\\`{EVIL}`",
    f"a{EVIL}", "ftp://a.example", "FILE:///etc/passwd", "mailto:a@b.example", "xmpp:a@b.example/c", "vscode://x/y", "www.a", f"*{EVIL}*",
    f"({EVIL})", f"'{EVIL}'", f"{EVIL}|b", f"{EVIL}\\", f"{EVIL}`x`", "a@b`c`", "http://[::1]/", "`" * 5 + EVIL + "`" * 5)


def report(program: str, folder: str, form: str, *words: str) -> tuple[int, str, str]:
    return run_report(program, folder, "--form", form, *words)


def code_points(text: str) -> str:
    return "".join(f"<U+{ord(one):04X}>" for one in text)


def hidden_in(text: str) -> set[str]:
    """Its characters that aren't text, except line feeds."""
    return {one for one in text if unicodedata.category(one) in ("Cc", "Cf", "Zl", "Zp") and one != "\n"}


def texts_in(value: object) -> list[str]:
    """All texts inside a value of JSON."""
    if isinstance(value, str):
        return [value]
    items = value.values() if isinstance(value, dict) else value if isinstance(value, list) else []
    return [text for item in items for text in texts_in(item)]


@CASES.case
def characters_that_are_not_text(program: str) -> None:
    """Each is its code point; what is text stays, also what is made of several characters."""
    for one in HIDDEN:
        assert shown(f"a{one}b") == f"a{code_points(one)}b", hex(ord(one))
        assert terminal_text(f"a{one}b") == f"a{code_points(one)}b", hex(ord(one))
    assert shown("a\tb\nc\r") == "a<U+0009>b<U+000A>c<U+000D>" and terminal_text("a\tb") == "a\tb"
    for text in ("é😀ü中עברית عربي", "\U0001F477\u200d\u2642\ufe0f Build",
                 "\U0001F468\u200d\U0001F469\u200d\U0001F467", "a  b", "##", "# ## x"):
        assert shown(text) == terminal_text(text) == text, text
    assert shown("x\u200d\U0001F469") == "x<U+200D>\U0001F469" and shown("\U0001F469\u200dx") == "\U0001F469<U+200D>x"


@CASES.case
def every_form(program: str) -> None:
    """A key with these characters has their code points in each form, also for who reads the JSON."""
    # (the linter itself replaces the controls of ASCII)
    hidden = "".join(one for one in HIDDEN if one > "\x7f" and one != "\ufeff")
    key = "".join(f"\\U{ord(one):08x}" for one in hidden)
    with tempfile.TemporaryDirectory(prefix="actionlint-test-") as folder:
        write(folder, {FILE: f'on: push\njobs: {{}}\n"a{key}b": 1\n', WORKFLOWS + "\u202eb.yml": "on: pussh\njobs: {}\n"})
        for form in FORMS:
            status, text, errors = report(program, folder, form)
            assert status == 1 and not errors and not hidden_in(text), (form, hidden_in(text))
            said = text
            if form not in ("text", "github"):
                said = "\n".join(texts_in(json.loads(text.splitlines()[0] if form == "jsonl" else text)))
            assert f'unexpected key "a{code_points(hidden)}b"' in said, (form, said)
            if form in ("text", "github"):
                assert "<U+202E>b.yml" in text, text


@CASES.case
def commands_to_runners(program: str) -> None:
    """Paths, keys, source lines and standard error make no command, whatever the form."""
    files = {"::set-output name=x::1/action.yml": "name: x\n", "::error::/##[add-mask]y/action.yml": "name: x\n",
             FILE: 'on: push\njobs: {}\n"##vso[task.setvariable variable=PATH]x": 1\n"##[add-mask]q": 2\n"::warning::x": 3 ##teamcity[x]\n'
                   '"###[x": 4 # "::error::x"\n', WORKFLOWS + "##[group]b.yml": "on: push\n"}
    with tempfile.TemporaryDirectory(prefix="actionlint-test-") as folder:
        write(folder, files)
        for form in FORMS:
            for words in (("--", *files), ("--", "##[add-mask]x"), ("--", "::stop-commands::x"), ("--", "##vso[x]y.yml")):
                status, text, errors = report(program, folder, form, *words)
                assert status in (1, 3) and not OBEYED.search(text) and not OBEYED.search(errors), (form, words, text, errors)
                if form in ("text", "github") and status == 1:
                    assert "#<U+0023>vso[task" in text and "#<U+0023>[add-mask]q" in text, text
                if form == "text" and status == 1:
                    assert "\n<U+003A>:set-output name=x::1/action.yml:1:1: " in text and '"##<U+0023>[x"' in text, text
        said = "\n".join(texts_in([json.loads(line) for line in report(program, folder, "jsonl", "--", FILE)[1].splitlines()]))
        assert 'unexpected key "##[add-mask]q"' in said, "who reads the JSON gets what was written"


# The other signs mean something only at the beginning of a line, or after one of these.
MEANT_FIRST = "-+=:."
MEANT_ANYWHERE = "\\`*_[]<>(){}&!~|$#@"


def unescaped(markdown: str) -> str:
    """The punctuation of Markdown that is neither behind a backslash nor in code, and means something: some only where a line begins."""
    found, at = "", 0
    while at < len(markdown):
        if markdown[at] == "\\" and markdown[at + 1:at + 2] in tuple(string.punctuation):
            at += 2
        elif markdown[at] == "`":
            fence = re.match("`+", markdown[at:])
            assert fence
            closing = re.search(f"(?<!`){fence[0]}(?!`)", markdown[at + len(fence[0]):])
            assert closing, (markdown, "code that isn't closed")
            assert "\n\n" not in markdown[at:at + len(fence[0]) + closing.start()], markdown
            at += len(fence[0]) + closing.end()
        else:
            begins_line = re.fullmatch(r"(?:.*\n)?\d*", markdown[:at], re.S) is not None
            found += markdown[at] if markdown[at] in (MEANT_FIRST if begins_line else "") + MEANT_ANYWHERE else ""
            at += 1
    return found


@CASES.case
def markdown_of_strangers(program: str) -> None:
    """Signs that mean something are behind a backslash, addresses are code, and no line begins or ends with blanks. What is shown is what
    was written."""
    for text in MARKDOWN:
        found = escaped(text)
        assert unescaped(found) == "", (text, found)
        not_in_code = re.sub("`[^`]*`", "", re.sub(r"\\.", "~", found))
        assert not re.search(r"(?:https?|ftp|file|vscode)://|\bwww\.|@", not_in_code, re.I), (text, found)
        assert not re.search(r"^[ \t]|[ \t\\]$", found.replace("\\\\", "~"), re.M), (text, found)
        written = "\n".join(line.strip() for line in text.split("\n")).strip()
        assert plain(found) == written, (text, found, plain(found))
    assert escaped("a\n\n\n\nb\nc\n") == "a\n\nb\nc" and escaped("a\u202eb\x1b[1m") == "a\\<U+202E\\>b\\<U+001B\\>\\[1m"
    long = escaped("*" * (MAX_SHOWN_CHARACTERS + 1))
    assert long == "\\*" * MAX_SHOWN_CHARACTERS + " ..", long
    assert code("a`b``c") == "``` a`b``c ```" and code("a\x1bb\nc") == "`a<U+001B>b<U+000A>c`"


HOSTILE = f"![p]({EVIL}) [x](command:x) <b> {EVIL} \\e]0;pwn\\a \\u202e"
ACTION = f"""name: "a](command:x) `b`"
description: "{HOSTILE}"
inputs:
  good:
    description: "{HOSTILE}"
    default: "`[x](command:y)`"
  "![p]({EVIL})":
    description: plain words
  "hidden\\u202e":
    description: plain words
  "good`[x](command:y)":
    description: plain words
outputs:
  "o`[x](command:y)":
    description: "{HOSTILE}"
runs: {{using: node20, main: m.js}}
"""
SHOWN = "p](https"


def steps(*lines: str) -> str:
    return "on: push\njobs:\n  b:\n    runs-on: ubuntu-latest\n    steps:\n" + "".join(f"      {line}\n" for line in lines)


def markdown_texts(value: object) -> list[str]:
    """The Markdown in an answer."""
    if isinstance(value, dict) and value.get("kind") == "markdown":
        return [value["value"]]
    items = value.values() if isinstance(value, dict) else value if isinstance(value, list) else []
    return [text for item in items for text in markdown_texts(item)]


def answers(editor: Editor) -> list[Any]:
    """What completion and hovers answer at each third place of the text that is open."""
    text = steps("- uses: ./act", "  id: a", "  with:", "    good: 1", "    good`[x](command:y): 1", "    ",
                 "- run: echo ${{ steps.a.outputs.x }}", "- uses: ./act")
    editor.open(FILE, text)
    found = []
    for number, line in enumerate(text.split("\n")):
        for character in range(0, len(line) + 1, 3):
            place = {"textDocument": {"uri": editor.uri(FILE)}, "position": {"line": number, "character": character}}
            found += [editor.request(f"textDocument/{method}", place)["result"] for method in ("completion", "hover")]
    return found


@CASES.case
def hovers_and_completion(program: str) -> None:
    """Descriptions, names and defaults of an action are shown, as Markdown or as plain text, and are no Markdown of their own."""
    editor = start(program, {"act/action.yml": ACTION, FILE: RIGHT})
    found = answers(editor)
    strange = [text for text in markdown_texts(found) if "evil" in text or "command" in text]
    assert len(strange) >= 5, strange
    for text in strange:
        assert not re.search(r"(?<!\\)\]\(|(?<!\\)<", re.sub("`[^`]*`", "", text)), text
        assert unescaped(text.partition("\n\n")[2]) == "", text
    assert not any(hidden_in(text) for one in found if one for text in texts_in(labels_of(one)))
    end(editor)
    formats = {"hover": {"contentFormat": ["plaintext"]}, "completion": {"completionItem": {"documentationFormat": ["plaintext"]}}}
    editor = start(program, {"act/action.yml": ACTION, FILE: RIGHT}, capabilities={"textDocument": formats})
    texts = [text for one in answers(editor) if one for text in texts_in(one)]
    assert any(text.endswith(f"![p]({EVIL}) [x](command:x) <b> {EVIL} <U+001B>]0;pwn<U+0007> <U+202E>") for text in texts), texts
    end(editor)


def labels_of(answer: Any) -> list[str]:
    """What an editor shows of an answer; a text that is inserted stays what it is."""
    if "contents" in answer:
        return [answer["contents"]["value"]]
    return [text for item in answer["items"]
            for text in (item["label"], item["detail"], (item.get("documentation") or {}).get("value", ""))]


@CASES.case
def names_in_an_editor(program: str) -> None:
    """Symbols, diagnostics, titles of fixes, refusals and messages have code points."""
    name = "a\\e]0;pwn\\a\\u202e\\u200bb"
    seen = "a<U+001B>]0;pwn<U+0007><U+202E><U+200B>b"
    text = f'name: "{name}"\n' + steps(f'- name: "{name}"', "  run: echo", "- uses: ./act", '  with: {"check\\u202e\\u2066our": 1}')
    text += '"n\\u202eame": x\n'
    called = 'name: a\ninputs: {"check\\u202e\\u2066out": {}}\nruns: {using: node20, main: m.js}\n'
    editor = start(program, {FILE: text, "act/action.yml": called})
    editor.open(FILE, text)
    editor.settle()
    (top,) = editor.request("textDocument/documentSymbol", {"textDocument": {"uri": editor.uri(FILE)}})["result"]
    assert top["name"] == seen and top["children"][0]["children"][0]["name"] == seen, top
    found = editor.request("workspace/symbol", {"query": "pwn"})["result"]
    assert len(found) == 2 and all(one["name"] == seen for one in found), found
    assert any(one["containerName"] == seen for one in editor.request("workspace/symbol", {"query": ""})["result"])
    messages = editor.texts(FILE)
    assert any('"check<U+202E><U+2066>our"' in one for one in messages) and not any(map(hidden_in, messages)), messages
    everywhere = {"start": {"line": 0, "character": 0}, "end": {"line": 100, "character": 0}}
    titles = [one["title"] for one in editor.actions(FILE, everywhere)]
    assert any("check<U+202E><U+2066>out" in one for one in titles) and not any(map(hidden_in, titles)), titles
    refused = editor.request("textDocument/rename", {"textDocument": {"uri": editor.uri(FILE)}, "newName": "\u202ex",
                                                     "position": {"line": 3, "character": 3}})["error"]["message"]
    assert "<U+202E>x" in refused and not hidden_in(refused), refused
    end(editor)


@CASES.case
def addresses_of_links(program: str) -> None:
    """A link to another repository leads to GitHub, whatever is in its name."""
    uses = ("o/r@v1", 'o/r@"><script>', "o/r@a\u202eb", "o/r/p@v1?x#y", "o/r@[x](y)")
    editor = start(program, {FILE: steps(*(f"- uses: '{one}'" for one in uses))})
    editor.open(FILE, steps(*(f"- uses: '{one}'" for one in uses)))
    answer = editor.request("textDocument/documentLink", {"textDocument": {"uri": editor.uri(FILE)}})
    assert [one["target"].partition("https://github.com/o/r/tree/")[2] for one in answer["result"]] == [
        "v1", "%22%3E%3Cscript%3E", "a%E2%80%AEb", "v1%3Fx%23y/p", "%5Bx%5D%28y%29"], answer
    end(editor)


if __name__ == "__main__":
    sys.exit(CASES.run(sys.argv[1:]))
