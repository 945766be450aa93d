"""Characters that a terminal, a log or a reader doesn't take as text: controls, line separators, and those that are invisible or change the
direction of text; and the beginnings of commands to a runner."""
from __future__ import annotations

import json
import re

# Controls except those of ASCII below 32; soft hyphen; marks, embeddings, overrides and isolates of direction; separators; what has no
# width (a joiner between two pictures makes one picture of them); invisible operators and fillers; tags.
HIDDEN = ("\x7f-\x9f\xad\u061c\u115f\u1160\u17b4\u17b5\u180b-\u180f\u200b\u200c\u200e\u200f\u2028-\u202e\u2060-\u206f\u3164\ufeff\uffa0"
          "\ufff0-\ufffb\U0001bca0-\U0001bca3\U0001d173-\U0001d17a\U000e0000-\U000e0fff")
PICTURE = "[\u2190-\u2bff\U0001f000-\U0001faff]"
JOINER = f"(?<![\ufe0f\u2190-\u2bff\U0001f000-\U0001faff])\u200d|\u200d(?!{PICTURE})"
IN_JSON = re.compile(f"[{HIDDEN}\u200d]|(?<=#)#")
IN_A_NAME = re.compile(f"[\x00-\x1f{HIDDEN}]|{JOINER}")
IN_A_LINE = re.compile(f"[\x00-\x08\x0a-\x1f{HIDDEN}]|{JOINER}")
# GitHub's runner obeys a line that begins with `::`, after blanks, or contains `##[`, Azure's one that contains `##vso[`, and TeamCity's
# one that contains `##teamcity[`.
COMMAND = re.compile(r"(?<=#)#(?=\w*\[)|\A\s*:(?=:)")


def json_text(value: object, indent: int | None = None) -> str:
    """JSON in which these characters are escaped, and that contains no command to a runner. Other non-ASCII characters aren't escaped."""
    return IN_JSON.sub(_in_json, json.dumps(value, indent=indent, ensure_ascii=False))


def shown(text: str) -> str:
    """A stranger's text as a name or a message: each of these characters is replaced by its code point."""
    return IN_A_NAME.sub(_code_point, text)


def terminal_text(text: str) -> str:
    """A line for a terminal or a log: code points for these characters except tabs, and nothing that a runner takes for a command."""
    return COMMAND.sub(_code_point, IN_A_LINE.sub(_code_point, text))


def log_text(text: str) -> str:
    """The same for several lines."""
    return "\n".join(map(terminal_text, text.split("\n")))


def _code_point(found: re.Match[str]) -> str:
    """The code point of the last character that was found, after the others."""
    return f"{found[0][:-1]}<U+{ord(found[0][-1]):04X}>"


def _in_json(found: re.Match[str]) -> str:
    """The escape of a character, which beyond U+FFFF is that of its two units."""
    units = found[0].encode("utf-16-be")
    return "".join(f"\\u{units[at]:02x}{units[at + 1]:02x}" for at in range(0, len(units), 2))
