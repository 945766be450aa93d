"""Markdown for editors (CommonMark, with GitHub's additions), in which a stranger's text is shown as it is and does nothing: no link, no
picture, no HTML, no heading."""
from __future__ import annotations

import re
from typing import NewType

from .characters import shown
from .protocol import MarkupContent

Markdown = NewType("Markdown", str)

MAX_SHOWN_CHARACTERS = 2_000
# What means something anywhere, and what does at the beginning of a line: a list, or a line below a heading.
SIGNS = re.compile(r"[\\`*_\[\]<>(){}&!~|$#@]")
FIRST_SIGN = re.compile(r"^(\d{0,9})([-+=:.)])")
# What becomes a link without brackets. A backslash inside doesn't keep every reader from that, but code does.
ADDRESS = re.compile(r"""(?:[a-z][a-z0-9+.-]{0,30}://|www\.)[^\s<>()\[\]{}"'`\\|]*|[\w.+-]{1,64}@[\w.-]+""", re.I)
BACKQUOTES = re.compile("`+")
MARKS = re.compile(r"\\([!-/:-@\[-`{-~])|(`+)([^`]+)\2(?!`)|\[([^\]\[]*)\]\([^()]*\)|\*\*")


def escaped(text: str) -> Markdown:
    """Markdown that shows a text, at most its first 2,000 characters. Blank lines divide it into paragraphs."""
    more = " .." if len(text) > MAX_SHOWN_CHARACTERS else ""
    lines = (_escaped_line(line.strip()) for line in text[:MAX_SHOWN_CHARACTERS].splitlines())
    paragraphs = re.sub("\n{2,}", "\n\n", "\n".join(lines)).strip("\n")
    return Markdown(paragraphs + more)


def escaped_or_none(text: str | None) -> Markdown | None:
    """The same of a text that may be absent or empty."""
    return escaped(text) if text else None


def code(text: str) -> Markdown:
    """A text as code, between more backquotes than it has in a row."""
    text = shown(text)
    fence = "`" * (1 + max((len(run) for run in BACKQUOTES.findall(text)), default=0))
    return Markdown(f"{fence}{text}{fence}" if len(fence) == 1 else f"{fence} {text} {fence}")


def plain(markdown: Markdown) -> str:
    """The text that Markdown of this module and of the pages shows, for an editor that takes none."""
    return MARKS.sub(lambda found: found[1] or (found[3] or "").strip() or found[4] or "", markdown)


def content(kind: str, markdown: Markdown) -> MarkupContent:
    """Markdown in the format that an editor takes: `markdown` or `plaintext`."""
    return {"kind": kind, "value": markdown if kind == "markdown" else plain(markdown)}


def _escaped_line(line: str) -> str:
    parts, at = [], 0
    for found in ADDRESS.finditer(line):
        parts += [_escaped_words(line[at:found.start()]), code(found[0])]
        at = found.end()
    return FIRST_SIGN.sub(r"\1\\\2", "".join([*parts, _escaped_words(line[at:])]))


def _escaped_words(text: str) -> str:
    return SIGNS.sub(r"\\\g<0>", shown(text))
