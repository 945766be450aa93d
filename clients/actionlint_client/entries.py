"""The entries of the pages of faults (`docs/FAULTS*.md`) by their codes. make_tables.py writes faults.json."""
from __future__ import annotations

import json
import re
from functools import lru_cache
from pathlib import Path
from typing import Iterable, NamedTuple, Sequence

from .markdown import code

TABLE = Path(__file__).parent / "faults.json"
ARGUMENT = re.compile(r"\{([01])\}")
LINK_IN_BRACKETS = re.compile(r" \(\[[^\]]*\]\([^)]*\)(?:, those in bold)?\)")
LINK = re.compile(r"\[([^\]]*)\]\([^)]*\)")
EXAMPLE = re.compile(r"^```\w+\n(.*?)^```$", re.M | re.S)
PAGE_LINK = re.compile(r"\[([^\]]*)\]\((?!\w+:)([^)]*)\)")
SHOWN_CHARACTERS = 200
SHOWN_MESSAGES = 10


class Entry(NamedTuple):
    """What a page says about a fault: its message with `{0}` and `{1}` for its arguments, and Markdown; `why` and `repair` can be empty."""

    code: str
    message: str
    page: str
    anchor: str
    text: str
    why: str
    repair: str


@lru_cache(maxsize=None)
def entries() -> tuple[Entry, ...]:
    rows = json.loads(TABLE.read_text(encoding="utf-8"))
    return tuple(Entry(**row) for row in rows)


@lru_cache(maxsize=None)
def entries_by_code() -> dict[str, Entry]:
    return {entry.code: entry for entry in entries()}


def link_of(entry: Entry, docs: str) -> str:
    return f"{docs}/{entry.page}#{entry.anchor}"


def plain_text(markdown: str) -> str:
    """The first paragraph of Markdown without links. Links in brackets are removed; other links are replaced by their text."""
    return LINK.sub(r"\1", LINK_IN_BRACKETS.sub("", markdown.split("\n\n", 1)[0]))


def title_of(entry: Entry) -> str:
    """The message, with dots in place of its arguments."""
    return ARGUMENT.sub("..", entry.message)


def explained(entry: Entry) -> str:
    """The entry as plain text, its examples indented."""
    parts = [f"{entry.code}: {title_of(entry)}", entry.text, f"Why it matters: {entry.why}", f"Repair: {entry.repair}"]
    text = LINK.sub(r"\1", PAGE_LINK.sub(_named_page, "\n\n".join(parts)))
    return EXAMPLE.sub(lambda found: re.sub("^(?=.)", "    ", found[1], flags=re.M), text)


def _named_page(link: re.Match[str]) -> str:
    """A link to a page as a text that says which page it is, in the directory `docs`."""
    text, page = link[1], link[2].partition("#")[0]
    return f"docs/{page}" if text == page else f"{text} in docs/{page}" if page else text


def markdown_of(entry: Entry, docs: str | None, messages: Sequence[str] = ()) -> str:
    """The entry in Markdown, below the given messages. Links lead to the pages if their address is known."""
    said = [code(message[:SHOWN_CHARACTERS]) for message in messages[:SHOWN_MESSAGES]] or [code(title_of(entry))]
    more = [f"{len(messages) - SHOWN_MESSAGES} more"] if len(messages) > SHOWN_MESSAGES else []
    parts = [entry.text]
    parts += [f"*Why it matters*: {entry.why}"] if entry.why else []
    parts += [f"*Repair*: {entry.repair}"] if entry.repair else []
    text = PAGE_LINK.sub(rf"[\1]({docs}/\2)" if docs else r"\1", "\n\n".join(parts))
    return f"**{entry.code}** {', '.join([*said, *more])}\n\n{text}" + (f"\n\n[{entry.page}]({link_of(entry, docs)})" if docs else "")


def markdown_of_faults(faults: Iterable[tuple[str, str]], docs: str | None) -> str | None:
    """The entries of faults, of which each is a code and a message, each entry once, or None if no page has one of them."""
    found: dict[str, tuple[Entry, list[str]]] = {}
    for named, message in faults:
        if (entry := entries_by_code().get(named)) is not None:
            found.setdefault(named, (entry, []))[1].append(message)
    return "\n\n---\n\n".join(markdown_of(entry, docs, said) for entry, said in found.values()) or None
