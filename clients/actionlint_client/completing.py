"""Completion for editors."""
from __future__ import annotations

import re

from .asked import asked
from .characters import shown
from .completion import Offer, offers
from .editor import AS_IT_IS, Editor
from .markdown import content
from .protocol import Capabilities, CompletionItem, CompletionList, Handler, Position, Range, TextDocumentIdentifier
from .workspace import Workspace

# CompletionItemKind of the protocol.
KINDS = {"key": 10, "value": 12, "event": 23, "module": 9, "property": 5, "function": 3, "file": 17}
SNIPPET = 2
EMPTY_ARGUMENT = re.compile(r"''''|''")


class Completion:
    capabilities: Capabilities = {"completionProvider": {"triggerCharacters": [".", "/", "'", ":", " "]}}

    def __init__(self, workspace: Workspace, editor: Editor):
        self._workspace, self._editor = workspace, editor
        self.handlers: dict[str, Handler] = {"textDocument/completion": self.complete}

    def complete(self, textDocument: TextDocumentIdentifier, position: Position, **_: object) -> CompletionList | None:
        place = asked(self._workspace, textDocument, position)
        if place is None:
            return None
        span, found = offers(place.project, place.file, place.point)
        where = place.range(span)
        return {"isIncomplete": False, "items": [self._item(where, number, offer) for number, offer in enumerate(found)]}

    def _item(self, where: Range, number: int, offer: Offer) -> CompletionItem:
        item: CompletionItem = {
            "label": shown(offer.label), "kind": KINDS[offer.kind], "detail": shown(offer.detail), "filterText": offer.label,
            "sortText": f"{offer.rank}{number:04}", "textEdit": {"range": where, "newText": offer.text}}
        if offer.documentation:
            item["documentation"] = content(self._editor.documentation_format(), offer.documentation)
        if "\n" in offer.text and self._editor.takes_indentation():
            item["insertTextMode"] = AS_IT_IS
        if offer.arguments and self._editor.takes_snippets():
            item["insertTextFormat"] = SNIPPET
            item["textEdit"] = {"range": where, "newText": snippet(offer.text)}
        return item


def snippet(call: str) -> str:
    """A call of a function as a snippet whose tab stops are its arguments."""
    parts = EMPTY_ARGUMENT.split(call)
    quote = "''" if "''''" in call else "'"
    return parts[0] + "".join(f"{quote}${{{number}}}{quote}{part}" for number, part in enumerate(parts[1:], 1))
