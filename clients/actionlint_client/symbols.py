"""Symbols, links and folds for editors."""
from __future__ import annotations

import time

from .asked import Asked, asked
from .characters import shown
from .protocol import (Capabilities, DocumentLink, DocumentSymbol, FoldingRange, Handler, SymbolInformation,
                       TextDocumentIdentifier)
from .structure import Part, folds, links, part_of, parts_with
from .text import Point
from .workspace import Workspace

# SymbolKind of the protocol.
KINDS = {"workflow": 2, "action": 2, "job": 5, "step": 6}
MAX_SYMBOLS = 1_000
READING_SECONDS = 1.0
START = Point(0, 0)


class Symbols:
    capabilities: Capabilities = {
        "documentSymbolProvider": True, "workspaceSymbolProvider": True, "documentLinkProvider": {"resolveProvider": False},
        "foldingRangeProvider": True}

    def __init__(self, workspace: Workspace):
        self._workspace = workspace
        self.handlers: dict[str, Handler] = {
            "textDocument/documentSymbol": self.of_document,
            "workspace/symbol": self.of_workspace,
            "textDocument/documentLink": self.links,
            "textDocument/foldingRange": self.folds,
        }

    def of_document(self, textDocument: TextDocumentIdentifier, **_: object) -> list[DocumentSymbol]:
        place = asked(self._workspace, textDocument)
        part = part_of(place.project, place.file) if place else None
        return [_symbol(place, part)] if place and part else []

    def of_workspace(self, query: str = "", **_: object) -> list[SymbolInformation]:
        """The first 1,000 workflows, jobs and steps whose names contain the text, in any case. After a second no more files are read; those
        that were are known the next time."""
        found: list[SymbolInformation] = []
        end = time.thread_time() + READING_SECONDS
        for repository in self._workspace.repositories():
            for path in sorted(repository.folder.paths()):
                place = Asked(repository, path, START)
                found += [{"name": shown(part.name), "kind": KINDS[part.kind], "containerName": shown(part.around),
                           "location": place.location(part.naming, path)}
                          for part in parts_with(place.project, path, query.lower(), time.thread_time() < end)]
                if len(found) >= MAX_SYMBOLS:
                    return found[:MAX_SYMBOLS]
        return found

    def links(self, textDocument: TextDocumentIdentifier, **_: object) -> list[DocumentLink]:
        place = asked(self._workspace, textDocument)
        return [{"range": place.range(link.span), "target": link.address or place.repository.uri(link.file or "")}
                for link in links(place.project, place.file)] if place else []

    def folds(self, textDocument: TextDocumentIdentifier, **_: object) -> list[FoldingRange]:
        place = asked(self._workspace, textDocument)
        return [{"startLine": first, "endLine": last} for first, last in folds(place.project, place.file)] if place else []


def _symbol(place: Asked, part: Part) -> DocumentSymbol:
    return {"name": shown(part.name), "detail": part.kind, "kind": KINDS[part.kind], "range": place.range(part.span),
            "selectionRange": place.range(part.naming), "children": [_symbol(place, inner) for inner in part.parts]}
