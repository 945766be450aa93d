"""Hovering: the entries of the faults at a place, or else the meaning of the name there."""
from __future__ import annotations

from . import entries, protocol
from .asked import asked
from .completion import Offer, offers
from .editor import Editor
from .markdown import Markdown, code, content, escaped
from .project import Project
from .protocol import Capabilities, Handler, Position, TextDocumentIdentifier
from .text import Point, Span
from .workspace import Workspace


class Hover:
    capabilities: Capabilities = {"hoverProvider": True}

    def __init__(self, workspace: Workspace, editor: Editor, docs: str | None):
        self._workspace, self._editor, self._docs = workspace, editor, docs
        self.handlers: dict[str, Handler] = {"textDocument/hover": self.hover}

    def hover(self, textDocument: TextDocumentIdentifier, position: Position, **_: object) -> protocol.Hover | None:
        document = self._workspace.document(textDocument["uri"])
        found = document.faults_in({"start": position, "end": position}, with_earlier=True) if document else []
        text = entries.markdown_of_faults(((fault.code, fault.message) for fault, _ in found), self._docs)
        if text is not None:
            return {"contents": {"kind": self._editor.hover_format(), "value": text}, "range": found[0][1]}
        for note, place_of_note in document.notes_at(position) if document else []:
            if note.entry:
                text = entries.markdown_of(note.entry, self._docs, [note.fault.message])
                return {"contents": {"kind": self._editor.hover_format(), "value": text}, "range": place_of_note}
        place = asked(self._workspace, textDocument, position)
        explained = explanation(place.project, place.file, place.point) if place else None
        if place is None or explained is None:
            return None
        return {"contents": content(self._editor.hover_format(), explained[1]), "range": place.range(explained[0])}


def explanation(project: Project, file: str, point: Point) -> tuple[Span, Markdown] | None:
    """Markdown on the key, value or name at a point, and its span."""
    if point.line >= len(project.lines(file)):
        return None
    span, found = offers(project, file, point, is_strict=False)
    name = project.lines(file)[span.start.line][span.start.column:span.end.column]
    same = [offer for offer in found if offer.label == name] or [offer for offer in found if offer.label.lower() == name.lower()]
    return (span, markdown_of(same[0])) if name and same else None


def markdown_of(offer: Offer) -> Markdown:
    """Markdown on an offer: its name, with its signature if it is a function, what it is, and what it means."""
    if offer.kind == "function":
        head = f"`{offer.label}{offer.detail.rpartition(') ')[0]})` gives {offer.detail.rpartition(') ')[2]}"
    else:
        head = code(offer.label) + (f": {escaped(offer.detail)}" if offer.detail else "")
    return Markdown(head + (f"\n\n{offer.documentation}" if offer.documentation else ""))
