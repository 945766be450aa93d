"""The document and position of an editor's request, and edits of files as the protocol has them."""
from __future__ import annotations

from dataclasses import dataclass
from typing import Mapping

from .positions import point_of, range_of_span
from .project import Project
from .protocol import CreateFile, Location, Position, Range, TextDocumentEdit, TextDocumentIdentifier, TextEdit, WorkspaceEdit
from .repair import Edit
from .repository import Repository
from .text import Point, Span
from .workspace import Workspace

START = Span.at(Point(0, 0))


@dataclass(frozen=True)
class Asked:
    repository: Repository
    file: str
    point: Point

    @property
    def project(self) -> Project:
        return self.repository.project

    def range(self, span: Span, file: str | None = None) -> Range:
        """The range of a span of a file, by default of the document."""
        return range_of_span(self.project.lines(file or self.file), span)

    def location(self, span: Span, file: str) -> Location:
        return {"uri": self.repository.uri(file), "range": self.range(span, file)}


def asked(workspace: Workspace, document: TextDocumentIdentifier, position: Position | None = None) -> Asked | None:
    """The document of a request, if it is open and not too large for the linter, and the position in it, by default its start."""
    found = workspace.document(document["uri"])
    if found is None or found.repository.is_too_large(found.path):
        return None
    lines = found.repository.project.lines(found.path)
    return Asked(found.repository, found.path, point_of(lines, position) if position else Point(0, 0))


def workspace_edit(repository: Repository, edits: Mapping[str, tuple[Edit, ...]], new_files: Mapping[str, str] = {},
                   is_versioned: bool = False) -> WorkspaceEdit:
    """Edits and new files as a WorkspaceEdit, which with `is_versioned` holds only for the versions of the open files that it was made
    for."""
    changes: dict[str, list[TextEdit]] = {}
    for path, some in edits.items():
        lines = repository.project.lines(path)
        changes[path] = [{"range": range_of_span(lines, edit.span), "newText": edit.text} for edit in some]
    if not new_files and not is_versioned:
        return {"changes": {repository.uri(path): some for path, some in changes.items()}}
    made: list[CreateFile | TextDocumentEdit] = []
    for path, text in new_files.items():
        uri = repository.uri(path)
        made += [{"kind": "create", "uri": uri, "options": {"ignoreIfExists": True}},
                 {"textDocument": {"uri": uri, "version": None}, "edits": [{"range": range_of_span([""], START), "newText": text}]}]
    made += [{"textDocument": {"uri": repository.uri(path), "version": repository.version(path)}, "edits": some}
             for path, some in changes.items()]
    return {"documentChanges": made}


def add_edit(edit: WorkspaceEdit, other: WorkspaceEdit) -> None:
    """Adds another edit, of other files."""
    if "changes" in other:
        edit["changes"] = {**edit.get("changes", {}), **other["changes"]}
    if "documentChanges" in other:
        edit["documentChanges"] = [*edit.get("documentChanges", []), *other["documentChanges"]]
