"""Definition, references, highlights and renaming for editors."""
from __future__ import annotations

from pylsp_jsonrpc.exceptions import JsonRpcException

from .asked import START, Asked, add_edit, asked, workspace_edit
from .characters import shown
from .editor import Editor
from .folder import Program
from .paths import path_of
from .protocol import (Capabilities, DocumentHighlight, FileRename, Handler, Location, Position, PrepareRenameResult, ReferenceContext,
                       TextDocumentIdentifier, WorkspaceEdit)
from .references import Occurrence, all_of, occurrence_at, occurrences
from .renaming import Refusal, changed_calls, moved_files, renamable_at, rename
from .workspace import Workspace

WRITE, READ = 3, 2
REQUEST_FAILED = -32803
# The moves that the server wants to know before they are done: those of workflows and actions, and of the folders around them.
MOVES = {"willRename": {"filters": [
    {"scheme": "file", "pattern": {"glob": "**/*.{yml,yaml}", "matches": "file"}},
    {"scheme": "file", "pattern": {"glob": "**", "matches": "folder"}}]}}


class Navigation:
    capabilities: Capabilities = {"definitionProvider": True, "referencesProvider": True, "documentHighlightProvider": True,
                                  "renameProvider": {"prepareProvider": True}}

    def __init__(self, workspace: Workspace, editor: Editor, program: Program):
        self._workspace, self._editor, self._program = workspace, editor, program
        self.handlers: dict[str, Handler] = {
            "textDocument/definition": self.definition,
            "textDocument/references": self.references,
            "textDocument/documentHighlight": self.highlights,
            "textDocument/prepareRename": self.prepare_rename,
            "textDocument/rename": self.rename,
            "workspace/willRenameFiles": self.will_rename_files,
        }

    def _name(self, document: TextDocumentIdentifier, position: Position) -> tuple[Asked | None, Occurrence | None]:
        """The place of a request, and the name there."""
        place = asked(self._workspace, document, position)
        return place, occurrence_at(place.project, place.file, place.point) if place else None

    def definition(self, textDocument: TextDocumentIdentifier, position: Position, **_: object) -> list[Location]:
        place, found = self._name(textDocument, position)
        if place is None or found is None:
            return []
        if found.symbol.kind == "file":
            return [place.location(START, found.symbol.file)]
        return [place.location(one.span, one.file) for one in all_of(place.project, found.symbol) if one.is_definition]

    def references(self, textDocument: TextDocumentIdentifier, position: Position, context: ReferenceContext | None = None,
                   **_: object) -> list[Location]:
        place, found = self._name(textDocument, position)
        if place is None or found is None:
            return []
        with_definitions = context.get("includeDeclaration", True) if context else True
        return [place.location(one.span, one.file) for one in all_of(place.project, found.symbol)
                if with_definitions or not one.is_definition]

    def highlights(self, textDocument: TextDocumentIdentifier, position: Position, **_: object) -> list[DocumentHighlight]:
        place, found = self._name(textDocument, position)
        if place is None or found is None:
            return []
        return [{"range": place.range(one.span), "kind": WRITE if one.is_definition else READ}
                for one in occurrences(place.project, place.file) if one.symbol == found.symbol]

    def prepare_rename(self, textDocument: TextDocumentIdentifier, position: Position, **_: object) -> PrepareRenameResult | None:
        place = asked(self._workspace, textDocument, position)
        found = renamable_at(place.project, place.file, place.point) if place else None
        if place is None or found is None:
            return None
        line = place.project.lines(place.file)[found.span.start.line]
        return {"range": place.range(found.span), "placeholder": line[found.span.start.column:found.span.end.column]}

    def rename(self, textDocument: TextDocumentIdentifier, position: Position, newName: str, **_: object) -> WorkspaceEdit | None:
        place = asked(self._workspace, textDocument, position)
        if place is None:
            return None
        try:
            edits = rename(self._program, place.project, place.file, place.point, newName)
        except Refusal as refusal:
            raise JsonRpcException(f"actionlint: {shown(str(refusal))}", REQUEST_FAILED) from refusal
        return workspace_edit(place.repository, edits, is_versioned=self._editor.takes_versions())

    def will_rename_files(self, files: list[FileRename], **_: object) -> WorkspaceEdit | None:
        """The calls of what is moved, as they are to be afterwards."""
        moves = [(old, new) for old, new in ((path_of(file["oldUri"]), path_of(file["newUri"])) for file in files) if old and new]
        edit: WorkspaceEdit = {}
        for repository in self._workspace.repositories():
            moved: dict[str, str] = {}
            for old, new in moves:
                moved.update(moved_files(repository.project, repository.root, old, new))
            edits = changed_calls(repository.project, moved)
            add_edit(edit, workspace_edit(repository, edits, is_versioned=self._editor.takes_versions()))
        return edit if any(edit.values()) else None
