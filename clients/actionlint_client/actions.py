"""Code actions: the quick fixes of the faults in a range."""
from __future__ import annotations

from . import fixes
from .asked import workspace_edit
from .characters import shown
from .diagnostics import Diagnostics
from .editor import Editor
from .folder import Program
from .protocol import Capabilities, CodeAction, CodeActionContext, Handler, Range, TextDocumentIdentifier
from .repository import Document
from .workspace import Workspace


class CodeActions:
    capabilities: Capabilities = {"codeActionProvider": {"codeActionKinds": ["quickfix"]}}

    def __init__(self, workspace: Workspace, diagnostics: Diagnostics, editor: Editor, program: Program):
        self._workspace, self._diagnostics, self._editor, self._program = workspace, diagnostics, editor, program
        self.handlers: dict[str, Handler] = {"textDocument/codeAction": self.code_actions}

    def code_actions(self, textDocument: TextDocumentIdentifier, range: Range, context: CodeActionContext | None = None,
                     **_: object) -> list[CodeAction]:
        document = self._workspace.document(textDocument["uri"])
        kinds = context.get("only") if context else None
        if document is None or kinds and not any(kind in ("", "quickfix") for kind in kinds):
            return []
        faults = [fault for fault, _ in document.faults_in(range)]
        found = fixes.fixes(self._program.words, self._program.timeout, document.repository.project, faults, document.earlier().faults)
        return [self._action(document, fix) for fix in found if not fix.repair.new_files or self._editor.makes_files()]

    def _action(self, document: Document, fix: fixes.Fix) -> CodeAction:
        return {"title": shown(fix.repair.title), "kind": "quickfix", "isPreferred": fix.repair.is_safe,
                "diagnostics": [self._diagnostics.of_fault(document.lines(), fix.fault)],
                "edit": workspace_edit(document.repository, fix.repair.edits, fix.repair.new_files, self._editor.takes_versions())}
