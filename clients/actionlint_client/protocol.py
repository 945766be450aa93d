"""The messages of the Language Server Protocol 3.17 and their parts, as far as the server reads or writes them, with the protocol's names.

What an editor sends is only as good as the editor: a type says what the protocol promises, not what was checked.
"""
from __future__ import annotations

from typing import TYPE_CHECKING, Any, Callable, Protocol, TypedDict, Union

if TYPE_CHECKING:
    # Since Python 3.11. The type checker alone needs it.
    from typing import NotRequired


class Position(TypedDict):
    line: int
    character: int


class Range(TypedDict):
    start: Position
    end: Position


class Location(TypedDict):
    uri: str
    range: Range


class TextDocumentIdentifier(TypedDict):
    """Also what is read of a `WorkspaceFolder` and a `FileEvent`."""

    uri: str


class VersionedTextDocumentIdentifier(TextDocumentIdentifier):
    version: NotRequired[int | None]


class OptionalVersionedTextDocumentIdentifier(TextDocumentIdentifier):
    version: int | None


class TextDocumentItem(VersionedTextDocumentIdentifier):
    text: str


class TextDocumentContentChangeEvent(TypedDict):
    """The whole new text, since the server asks for nothing else."""

    text: str


class DiagnosticData(TypedDict):
    kind: str
    earlier: NotRequired[bool]


class Diagnostic(TypedDict):
    range: Range
    severity: int
    source: str
    message: str
    code: NotRequired[str]
    codeDescription: NotRequired[dict[str, str]]
    data: NotRequired[DiagnosticData]


class PublishDiagnosticsParams(TypedDict):
    uri: str
    diagnostics: list[Diagnostic]
    version: NotRequired[int]


class TextEdit(TypedDict):
    range: Range
    newText: str


class CreateFile(TypedDict):
    kind: str
    uri: str
    options: dict[str, bool]


class TextDocumentEdit(TypedDict):
    textDocument: OptionalVersionedTextDocumentIdentifier
    edits: list[TextEdit]


class WorkspaceEdit(TypedDict):
    changes: NotRequired[dict[str, list[TextEdit]]]
    documentChanges: NotRequired[list[CreateFile | TextDocumentEdit]]


class CodeActionContext(TypedDict):
    only: NotRequired[list[str]]


class CodeAction(TypedDict):
    title: str
    kind: str
    diagnostics: list[Diagnostic]
    edit: WorkspaceEdit
    isPreferred: NotRequired[bool]


class MarkupContent(TypedDict):
    kind: str
    value: str


class Hover(TypedDict):
    contents: MarkupContent
    range: Range


class CompletionItem(TypedDict):
    label: str
    kind: int
    detail: str
    filterText: str
    sortText: str
    textEdit: TextEdit
    documentation: NotRequired[MarkupContent]
    insertTextFormat: NotRequired[int]
    insertTextMode: NotRequired[int]


class CompletionList(TypedDict):
    isIncomplete: bool
    items: list[CompletionItem]


class ReferenceContext(TypedDict):
    includeDeclaration: NotRequired[bool]


class DocumentHighlight(TypedDict):
    range: Range
    kind: int


class PrepareRenameResult(TypedDict):
    range: Range
    placeholder: str


class DocumentSymbol(TypedDict):
    name: str
    detail: str
    kind: int
    range: Range
    selectionRange: Range
    children: list[DocumentSymbol]


class SymbolInformation(TypedDict):
    name: str
    kind: int
    containerName: str
    location: Location


class DocumentLink(TypedDict):
    range: Range
    target: str


class FoldingRange(TypedDict):
    startLine: int
    endLine: int


class WorkspaceFoldersChangeEvent(TypedDict):
    added: NotRequired[list[TextDocumentIdentifier] | None]
    removed: NotRequired[list[TextDocumentIdentifier] | None]


class FileRename(TypedDict):
    oldUri: str
    newUri: str


# What a side can do, by the protocol's names. The values are flags, or options of a shape of their own.
Capabilities = dict[str, Any]


class InitializeResult(TypedDict):
    capabilities: Capabilities
    serverInfo: dict[str, str]


class Message(TypedDict, total=False):
    """A request, a notification or a response."""

    jsonrpc: str
    id: Union[int, str, None]
    method: str
    params: Any
    result: Any
    error: Any


# A function that answers a request or takes a notification. It is called with the message's parameters by name.
Handler = Callable[..., object]
# Sends a notification or a request, whose answer isn't needed: a method and its parameters.
Send = Callable[[str, object], object]


class Feature(Protocol):
    """A part of the server that answers requests: its handlers by method, and its capabilities, which are sent to the editor."""

    capabilities: Capabilities
    handlers: dict[str, Handler]
