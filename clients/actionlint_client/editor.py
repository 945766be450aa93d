"""What the editor can do, and what is sent to it."""
from __future__ import annotations

from .characters import terminal_text
from .protocol import Capabilities, Diagnostic, PublishDiagnosticsParams, Send

WARNING = 2
# InsertTextMode of the protocol: further lines are indented as in the text, and not by the line's indentation besides.
AS_IT_IS = 1
WATCHED = ("**/.github/workflows/*.{yml,yaml}", "**/action.{yml,yaml}")


class Editor:
    def __init__(self, notify: Send, request: Send):
        self._notify, self._request = notify, request
        self._capabilities: Capabilities = {}

    def take_capabilities(self, capabilities: Capabilities | None) -> None:
        """Takes the capabilities that `initialize` has."""
        self._capabilities = capabilities or {}

    def _capability(self, section: str, feature: str) -> Capabilities:
        """What the editor says about a feature, such as `("textDocument", "hover")`, or nothing."""
        return (self._capabilities.get(section) or {}).get(feature) or {}

    def watches(self) -> bool:
        """Whether the editor reports changes on disk."""
        return bool(self._capability("workspace", "didChangeWatchedFiles").get("dynamicRegistration"))

    def hover_format(self) -> str:
        return _format(self._capability("textDocument", "hover").get("contentFormat"))

    def documentation_format(self) -> str:
        return _format(self._completion_item().get("documentationFormat"))

    def takes_snippets(self) -> bool:
        """Whether a completion can contain tab stops."""
        return bool(self._completion_item().get("snippetSupport"))

    def takes_indentation(self) -> bool:
        """Whether a completion can tell that its lines are indented already."""
        return AS_IT_IS in ((self._completion_item().get("insertTextModeSupport") or {}).get("valueSet") or [])

    def _completion_item(self) -> Capabilities:
        return self._capability("textDocument", "completion").get("completionItem") or {}

    def takes_versions(self) -> bool:
        """Whether an edit can tell for which versions of the files it is."""
        return bool(self._capability("workspace", "workspaceEdit").get("documentChanges"))

    def makes_files(self) -> bool:
        """Whether an edit can create files."""
        return self.takes_versions() and "create" in (self._capability("workspace", "workspaceEdit").get("resourceOperations") or [])

    def ask_to_watch(self) -> None:
        """Asks for changes on disk, which come as `workspace/didChangeWatchedFiles`."""
        watchers = [{"globPattern": pattern} for pattern in WATCHED]
        self._request("client/registerCapability", {"registrations": [
            {"id": "disk", "method": "workspace/didChangeWatchedFiles", "registerOptions": {"watchers": watchers}}]})

    def publish(self, uri: str, version: int | None, diagnostics: list[Diagnostic]) -> None:
        """Replaces all diagnostics of a file."""
        params: PublishDiagnosticsParams = {"uri": uri, "diagnostics": diagnostics}
        if version is not None:
            params["version"] = version
        self._notify("textDocument/publishDiagnostics", params)

    def say(self, text: str) -> None:
        """Shows a message to the user."""
        self._notify("window/showMessage", {"type": WARNING, "message": terminal_text(f"actionlint: {text}")})


def _format(taken: list[str] | None) -> str:
    """Markdown, unless the editor takes only other formats."""
    return "markdown" if not taken or "markdown" in taken else "plaintext"
