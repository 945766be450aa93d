"""actionlint-lsp: a language server on standard input and output (Language Server Protocol 3.17)."""
from __future__ import annotations

import argparse
import gc
import logging
import os
import queue
import resource
import sys
from functools import partial
from pathlib import Path
from typing import Any, BinaryIO, Callable

from pylsp_jsonrpc.endpoint import Endpoint
from pylsp_jsonrpc.exceptions import JsonRpcException, JsonRpcInvalidRequest, JsonRpcMethodNotFound, JsonRpcServerError
from pylsp_jsonrpc.streams import JsonRpcStreamWriter

from .actions import CodeActions
from .completing import Completion
from .diagnostics import Diagnostics
from .editor import Editor
from .folder import Folder, Program
from .hover import Hover
from .ignoring import IgnoreFiles
from .limit import LIMIT, TooSlow
from .messages import Messages, Wake
from .navigation import MOVES, Navigation
from .notes.checks import NoteChecks
from .output import version
from .paths import path_of
from .program import find_program
from .protocol import (Capabilities, Feature, Handler, InitializeResult, Message, TextDocumentContentChangeEvent, TextDocumentIdentifier,
                       TextDocumentItem, VersionedTextDocumentIdentifier, WorkspaceFoldersChangeEvent)
from .repository import Repository
from .script_checks import ScriptChecks
from .streams import waiting_input, waiting_output
from .symbols import Symbols
from .workspace import Workspace

FULL_TEXT = 1
SERVER_NOT_INITIALIZED = -32002
REQUEST_FAILED = -32803
# The processor time that a request of a feature can take.
MAX_SECONDS = 2.0
# How many new objects, and how many collections of them, there are before older objects are looked at too.
COLLECTED = (50_000, 20)


class Server:
    """Takes messages one after another. Diagnostics are sent when no further message waits, and before each answer to a request.

    A feature answers requests: its `handlers` are functions by method, called with the message's parameters by name, and its `capabilities`
    are sent to the editor. Notifications are handled here.
    """

    def __init__(self, options: argparse.Namespace, docs: str | None, stdin: BinaryIO, stdout: BinaryIO):
        self._messages = Messages(stdin)
        self._send = JsonRpcStreamWriter(stdout).write
        self._endpoint = Endpoint(self, self._send)
        self._editor = Editor(self._endpoint.notify, self._endpoint.request)
        self._program = program = Program([options.program], options.timeout)
        self._ignored = IgnoreFiles(self._editor.say)
        self._ignored.files += options.ignore_file
        diagnostics = Diagnostics(docs, self._ignored)
        shows_earlier = not options.no_earlier_faults
        self._checks = ScriptChecks(options.program, self._messages.wake)
        self._checks.is_on = options.shellcheck
        self._notes = NoteChecks(options.program, self._messages.wake)
        self._notes.is_on = not options.no_notes and self._notes.can_run()
        checks = (self._notes, self._checks)
        self._workspace = Workspace(
            lambda root: Repository(root, Folder(root, program, self._editor.say, keeps_calls=shows_earlier), shows_earlier, checks),
            self._editor, diagnostics)
        self._features: list[Feature] = [
            Completion(self._workspace, self._editor),
            Hover(self._workspace, self._editor, docs),
            CodeActions(self._workspace, diagnostics, self._editor, program),
            Navigation(self._workspace, self._editor, program),
            Symbols(self._workspace),
        ]
        self._named: list[bytes] = []
        self._is_initialized = self._is_shut_down = False
        self._handlers: dict[str, Handler] = {
            "initialize": self._initialize,
            "initialized": self._start,
            "shutdown": self._shut_down,
            "textDocument/didOpen": self._open,
            "textDocument/didChange": self._change,
            "textDocument/didSave": self._save,
            "textDocument/didClose": self._close,
            "workspace/didChangeWatchedFiles": self._take_changed_files,
            "workspace/didChangeWorkspaceFolders": self._take_changed_folders,
        }
        self._requests: dict[str, Handler] = {}
        for feature in self._features:
            self._requests.update(feature.handlers)

    def run(self) -> int:
        """Serves until the editor says `exit` or its input ends. The status is 0 if it said `shutdown` before, else 1."""
        self._messages.start()
        while True:
            try:
                message = self._messages.take(self._workspace.wait_seconds())
            except queue.Empty:
                if not self._workspace.is_stale:
                    self._workspace.rescan()
                self._workspace.refresh()
                continue
            if message is None or isinstance(message, dict) and message.get("method") == "exit":
                break
            if isinstance(message, Wake):
                for checks in (self._notes, self._checks):
                    self._workspace.take_notes(checks)
            else:
                self._take(message)
            if self._workspace.is_stale and self._messages.is_empty():
                self._workspace.refresh()
        self._notes.end()
        self._checks.end()
        self._workspace.end()
        return 0 if self._is_shut_down else 1

    def _take(self, message: Message | JsonRpcException) -> None:
        """Lets the endpoint take a message, or answers what is none."""
        if isinstance(message, JsonRpcException):
            self._send({"jsonrpc": "2.0", "id": None, "error": message.to_dict()})
            return
        if self._workspace.is_stale and "id" in message and "method" in message:
            self._workspace.refresh()
        try:
            self._endpoint.consume(message)
        except Exception:
            logging.exception("a message could not be taken")

    def __getitem__(self, method: str) -> Callable[[dict[str, Any] | None], object]:
        """What the endpoint calls with the parameters of a message."""
        return partial(self._handle, method)

    def _handle(self, method: str, parameters: dict[str, Any] | None) -> object:
        """Answers a request, or handles a notification. Raises JsonRpcException if the method is unknown, or may not be called now."""
        if not self._is_initialized and method != "initialize":
            raise JsonRpcServerError(f"{method} comes before initialize", SERVER_NOT_INITIALIZED)
        if self._is_shut_down or self._is_initialized and method == "initialize":
            raise JsonRpcInvalidRequest(f"{method} comes too late")
        if method in self._requests:
            return _limited(partial(self._requests[method], **(parameters or {})))
        if method not in self._handlers:
            raise JsonRpcMethodNotFound.of(method)
        return self._handlers[method](**(parameters or {}))

    def _initialize(self, rootUri: str | None = None, rootPath: str | None = None,
                    workspaceFolders: list[TextDocumentIdentifier] | None = None, capabilities: Capabilities | None = None,
                    initializationOptions: object = None, **_: object) -> InitializeResult:
        uris = [folder["uri"] for folder in workspaceFolders or []] or ([rootUri] if rootUri else [])
        self._named = _paths_of(uris)
        if not uris and rootPath:
            self._named = [os.path.abspath(os.fsencode(rootPath))]
        self._editor.take_capabilities(capabilities)
        self._take_options(initializationOptions)
        told: Capabilities = {
            "textDocumentSync": {"openClose": True, "change": FULL_TEXT, "save": {"includeText": False}},
            "workspace": {"workspaceFolders": {"supported": True, "changeNotifications": True}, "fileOperations": MOVES},
        }
        for feature in self._features:
            told.update(feature.capabilities)
        self._is_initialized = True
        return {"capabilities": told, "serverInfo": {"name": "actionlint-lsp", "version": version() or "unknown"}}

    def _take_options(self, options: object) -> None:
        """Takes what the editor's settings say; the command line's options stay where these say nothing."""
        given = options if isinstance(options, dict) else {}
        if isinstance(given.get("program"), str):
            self._program.words[:] = [find_program(given["program"])]
        if isinstance(given.get("shellcheck"), bool):
            self._checks.is_on = given["shellcheck"]
        if isinstance(given.get("notes"), bool):
            self._notes.is_on = given["notes"]
        self._ignored.files += _texts(given.get("ignoreFiles"))

    def _start(self, **_: object) -> None:
        if self._editor.watches():
            self._editor.ask_to_watch()
        self._workspace.add_folders(self._named)

    def _shut_down(self, **_: object) -> None:
        self._is_shut_down = True

    def _open(self, textDocument: TextDocumentItem, **_: object) -> None:
        self._workspace.open(textDocument["uri"], textDocument.get("version"), _bytes_of(textDocument["text"]))

    def _change(self, textDocument: VersionedTextDocumentIdentifier, contentChanges: list[TextDocumentContentChangeEvent],
                **_: object) -> None:
        if contentChanges:
            self._workspace.change(textDocument["uri"], textDocument.get("version"), _bytes_of(contentChanges[-1]["text"]))

    def _save(self, **_: object) -> None:
        self._workspace.rescan()
        self._workspace.renew_notes(self._notes)

    def _close(self, textDocument: TextDocumentIdentifier, **_: object) -> None:
        self._workspace.close(textDocument["uri"])

    def _take_changed_files(self, changes: list[TextDocumentIdentifier], **_: object) -> None:
        self._workspace.take_changed_files([change["uri"] for change in changes])
        self._workspace.renew_notes(self._notes)

    def _take_changed_folders(self, event: WorkspaceFoldersChangeEvent, **_: object) -> None:
        self._workspace.add_folders(_paths_of([folder["uri"] for folder in event.get("added") or []]))
        self._workspace.remove_folders(set(_paths_of([folder["uri"] for folder in event.get("removed") or []])))


def _texts(value: object) -> list[str]:
    """The texts of a list in an editor's options, or the only one."""
    return [value] if isinstance(value, str) else [one for one in value if isinstance(one, str)] if isinstance(value, list) else []


def _limited(request: Callable[[], object]) -> object:
    """The answer to a request. Raises JsonRpcException if it takes too long."""
    try:
        return LIMIT.call(MAX_SECONDS, request)
    except TooSlow:
        raise JsonRpcException("actionlint: not answered, since it takes too long", REQUEST_FAILED) from None


def _paths_of(uris: list[str]) -> list[bytes]:
    return [path for path in map(path_of, uris) if path]


def _bytes_of(text: str) -> bytes:
    """The text in UTF-8. Half of a surrogate pair becomes three bytes, which are a fault of the file."""
    return text.encode("utf-8", "surrogatepass")


def _is_news(record: logging.LogRecord) -> bool:
    """Whether a failure is worth a line of the log. Refusals are not: the editor is told why."""
    return not (record.exc_info and isinstance(record.exc_info[1], JsonRpcException))


def _default_docs() -> str | None:
    docs = Path(__file__).resolve().parents[2] / "docs"
    return docs.as_uri() if (docs / "FAULTS.md").exists() else None


def _take_all_descriptors() -> None:
    """Raises the limit of open files, since each linter takes two. The usual one is low for the sake of programs that use `select`."""
    _, most = resource.getrlimit(resource.RLIMIT_NOFILE)
    try:
        resource.setrlimit(resource.RLIMIT_NOFILE, (most, most))
    except (OSError, ValueError) as error:
        logging.warning("the limit of open files stays as it is: %s", error)


def main(options: argparse.Namespace) -> int:
    _take_all_descriptors()
    # The tree of a large file has many objects, none of which refers to itself.
    gc.set_threshold(*COLLECTED)
    try:
        logging.basicConfig(filename=options.log, level=logging.ERROR)
    except OSError as error:
        print(f"actionlint-lsp: cannot write {options.log}: {error.strerror}", file=sys.stderr)
        return 2
    logging.getLogger("pylsp_jsonrpc.endpoint").addFilter(_is_news)
    docs = options.docs or _default_docs()
    # Nothing else may be printed between messages.
    stdout = waiting_output(os.dup(1))
    os.dup2(2, 1)
    server = Server(options, docs, waiting_input(sys.stdin.fileno()), stdout)
    try:
        status = server.run()
    except Exception:
        logging.exception("the server stopped")
        status = 1
    logging.shutdown()
    # The usual exit would wait for the reading thread, which is blocked in a read.
    os._exit(status)
