"""A small editor for tests: it starts the language server, sends what editors send, and keeps the diagnostics that it receives."""
from __future__ import annotations

import json
import os
import queue
import subprocess
import sys
import threading
import time
from pathlib import Path
from typing import Any, BinaryIO
from urllib.parse import quote_from_bytes, unquote_to_bytes, urlsplit

SERVER = Path(__file__).resolve().parent.parent / "actionlint-lsp"
ANSWER_SECONDS = 60
EXIT_SECONDS = 10


class Editor:
    def __init__(self, program: str | None, root: bytes | None, watches: bool = True, words: tuple[str, ...] = (), capabilities: dict = {},
                 server: Path = SERVER, environment: dict[str, str] | None = None, inherited: tuple[int, ...] = (),
                 folder: str | None = None, root_path: str | None = None, settings: dict | None = None, notes: bool = False):
        """`inherited` are open files with which the server is started, and `folder` is its current one. With `root_path`, the server is
        given the root as such a path, with `{}` in its place, and not as a URI. `settings` are the initialization options."""
        # (a test that reads it has given one)
        self.root: Any = root
        self.shown: dict[str, dict] = {}
        self.messages: list[str] = []
        self.requests: list[dict] = []
        self.publications = 0
        self.arrivals: queue.SimpleQueue = queue.SimpleQueue()
        self._held = b""
        self._ids = 0
        self._versions: dict[str, int] = {}
        self._answers: queue.SimpleQueue = queue.SimpleQueue()
        # Notes come from a process of their own, which most tests don't wait for.
        named = ([] if notes else ["--no-notes"]) + ([] if program is None else ["--program", program])
        self.child: Any = subprocess.Popen([sys.executable, str(server), *named, *words], stdin=subprocess.PIPE, stdout=subprocess.PIPE,
                                           env=environment, pass_fds=inherited, cwd=folder)
        threading.Thread(target=self._listen, daemon=True).start()
        uri = "file://" + quote_from_bytes(root) if root and not root_path else None
        path = root_path.format(os.fsdecode(root)) if root and root_path else None
        watching = {"workspace": {"didChangeWatchedFiles": {"dynamicRegistration": watches}}}
        self.hello = self.request("initialize", {
            "processId": os.getpid(), "rootUri": uri, "rootPath": path, "capabilities": {**watching, **capabilities},
            "workspaceFolders": [{"uri": uri, "name": "w"}] if uri else None,
            **({} if settings is None else {"initializationOptions": settings})})
        self.notify("initialized", {})

    def uri(self, path: str) -> str:
        return "file://" + quote_from_bytes(os.path.join(self.root or b"/", path.encode()))

    def open(self, path: str, text: str) -> None:
        self.open_uri(self.uri(path), text)

    def open_uri(self, uri: str, text: str) -> None:
        self._versions[uri] = 1
        self.notify("textDocument/didOpen", {"textDocument": {"uri": uri, "languageId": "yaml", "version": 1, "text": text}})

    def change(self, path: str, text: str, held: bool = False) -> None:
        """Changes a buffer. A held change is sent with the next message in one write, so the server isn't idle between the two."""
        self.change_uri(self.uri(path), text, held)

    def change_uri(self, uri: str, text: str, held: bool = False) -> None:
        self._versions[uri] = self._versions.get(uri, 1) + 1
        self.notify("textDocument/didChange", {"textDocument": {"uri": uri, "version": self._versions[uri]},
                                               "contentChanges": [{"text": text}]}, held)

    def save(self, path: str) -> None:
        self.notify("textDocument/didSave", {"textDocument": {"uri": self.uri(path)}})

    def close(self, path: str) -> None:
        self.close_uri(self.uri(path))

    def close_uri(self, uri: str) -> None:
        self.notify("textDocument/didClose", {"textDocument": {"uri": uri}})

    def touched(self, *paths: str, kind: int = 2) -> None:
        changes = [{"uri": self.uri(path), "type": kind} for path in paths]
        self.notify("workspace/didChangeWatchedFiles", {"changes": changes})

    def hover(self, path: str, line: int, character: int) -> Any:
        return self.request("textDocument/hover", {"textDocument": {"uri": self.uri(path)},
                                                   "position": {"line": line, "character": character}})["result"]

    def actions(self, path: str, where: dict, **context) -> list[dict]:
        return self.request("textDocument/codeAction", {"textDocument": {"uri": self.uri(path)}, "range": where,
                                                        "context": {"diagnostics": [], **context}})["result"]

    def settle(self) -> None:
        """Waits until the server has handled everything that was sent: it answers a request, here of an unknown method, after what came
        before."""
        self.request("test/settle", {})

    def diagnostics(self) -> dict[str, list[dict]]:
        """By path below the root; files without any are left out."""
        return {os.path.relpath(unquote_to_bytes(urlsplit(uri).path), self.root).decode(): params["diagnostics"]
                for uri, params in list(self.shown.items()) if params["diagnostics"]}

    def texts(self, path: str) -> list[str]:
        """The messages of a file's diagnostics."""
        return [one["message"] for one in self.diagnostics().get(path, [])]

    def request(self, method: str, params: object) -> dict:
        self._ids += 1
        self._send({"jsonrpc": "2.0", "id": self._ids, "method": method, **({} if params is None else {"params": params})})
        while True:
            answer = self._answers.get(timeout=ANSWER_SECONDS)
            assert answer is not None, "the server ended"
            if answer["id"] == self._ids:
                return answer

    def notify(self, method: str, params: object, held: bool = False) -> None:
        self._send({"jsonrpc": "2.0", "method": method, **({} if params is None else {"params": params})}, held)

    def quit(self) -> int:
        self.request("shutdown", None)
        self.notify("exit", None)
        return self.child.wait(timeout=EXIT_SECONDS)

    def send_bytes(self, data: bytes) -> None:
        try:
            self.child.stdin.write(data)
            self.child.stdin.flush()
        except BrokenPipeError as error:
            raise AssertionError("the server ended") from error

    def _send(self, message: dict, held: bool = False) -> None:
        self._held += _framed(message)
        if not held:
            self.send_bytes(self._held)
            self._held = b""

    def _listen(self) -> None:
        try:
            while (message := read_message(self.child.stdout)) is not None:
                self._take(message)
        finally:
            # Whatever ended this thread, `request` must not wait for an answer that can't come.
            self._answers.put(None)

    def _take(self, message: dict) -> None:
        if "method" not in message:
            self._answers.put(message)
        elif message["method"] == "textDocument/publishDiagnostics":
            self.publications += 1
            self.shown[message["params"]["uri"]] = message["params"]
            self.arrivals.put((message["params"]["uri"], message["params"].get("version"), time.monotonic()))
        elif message["method"] == "window/showMessage":
            self.messages.append(message["params"]["message"])
        elif "id" in message:
            self.requests.append(message)
            # by the listener's thread, which leaves alone what is held
            self.send_bytes(_framed({"jsonrpc": "2.0", "id": message["id"], "result": None}))


def _framed(message: dict) -> bytes:
    body = json.dumps(message).encode()
    return b"Content-Length: %d\r\n\r\n" % len(body) + body


def read_message(out: BinaryIO) -> dict | None:
    """The next message, or None at the end."""
    length = None
    while (line := out.readline()) != b"\r\n":
        if not line:
            return None
        if line.startswith(b"Content-Length:"):
            length = int(line.split(b":")[1])
    return json.loads(out.read(length or 0))


def children(pid: int) -> list[int]:
    """The processes that a process started and that still run."""
    with open(f"/proc/{pid}/task/{pid}/children", encoding="ascii") as opened:
        return [int(word) for word in opened.read().split()]


def linters(pid: int) -> list[int]:
    """The runs of actionlint-facts by a server: one for each folder."""
    return [child for child in children(pid) if b"facts" in Path(f"/proc/{child}/cmdline").read_bytes()]


def memory(pid: int, which: str = "VmRSS") -> int:
    """The memory of a process in KiB, or with `VmHWM` the greatest that it has had."""
    with open(f"/proc/{pid}/status", encoding="utf-8") as opened:
        return next(int(line.split()[1]) for line in opened if line.startswith(which + ":"))
