#!/usr/bin/env python3
"""The language server and the protocol itself: frames, messages that are wrong or come at the wrong time, and the end.

    protocol.py PROGRAM [NAME...]
"""
from __future__ import annotations

import fcntl
import io
import json
import os
import re
import shutil
import subprocess
import sys
import termios
import time

from cases import Cases
from editor import SERVER, linters, read_message
from promises import end, start
from repositories import CALLED, FILE, FILES, RIGHT, UNDEFINED, WRONG

CASES = Cases("protocol")
PARSE_ERROR, INVALID_REQUEST, METHOD_NOT_FOUND, SERVER_NOT_INITIALIZED = -32700, -32600, -32601, -32002
INITIALIZE = {"id": 1, "method": "initialize", "params": {"processId": None, "rootUri": None, "capabilities": {}}}
SHUTDOWN, EXIT = {"id": 99, "method": "shutdown"}, {"method": "exit"}


def frame(body: bytes, header: bytes = b"Content-Length: %d\r\n\r\n") -> bytes:
    return header % len(body) + body


def message(parts: dict) -> bytes:
    return json.dumps({"jsonrpc": "2.0", **parts}).encode()


def answers(program: str, *frames: bytes) -> tuple[int, list[dict]]:
    """The status of a server that is sent these frames, and everything that it sends."""
    done = subprocess.run([sys.executable, str(SERVER), "--program", program], input=b"".join(frames), stdout=subprocess.PIPE,
                          stderr=subprocess.DEVNULL, timeout=60, check=False)
    sent = io.BytesIO(done.stdout)
    return done.returncode, list(iter(lambda: read_message(sent), None))


def codes(found: list[dict]) -> list[tuple]:
    """The id of each answer, with the code of its error or None."""
    return [(one["id"], one.get("error", {}).get("code")) for one in found if "method" not in one]


@CASES.case
def headers(program: str) -> None:
    """The fields of a header come in any order, and their names in any case."""
    kind = b"Content-Type: application/vscode-jsonrpc; charset=utf-8\r\n"
    for header in (kind + b"Content-Length: %d\r\n\r\n", b"Content-Length: %d\r\n" + kind + b"\r\n", b"content-length:%d\r\n\r\n"):
        status, found = answers(program, frame(message(INITIALIZE), header), frame(message(SHUTDOWN), header), frame(message(EXIT), header))
        assert (status, codes(found)) == (0, [(1, None), (99, None)]), (header, status, found)
    assert found[0]["result"]["serverInfo"].keys() == {"name", "version"}, found


@CASES.case
def before_and_after(program: str) -> None:
    """Before `initialize` and after `shutdown`, a request is answered with an error, and a notification has no effect. There is only one
    `initialize`."""
    document = {"uri": "file:///nowhere/.github/workflows/a.yml", "languageId": "yaml", "version": 1, "text": WRONG}
    opened = message({"method": "textDocument/didOpen", "params": {"textDocument": document}})
    asked = {"method": "textDocument/hover", "params": {"textDocument": document, "position": {"line": 0, "character": 0}}}
    unknown = {"method": "nothing"}
    sent = [opened, message({**asked, "id": 2}), message({**unknown, "id": 3}), message(INITIALIZE), message({**INITIALIZE, "id": 4}),
            message({**asked, "id": 5}), message(SHUTDOWN), opened, message({**asked, "id": 6}), message({**unknown, "id": 7}),
            message(EXIT)]
    status, found = answers(program, *map(frame, sent))
    assert status == 0 and len(found) == 8, found
    assert codes(found) == [(2, SERVER_NOT_INITIALIZED), (3, SERVER_NOT_INITIALIZED), (1, None), (4, INVALID_REQUEST), (5, None),
                            (99, None), (6, INVALID_REQUEST), (7, INVALID_REQUEST)], found
    assert answers(program, frame(message(INITIALIZE)), frame(message(EXIT)))[0] == 1, "exit without shutdown"


@CASES.case
def formats(program: str) -> None:
    """The meaning of a name is in Markdown, unless the editor accepts only plain text."""
    for taken, wanted in ((None, "markdown"), (["plaintext", "markdown"], "markdown"), (["plaintext"], "plaintext")):
        features = {"hover": {"contentFormat": taken}, "completion": {"completionItem": {"documentationFormat": taken}}} if taken else {}
        editor = start(program, {FILE: "name: x\n"}, capabilities={"textDocument": features})
        editor.open(FILE, "name: x\n")
        asked = {"textDocument": {"uri": editor.uri(FILE)}, "position": {"line": 0, "character": 1}}
        first = editor.request("textDocument/completion", asked)["result"]["items"][0]
        assert first["documentation"]["kind"] == editor.hover(FILE, 0, 1)["contents"]["kind"] == wanted, (taken, first)
        end(editor)


@CASES.case
def wrong_messages(program: str) -> None:
    """Something that isn't a message, or an unknown message, is answered with an error if it can be answered, and what comes after it is
    handled."""
    unread, no_message = (None, PARSE_ERROR), (None, INVALID_REQUEST)
    rows = ((b"{", [unread]), (b"\xff", [unread]), (b"[" * 100_000, [unread]), (b"", [unread]), (b"[]", [no_message]), (b"3", [no_message]),
            (b"null", [no_message]), (message({"id": 5, "method": ["x"]}), [no_message]), (message({}), []), (message({"id": 5}), []),
            (message({"method": "nothing"}), []), (message({"method": "$/setTrace", "params": {"value": "off"}}), []),
            (message({"method": "$/cancelRequest", "params": {"id": 7}}), []), (message({"method": "textDocument/didChange"}), []),
            (message({"id": "a", "method": "nothing"}), [("a", METHOD_NOT_FOUND)]), (b'{"id":5,"method":"workspace/symbol"}', [no_message]))
    for body, wanted in rows:
        status, found = answers(program, *map(frame, (message(INITIALIZE), body, message(SHUTDOWN), message(EXIT))))
        assert (status, codes(found)) == (0, [(1, None), *wanted, (99, None)]), (body[:100], found)


@CASES.case
def wrong_parameters(program: str) -> None:
    """A request with wrong parameters is answered with an error, and such a notification changes nothing."""
    editor = start(program, FILES)
    for params in ({}, [1], {"textDocument": {"uri": 5}}, {"textDocument": {"uri": "http://x/y", "text": ""}},
                   {"textDocument": {"uri": "file:///x/y", "text": 3}}, {"textDocument": {"uri": "file:///nowhere"}}):
        for method in ("didOpen", "didChange", "didClose"):
            editor.notify(f"textDocument/{method}", params)
        assert "error" in editor.request("textDocument/hover", params), params
    assert editor.texts(FILE) == [UNDEFINED]
    editor.open(FILE, RIGHT)
    editor.settle()
    assert editor.texts(FILE) == [] and editor.texts(CALLED)
    end(editor)


@CASES.case
def odd_positions(program: str) -> None:
    """A position past the end of a line or of the text, or between the two halves of a character, is handled like any other."""
    text = WRONG.replace("echo", "\U0001F600")
    editor = start(program, {FILE: text})
    editor.open(FILE, text)
    document = {"uri": editor.uri(FILE)}
    for line, character in ((0, 10**9), (10**9, 0), (2**31, 2**31), (5, 12), (5, 13), (5, 14)):
        place = {"line": line, "character": character}
        asked = {"textDocument": document, "position": place, "range": {"start": place, "end": place}}
        for method in ("hover", "completion", "definition", "references", "documentHighlight", "prepareRename", "codeAction"):
            answer = editor.request(f"textDocument/{method}", asked)
            assert "error" not in answer, (method, place, answer)
    end(editor)


@CASES.case
def odd_ids(program: str) -> None:
    """An answer has the id of its request, whatever that is."""
    ids = ("", "a", None, -1, 1.5, 2**70)
    sent = [message(INITIALIZE), *(message({"id": one, "method": "workspace/symbol", "params": {"query": ""}}) for one in ids),
            message(SHUTDOWN), message(EXIT)]
    status, found = answers(program, *map(frame, sent))
    assert (status, codes(found)) == (0, [(1, None), *((one, None) for one in ids), (99, None)]), found


@CASES.case
def cut_messages(program: str) -> None:
    """Input that ends inside a message, or a header without a length, ends the server with status 1, and its linter with it."""
    for sent in (b"Content-Length: 100\r\n\r\n{", b"Content-Length: 5", b"Content-Length: x\r\n\r\n{}", b"Content-Length: -1\r\n\r\n{}",
                 b"Hello\r\n\r\n{}", b"\r\n\r\n"):
        editor = start(program, FILES)
        (child, *_) = linters(editor.child.pid)
        editor.send_bytes(sent)
        if sent.startswith(b"Content-Length: 100") or sent.endswith(b"5"):
            editor.child.stdin.close()
        assert editor.child.wait(timeout=60) == 1, sent
        assert not os.path.exists(f"/proc/{child}"), sent
        shutil.rmtree(editor.root)


@CASES.case
def the_editor_is_gone(program: str) -> None:
    editor = start(program, FILES)
    (child, *_) = linters(editor.child.pid)
    editor.child.stdin.close()
    assert editor.child.wait(timeout=60) == 1
    deadline = time.monotonic() + 5
    while os.path.exists(f"/proc/{child}"):
        assert time.monotonic() < deadline, "the linter still runs"
        time.sleep(0.1)
    shutil.rmtree(editor.root)


@CASES.case
def closed_streams(program: str) -> None:
    """A server that has no editor says so in one line."""
    for where in ("<&-", ">&-"):
        done = subprocess.run(["sh", "-c", f'exec "$@" {where}', "sh", sys.executable, str(SERVER), "--program", program],
                              stdin=subprocess.DEVNULL, stdout=subprocess.PIPE, stderr=subprocess.PIPE, text=True, check=False)
        said = "actionlint-lsp: standard input or standard output is closed\n"
        assert (done.returncode, done.stdout, done.stderr) == (3, "", said), (where, done)


def bytes_in(pipe: int) -> int:
    """How many bytes a pipe holds."""
    count = bytearray(4)
    fcntl.ioctl(pipe, termios.FIONREAD, count)
    return int.from_bytes(count, sys.byteorder)


@CASES.case
def streams_that_do_not_block(program: str) -> None:
    """Input that isn't there yet and output that is full, both non-blocking: the server waits, and all answers are whole."""
    (asked, asking), (answering, answered) = os.pipe(), os.pipe()
    os.set_blocking(asked, False)
    os.set_blocking(answered, False)
    room = fcntl.fcntl(answered, fcntl.F_SETPIPE_SZ, 4_096)
    ids = [f"{number:05000}" for number in range(10)]
    with subprocess.Popen([sys.executable, str(SERVER), "--program", program], stdin=asked, stdout=answered) as child:
        os.close(asked)
        os.close(answered)
        with open(asking, "wb", 0) as sent, open(answering, "rb") as told:
            sent.write(frame(message(INITIALIZE)))
            assert read_message(told)["id"] == 1
            time.sleep(0.5)
            assert child.poll() is None, "the server ended"
            sent.write(b"".join(frame(message({"id": one, "method": "test/unknown"})) for one in ids))
            deadline = time.monotonic() + 60
            while bytes_in(answering) < room:
                assert time.monotonic() < deadline, "the output isn't filled"
                time.sleep(0.05)
            sent.write(frame(message(SHUTDOWN)) + frame(message(EXIT)))
            rest = told.read()
    assert child.returncode == 0 and re.findall(r'"id": ?"?(\d+)', rest.decode()) == [*ids, "99"], rest


@CASES.case
def an_editor_that_reads_nothing(program: str) -> None:
    """A message that can't be sent doesn't end the server before its input does."""
    reading, writing = os.pipe()
    os.close(reading)
    child = subprocess.Popen([sys.executable, str(SERVER), "--program", program], stdin=subprocess.PIPE, stdout=writing)
    os.close(writing)
    for _ in range(3):
        child.stdin.write(frame(message(INITIALIZE)))
        child.stdin.flush()
        time.sleep(0.3)
    assert child.poll() is None
    child.stdin.close()
    assert child.wait(timeout=60) == 1


if __name__ == "__main__":
    sys.exit(CASES.run(sys.argv[1:]))
