"""A client of `raftbench lsp`: completions and diagnostics of a directive while it is written."""
from __future__ import annotations

import itertools
import json
import pathlib
import subprocess
import threading
from typing import Any

from .program import Refused

URI = "file:///script.txt"


class Language:
    """A language server with one document, which is the script as it is being edited. It is started when it is first asked."""

    def __init__(self, program: pathlib.Path) -> None:
        self.program = program
        self.lock = threading.Lock()
        self.numbers = itertools.count(1)
        self.process: subprocess.Popen[bytes] | None = None
        self.diagnostics: list[dict[str, Any]] = []

    def close(self) -> None:
        """Ends the language server. Whoever still waits for an answer of it is told that it has ended."""
        process = self.process
        if process:
            process.kill()
        with self.lock:
            self._end()

    def _end(self) -> None:
        """Ends it, for one who holds the lock."""
        if self.process:
            self.process.kill()
            self.process.communicate()
            self.process = None

    def _start(self) -> None:
        """Starts it with an empty document."""
        self.process = subprocess.Popen([self.program, "lsp"], stdin=subprocess.PIPE, stdout=subprocess.PIPE, stderr=subprocess.DEVNULL)
        self._request("initialize", processId=None, rootUri=None, capabilities={})
        self._send("initialized", {})
        self._send("textDocument/didOpen", {"textDocument": {"uri": URI, "languageId": "raftbench", "version": 0, "text": ""}})

    def _send(self, method: str, params: dict[str, Any], number: int | None = None) -> None:
        """Sends a notification or, with a number, a request."""
        assert self.process and self.process.stdin
        body = json.dumps({"jsonrpc": "2.0", "method": method, "params": params, **({} if number is None else {"id": number})}).encode()
        self.process.stdin.write(b"Content-Length: %d\r\n\r\n%s" % (len(body), body))
        self.process.stdin.flush()

    def _body(self) -> bytes:
        """The next message, as it is sent."""
        assert self.process and self.process.stdout
        length = 0
        while (line := self.process.stdout.readline()) != b"\r\n":
            if not line:
                raise Refused("the language server has ended")
            name, _, value = line.partition(b":")
            length = int(value) if name.lower() == b"content-length" else length
        return self.process.stdout.read(length)

    def _receive(self) -> dict[str, Any]:
        """The next message; diagnostics are kept."""
        message: dict[str, Any] = json.loads(self._body())
        if message.get("method") == "textDocument/publishDiagnostics":
            self.diagnostics = message["params"]["diagnostics"]
        return message

    def _request(self, method: str, **params: Any) -> Any:
        """The result of a request."""
        number = next(self.numbers)
        self._send(method, params, number)
        while (message := self._receive()).get("id") != number:
            pass
        return message.get("result")

    def at(self, text: str, first: int, last: int, line: int, character: int) -> dict[str, Any]:
        """What a text may have at a place, and what is wrong between two lines of it (from 0; `last` isn't one of them)."""
        with self.lock:
            try:
                if self.process is None:
                    self._start()
                change = {"textDocument": {"uri": URI, "version": next(self.numbers)}, "contentChanges": [{"text": text}]}
                self._send("textDocument/didChange", change)
                items = self._request("textDocument/completion", textDocument={"uri": URI}, position={"line": line, "character": character}) or []
            except (OSError, ValueError) as fault:
                self._end()
                raise Refused(f"the language server has failed: {fault}") from None
        listed = items["items"] if isinstance(items, dict) else items
        hints = [hint for it in self.diagnostics if first <= it["range"]["start"]["line"] < last for hint in _hints(it)]
        return {"items": [_item(it, line, character) for it in listed], "hints": hints}


def _hints(diagnostic: dict[str, Any]) -> list[str]:
    """What is wrong, for the user. What is being written expects nothing yet, so of a mismatch only errors count, and what was probably meant."""
    message = str(diagnostic["message"])
    if diagnostic.get("code") != "mismatch":
        return [message]
    said = [line.removeprefix("+ ") for line in message.split("\n") if line.startswith(("+ error: ", "did you mean"))]
    return ["; ".join(said)] if said else []


def _item(item: dict[str, Any], line: int, character: int) -> dict[str, Any]:
    """A word that may be written: from which letter of the line on it stands in for what is there."""
    edit = item.get("textEdit") or {}
    where = edit.get("range") or edit.get("insert") or {"start": {"line": line, "character": character}}
    said = item.get("documentation") or item.get("detail") or ""
    text = str(edit.get("newText") or item.get("insertText") or item["label"]).split("\n")[0]
    return {"label": item["label"], "text": text.replace("$0", ""), "from": where["start"]["character"], "says": said["value"] if isinstance(said, dict) else said}
