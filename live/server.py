"""An HTTP server for one user, on threads of Python's own library. It reads and writes no path but the script's. Only the request that waits for
changes stays open.
"""
from __future__ import annotations

import contextlib
import http.server
import json
import queue
import socket
import socketserver
import threading
from collections.abc import Callable
from typing import Any

from .branch import Branch
from .edits import Doubtful
from .guard import ADDRESS, Guard
from .language import Language
from .live import Live
from .program import Refused
from .shell import Files
from .theirs import Theirs

MOST_BODY = 1 << 20
MOST_THREADS = 64
MOST_SECONDS = 10
JSON = "application/json"
Theirs_of = Callable[[bytes], Theirs]


class Served:
    """What a server has: the script, the files, who may ask, the language server, and perhaps the user's own nodes."""

    def __init__(self, live: Live, files: Files, guard: Guard, theirs: Theirs_of | None = None) -> None:
        self.live, self.files, self.guard, self.theirs = live, files, guard, theirs
        self.language = Language(live.program.path)


class Bad(Exception):
    """A request that is answered with a status and a sentence."""

    def __init__(self, status: int, text: str) -> None:
        super().__init__(text)
        self.status = status


class Handler(http.server.BaseHTTPRequestHandler):
    """Answers the requests of a connection."""

    protocol_version = "HTTP/1.1"
    server_version = "raftbench-live"
    sys_version = ""
    # A request that isn't whole by then is ended.
    timeout = MOST_SECONDS
    # An answer goes out as one piece, at once.
    wbufsize = -1
    disable_nagle_algorithm = True
    served: Served

    def log_message(self, *_: object) -> None:
        """Nothing is logged."""

    def answer(self, status: int, body: bytes, kind: str = "text/plain; charset=utf-8") -> None:
        """Writes an answer."""
        self.send_response(status)
        self.add_headers({"Content-Type": kind, "Content-Length": str(len(body))})
        self.end_headers()
        self.wfile.write(body)

    def add_headers(self, more: dict[str, str]) -> None:
        """Writes these headers, and those of each answer."""
        always = {
            "Content-Security-Policy": self.served.guard.policy(), "X-Content-Type-Options": "nosniff", "Referrer-Policy": "no-referrer",
            "Cache-Control": "no-store", "Cross-Origin-Resource-Policy": "same-origin", "Cross-Origin-Opener-Policy": "same-origin",
        }
        for name, value in {**more, **always}.items():
            self.send_header(name, value)

    def do_GET(self) -> None:
        """Answers a file, or the stream of changes."""
        self.guarded(self.get)

    def do_POST(self) -> None:
        """Answers what the page asks for."""
        self.guarded(self.post)

    def guarded(self, does: Callable[[], None]) -> None:
        """Answers a request, or says why not; a refused one ends its connection, so that nothing of it is read as another."""
        try:
            if not self.served.guard.is_ours(self.headers):
                raise Bad(403, "this server answers only its own page")
            does()
        except Bad as bad:
            self.close_connection = True
            with contextlib.suppress(OSError):
                self.answer(bad.status, str(bad).encode())
        except (ConnectionError, TimeoutError):
            self.close_connection = True

    def get(self) -> None:
        """Answers a file of the page; changes need the token."""
        path = self.path.partition("?")[0].removeprefix("/")
        if path == "events":
            self.needs_token()
            return self.events()
        if path not in self.served.files:
            raise Bad(404, "there is no such file")
        kind, body = self.served.files[path]
        return self.answer(200, body, kind)

    def needs_token(self) -> None:
        """Refuses a request without the token."""
        if not self.served.guard.knows(self.headers):
            raise Bad(401, "open the address that raftbench-live printed when it was started")

    # ---- what the page asks for

    def post(self) -> None:
        """Answers what the page asks for, which needs the token; only that itself is asked for by a key."""
        path, length = self.path.removeprefix("/"), self.length()
        if path != "enter":
            self.needs_token()
        asked = self.body(length)
        if path == "enter":
            return self.enter(asked)
        live = self.served.live
        answers: dict[str, Callable[[dict[str, Any]], bytes]] = {
            "do": self.do, "state": self.state, "rows": live.rows, "may": live.may, "losses": live.losses, "ask": self.ask, "theirs": self.theirs,
        }
        if path not in answers:
            raise Bad(404, "that can't be asked for")
        try:
            return self.answer(200, answers[path](asked), JSON)
        except (Refused, OSError) as fault:
            said = {"fault": str(fault), "asks": isinstance(fault, Doubtful), "version": live.version}
            return self.answer(409, json.dumps(said).encode(), JSON)

    def length(self) -> int:
        """How long the body of a request is, which has to be of the page, and not too long."""
        if self.headers.get("Origin") is None or self.headers.get("Content-Type") != JSON:
            raise Bad(403, "this server answers only its own page")
        length = self.headers.get("Content-Length", "")
        if not length.isdecimal() or self.headers.get("Transfer-Encoding"):
            raise Bad(411, "the length of the request is missing")
        # Python reads no number of thousands of digits.
        if len(length) > len(str(MOST_BODY)) or int(length) > MOST_BODY:
            raise Bad(413, "a request may have 1,048,576 bytes")
        return int(length)

    def body(self, length: int) -> dict[str, Any]:
        """The object that a request has. A body that comes too slowly, or not whole, ends the request."""
        data = self.rfile.read(length)
        if len(data) < length:
            raise Bad(400, "the request was cut off")
        try:
            asked = json.loads(data)
        except (ValueError, RecursionError):
            raise Bad(400, "the request isn't JSON") from None
        if not isinstance(asked, dict):
            raise Bad(400, "the request isn't an object")
        return asked

    def enter(self, asked: dict[str, Any]) -> None:
        """Gives the token for a key."""
        if not self.served.guard.enters(asked.get("key")):
            raise Bad(401, "this key doesn't open, or was used before: open the address that raftbench-live printed when it was started")
        self.answer(200, json.dumps({"token": self.served.guard.token}).encode(), JSON)

    def state(self, asked: dict[str, Any]) -> bytes:
        """The script as it is."""
        live = self.served.live
        with live.lock:
            return self.shown(live.branch_or_home(asked), asked)

    def do(self, asked: dict[str, Any]) -> bytes:
        """Does something to the script, and gives what it is then."""
        return self.shown(self.served.live.do(asked), asked)

    def shown(self, branch: Branch, asked: dict[str, Any]) -> bytes:
        """A page that says which version it `has` of this branch gets what has changed since; another one gets all."""
        return self.served.live.state(branch, asked.get("has") if asked.get("branch") == branch.number else None)

    def ask(self, asked: dict[str, Any]) -> bytes:
        """What may be written at a place of a directive that is being edited: the text of the script with it in its place."""
        live = self.served.live
        given, place, line, character = asked.get("text"), asked.get("place"), asked.get("line"), asked.get("character")
        if not isinstance(given, str) or not all(isinstance(it, int) and it >= 0 for it in (place, line, character)):
            raise Refused("that can't be asked for")
        with live.lock:
            blocks = live.branch(asked).shown.blocks
        above = min(len(blocks), int(place or 0) if asked.get("isNew") else max(0, int(place or 0) - 1))
        last = [block.closed() for block in blocks.between(max(0, above - 1), above)]
        before = blocks[:above].with_these(above - len(last), above, last).text.decode("utf-8", "replace")
        first = before.count("\n")
        text = f"{before}{given}\n----\n"
        found = self.served.language.at(text, first, text.count("\n"), first + int(line or 0), int(character or 0))
        return json.dumps(found).encode()

    def theirs(self, asked: dict[str, Any]) -> bytes:
        """What the user's own nodes do with the script."""
        if not self.served.theirs:
            return b"null"
        live = self.served.live
        with live.lock:
            branch = live.branch(asked)
            data, heads, version = branch.data, tuple(branch.shown.blocks.heads()), live.version
        return json.dumps({"version": version, **self.served.theirs(data).shown(heads)}).encode()

    # ---- what the page hears

    def events(self) -> None:
        """Tells which version there is, at each change and every few seconds: so the server is there, and whoever missed a change hears of it."""
        told: queue.Queue[str] = queue.Queue(100)
        live = self.served.live
        live.watchers.append(told)
        told.put(f"version {live.version}")
        try:
            self.send_response(200)
            self.add_headers({"Content-Type": "text/event-stream", "Connection": "close"})
            self.end_headers()
            self.close_connection = True
            while True:
                try:
                    text = told.get(timeout=5)
                except queue.Empty:
                    text = f"version {live.version}"
                self.wfile.write(f"data: {text}\n\n".encode())
                self.wfile.flush()
        finally:
            live.watchers.remove(told)


class Server(socketserver.ThreadingMixIn, http.server.HTTPServer):
    """One that listens on this machine alone, and answers so many requests at a time."""

    daemon_threads = True
    allow_reuse_address = True

    def __init__(self, served: Served, port: int) -> None:
        self.places = threading.Semaphore(MOST_THREADS)
        super().__init__((ADDRESS, port), type("Bound", (Handler,), {"served": served}))
        served.guard.listen(self.server_address[1])

    def server_bind(self) -> None:
        """As TCPServer does; HTTPServer would ask for the machine's name, which may take seconds."""
        socketserver.TCPServer.server_bind(self)
        self.server_name, self.server_port = ADDRESS, self.server_address[1]

    def process_request(self, request: Any, client_address: Any) -> None:
        """Gives a connection a thread, or ends it if too many are open."""
        if self.places.acquire(blocking=False):
            super().process_request(request, client_address)
        else:
            self.shutdown_request(request)

    def process_request_thread(self, request: socket.socket | tuple[bytes, socket.socket], client_address: Any) -> None:
        """Serves a connection, and makes room for another one."""
        try:
            super().process_request_thread(request, client_address)
        finally:
            self.places.release()

    def handle_error(self, *_: object) -> None:
        """A browser that has gone is no error; a fault of our own is written where it is seen."""
        import sys
        import traceback
        if not isinstance(sys.exc_info()[1], (ConnectionError, TimeoutError)):
            traceback.print_exc()
