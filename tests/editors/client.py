"""A client of the language server, without an editor: frames messages, and reads what comes. (LSP 3.17, base protocol.)"""
import json
import pathlib
import resource
import shlex
import subprocess
from typing import Any

MOST_SECONDS = 120


def framed(body: object) -> bytes:
    """A message with this body: a value of JSON, or bytes as they are."""
    text = body if isinstance(body, bytes) else json.dumps(body, ensure_ascii=False).encode()
    return b"Content-Length: %d\r\n\r\n%s" % (len(text), text)


def unframed(stream: bytes) -> list[Any]:
    """The bodies of a stream that was read whole, as values of JSON. A ValueError where it is no such stream."""
    bodies = []
    while stream:
        head, found, rest = stream.partition(b"\r\n\r\n")
        name, colon, length = head.partition(b": ")
        if not found or not colon or name != b"Content-Length":
            raise ValueError(f"no message begins with {stream[:40]!r}")
        if len(rest) < int(length):
            raise ValueError("the last message is cut off")
        bodies.append(json.loads(rest[:int(length)]))
        stream = rest[int(length):]
    return bodies


def request(number: int | str, method: str, **params: Any) -> dict[str, Any]:
    return {"jsonrpc": "2.0", "id": number, "method": method, "params": params}


def notification(method: str, **params: Any) -> dict[str, Any]:
    return {"jsonrpc": "2.0", "method": method, "params": params}


def opened(uri: str, text: str, version: int = 1) -> dict[str, Any]:
    document = {"uri": uri, "languageId": "raftbench", "version": version, "text": text}
    return notification("textDocument/didOpen", textDocument=document)


def changed(uri: str, version: int, *changes: Any) -> dict[str, Any]:
    return notification("textDocument/didChange", textDocument={"uri": uri, "version": version}, contentChanges=list(changes))


def recorder(program: pathlib.Path, room: pathlib.Path) -> pathlib.Path:
    """A program that runs this one, and writes into the folder, to files of that run, what it is sent and what it tells: some clients begin anew."""
    script = pathlib.Path(room, "recorder")
    sent, told, run = (shlex.quote(str(it)) for it in (room / "sent", room / "told", program))
    # It ends when the program does, also where more could still be sent.
    script.write_text(f'#!/bin/bash\n{run} "$@" < <(tee {sent}.$$) | tee {told}.$$\nexit "${{PIPESTATUS[0]}}"\n')
    script.chmod(0o755)
    return script


def recorded(room: pathlib.Path) -> list[tuple[bool, Any]]:
    """What a recorder wrote, as a conversation, run by run: of each message whether the client sent it, and the message."""
    return [
        (from_client, message)
        for sent in sorted(room.glob("sent.*"), key=lambda path: path.stat().st_mtime_ns)
        for from_client, path in ((True, sent), (False, sent.with_name(f"told{sent.suffix}")))
        for message in unframed(path.read_bytes())
    ]


class Client:
    """A server that runs, and the conversation with it. As a context it is ended behind the block. It may have so many bytes of addresses. What is
    said stands in `talk`, as recorded() has it, where it is to be kept."""

    def __init__(self, program: pathlib.Path, addresses: int | None = None, *, keeps: bool = False) -> None:
        self.talk: list[tuple[bool, Any]] = []
        self.keeps = keeps
        narrow = None if addresses is None else lambda: resource.setrlimit(resource.RLIMIT_AS, (addresses, addresses))
        self.server = subprocess.Popen([program, "lsp"], stdin=subprocess.PIPE, stdout=subprocess.PIPE, stderr=subprocess.PIPE, preexec_fn=narrow)

    def __enter__(self) -> "Client":
        return self

    def __exit__(self, *error: object) -> None:
        self.server.kill()
        self.server.communicate()

    def keep(self, from_client: bool, body: Any) -> None:
        if self.keeps:
            self.talk.append((from_client, body))

    def send(self, body: Any) -> None:
        self.keep(True, body)
        assert self.server.stdin
        self.server.stdin.write(framed(body))
        self.server.stdin.flush()

    def receive(self) -> Any:
        """The next message. An EOFError where there is none."""
        assert self.server.stdout
        length = -1
        while (line := self.server.stdout.readline()) != b"\r\n":
            if not line:
                raise EOFError("the server wrote nothing more")
            length = int(line.removeprefix(b"Content-Length: "))
        body = json.loads(self.server.stdout.read(length))
        self.keep(False, body)
        return body

    def ask(self, number: int, method: str, **params: Any) -> Any:
        """The result of a request, or what is wrong with it."""
        self.send(request(number, method, **params))
        answer = self.receive()
        return answer["result"] if "result" in answer else answer["error"]

    def begin(self, *encodings: str, related: bool | None = None, options: Any = None, pulls: bool = False, runs: list[str] | None = None) -> Any:
        """Says that columns may count in these, besides UTF-16, and whether related information is taken, with which settings, whether diagnostics are
        asked for, and which commands it runs, where that is given; gives the name of what the server took. What else it can do stands in
        `capabilities`."""
        general = {"general": {"positionEncodings": list(encodings)}} if encodings else {}
        documents: dict[str, Any] = {} if related is None else {"publishDiagnostics": {"relatedInformation": related}}
        if pulls:
            documents["diagnostic"] = {}
        commands = {} if runs is None else {"experimental": {"commands": {"commands": runs}}}
        settings = {} if options is None else {"initializationOptions": options}
        capabilities = general | ({"textDocument": documents} if documents else {}) | commands
        self.send(request(0, "initialize", processId=None, rootUri=None, capabilities=capabilities, **settings))
        answer = self.receive()
        self.send(notification("initialized"))
        self.capabilities = answer["result"]["capabilities"]
        return self.capabilities["positionEncoding"]

    def end(self) -> int:
        """Ends it as an editor does, and gives the status."""
        self.send(request("end", "shutdown"))
        self.receive()
        self.send(notification("exit"))
        return self.server.wait(timeout=MOST_SECONDS)
