"""A server that finds no memory: for the run of a document, or at any of its allocations.

What it says then is one of two texts, by docs/USING.md: one diagnostic of the first line, or an error of a request (JSON-RPC 2.0, section 5.1).
"""
import concurrent.futures
import os
import pathlib
import subprocess
import tempfile
from collections.abc import Iterator
from typing import Any

from tests.editors.client import MOST_SECONDS, Client, changed, framed, notification, opened, request, unframed
from tests.harness import TOP

NO_RUN = {"range": {"start": {"line": 0, "character": 0}, "end": {"line": 1, "character": 0}}, "severity": 1, "code": "no-memory", "source": "raftbench",
          "message": "no memory for a run of this script"}
NO_ANSWER = {"code": -32603, "message": "no memory for an answer"}
WANTED = 5
MET = b"refused\n"
# How many allocations are refused, each in a run of its own.
MOST_RUNS = 300
DEAR, OTHER = "file:///dear.txt", "file:///other.txt"
SMALL = "log-level debug\n----\nno\n"


def script_of(*heads: str) -> str:
    return "".join(f"{head}\n----\n\n" for head in heads)


# A leader of 32 nodes that ticks before it sends anything: it has half a million messages to send.
UNSENT = script_of("log-level none", f"add-nodes 32 voters=({','.join(map(str, range(1, 33)))}) index=10", "campaign 1", "stabilize", *["tick-heartbeat 1"] * 16_000)
ADDRESSES = 56_000 << 10


# ---- a run that wants for memory

def run_without_memory(program: pathlib.Path) -> Iterator[str]:
    """The document whose run finds no memory says so; another stays as it is; and the first is itself again when its text is."""
    with Client(program, ADDRESSES) as client:
        client.begin()
        for uri, version, text, due in ((OTHER, 1, SMALL, "mismatch"), (DEAR, 1, UNSENT, "no-memory"), (DEAR, 2, UNSENT + "# more\n", "no-memory"),
                                        (OTHER, 2, SMALL + "# more\n", "mismatch"), (DEAR, 3, SMALL, "mismatch")):
            client.send(changed(uri, version, {"text": text}) if version > 1 else opened(uri, text))
            told = client.receive()["params"]
            if (told["uri"], told["version"]) != (uri, version) or [it["code"] for it in told["diagnostics"]] != [due]:
                yield f"{uri}, version {version}: {str(told)[:300]}"
            if due == "no-memory":
                if told["diagnostics"] != [NO_RUN]:
                    yield f"{uri}: {told['diagnostics']}"
                error = client.ask(version, "textDocument/hover", textDocument={"uri": uri}, position={"line": 0, "character": 0})
                if error != NO_ANSWER:
                    yield f"{uri}: {str(error)[:300]}"
        if (status := client.end()) != 0:
            yield f"status {status}"


# ---- an allocation that is refused

def conversation() -> list[Any]:
    """Two documents that are opened, changed and asked about, one behind the other and between them."""
    place = {"line": 0, "character": 0}
    whole = {"start": place, "end": {"line": 9, "character": 0}}
    bodies = [request(0, "initialize", capabilities={"textDocument": {"publishDiagnostics": {"relatedInformation": True}}}), notification("initialized"), opened(DEAR, SMALL), opened(OTHER, SMALL + "\n" + SMALL)]
    for version in 2, 3:
        for uri in DEAR, OTHER:
            bodies.append(changed(uri, version, {"range": {"start": place, "end": place}, "text": "# a comment\n"}))
            bodies.append(request(f"{uri}{version}", "textDocument/hover", textDocument={"uri": uri}, position={"line": version, "character": 0}))
            bodies.append(request(f"{version}{uri}", "textDocument/codeAction", textDocument={"uri": uri}, range=whole, context={"diagnostics": []}))
    return [*bodies, request(1, "shutdown"), notification("exit")]


class Refusing:
    """The server in that conversation, where allocations are refused."""

    def __init__(self, program: pathlib.Path, folder: pathlib.Path) -> None:
        self.program, self.library = program, folder / "refuse.so"
        self.sent = b"".join(framed(body) for body in conversation())
        subprocess.run(["cc", "-shared", "-fPIC", "-O2", "-o", self.library, TOP / "tests" / "faults" / "refuse.c", "-ldl"], check=True)
        self.due, _, _ = self.talked(0, False)

    def talked(self, at: int, onwards: bool) -> tuple[list[Any], bool, int]:
        """What it writes where this allocation is refused, and those behind it too or not; whether there was such a one; and its status."""
        around = dict(os.environ, REFUSE_AT=str(at), LD_PRELOAD=str(self.library), **({"FROM_THERE_ON": "1"} if onwards else {}))
        done = subprocess.run([self.program, "lsp"], input=self.sent, capture_output=True, env=around, timeout=MOST_SECONDS)
        return unframed(done.stdout), MET in done.stderr, done.returncode

    def count(self) -> int:
        """How many allocations there are, or somewhat fewer."""
        low, high = 0, 1
        while self.talked(high, False)[1]:
            low, high = high, 2 * high
        while high - low > max(1, low // 50):
            middle = (low + high) // 2
            low, high = (middle, high) if self.talked(middle, False)[1] else (low, middle)
        return low

    def look(self, at: int, onwards: bool) -> tuple[str | None, list[str]]:
        """What is wrong where this allocation is refused, or None; and which messages said that there was no memory."""
        came, _, status = self.talked(at, onwards)
        wanting = [n for n, (it, due) in enumerate(zip(came, self.due)) if it != due]
        others = [it for n, it in enumerate(came) if n in wanting and not is_want(it, self.due[n])]
        whole = status == 0 and len(came) == len(self.due)
        if others or len(wanting) > 1 or not (whole or status == WANTED and len(came) <= len(self.due)):
            return f"allocation {at}{' and all behind it' if onwards else ''} refused: status {status}, {len(came)} of {len(self.due)} messages, {others}", []
        return None, ["error" if "error" in came[n] else "diagnostic" for n in wanting]


def is_want(came: Any, due: Any) -> bool:
    """Whether a message says that there was no memory, in the place of one that is due."""
    if "error" in came:
        return bool(came == {"jsonrpc": "2.0", "id": due["id"], "error": NO_ANSWER})
    return bool(came == due | {"params": due["params"] | {"diagnostics": [NO_RUN]}})


def refused_allocations(program: pathlib.Path) -> Iterator[str]:
    """Each is refused in turn, or some of them, where there are many: what is wrong."""
    with tempfile.TemporaryDirectory() as room, concurrent.futures.ThreadPoolExecutor(os.cpu_count()) as lanes:
        server = Refusing(program, pathlib.Path(room))
        count = server.count()
        tried = [(at, onwards) for at in range(1, count + 1, max(1, count // MOST_RUNS)) for onwards in (False, True)]
        looks = list(lanes.map(lambda it: server.look(*it), tried))
    yield from (wrong for wrong, _ in looks if wrong)
    said = {kind for _, kinds in looks for kind in kinds}
    if said != {"diagnostic", "error"}:
        yield f"of {count} allocations none was refused for {sorted({'diagnostic', 'error'} - said)}"
