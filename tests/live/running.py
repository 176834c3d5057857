"""A server that runs for a test, and requests to it as a browser sends them, or as somebody else does."""
from __future__ import annotations

import http.client
import json
import os
import pathlib
import re
import signal
import subprocess
import time
from typing import Any

from tests.harness import PROGRAM, TOP, NotHere

COMMAND = TOP / "raftbench-live"
MOST_SECONDS = 120
# Three nodes that begin, as the documents have them (docs/SCRIPTS.md, `add-nodes`).
START = b"".join([
    b"# The first election.\nadd-nodes 3 voters=(1,2,3) index=10\n----\n",
    *(b"INFO %d started at 1/10 with voters=(1,2,3)\n" % id for id in (1, 2, 3)), b"\n",
])
CAMPAIGN = b"campaign 1\n----\nINFO 1 became candidate at term 1\n\n"


def around(**more: str) -> dict[str, str]:
    """The environment of the command. Raises NotHere if there is no program."""
    if not PROGRAM.exists():
        raise NotHere("the program")
    return {**os.environ, "RAFTBENCH": str(PROGRAM), **more}


def put(path: pathlib.Path, data: bytes) -> None:
    """Writes a file as most editors do: whole, in the place of the old one. Nobody sees a part of it."""
    new = path.with_name(f"{path.name}.new")
    new.write_bytes(data)
    new.replace(path)


def checked(path: pathlib.Path) -> str:
    """The last line of `raftbench check`, without its time."""
    done = subprocess.run([PROGRAM, "check", path], capture_output=True, text=True, check=False)
    return re.sub(r", [\d.]+ s$", "", done.stdout.rstrip("\n").rpartition("\n")[2])


class Running:
    """A server on a script. As a context it ends with its block."""

    def __init__(self, path: pathlib.Path, *words: str) -> None:
        self.process = subprocess.Popen([COMMAND, path, "--no-browser", *words], stdout=subprocess.PIPE, stderr=subprocess.PIPE, text=True, env=around())
        assert self.process.stdout
        self.address = self.process.stdout.readline().strip()
        found = re.fullmatch(r"http://127\.0\.0\.1:(\d+)/#key=([\w-]+)", self.address)
        if not found:
            raise RuntimeError(f"no address: {self.address!r}, {self.process.communicate()[1]}")
        self.port, self.key = int(found[1]), found[2]
        self.token, self.state = "", dict[str, Any]()

    def __enter__(self) -> Running:
        return self

    def __exit__(self, *_: object) -> None:
        self.process.kill()
        self.process.communicate()

    def stop(self) -> tuple[int, str]:
        """Ends it as a terminal does. Gives its status, and what it wrote of errors."""
        self.process.send_signal(signal.SIGINT)
        errors = self.process.communicate(timeout=MOST_SECONDS)[1]
        return self.process.returncode, errors

    @property
    def host(self) -> str:
        """The name by which the server is asked."""
        return f"127.0.0.1:{self.port}"

    def request(self, method: str, path: str, body: bytes | None = None, **headers: str) -> tuple[int, dict[str, str], bytes]:
        """What a request is answered with: status, headers and body. Names of headers are written with `_` for `-`; an empty one isn't sent."""
        connection = http.client.HTTPConnection("127.0.0.1", self.port, timeout=MOST_SECONDS)
        given = {"Host": self.host, **{name.replace("_", "-"): value for name, value in headers.items()}}
        connection.putrequest(method, path, skip_host=True, skip_accept_encoding=True)
        for name, value in {**given, **({} if body is None else {"Content-Length": str(len(body))})}.items():
            if value:
                connection.putheader(name, value)
        connection.endheaders(body)
        answer = connection.getresponse()
        found = answer.status, {name: value for name, value in answer.getheaders()}, answer.read()
        connection.close()
        return found

    def post(self, path: str, asked: object, **headers: str) -> tuple[int, Any]:
        """What the page asks for, as its own page does. Gives the status and the value of JSON, or the text."""
        own = {"Origin": f"http://{self.host}", "Content_Type": "application/json", "Authorization": f"Bearer {self.token}", "Sec_Fetch_Site": "same-origin"}
        status, told, body = self.request("POST", path, json.dumps(asked).encode(), **{**own, **headers})
        return status, json.loads(body) if told.get("Content-Type") == "application/json" else body.decode()

    def enter(self) -> Running:
        """Exchanges the key for the token, and looks at the script."""
        status, told = self.post("/enter", {"key": self.key})
        assert status == 200, told
        self.token = told["token"]
        self.look()
        return self

    def look(self, **asked: object) -> dict[str, Any]:
        """Looks at the script as it is."""
        status, self.state = self.post("/state", asked)
        assert status == 200, self.state
        return self.state

    def comes(self, what: str, wanted: object) -> None:
        """Looks until something is said of the script; a text may be a part of what is said."""
        until = time.monotonic() + MOST_SECONDS
        while time.monotonic() < until:
            found = self.look()[what]
            if found == wanted or isinstance(wanted, str) and wanted and wanted in str(found):
                return
        raise AssertionError(f"{what} is {self.state[what]!r}, and not {wanted!r}")

    def do(self, kind: str, **asked: object) -> tuple[int, Any]:
        """Does something to the script as it was seen last; what comes of it is seen then."""
        status, told = self.post("/do", {"do": kind, "version": self.state["version"], "branch": self.state["branch"], **asked})
        if status == 200:
            self.state = told
        return status, told

    def text(self) -> bytes:
        """The script as the page has it."""
        return next((str(row[1]).encode("latin-1") for row in self.state["rows"] if row[0] == "text"), b"")
