"""The server, without a browser: whom it answers, what it refuses, and that what one does becomes the script."""
from __future__ import annotations

import json
import os
import pathlib
import re
import socket
import subprocess
from collections.abc import Iterator

from tests.live.edited import steps_in
from tests.live.running import CAMPAIGN, COMMAND, MOST_SECONDS, START, Running, around, checked, put


def script(room: pathlib.Path, data: bytes = START + CAMPAIGN) -> pathlib.Path:
    path = room / "script.txt"
    path.write_bytes(data)
    return path


# Who may ask


def test_listens_on_this_machine_alone(room: pathlib.Path) -> None:
    """/proc/net/tcp has each socket that listens (proc(5)): 0A is LISTEN, and an address is written as a number of this machine's order."""
    with Running(script(room)) as server:
        listening = [row.split()[1] for row in pathlib.Path("/proc/net/tcp").read_text().splitlines()[1:] if row.split()[3] == "0A"]
        own = [address for address in listening if int(address.split(":")[1], 16) == server.port]
        six = [row.split()[1] for row in pathlib.Path("/proc/net/tcp6").read_text().splitlines()[1:] if row.split()[3] == "0A"] if pathlib.Path("/proc/net/tcp6").exists() else []
        assert own == [f"0100007F:{server.port:04X}"], own
        assert not [it for it in six if int(it.split(":")[1], 16) == server.port]


def test_listens_on_the_port_that_is_asked_for(room: pathlib.Path) -> None:
    with socket.socket() as free:
        free.bind(("127.0.0.1", 0))
        port = str(free.getsockname()[1])
    with Running(script(room), "--port", port) as server:
        assert server.port == int(port)
        done = subprocess.run([COMMAND, room / "script.txt", "--port", port, "--no-browser"], capture_output=True, text=True, env=around(), timeout=MOST_SECONDS, check=False)
        assert (done.returncode, done.stdout) == (4, "") and f"port {port} can't be had: Address already in use" in done.stderr, done


def test_refuses_those_without_the_token(room: pathlib.Path) -> Iterator[str]:
    with Running(script(room)) as server:
        for path in ("/state", "/do", "/may", "/losses", "/ask", "/theirs"):
            for token in ("", "Bearer ", "Bearer wrong", f"Bearer {server.key}"):
                status, told = server.post(path, {}, Authorization=token)
                if status != 401 or "printed" not in str(told):
                    yield f"{path} with {token!r}: {status} {told}"
        status, _, told_bytes = server.request("GET", "/events")
        if status != 401:
            yield f"/events: {status} {told_bytes!r}"
        for key in ("", "wrong", None, 7, server.key[:-1]):
            if server.post("/enter", {"key": key})[0] != 401:
                yield f"the key {key!r} opens"


def test_refuses_other_hosts_and_origins(room: pathlib.Path) -> Iterator[str]:
    with Running(script(room)).enter() as server:
        other = f"http://127.0.0.1:{server.port + 1}"
        for headers in ({"Host": "evil.example"}, {"Host": f"evil.example:{server.port}"}, {"Host": ""}, {"Origin": "http://evil.example"}, {"Origin": "null"}, {"Origin": other},
                        {"Sec_Fetch_Site": "cross-site"}, {"Sec_Fetch_Site": "same-site"}, {"Origin": ""}, {"Content_Type": "text/plain"}):
            status, told = server.post("/state", {}, **headers)
            if status != 403:
                yield f"{headers}: {status} {told}"
        for headers in ({"Host": "evil.example"}, {"Sec_Fetch_Site": "cross-site"}, {"Sec_Fetch_Site": "cross-site", "Sec_Fetch_Mode": "navigate", "Sec_Fetch_Dest": "iframe"}):
            if server.request("GET", "/", None, **headers)[0] != 403:
                yield f"the page for {headers}"
        assert server.post("/state", {})[0] == 200
        assert server.post("/state", {}, Host=f"localhost:{server.port}", Origin=f"http://localhost:{server.port}")[0] == 200


def test_keeps_a_strict_policy(room: pathlib.Path) -> Iterator[str]:
    """https://www.w3.org/TR/CSP3/: nothing but its own files, no text that becomes code, and in no frame of others."""
    wanted = {"default-src 'none'", "script-src 'self'", "style-src 'self'", "connect-src 'self'", "frame-src 'self'", "base-uri 'none'", "form-action 'none'",
              "frame-ancestors 'self'", "require-trusted-types-for 'script'"}
    with Running(script(room)) as server:
        for path in ("/", "/live.js", "/style.css", "/nothing"):
            _, headers, body = server.request("GET", path)
            if set(headers["Content-Security-Policy"].split("; ")) != wanted:
                yield f"{path}: {headers['Content-Security-Policy']}"
            if (headers["X-Content-Type-Options"], headers["Referrer-Policy"], headers["Cache-Control"]) != ("nosniff", "no-referrer", "no-store"):
                yield f"{path}: {headers}"
            if server.key.encode() in body:
                yield f"{path} has the key"
        page = server.request("GET", "/")[2].decode()
        yield from (f"the page has {it}" for it in re.findall(r"<script>|<style>|\bon\w+=|\bstyle=|https?://[^w]", page))
    with Running(script(room), "--in-editor", "vscode") as server:
        status, headers, _ = server.request("GET", "/", None, Sec_Fetch_Site="cross-site", Sec_Fetch_Mode="navigate", Sec_Fetch_Dest="iframe")
        if status != 200 or "frame-ancestors 'self' vscode-webview:;" not in headers["Content-Security-Policy"]:
            yield f"in an editor: {status} {headers}"
        if server.post("/state", {}, Sec_Fetch_Site="cross-site")[0] != 403:
            yield "in an editor others may ask"


def test_a_key_for_a_browser_counts_once(room: pathlib.Path) -> None:
    """A browser that only writes down what it is started with: its address opens once, the printed one again."""
    wrote, browser = room / "address", room / "browser"
    browser.write_text(f'#!/bin/sh\nprintf %s "$1" >"{wrote}.new" && mv "{wrote}.new" "{wrote}"\n')
    browser.chmod(0o755)
    with subprocess.Popen([COMMAND, script(room)], stdout=subprocess.PIPE, text=True, env=around(BROWSER=f"{browser} %s")) as process:
        assert process.stdout
        server = Running.__new__(Running)
        server.port, server.key, server.token = int(re.split(r"[:/]", address := process.stdout.readline())[4]), address.strip().partition("key=")[2], ""
        while not wrote.exists():
            assert process.poll() is None
        once = wrote.read_text().partition("#key=")[2]
        assert once and once != server.key
        assert [server.post("/enter", {"key": key})[0] for key in (once, once, server.key, server.key)] == [200, 401, 200, 200]
        process.kill()


def test_reads_no_other_path(room: pathlib.Path) -> Iterator[str]:
    (room / "secret.txt").write_text("secret")
    with Running(script(room)) as server:
        for path in ("/secret.txt", "/../secret.txt", "/%2e%2e/secret.txt", "//etc/passwd", "/../../../../etc/passwd", "/script.txt", "/types.js", "/start.js", "/page.html",
                     f"/{room}/secret.txt", "/live.js/../secret.txt"):
            status, _, body = server.request("GET", path)
            if status != 404 or b"secret\n" in body:
                yield f"{path}: {status}"


def test_large_and_broken_requests_end(room: pathlib.Path) -> Iterator[str]:
    own = {"Content_Type": "application/json"}
    with Running(script(room)).enter() as server:
        own |= {"Origin": f"http://{server.host}", "Authorization": f"Bearer {server.token}"}
        broken: list[tuple[str, int, dict[str, str], bytes | None]] = [
            ("too large", 413, {"Content_Length": str((1 << 20) + 1)}, None), ("far too large", 413, {"Content_Length": "9" * 5000}, None), ("no length", 411, {}, None), ("a strange length", 411, {"Content_Length": "-1"}, None),
            ("chunks", 411, {"Transfer_Encoding": "chunked", "Content_Length": "5"}, None), ("no JSON", 400, {}, b"{"), ("no object", 400, {}, b"[]"),
            ("deep JSON", 400, {}, b"[" * 100_000),
        ]
        for what, status, headers, body in broken:
            found, _, told = server.request("POST", "/state", body, **{**own, **headers})
            if found != status or not told:
                yield f"{what}: {found} {told!r}"
        strange: list[dict[str, object]] = [
            {"do": "insert"}, {"do": "insert", "place": -1, "text": "x"}, {"do": "insert", "place": True, "text": "x"}, {"do": "insert", "place": 1, "text": 7},
            {"do": "nothing"}, {"do": ["save"]}, {"do": "replace", "place": 99, "text": "x"}, {"do": "undo"}, {"do": "undo", "branch": 9}, {"do": "move", "place": 1, "by": -1},
        ]
        for asked in strange:
            found, answer = server.post("/do", dict[str, object](version=0, branch=1) | asked)
            if found != 409 or not answer["fault"]:
                yield f"{asked}: {found} {answer}"
        if server.post("/state", {"branch": []})[0] != 200:
            yield "a strange branch"
        if server.look()["version"] != 0:
            yield "something has changed"


def test_slow_requests_end(room: pathlib.Path) -> Iterator[str]:
    """A head or a body that doesn't come whole is given up: the other side closes."""
    with Running(script(room)).enter() as server:
        body = f"POST /state HTTP/1.1\r\nHost: {server.host}\r\nOrigin: http://{server.host}\r\nContent-Type: application/json\r\nAuthorization: Bearer {server.token}\r\nContent-Length: 99\r\n\r\n{{"
        for what, text in {"head": "GET / HTTP/1.1\r\nHo", "body": body, "nothing": ""}.items():
            with socket.create_connection(("127.0.0.1", server.port), MOST_SECONDS) as slow:
                slow.sendall(text.encode())
                if b"HTTP/1.1 200" in slow.recv(1 << 16):
                    yield f"{what} is answered"
        if server.post("/state", {})[0] != 200:
            yield "others aren't answered any more"


def test_many_connections_are_bounded(room: pathlib.Path) -> None:
    with Running(script(room)).enter() as server:
        held = [socket.create_connection(("127.0.0.1", server.port), MOST_SECONDS) for _ in range(80)]
        tasks = len(list(pathlib.Path(f"/proc/{server.process.pid}/task").iterdir()))
        assert tasks <= 70, tasks
        for it in held:
            it.close()
        while server.request("GET", "/live.js")[0] != 200:
            pass


# What can't be played with


def test_what_is_no_script_is_named(room: pathlib.Path) -> Iterator[str]:
    os.mkfifo(room / "pipe")
    (room / "folder").mkdir()
    cases: list[tuple[list[str | pathlib.Path], int, str]] = [
        ([room / "pipe"], 4, "that isn't a file"), ([room / "folder"], 4, "that isn't a file"), ([], 2, "give FILE"),
        ([room / "x", "--port", "70000"], 2, "a port is"), (["--book", room], 2, "give FILE"), (["--book", room, "--out", room / "out"], 4, "there is no script"),
    ]
    for words, status, said in cases:
        done = subprocess.run([COMMAND, *words, "--no-browser"], capture_output=True, text=True, env=around(), timeout=MOST_SECONDS, check=False)
        if done.returncode != status or said not in done.stderr or "Traceback" in done.stderr:
            yield f"{words}: {done.returncode} {done.stderr}"


def test_a_refused_script_is_told_and_waited_for(room: pathlib.Path) -> None:
    path = script(room, b"campaign 1\n")
    with Running(path).enter() as server:
        assert "NoSeparator at line 1" in server.state["fault"] and server.state["rows"] == [], server.state
        put(path, START)
        server.comes("of", 1)
        assert (server.state["fault"], server.state["isSaved"]) == ("", True)


def test_what_cant_be_shown_isnt_written_over(room: pathlib.Path) -> Iterator[str]:
    """A file that is no script, from the beginning or since: it stays as it is, also if it is touched, until the user is sure."""
    for number, data in enumerate([b"campaign 1\n", b"# x\n" * 1_100_000]):
        path = script(room, data)
        with Running(path).enter() as server:
            if number == 0:
                os.utime(path)
                server.comes("version", 1)
            if not (server.state["fault"] and server.state["isTheirs"]) or server.state["isSaved"]:
                yield f"{server.state}"
            for does in ("nothing", "insert"):
                status, told = server.do("save")
                if status != 409 or "another text" not in told["fault"] or path.read_bytes() != data:
                    yield f"saved after {does}: {status} {told}"
                assert does == "insert" or server.do("insert", place=0, text="log-level debug")[0] == 200
            assert server.do("load")[0] == 409 and server.do("save", isSure=True)[0] == 200
            if path.read_bytes() != b"log-level debug\n----\nok\n\n" or not server.state["isSaved"] or server.state["fault"] or server.state["isTheirs"]:
                yield f"{path.read_bytes()!r} {server.state}"
            put(path, data)
            server.comes("fault", "can't be shown")
            status, told = server.do("save")
            if status != 409 or "another text" not in told["fault"] or path.read_bytes() != data or not server.look()["isTheirs"]:
                yield f"saved over what came later: {status} {told}"
            assert server.do("save", isSure=True)[0] == 200 and path.read_bytes() == b"log-level debug\n----\nok\n\n"


def test_ends_by_an_interrupt_without_a_word(room: pathlib.Path) -> None:
    with Running(script(room)).enter() as server:
        assert server.stop() == (0, "")


def test_a_directive_that_errs_is_asked_about(room: pathlib.Path) -> None:
    with Running(script(room)).enter() as server:
        status, told = server.do("insert", place=2, text="campain 1")
        assert (status, told["asks"]) == (409, True) and 'did you mean "campaign"?' in told["fault"], told
        assert server.look()["of"] == 2
        assert server.do("insert", place=2, text="campain 1", isSure=True)[0] == 200
        assert server.text().endswith(b'campain 1\n----\nerror: unknown directive "campain"\n\n')


def test_what_is_not_utf8_stays(room: pathlib.Path) -> None:
    """Bytes stay where they are; a directive with such bytes is edited letter by letter."""
    strange = b"# \xff\xfe caf\xc3\xa9\ncampaign 1\n----\nINFO 1 became candidate at term 1\n\n"
    path = script(room, START + strange)
    with Running(path).enter() as server:
        assert server.do("insert", place=2, text="raft-state")[0] == 200
        assert server.do("replace", place=2, text="# \xff\xfe caf\xc3\xa9!\ncampaign 1", isLatin=True)[0] == 200
        assert server.do("replace", place=2, text="# €\ncampaign 1", isLatin=True) == (409, {"fault": "this script isn't UTF-8, so only letters of one byte can be written into it", "asks": False, "version": 2})
        assert server.do("save")[0] == 200
    assert path.read_bytes().startswith(START + strange.replace(b"\xa9", b"\xa9!", 1)), path.read_bytes()
    assert checked(path) == "1 script, 3 directives, 0 mismatches, 0 refused"


def test_nobody_hears_what_isnt_theirs(room: pathlib.Path) -> None:
    """Two windows on one script: what one does, the other hears; what was asked about an older script isn't done."""
    with Running(script(room)).enter() as server:
        connection = socket.create_connection(("127.0.0.1", server.port), MOST_SECONDS)
        connection.sendall(f"GET /events HTTP/1.1\r\nHost: {server.host}\r\nAuthorization: Bearer {server.token}\r\n\r\n".encode())
        stream = connection.makefile("rb")
        while stream.readline() != b"\r\n":
            pass
        old = server.state["version"]
        assert server.do("insert", place=2, text="raft-state")[0] == 200
        while (line := stream.readline()) != b"data: version 1\n":
            assert line, "the server said nothing"
        status, told = server.post("/do", {"do": "remove", "place": 1, "version": old, "branch": 1})
        assert status == 409 and "has changed meanwhile" in told["fault"], told
        assert json.dumps(server.look()["of"]) == "3"
        connection.close()


def test_a_closed_browser_loses_nothing(room: pathlib.Path) -> None:
    """The next window has the unsaved script, a closed window gets no more events, and a request that breaks off disturbs no other."""
    with Running(script(room)).enter() as server:
        own = f"Host: {server.host}\r\nAuthorization: Bearer {server.token}\r\n"
        for text in (f"GET /events HTTP/1.1\r\n{own}\r\n", f"POST /do HTTP/1.1\r\n{own}Origin: http://{server.host}\r\nContent-Type: application/json\r\nContent-Length: 50\r\n\r\n{{"):
            with socket.create_connection(("127.0.0.1", server.port), MOST_SECONDS) as gone:
                gone.sendall(text.encode())
                gone.setsockopt(socket.SOL_SOCKET, socket.SO_LINGER, b"\1\0\0\0\0\0\0\0")
        assert server.do("insert", place=2, text="raft-state")[0] == 200
        other = Running.__new__(Running)
        other.port, other.key = server.port, server.key
        other.token = server.post("/enter", {"key": server.key})[1]["token"]
        assert (other.look()["of"], other.state["isSaved"], other.state["undo"]) == (3, False, 1)
        assert server.stop() == (0, "")


def test_a_page_that_is_behind_gets_what_has_changed_since(room: pathlib.Path) -> None:
    """Of the version that it has; if that is of another branch, or from long ago, it gets all rows."""
    with Running(script(room)).enter() as server:
        first = server.state["version"]
        for at in range(2, 5):
            status, told = server.post("/do", {"do": "insert", "place": at, "text": "raft-state", "version": server.state["version"], "branch": 1, "has": server.state["version"]})
            assert status == 200 and "rows" not in told and (told["since"], told["stretch"]["front"], steps_in(told["stretch"]["rows"])) == (server.state["version"], at, 1), told
            server.look()
        behind = server.post("/state", {"branch": 1, "has": first})[1]
        assert (behind["since"], behind["stretch"]["front"], steps_in(behind["stretch"]["rows"])) == (first, 2, 3), behind
        for asked in ({"branch": 1, "has": -1}, {"branch": 1, "has": "0"}, {"branch": 1, "has": None}, {"has": first}):
            assert len(server.post("/state", asked)[1]["rows"]) > 20, asked
        for _ in range(5):
            server.do("undo")
            server.do("redo")
        assert "rows" in server.post("/state", {"branch": 1, "has": first})[1]
