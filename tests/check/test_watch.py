"""Runs the line of docs/USING.md that checks again whenever a script changes, in bash on a terminal. It needs `entr`."""
import contextlib
import os
import pathlib
import pty
import re
import select
import shutil
import time
from collections.abc import Callable

from tests.check.checking import BAD, GOOD, MOST_SECONDS
from tests.harness import PROGRAM, TOP, NotHere, matched


def line_of_using() -> str:
    return matched(r"^    (until .* entr .*)$", (TOP / "docs/USING.md").read_text())[1]


class Shell:
    """bash, which runs a line on a terminal of its own, in a folder with scripts/."""

    def __init__(self, room: pathlib.Path, line: str) -> None:
        (room / "bin").mkdir()
        (room / "bin/raftbench").symlink_to(PROGRAM.resolve())
        around = {**os.environ, "PATH": f"{room}/bin:{os.environ['PATH']}", "TERM": "xterm", "SHELL": "/bin/bash"}
        self.pid, self.terminal = pty.fork()
        if self.pid == 0:
            os.chdir(room)
            os.execvpe("bash", ["bash", "--norc", "-c", f"{line}; echo ended"], around)

    def shows(self, pattern: str, change: Callable[[], object] = lambda: None) -> str:
        """What it shows after a change, up to this, or fails with what it shows instead. entr doesn't notice a change while it collects earlier ones: the
        change is made again each second."""
        got, end = "", time.monotonic() + MOST_SECONDS
        while not re.search(pattern, got):
            change()
            while select.select([self.terminal], [], [], 1)[0] and not re.search(pattern, got):
                got += os.read(self.terminal, 65536).decode(errors="replace")
            assert time.monotonic() < end, f"{pattern!r} is not shown: {got!r}"
        return got

    def press(self, keys: bytes) -> None:
        os.write(self.terminal, keys)

    def end(self) -> None:
        with contextlib.suppress(ProcessLookupError):
            os.kill(self.pid, 9)
        os.close(self.terminal)
        os.waitpid(self.pid, 0)


def test_a_change_is_checked(room: pathlib.Path) -> None:
    """A changed script, a new one, one that is removed, one that a rename replaces, as editors save; then Ctrl-C ends it."""
    if not shutil.which("entr"):
        raise NotHere("entr")
    scripts = room / "scripts"
    scripts.mkdir()
    first, second, new = scripts / "a.txt", scripts / "b.txt", scripts / "new"
    first.write_bytes(GOOD)

    def replaced() -> None:
        new.write_bytes(GOOD)
        os.replace(new, first)

    shell = Shell(room, line_of_using())
    try:
        shell.shows("1 script, 1 directive, 0 mismatches")
        shown = shell.shows("1 script, 1 directive, 1 mismatch", lambda: first.write_bytes(BAD))
        assert "\x1b[31m- no" in shown, shown
        shell.shows("2 scripts, 2 directives, 2 mismatches", lambda: second.write_bytes(BAD))
        shell.shows("1 script, 1 directive, 1 mismatch", lambda: second.unlink(missing_ok=True))
        shell.shows("1 script, 1 directive, 0 mismatches", replaced)
        shell.shows("ended", lambda: shell.press(b"\x03"))
    finally:
        shell.end()
