"""What the tests of `raftbench check` share: calls of it in a folder, what its report and its last line are, terminals.

TIME stands for the time of the last line.
"""
import os
import pathlib
import re
import shutil
import subprocess
from collections.abc import Callable, Iterator, Sequence
from typing import Any

from tests.harness import PROGRAM, shown

# The status, the output and the errors.
Answer = tuple[int, bytes, bytes]
MOST_SECONDS = 120
TIME = re.compile(rb"\d+\.\d{3} s\n\Z")
# One directive, which answers `ok`; and another output in its place, of which accepting makes the first.
GOOD = b"log-level info\n----\nok\n"
BAD = b"log-level info\n----\nno\n"
ACCEPTED = GOOD


def run(room: pathlib.Path, *words: bytes | str | pathlib.Path, program: pathlib.Path | None = None, **how: Any) -> Answer:
    """The status, the output and what is told, with TIME for the time."""
    how.setdefault("stdout", subprocess.PIPE)
    how.setdefault("stderr", subprocess.PIPE)
    done = subprocess.run([program or PROGRAM, "check", *words], cwd=room, stdin=subprocess.DEVNULL, timeout=MOST_SECONDS, **how)
    return done.returncode, TIME.sub(b"TIME\n", done.stdout or b""), done.stderr or b""


def totals(scripts: int, directives: int, mismatches: int = 0, refused: int = 0, accepted: int = 0, failed: int = 0, errors: int = 0, warnings: int = 0) -> bytes:
    def counted(n: int, one: str, many: str) -> str:
        return f"{n} {one if n == 1 else many}"
    text = ", ".join([counted(scripts, "script", "scripts"), counted(directives, "directive", "directives"),
                      counted(mismatches, "mismatch", "mismatches"), f"{refused} refused"])
    text += f", {counted(errors, 'error', 'errors')}" if errors else ""
    text += f", {counted(warnings, 'warning', 'warnings')}" if warnings else ""
    text += f", {accepted} accepted" if accepted else ""
    text += f", {failed} failed" if failed else ""
    return f"{text}, TIME\n".encode()


def mismatch(path: str, line: int = 1) -> bytes:
    return f"{path}:{line}: log-level info\n- no\n+ ok\n\n".encode()


def listed(*paths: str, line: int = 1) -> bytes:
    """The list of the scripts that differ, of one directive each."""
    return b"".join(f"{path}: 1 of 1 differ, first at line {line}\n".encode() for path in paths) + b"\n"


def differs(name: object, came: Sequence[object], wanted: Sequence[object]) -> Iterator[str]:
    """A text for each part of an answer that is another."""
    for part, got, due in zip(("status", "output", "errors"), came, wanted):
        if due is not None and got != due:
            yield f"{name}: {part} {shown(got)}, and not {shown(due)}"


def tree(room: pathlib.Path) -> dict[str, bytes | str]:
    """Each path below a folder with what is in the file there; a link with where it leads."""
    found: dict[str, bytes | str] = {}
    for path in sorted(room.rglob("*")):
        name = str(path.relative_to(room))
        if path.is_symlink():
            found[name] = f"-> {os.readlink(path)}"
        elif path.is_file():
            found[name] = path.read_bytes()
    return found


def files(room: pathlib.Path, **texts: Any) -> None:
    """Makes files; `__` in a name stands for a slash, `_` for a dot."""
    for name, text in texts.items():
        path = room / name.replace("__", "/").replace("_", ".")
        path.parent.mkdir(parents=True, exist_ok=True)
        path.write_bytes(text)


UNWRITTEN = b"a.txt: the outputs could not be accepted; the file is as it was\n"


def as_nobody() -> Callable[..., object]:
    """What makes a process nobody's, where it is root's."""
    if os.geteuid() != 0:
        return lambda: None

    def change() -> None:
        os.setgroups([])
        os.setgid(65534)
        os.setuid(65534)
    return change


def everyones(room: pathlib.Path) -> pathlib.Path:
    """The program where nobody can run it, beside a folder that nobody can come to."""
    room.parent.chmod(0o755)
    copy = room.parent / "program"
    shutil.copy(PROGRAM, copy)
    copy.chmod(0o755)
    return copy


UNKNOWN = b"error: unknown directive \"campain\""
