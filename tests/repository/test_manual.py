"""Holds the manual pages that are made of documents: they are what the documents say, they lose nothing of them, raftbench(1) and they
name each other, and man and groff show them, where these are here. The pages that are written by hand are shown, and their examples run in bash. And the texts of rb_report: they are what docs/SCRIPTS.md says.
tests/repository/manual.py makes the pages and these texts.
"""
import collections
import contextlib
import fcntl
import os
import pathlib
import pty
import re
import select
import shutil
import signal
import struct
import subprocess
import tempfile
import termios
from collections.abc import Callable, Iterator
from functools import partial

from tests.harness import PROGRAM, TOP, NotHere, Result, result_of
from tests.repository import directives, pages
from tests.repository.pages import Page

MAIN = TOP / "share/man/man1/raftbench.1"


def is_what_the_document_says(page: Page) -> None:
    assert page.path.read_text() == pages.made(page), f"{page.path} isn't what {page.document} says: tests/repository/manual.py makes it"


def is_shown_without_warning(page: Page) -> None:
    if not shutil.which("groff"):
        raise NotHere("groff")
    done = subprocess.run(["groff", "-man", "-Tutf8", "-ww", "-z", page.path], capture_output=True, text=True)
    assert (done.returncode, done.stderr) == (0, ""), done.stderr


def as_shown(path: pathlib.Path, width: int) -> str:
    """The page as man shows it, without the marks of its letters."""
    if not shutil.which("man"):
        raise NotHere("man")
    around = {**os.environ, "MANWIDTH": str(width), "MANROFFOPT": "-rHY=0", "LC_ALL": "C.UTF-8"}
    done = subprocess.run(["man", "-P", "cat", "-l", path], capture_output=True, text=True, env=around)
    assert (done.returncode, done.stderr) == (0, "") and done.stdout, done
    return re.sub(r"\x1b\[[0-9;]*m|.\x08", "", done.stdout)


def fits_a_terminal(page: Page) -> None:
    """But for code, which stands as it is."""
    code = {line.strip() for block in pages.blocks(page.text.splitlines()) if block[0] == "```" for line in block}
    long = [line for line in as_shown(page.path, 80).splitlines() if len(line) > 80 and line.strip() not in code]
    assert not long, long


def words_of(text: str) -> collections.Counter[str]:
    return collections.Counter(re.findall(r"[a-z0-9]+", text.lower()))


def loses_nothing(page: Page) -> None:
    """Each line of code in its order, each code in a text, and each word as often, but for those of a table's first row."""
    shown, text = as_shown(page.path, 9_999), page.text
    at, lines = 0, [line.strip() for line in shown.splitlines()]
    for line in "".join(re.findall(r"^```\n(.*?)^```$", text, re.M | re.S)).splitlines():
        assert line.strip() in lines[at:], f"{line!r} isn't shown, or not in its place"
        at = lines.index(line.strip(), at) + 1
    running = " ".join(shown.split())
    prose = re.sub(r"^```\n.*?^```$", "", text, flags=re.M | re.S)
    for found in re.findall(r"`([^`]+)`", prose):
        assert " ".join(found.split()) in running, f"{found!r} isn't shown"
    wanted = re.sub(r"^\|.*\|\n\|[-|]+\|\n", "", re.sub(r"^# .*\n", "", text), flags=re.M)
    missing = words_of(wanted) - words_of(shown)
    assert not missing, missing


def names_the_others(page: Page) -> None:
    shown = page.path.read_text().split(".SH SEE ALSO")[1].replace("\\-", "-").replace("\\%", "")
    wanted = {"raftbench(1)"} | {f"{it.name}({it.section})" for it in pages.PAGES if it is not page}
    assert set(re.findall(r"\\fB([a-z-]+)\\fR(\(\d\))", shown)) == {(it[:-3], it[-3:]) for it in wanted}, shown


def is_named_by_the_program_page(page: Page) -> None:
    shown = MAIN.read_text().split(".SH SEE ALSO")[1]
    assert f".BR \\%{pages.plain(page.name)} ({page.section})" in shown, shown


def sources_are_what_the_document_says() -> None:
    for path, text in directives.sources().items():
        assert path.read_text() == text, f"{path} isn't what {directives.DOCUMENT} says: tests/repository/manual.py makes it"


# The pages that are written by hand: of the program, and of the tools that are installed next to it.
TOOLS = {
    "raftbench": "raftbench", "raftbench-from-etcd": "editors/from-etcd", "raftbench-live": "raftbench-live", "raftbench-nodes": "raftbench-nodes",
    "raftbench-review": "editors/review", "raftbench-to-shiviz": "editors/to-shiviz",
}


def tool_page(name: str) -> pathlib.Path:
    return TOP / f"share/man/man1/{name}.1"


def tool_page_is_shown(name: str) -> None:
    """Without warnings, within 80 columns but for code, and it and the program's page name each other."""
    if shutil.which("groff"):
        done = subprocess.run(["groff", "-man", "-Tutf8", "-ww", "-z", tool_page(name)], capture_output=True, text=True)
        assert (done.returncode, done.stderr) == (0, ""), done.stderr
    shown = as_shown(tool_page(name), 80)
    assert shown.startswith(name.upper()) and f"{name} - " in " ".join(shown.split()), shown
    code = "\n".join(re.findall(r"^\.EX$(.*?)^\.EE$", tool_page(name).read_text(), re.M | re.S))
    long = [line for line in shown.splitlines() if len(line) > 80 and line.strip()[:9] not in code.replace("\\(ha", "^").replace("\\e", "\\")]
    assert not long, long
    others = set(TOOLS) - {name} if name == "raftbench" else {"raftbench"}
    assert all(re.search(rf"\b{it}\(1\)", shown) for it in others), shown


# What the examples are about: a script in a folder, and as a file of its own; one without outputs; and one of etcd's form.
ELECTED = "add-nodes 1 voters=(1) index=10\n----\nINFO 1 started at 1/10 with voters=(1)\n"
PLACED = {"tests/election.txt": ELECTED, "election.txt": ELECTED, "new.txt": "log-level info\n----\n", "campaign.txt": ELECTED, "testdata/campaign.txt": ELECTED}


def examples_of(name: str) -> list[str]:
    """The examples of a page, as a terminal shows them."""
    part = tool_page(name).read_text().split(".SH EXAMPLES\n")[1].split("\n.SH ")[0]
    found = re.findall(r"^\.EX\n(.*?)\n\.EE$", part, re.M | re.S)
    return [text.replace("\\-", "-").replace("\\(aq", "'").replace("\\e", "\\") for text in found]


def put_in(room: pathlib.Path) -> None:
    """The files of the examples, and the commands as they are installed."""
    for path, text in PLACED.items():
        (room / path).parent.mkdir(exist_ok=True)
        (room / path).write_text(text)
    (room / "bin").mkdir()
    for command, source in TOOLS.items():
        (room / "bin" / command).symlink_to(PROGRAM.resolve() if command == "raftbench" else TOP / source)


# Seconds without output after which bash is killed: more than a busy machine needs.
PATIENCE = 900


def in_bash(text: str, room: pathlib.Path) -> tuple[int, str]:
    """The status of bash, and what its terminal shows, when this is typed in a folder. An interactive bash expands `!`. One that hangs is killed."""
    pid, terminal = pty.fork()
    if pid == 0:
        os.chdir(room)
        around = {**os.environ, "PATH": f"{room}/bin:{os.environ['PATH']}", "HISTFILE": "", "TERM": "xterm", "LESS": "FRX", "RAFTBENCH": str(PROGRAM)}
        os.execvpe("bash", ["bash", "--norc", "--noprofile", "-i"], around)
    fcntl.ioctl(terminal, termios.TIOCSWINSZ, struct.pack("HHHH", 40, 100, 0, 0))
    os.write(terminal, f"{text}\nexit $?\n".encode())
    shown, more = b"", b"."
    # The terminal is an error once nobody has its other side.
    with contextlib.suppress(OSError):
        while more := os.read(terminal, 65536) if select.select([terminal], [], [], PATIENCE)[0] else b"":
            shown += more
    if not more:
        os.kill(pid, signal.SIGKILL)
    os.close(terminal)
    _, status = os.waitpid(pid, 0)
    return os.waitstatus_to_exitcode(status), shown.decode()


def examples_run(name: str) -> None:
    """Each example without an error. A watch isn't run: it doesn't end."""
    examples = [it for it in examples_of(name) if "entr" not in it]
    assert examples, name
    for example in examples:
        with tempfile.TemporaryDirectory() as folder:
            room = pathlib.Path(folder)
            put_in(room)
            status, shown = in_bash(example, room)
        assert status in (0, 1) and not re.search("not found|usage|rror:|No such|cannot", shown), (example, status, shown)


def examples_that_fail_are_seen() -> None:
    """As one that has `!slow` without quotes."""
    with tempfile.TemporaryDirectory() as folder:
        put_in(pathlib.Path(folder))
        status, shown = in_bash("raftbench check tests --filter !slow", pathlib.Path(folder))
    assert "event not found" in shown, (status, shown)


CHECKS = [
    is_what_the_document_says,
    is_shown_without_warning,
    fits_a_terminal,
    loses_nothing,
    names_the_others,
    is_named_by_the_program_page,
]


def results(word: str) -> Iterator[Result]:
    """Each check of each page, and the texts of rb_report."""
    looks: list[tuple[str, Callable[[], None]]] = [(f"{page.name} {check.__name__}", partial(check, page)) for page in pages.PAGES for check in CHECKS]
    looks += [(f"{name} {check.__name__}", partial(check, name)) for name in TOOLS for check in (tool_page_is_shown, examples_run)]
    looks.append(("examples that fail", examples_that_fail_are_seen))
    looks.append(("rb_report", sources_are_what_the_document_says))
    for name, look in looks:
        if word in name:
            yield result_of(name, look)
