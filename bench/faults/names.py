"""Names of files and arguments that act in a terminal or in a log of GitHub, in every stream and format: none of their bytes does."""
from __future__ import annotations

import pathlib
import re
import subprocess
import tempfile
from collections.abc import Iterator, Sequence

from bench.faults.commands import MOST_SECONDS
from bench.faults.verdict import BROKEN, Tried
from tests.harness import PROGRAM

FORGED = "::stop-commands::forged"
NAMES = {
    "a line end": f"x\n{FORGED}",
    "a carriage return": f"x\r{FORGED}",
    "an escape": "x\x1b[2Jy",
    "a C1 control": "x\x9b2Jy",
    "a bidi mark": "x\u202ey",
    "a space of no width": "x\u200by",
    "a tag": "x\U000e0041y",
    "a tab": "x\ty",
    "no text": b"x\xff\x9by".decode(errors="surrogateescape"),
    "a separator of lines": f"x\u2028{FORGED}",
}
# What no stream may hold of a name: controls but ends of lines, marks of direction, what has no width, tags, ends of lines of Unicode.
ACTS = re.compile("[\x00-\x08\x0b-\x1f\x7f-\x9f\u200b-\u200f\u2028-\u202e\u2060-\u2069\ufeff\U000e0000-\U000e007f]")
SCRIPT = b"campaign 1\n----\nno\n"
FORMATS = ("text", "json", "github", "junit")


def calls(name: str) -> Iterator[Sequence[str]]:
    """The calls with a name in each place that takes one: of a file, of a folder, and where another word is due."""
    for file in (f"{name}.txt", f"gone{name}.txt", f"folder{name}"):
        yield from (("check", "--color", "never", "--format", form, file) for form in FORMATS)
        yield from ((command, file) for command in ("run", "rewrite", "session", "page", "chart", "trace"))
        yield ("look", "--color", "never", f"{file}:1")
        yield ("check", "--accept", "--color", "never", file)
    yield ("rewrite", "--warn", f"{name}.txt")
    yield (name,)
    yield ("help", name)
    yield ("directives", name)
    yield ("run", "x.txt", "--every", name)
    yield ("chart", f"{name}.txt", "--from", name)
    yield ("check", "--format", name, "x.txt")
    yield ("check", "--filter", name, f"{name}.txt")
    yield ("check", f"--{name}", "x.txt")


def acting(words: Sequence[str], output: bytes) -> str | None:
    """What of a stream acts, or None. What is JSON or a page has other ends: a name in it is a string."""
    text = output.decode(errors="replace")
    is_data = words[0] in ("page", "chart", "trace", "rewrite")
    found = ACTS.search(text)
    if found and not is_data:
        return f"{words}: {found[0]!r} in {text[max(0, found.start() - 60):found.end() + 20]!r}"
    if any(line.startswith(FORGED) for line in text.splitlines()):
        return f"{words}: a line of a name's own: {text[-200:]!r}"
    return None


def filled(place: pathlib.Path, name: str) -> None:
    """A script, a folder with one, and a link to nowhere, all of this name."""
    (place / f"{name}.txt").write_bytes(SCRIPT)
    (place / f"folder{name}").mkdir()
    (place / f"folder{name}" / f"{name}.txt").write_bytes(SCRIPT)
    (place / f"folder{name}" / f"link{name}.txt").symlink_to("nowhere")


def tried(count: int) -> Iterator[Tried]:
    """Each name in each place of each command, format and stream."""
    for what, name in list(NAMES.items())[:count]:
        for words in calls(name):
            with tempfile.TemporaryDirectory(prefix="raftbench-faults-") as folder:
                place = pathlib.Path(folder)
                filled(place, name)
                done = subprocess.run([str(PROGRAM), *words], cwd=place, stdin=subprocess.DEVNULL, capture_output=True, timeout=MOST_SECONDS, check=False)
            problem = acting(words, done.stdout) or acting(("errors", *words), done.stderr)
            if BROKEN.search(done.stderr) or done.returncode not in range(6):
                problem = f"{words}: status {done.returncode}, {done.stderr[-200:]!r}"
            yield Tried(f"{what}, {words[0]}", problem)
