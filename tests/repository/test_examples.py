"""Runs the scripts of examples/ and the recorded conversation, which docs/USING.md shows. Runs each script that a document shows: it matches, or is
refused as the line below it says. Compares what README.md shows first, its part of the tour's first script, and the report in docs/USING.md with what
the program does. README.md names the whole tour.
"""
import pathlib
import re
import subprocess
import tempfile
from collections.abc import Iterator

from tests.harness import PROGRAM, TOP

TALK = TOP / "examples" / "conversation"
# The script that fails, which README.md shows.
FIRST = TOP / "examples" / "first.txt"


def answer(*words: str | pathlib.Path, given: bytes = b"") -> tuple[int, bytes, bytes]:
    """The status, the output and the errors."""
    done = subprocess.run([PROGRAM, *words], input=given, capture_output=True)
    return done.returncode, done.stdout, done.stderr


def test_scripts() -> Iterator[str]:
    """Each script matches, and is rewritten to itself."""
    for path in sorted(TOP.glob("examples/**/*.txt")):
        if path.parent == TALK and path.name != "script.txt" or path == FIRST:
            continue
        status, report, told = answer("run", path)
        if status != 0 or not re.fullmatch(rb"\d+ directives, 0 mismatches\n", report) or told:
            yield f"{path.relative_to(TOP)}: status {status}, {report + told!r}"
        # What is expected is what comes, so that rewriting changes no expectation.
        status, rewritten, told = answer("rewrite", path)
        if status != 0 or rewritten.rstrip(b"\n") != path.read_bytes().rstrip(b"\n") or told:
            yield f"{path.relative_to(TOP)}: is rewritten to {rewritten + told!r}"


def test_recipes() -> Iterator[str]:
    """The list of examples/how-do-i names each of its nine scripts, each begins with its question, and `check` finds nothing to say of them."""
    folder = TOP / "examples" / "how-do-i"
    rows = re.findall(r"^\| (.*) \| \[(.*)\]\((.*)\) \|$", (folder / "README.md").read_text(), re.M)
    if sorted(name for _, name, _ in rows) != sorted(path.name for path in folder.glob("*.txt")) or len(rows) < 9:
        yield f"its README.md names {rows}"
    for question, name, link in rows:
        first = (folder / name).read_text().split("\n")[0]
        if first != f"# How do I {question.replace('`', '')}?" or link != name:
            yield f"{name} begins with {first!r}"
    status, report, told = answer("check", folder)
    if status != 0 or not re.fullmatch(rb"%d scripts, \d+ directives, 0 mismatches, 0 refused, \d+\.\d{3} s\n" % len(rows), report) or told:
        yield f"check says {report + told!r}"


def test_conversation() -> Iterator[str]:
    """The recorded conversation is held again, and docs/USING.md shows it."""
    sent, wanted = (TALK / "sent.txt").read_bytes(), (TALK / "answered.txt").read_bytes()
    came = answer("session", TALK / "script.txt", given=sent)
    if came != (0, wanted, b""):
        yield f"the conversation: {came!r}"
    shown = (TOP / "docs" / "USING.md").read_bytes().split(b"### A conversation")[1].split(b"```\n")[3].splitlines(True)
    if b"".join(line[2:] for line in shown if line.startswith(b"> ")) != sent:
        yield "docs/USING.md shows another conversation"
    if b"".join(line for line in shown if not line.startswith(b"> ")) != wanted:
        yield "docs/USING.md shows other answers"


def fences(path: pathlib.Path) -> Iterator[tuple[str, str]]:
    """What stands between two fences, each with the line of text that follows it."""
    parts = re.split(r"^```\w*\n", path.read_text(), flags=re.M)
    for i in range(1, len(parts) - 1, 2):
        yield parts[i], parts[i + 1].strip().split("\n")[0]


def test_documents() -> Iterator[str]:
    """What the documents show is so."""
    readme, using = TOP / "README.md", TOP / "docs" / "USING.md"
    ran = 0
    for path in sorted((TOP / "docs").glob("*.md")):
        for text, after in fences(path):
            if "\n----\n" not in text or path == using:
                continue
            ran += 1
            came = answer("run", "-", given=text.encode())
            refused = re.match(r"This is refused, `(\w+)` at line (\d+)", after)
            wanted = (3, b"", "raftbench: script refused: {} at line {}\n".format(*refused.groups()).encode()) if refused else None
            if came != wanted if refused else came[0] != 0 or not came[1].endswith(b" 0 mismatches\n"):
                yield f"{path.name}: {text[:60]!r} answers {came!r}"
    if not ran:
        yield "no document shows a script"
    tour = (TOP / "examples" / "tour" / "01-election.txt").read_text()
    first, check, record, shown, edit = [text for text, _ in fences(readme)]
    report = next(text for text, _ in fences(using) if text.startswith("mismatch "))
    yield from check_first_screen(first, check, edit)
    if not tour.startswith(shown):
        yield "README.md shows another script than examples/tour/01-election.txt"
    # The first election that is won, with another word.
    before, _, after = tour.partition(": won\n")
    wrong = before + ": pending\n" + after
    if answer("run", "-", given=wrong.encode()) != (1, report.encode(), b""):
        yield "docs/USING.md shows another report"
    named = set(re.findall(r"\b\d\d-[a-z-]+\.txt", readme.read_text()))
    if named != {path.name for path in TOP.glob("examples/tour/*.txt")}:
        yield "README.md names other scripts than examples/tour has"
    recorded = answer("rewrite", "-", given=record.encode())
    if recorded[0] != 0 or not answer("run", "-", given=recorded[1])[1].endswith(b" 0 mismatches\n"):
        yield "README.md shows a script that can't be recorded"
    if (TALK / "script.txt").read_text() not in [text for text, _ in fences(using)]:
        yield "docs/USING.md shows another script than examples/conversation/script.txt"


def check_first_screen(script: str, report: str, edit: str) -> Iterator[str]:
    """What README.md shows first: a script, what `check` says of it, an edit of a script of 10,000 directives, and a first report."""
    timeless = re.compile(rb"\d+\.\d{3} s\n\Z")
    done = subprocess.run([PROGRAM, "check", "examples/tour"], cwd=TOP, capture_output=True)
    if done.returncode != 0 or b"\n\n    " + timeless.sub(b"", done.stdout) not in (TOP / "README.md").read_bytes():
        yield f"README.md shows another first report: {done!r}"
    if script != FIRST.read_text():
        yield f"README.md shows another script than {FIRST.relative_to(TOP)}"
    done = subprocess.run([PROGRAM, "check", FIRST.relative_to(TOP)], cwd=TOP, capture_output=True)
    if (done.returncode, timeless.sub(b"", done.stdout)) != (1, timeless.sub(b"", report.encode())):
        yield f"README.md shows another report of its first script: {done!r}"
    typed, _, answered = edit.partition("done ")
    with tempfile.TemporaryDirectory() as room:
        pathlib.Path(room, "raftbench").symlink_to(PROGRAM.resolve())
        came = subprocess.run(["bash", "-c", typed], cwd=room, capture_output=True, text=True)
        if came.stdout != f"done {answered}" or answer("run", pathlib.Path(room, "many.txt"))[1] != b"10000 directives, 0 mismatches\n":
            yield f"README.md shows another edit: {came!r}"


def test_newcomers_are_given_one_name() -> Iterator[str]:
    """Up to the part on installing, README.md calls the program as it is in a clone, and a call that writes into scripts as it is allowed there."""
    before = (TOP / "README.md").read_text().split("\n## Install and test\n")[0]
    for call in re.findall(r"(?:^    |^|`)((?:[A-Z_]+=\S+ )*\S*raftbench (?:check|run|page|chart|trace|lsp|session)\b[^`\n]*)", before, re.M):
        is_allowed = "--accept" not in call or call.startswith("RAFTBENCH_UNPROVED=1 ")
        if "./raftbench " not in call or not is_allowed:
            yield f"README.md has {call!r}"
