"""A mismatch as `raftbench check` shows it; and remarks: reasons, hints and warnings, where rows have them."""
import random
import subprocess
import tempfile
from collections.abc import Iterator

from plain.script import read_script
from tests.page.plain_difference import difference_rows
from tests.page.plain_steps import json_text, rows_of
from tests.page.assemble import parts
from tests.harness import PROGRAM
from tests.page.program import found, put
from tests.page.reader import Reader
from tests.page.scripts import TOUR, same

# A payload is changed: 2 lines of its `stabilize` differ, and others are between them.
CHANGED = TOUR[3].read_bytes()
LINES = """[...document.querySelectorAll('#script .below .row')].map((it) => it.querySelector('.text')).map((it) => [it.className.split(' ')[1], it.textContent])"""


def same_as(one: list[bytes], other: list[bytes]) -> int:
    """How many lines a longest common subsequence of two lists has: tried by leaving out lines of the first."""
    if not one or not other:
        return 0
    if one[0] == other[0]:
        return 1 + same_as(one[1:], other[1:])
    return max(same_as(one[1:], other), same_as(one, other[1:]))


def rows_keep_both_sides(_: Reader) -> None:
    """From the rows both lists come back, and as many lines as can be are the same."""
    dice = random.Random(5)
    for _count in range(300):
        expected, output = ([dice.choice([b"a", b"b", b"c"]) for _ in range(dice.randrange(8))] for _ in range(2))
        rows = list(difference_rows(expected, output))
        left, right, at = [], [], 0
        for name, value in rows:
            taken = output[at:at + value] if isinstance(value, int) else [bytes(value)] if isinstance(value, bytes) else []
            left += taken if name != "actual" else []
            right += taken if name != "expected" else []
            at += value if isinstance(value, int) else 0
        same("both lists", (left, right), (expected, output))
        same("how many are the same", sum(value for name, value in rows if name == "same" and isinstance(value, int)), same_as(expected, output))


def marked_by_check(data: bytes) -> list[list[str]]:
    """What `raftbench check` marks in a script: of each mismatch the lines with a sign."""
    with tempfile.TemporaryDirectory() as room:
        done = subprocess.run([PROGRAM, "check", put(room, "x.txt", data)], capture_output=True, text=True, check=False)
    found_lines: list[list[str]] = []
    for line in done.stdout.splitlines():
        if line.startswith("/") or ".txt:" in line:
            found_lines.append([])
        elif line[:2] in ("- ", "+ ", "  ") and found_lines:
            found_lines[-1].append(line)
    return found_lines


def marks_are_those_of_check(reader: Reader) -> None:
    """Line by line, folds too, of scripts in which outputs were changed."""
    if not found():
        print("NOT TRIED, since no program is built: the marks of check")
        return
    for data in changed_scripts():
        wanted = marked_by_check(data)
        same("whether check marks something", sum(map(len, wanted)) > 6, True)
        reader.open(data, "differs")
        came = []
        for _ in wanted:
            reader.browser.press("m")
            came.append(joined(reader.browser.value(LINES)))
        same("what is marked", sorted(came), sorted(wanted))


def joined(lines: list[list[str]]) -> list[str]:
    """Lines of a pane that were wrapped, in one again: each begins with a sign."""
    found_lines: list[str] = []
    for _, text in lines:
        if text[:2] in ("- ", "+ ", "  "):
            found_lines.append(text)
        else:
            found_lines[-1] += " " + text
    return found_lines


def changed_scripts() -> Iterator[bytes]:
    dice = random.Random(7)
    for path in TOUR[:4]:
        lines = path.read_bytes().split(b"\n")
        places = [at for at, line in enumerate(lines) if line.startswith((b"INFO ", b"  send ", b"deliver "))]
        for at in dice.sample(places, 3):
            lines[at] += b" changed"
        yield b"\n".join(lines)


def equal_lines_are_folded(reader: Reader) -> None:
    """Of a mismatch in the middle of a long output, and only while it is folded: an event's line is never hidden."""
    reader.browser.size(1500, 2000)
    reader.open(TOUR[0].read_bytes().replace(b"INFO 3 became follower at term 1", b"INFO 3 was follower", 1), "folds", "#9")
    wanted = marked_as_check(read_script(TOUR[0].read_bytes()).blocks[8].expected, b"INFO 3 became follower at term 1", b"INFO 3 was follower")
    same("what is shown", joined(reader.browser.value(LINES)), wanted)
    reader.browser.value("location.hash = '#9.15'; 0")
    reader.browser.settle()
    same("whether the line of an event is shown", reader.count("#script .row.now") > 0, True)
    reader.browser.value("location.hash = '#9'; 0")
    reader.browser.settle()
    reader.browser.value("document.querySelector('#script .fold').click(); 0")
    reader.browser.settle()
    same("whether a click unfolds", reader.count("#script .fold"), 0)
    reader.browser.press("o")
    same("whether a key folds again", reader.count("#script .fold") > 0, True)
    reader.browser.press("o")
    same("how many lines there are then", len(joined(reader.browser.value(LINES))), len(read_script(TOUR[0].read_bytes()).blocks[8].expected) + 1)
    reader.browser.size(1500, 900)
    reader.quiet()


def marked_as_check(output: tuple[bytes, ...], came: bytes, expected: bytes) -> list[str]:
    """By docs/USING.md: of more than six equal lines in a row the first three and the last three, and how many are between them."""
    at = output.index(came)
    before, after = ([f"  {line.decode()}" for line in lines] for lines in (output[:at], output[at + 1:]))

    def folded(lines: list[str]) -> list[str]:
        return lines if len(lines) <= 6 else [*lines[:3], f"  .. {len(lines) - 6} line{'s' * (len(lines) != 7)}", *lines[-3:]]
    return [*folded(before), f"- {expected.decode()}", f"+ {came.decode()}", *folded(after)]


def what_differs_in_a_line_is_marked(reader: Reader) -> None:
    data = TOUR[0].read_bytes().replace(b"from 2: won", b"from 2: lost", 1)
    reader.open(data, "inline", "#6")
    marked = reader.browser.value("[...document.querySelectorAll('#script mark.differs')].map((it) => it.textContent)")
    same("what is marked", marked, ["lost", "won"])


def remarks_are_shown(reader: Reader) -> None:
    """Reasons below the line that they belong to, hints below an error, warnings at their directive."""
    data = TOUR[0].read_bytes() + b"\ncampain 1\n----\nerror: unknown directive \"campain\"\n\n"
    rows = []
    for row in rows_of(data, "remarks"):
        if row[0] == "end":
            rows.append(["warning", 41, "this looks like a directive inside an expectation"])
        rows.append(row)
        if row[:3] == ["ignored", 1, "MsgVoteResp"]:
            rows.append(["reason", "ignored: a candidate has no use for it"])
        if row[0] == "error":
            rows.append(["hint", 'did you mean "campaign"?'])
    before, after = parts()
    reader.open_page(before + json_text(rows) + after, "remarks", "#9")
    lines = reader.browser.value(LINES)
    reasons = [at for at, (look, _) in enumerate(lines) if look == "reason"]
    same("the reason", "".join(lines[at][1] for at in reasons).replace(" ", ""), "^ignored:acandidatehasnouseforit")
    same("the line above it", lines[reasons[0] - 1][1], "DEBUG 1 ignored MsgVoteResp from 3")
    same("the reason in what happened", reader.browser.value("document.querySelector('#state li .reason').textContent"), "ignored: a candidate has no use for it")
    reader.browser.press("End")
    same("the hint", [text for look, text in reader.browser.value(LINES) if look == "reason"], ['did you mean "campaign"?'])
    reader.browser.value("location.hash = '#6'; 0")
    reader.browser.settle()
    warning = "[...document.querySelectorAll('#directive-6 .warning')].map((it) => it.textContent).join(' ')"
    same("the warning", reader.browser.value(warning), "⚠ line 41: this looks like a directive inside an expectation")
    reader.quiet()


TESTS = [
    rows_keep_both_sides, marks_are_those_of_check, equal_lines_are_folded, what_differs_in_a_line_is_marked, remarks_are_shown,
]
