"""Holds the format of cases: what is written is read back, each case is in the one form that accepting writes, and what is no case is refused."""
import pathlib
from collections.abc import Iterator

from tests.cases.case import BadCase, Case, Part, read_case, repeated_data, write_case

HERE = pathlib.Path(__file__).resolve().parent
# Bytes, and how a part is written that has them.
WRITTEN = [
    (b"", ""),
    (b"a\nb\n", "a\nb\n"),
    (b"no end", "no end\\\n"),
    (b"a\r\nb\n", "a\\r\nb\n"),
    (b"-- output --\n", "\\x2d- output --\n"),
    (b"a \n\\\t\n", "a\\x20\n\\\\\\t\n"),
    (b"\xff\x00\x1b[31m\n", "\\xff\\x00\\x1b[31m\n"),
    ("é\u202e\ufeff\n".encode(), "é\\xe2\\x80\\xae\\xef\\xbb\\xbf\n"),
]
REPEATED = [("2 ab\n", b"abab"), ("1 a\\n\n3 \\k,\n", b"a\n1,2,3,"), ("1 \\\\k\n", b"\\k"), ("0 a\n", b"")]
COMMANDS = [
    ("$ raftbench run SCRIPT --every 4", (b"run", b"SCRIPT", b"--every", b"4"), ()),
    ("$ raftbench check '' ' 1' $'\\xff\\'' <&- 2>/dev/full", (b"check", b"", b" 1", b"\xff'"), ("<&-", "2>/dev/full")),
]
REFUSED = [
    "status 0\n", "$ raftbench run\n", "$ raftbench run\nstatus 0\nstatus 0\n", "$ raftbench run\nstatus 0\nany luck\n", "$ raftbench run\nstatus 0\nsaid\n", "$ other\nstatus 0\n",
    "$ raftbench run\nstatus 0\n-- what --\n", "$ raftbench run\nstatus 0\n-- input --\n-- input --\n", "$ raftbench run\nstatus 0\n-- input (repeated) --\nx y\n",
    "$ raftbench run\nstatus 0\n-- input (escaped) --\n\\q\n",
]


def test_cases_are_in_their_form() -> Iterator[str]:
    paths = sorted(HERE.rglob("*.case"))
    assert len(paths) > 300, f"{len(paths)} cases"
    for path in paths:
        text = path.read_bytes().decode()
        if write_case(read_case(text)) != text:
            yield f"{path.relative_to(HERE)} is written otherwise than accepting would"


def test_bytes_are_written_and_read() -> None:
    for data, lines in WRITTEN:
        text = write_case(Case((b"run",), 0, parts={"script": Part(data)}))
        assert text.partition(" --\n")[2] == lines, (data, text)
        assert read_case(text).data("script") == data, text


def test_repetitions() -> None:
    for lines, data in REPEATED:
        assert repeated_data(lines) == data, lines
        case = Case((b"run",), 0, parts={"input": Part(data, lines)})
        assert read_case(write_case(case)) == case, lines


def test_commands() -> None:
    for line, words, streams in COMMANDS:
        case = read_case(f"{line}\nstatus 0\n")
        assert (case.words, case.streams) == (words, streams), (line, case)
        assert write_case(case) == f"{line}\nstatus 0\n", write_case(case)


def test_what_is_no_case_is_refused() -> Iterator[str]:
    for text in REFUSED:
        try:
            read_case(text)
        except BadCase:
            continue
        yield f"it is read: {text!r}"
