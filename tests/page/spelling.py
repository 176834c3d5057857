"""How a page spells texts: as `raftbench check` does, so that what acts in a terminal, or turns a text round, is seen (docs/USING.md)."""
from tests.page.difference import LINES, joined, marked_by_check
from tests.page.program import found
from tests.page.reader import Reader
from tests.page.scripts import page_of, same

# What acts: controls, also those past ASCII; marks of direction; separators of lines; and what isn't UTF-8. Each with its spelling.
ACTING: dict[bytes | str, str] = {
    b"\x1b": r"\x1b", b"\x01": r"\x01", b"\x7f": r"\x7f", b"a\rb": r"a\x0db", "\x85": r"\xc2\x85", "\x9b": r"\xc2\x9b", "\u061c": r"\xd8\x9c", "\u200e": r"\xe2\x80\x8e",
    "\u2028": r"\xe2\x80\xa8", "\u2029": r"\xe2\x80\xa9", "\u202e": r"\xe2\x80\xae", "\u2066": r"\xe2\x81\xa6", "\ufeff": r"\xef\xbb\xbf", b"\xff": r"\xff", b"\xe2\x80": r"\xe2\x80",
}
COMMENT = "[...document.querySelectorAll('#comment-1 .text')].map((it) => it.textContent).join(' ')"
SCRIPT = b"# Aside: %b ja\xc3\xa9 \\ .\nraft-state\n----\nfirst %b \xc3\xa9 \\n\n\npropose 7 %b\n----\n\n"


def spelled(reader: Reader, special: bytes, comment: str, expected: str, spelling: str) -> None:
    """The comment, the expected line and the picture's description of a page; and whether `check` marks the same lines."""
    data = SCRIPT % (special, special, special)
    reader.open(data, "spelled", "#1")
    same(f"the comment with {special!r}", reader.browser.value(COMMENT), comment)
    lines = joined(reader.browser.value(LINES))
    same(f"the line with {special!r}", lines[0], expected)
    same(f"whether the description has {special!r}", f"propose 7 {spelling}." in reader.text("description"), True)
    if found():
        same(f"what check marks with {special!r}", lines, marked_by_check(data)[0])


def what_acts_is_shown_by_its_bytes(reader: Reader) -> None:
    """And with it all that isn't printable ASCII, so that no two texts look alike."""
    for special, spelling in ACTING.items():
        bytes_of = special.encode() if isinstance(special, str) else special
        spelled(reader, bytes_of, rf"Aside: {spelling} ja\xc3\xa9 \x5c .", rf"- first {spelling} \xc3\xa9 \x5cn", spelling)


def other_texts_are_shown_as_they_are(reader: Reader) -> None:
    for special in ["ключ", "日本", "\U0001f600", "\\x1b", "a\tb"]:
        spelled(reader, special.encode(), f"Aside: {special} jaé \\ .", f"- first {special} é \\n", special)
    reader.open((SCRIPT % (b"x", b"x", b"x")).replace(b"\n", b"\r\n"), "ends", "#1")
    same("the comment of lines that end in two bytes", reader.browser.value(COMMENT), "Aside: x jaé \\ .")


def what_nobody_sees_is_shown_by_its_bytes(reader: Reader) -> None:
    """It acts in no terminal, so `check` prints it as it is."""
    for special, spelling in {"\u200b": r"\xe2\x80\x8b", "\u00ad": r"\xc2\xad", "\u2060": r"\xe2\x81\xa0"}.items():
        reader.open(SCRIPT % ((special.encode(),) * 3), "unseen", "#1")
        same(f"the comment with {special!r}", reader.browser.value(COMMENT), f"Aside: {spelling} jaé \\ .")


def names_are_spelled_too(reader: Reader) -> None:
    path = reader.room / "name.html"
    path.write_text(page_of(SCRIPT % (b"x", b"x", b"x"), "ключ \u202e.txt"))
    reader.browser.open(path)
    same("the name", reader.text("name"), r"\xd0\xba\xd0\xbb\xd1\x8e\xd1\x87 \xe2\x80\xae.txt")
    same("the comment", reader.browser.value(COMMENT), r"Aside: x ja\xc3\xa9 \x5c .")


TESTS = [what_acts_is_shown_by_its_bytes, other_texts_are_shown_as_they_are, what_nobody_sees_is_shown_by_its_bytes, names_are_spelled_too]
