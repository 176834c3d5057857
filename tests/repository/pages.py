"""Makes manual pages of documents: the part of Markdown that docs/ is written in, as requests of man(7).

A document's title becomes the page's name, its parts the page's. A table becomes a list: of two columns the first is what the second
is said of; of three the first two are; of four the last is said of the first, and the columns between follow with their headings.
"""
import dataclasses
import pathlib
import re
from collections.abc import Iterator

from tests.harness import TOP


@dataclasses.dataclass(frozen=True)
class Page:
    """A manual page, and the document that it is made of: all of it up to a part, or that part."""

    name: str
    section: int
    about: str
    document: pathlib.Path
    part: str
    is_before: bool

    @property
    def path(self) -> pathlib.Path:
        return TOP / f"share/man/man{self.section}/{self.name}.{self.section}"

    @property
    def text(self) -> str:
        """What the page is made of: a title, and parts."""
        before, after = self.document.read_text().split(f"\n## {self.part}\n")
        return f"{before}\n" if self.is_before else f"# {self.part}\n{after}".replace("\n### ", "\n## ")

    @property
    def shown(self) -> str:
        return f"\\fB\\%{plain(self.name)}\\fR({self.section})"


PAGES = [
    Page("raftbench-directives", 7, "the directives of raftbench's scripts, and their outputs", TOP / "docs/SCRIPTS.md", "The format", True),
    Page("raftbench-script", 5, "the format of raftbench's scripts", TOP / "docs/SCRIPTS.md", "The format", False),
]
KINDS = {5: "File Formats", 7: "Miscellanea"}
# What groff would show otherwise, or take for a request.
SPECIAL = {"\\": "\\(rs", "-": "\\-", "'": "\\(aq", "`": "\\(ga", "^": "\\(ha", "~": "\\(ti"}
TEXT = {"\\": "\\(rs", "^": "\\(ha", "~": "\\(ti"}
LINK = re.compile(r"\[([^\]]+)\]\((https?:[^)]+)\)")
ITEM = re.compile(r"( *)(\d+\.|-) +(.*)")


def plain(text: str) -> str:
    """A text that stands as it is, byte for byte."""
    return "".join(SPECIAL.get(it, it) for it in text)


def guarded(line: str) -> str:
    """A line that is no request, whatever it begins with."""
    return f"\\&{line}" if line[:1] in (".", "'") else line


def code(text: str) -> str:
    """Code within a text: blanks at its ends, and several in a row, stay, and no word of it is cut."""
    kept = re.sub(r"^ +| +$| {2,}", lambda it: "\0" * len(it[0]), text)
    whole = re.sub(r"[^ \0]+", lambda it: f"\\%{plain(it[0])}", kept)
    return f"\\fB{whole}\\fR".replace("\0", "\\ ")


def prose(text: str) -> str:
    """Words that are not code: emphasis and links."""
    text = LINK.sub(r"\1", "".join(TEXT.get(it, it) for it in text))
    # Names of messages are not cut.
    text = re.sub(r"\bMsg\w+", r"\\%\g<0>", text)
    text = re.sub(r"\*\*([^*]+)\*\*", r"\\fB\1\\fR", text)
    text = re.sub(r"\*([^*]+)\*", r"\\fI\1\\fR", text)
    return text


def inline(text: str) -> str:
    """A paragraph's text, a sentence a line."""
    parts = re.split(r"`([^`]*)`", " ".join(line.strip() for line in text.splitlines()))
    made = "".join(code(part) if at % 2 else prose(part) for at, part in enumerate(parts))
    return "\n".join(map(guarded, re.sub(r"(?<=[a-z)R]\.) (?=\S)", "\n", made).split("\n")))


def heading(line: str) -> str:
    marks, title = line.split(" ", 1)
    if marks == "##":
        return f".SH {plain(title.replace('`', '').upper())}"
    return f".SS {plain(title.replace('`', ''))}"


def shown_code(lines: list[str]) -> str:
    return "\n".join([".PP", ".RS 4", ".EX", *(guarded(plain(line)) for line in lines), ".EE", ".RE"])


def cells(row: str) -> list[str]:
    return [cell.strip() for cell in row.strip().strip("|").split(" |")]


def table(rows: list[str]) -> str:
    made, titles = [], cells(rows[0])
    for row in map(cells, rows[2:]):
        tag = row[:2] if len(row) == 3 else row[:1]
        between = zip(titles[1:-1], row[1:-1]) if len(row) == 4 else []
        made += [".TP", inline(" ".join(tag)), inline(row[-1])]
        made += [line for title, cell in between if cell for line in (".br", inline(f"{title}: {cell}"))]
    return "\n".join(made)


def items(lines: list[str]) -> str:
    """A list, with the lists in it."""
    made: list[str] = []
    text: list[str] = []
    depth = 0

    def end_item() -> None:
        if text:
            made.append(inline("\n".join(text)))
            text.clear()

    for line in lines:
        found = ITEM.fullmatch(line)
        if not found:
            text.append(line)
            continue
        end_item()
        deep = 1 if found[1] else 0
        made += [".RS"] * (deep - depth) + [".RE"] * (depth - deep)
        depth = deep
        made.append(".IP \\(bu 2" if found[2] == "-" else f".IP {found[2]} 3")
        text.append(found[3])
    end_item()
    return "\n".join(made + [".RE"] * depth)


def blocks(lines: list[str]) -> Iterator[list[str]]:
    """The blocks of a document, each as its lines: what stands between empty lines, and code between its fences whole."""
    block: list[str] = []
    in_code = False
    for line in [*lines, ""]:
        fence = line == "```"
        if block and not in_code and (fence or not line.strip()):
            yield block
            block = []
        if fence and in_code:
            yield block
            block = []
        elif fence or in_code or line.strip():
            block.append(line)
        in_code ^= fence


def shown(block: list[str]) -> str:
    """What a block of a document is in a page."""
    first = block[0]
    if first == "```":
        return shown_code(block[1:])
    if first.startswith("    "):
        return shown_code([line[4:] for line in block])
    if first.startswith("#"):
        return heading(first)
    if first.startswith("|"):
        return table(block)
    if ITEM.fullmatch(first):
        return items(block)
    return ".PP\n" + inline("\n".join(block))


def made(page: Page) -> str:
    """The page's text."""
    text = page.text
    lines = text.splitlines()[1:]
    others = ["\\fBraftbench\\fR(1)", *(it.shown for it in sorted(PAGES, key=lambda it: it.section) if it is not page)]
    links = [plain(url) for _, url in LINK.findall(text)]
    return "\n".join([
        f'.\\" Made of {page.document.relative_to(TOP)} by tests/repository/manual.py',
        f'.TH {plain(page.name.upper())} {page.section} "" "raftbench" "{KINDS[page.section]}"',
        # So no blanks are put into code.
        ".ad l",
        ".SH NAME",
        f"{plain(page.name)} \\- {page.about}",
        ".SH DESCRIPTION",
        *map(shown, blocks(lines)),
        ".SH SEE ALSO",
        ",\n".join(others),
        *(f".PP\n{link}" for link in links),
        "",
    ])
