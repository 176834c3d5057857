"""Makes the texts of rb_report from docs/SCRIPTS.md: its table as an overview, and a page for each directive.

A page has the directive's usage, what the document says of it, what each argument may be, and an example: of the blocks in the document's
scripts that are this directive, the one that shows most. The texts go into crates/rb_report/src/help/pages.rt, the keys of options into
keys.rt, and a line on each option into options.rt.
"""
import dataclasses
import pathlib
import re
import textwrap
from collections.abc import Iterator

from tests.harness import TOP

DOCUMENT = TOP / "docs/SCRIPTS.md"
SOURCES = TOP / "crates/rb_report/src/help"
WIDTH = 80
CODE = re.compile(r"`([^`]*)`")
MORE = "raftbench-directives(7) explains the lines of outputs, and the errors."


@dataclasses.dataclass(frozen=True)
class Argument:
    """A word or an option: its key, whether it must be given, and what it may be."""

    key: str
    is_option: bool
    is_wanted: bool
    may_be_many: bool
    is_value: str

    @property
    def usage(self) -> str:
        shown = f"{self.key}=.." if self.is_option else f"{self.key} .." if self.may_be_many else self.key
        return shown if self.is_wanted else f"[{shown}]"


@dataclasses.dataclass(frozen=True)
class Directive:
    """A row of the document's table, with what stands in its section."""

    name: str
    does: str
    arguments: list[Argument]
    said: list[str]
    example: list[str]

    @property
    def usage(self) -> str:
        return folded(" ".join([self.name, *(it.usage for it in self.arguments if it.key != "log-level")]), "        ")


def folded(text: str, later: str, first: str = "") -> str:
    return "\n".join(textwrap.wrap(text, WIDTH, initial_indent=first, subsequent_indent=later, break_long_words=False, break_on_hyphens=False))


def plain(text: str) -> str:
    """A text without its marks."""
    return CODE.sub(r"\1", text)


def cells(line: str) -> list[str]:
    return [cell.strip() for cell in re.split(r"\|(?=(?:[^`]*`[^`]*`)*[^`]*$)", line.strip().strip("|"))]


def table_below(lines: list[str], first_cell: str) -> list[list[str]]:
    """The rows of the table whose first title this is, without its titles."""
    at = next(n for n, line in enumerate(lines) if line.startswith("|") and cells(line)[0] == first_cell)
    rows = []
    for line in lines[at + 2:]:
        if not line.startswith("|"):
            break
        rows.append(cells(line))
    return rows


def meanings(lines: list[str]) -> dict[str, str]:
    """What each argument may be, by the words that the document has for it."""
    found: dict[str, str] = {}
    for names, meaning in table_below(lines, "What"):
        for name in re.sub(r"^an? ", "", plain(names)).split(", "):
            found[name] = plain(meaning)
    return found


def sections(lines: list[str]) -> dict[str, list[str]]:
    """What stands in each directive's section before its first script: lines of paragraphs and tables."""
    found: dict[str, list[str]] = {}
    said: list[str] | None = None
    in_code = False
    for line in lines:
        if line.startswith("#") and not in_code:
            names = re.findall(r"`([a-z-]+)`", line) if line.startswith("### ") else []
            said = []
            found |= {name: said for name in names}
        elif line == "```":
            said, in_code = None, not in_code
        elif said is not None:
            said.append(line)
    return found


def examples(text: str) -> dict[str, list[str]]:
    """Of the blocks of the document's scripts the one of each directive that shows most, and the first of those that show as much."""
    found: dict[str, tuple[int, list[str]]] = {}
    for script in re.findall(r"^```\n(.*?)^```$", text, re.M | re.S):
        for block in script.strip().split("\n\n"):
            lines = block.splitlines()
            if "----" not in lines:
                continue
            name, shown = lines[0].split()[0], lines[lines.index("----") + 1:]
            if not shown[0].startswith("error: ") and len(shown) > found.get(name, (0, []))[0]:
                found[name] = len(shown), lines
    return {name: lines for name, (_, lines) in found.items()}


def said_of(lines: list[str]) -> list[str]:
    """Paragraphs, and a table as a list: what it is of, and below it what is said of it."""
    made, paragraph = [], []
    for line in [*lines, ""]:
        if line and not line.startswith("|"):
            paragraph.append(line)
            continue
        if paragraph:
            made.append(folded(plain(" ".join(paragraph)), ""))
            paragraph = []
        if line.startswith("|") and not re.fullmatch(r"[|-]+", line):
            first, last = map(plain, cells(line))
            made.append(f"  {first}\n{folded(last, '      ', '      ')}")
    titles = {f"  {plain(cells(line)[0])}\n" for line, below in zip(lines, lines[1:]) if re.fullmatch(r"[|-]+", below)}
    return [it for it in made if not any(it.startswith(title) for title in titles)]


def words_of(cell: str, name: str, meaning: dict[str, str]) -> Iterator[Argument]:
    """The words that a directive takes, by its cell of the table."""
    for word in filter(None, re.split(r", (?!at least)", cell)):
        key, _, least = word.partition(", ")
        if key == "ids":
            yield Argument("id", False, bool(least), True, meaning["id"])
        else:
            yield Argument(key, False, True, False, meaning[f"{key} of {name}"] if f"{key} of {name}" in meaning else meaning[key])


def options_of(cell: str, meaning: dict[str, str]) -> Iterator[Argument]:
    wanted = "must be given" in cell
    for key in CODE.findall(cell):
        yield Argument(key, True, wanted, False, meaning[key])


def directives() -> Iterator[Directive]:
    """The directives of the document, in the order of its table."""
    text = DOCUMENT.read_text().split("\n## The format\n")[0]
    lines = text.splitlines()
    meaning, found, example = meanings(lines), sections(lines), examples(text)
    for name, words, options, does in table_below(lines, "Directive"):
        name = plain(name)
        arguments = [*words_of(words, name, meaning), *options_of(options, meaning), *options_of("`log-level`", meaning)]
        yield Directive(name, plain(does), arguments, said_of(found[name]), example[name])


def overview(directive: Directive) -> str:
    return f"{directive.usage}\n{folded(directive.does, '    ', '    ')}\n"


def closing() -> str:
    return "\n" + folded("Each directive also takes log-level=.., which sets the level for it alone. `raftbench directives NAME` explains one directive.", "") + "\n"


def page(directive: Directive) -> str:
    arguments = "\n".join(f"{it.key}\n{folded(it.is_value, '    ', '    ')}" for it in directive.arguments)
    example = "\n".join(f"    {line}".rstrip() for line in directive.example)
    return "\n\n".join([directive.usage, f"{directive.does[0].upper()}{directive.does[1:]}.", *directive.said, arguments, "For example:", example, MORE]) + "\n"


def literal(text: str) -> str:
    """A text as bytes of the source, a line of it a line."""
    inside = text.replace("\\", "\\\\").replace('"', '\\"').split("\n")
    lines = [f"{line}\\n\\" for line in inside[:-1]] + [inside[-1]]
    # Blanks at a line's beginning would be taken away behind the backslash that ends the line before.
    return 'b"\\\n' + "\n".join(re.sub(r"^ ", "\\\\x20", line) for line in lines) + '"'


def pages_source() -> str:
    found = list(directives())
    rows = "".join(f'    (b"{it.name}", {literal(overview(it))}, {literal(page(it))}),\n' for it in found)
    return (
        "//! What the manual says of each directive. Made of docs/SCRIPTS.md by `tests/repository/manual.py`.\n\n"
        "/// A page for each directive, in the order of the document's table: its name, its line of the overview, and the page.\n"
        "#[rattlefmt::skip]\n"
        f"pub const PAGES: [(&[u8], &[u8], &[u8]); {len(found)}] = [\n{rows}];\n\n"
        "/// What is below the overview.\n"
        "#[rattlefmt::skip]\n"
        f"pub(crate) const CLOSING: &[u8] = {literal(closing())};\n")


def keys_source() -> str:
    found = [(it.name, argument.key) for it in directives() for argument in it.arguments if argument.is_option and argument.key != "log-level"]
    rows = "".join(f'    (b"{name}", b"{key}"),\n' for name, key in found)
    return (
        "//! The options that the manual has. Made of docs/SCRIPTS.md by `tests/repository/manual.py`.\n\n"
        "/// The options but for `log-level`, in the order of the document's table: a directive, and the option's key.\n"
        "#[rattlefmt::skip]\n"
        f"pub const KEYS: [(&[u8], &[u8]); {len(found)}] = [\n{rows}];\n")


def option_line(directive: Directive, option: Argument) -> str:
    """What the option does, if the section has a table that says so, and what its values may be."""
    does: list[str] = next((line.split("\n")[1:] for line in directive.said if line.startswith(f"  {option.key}\n")), [])
    return ": ".join([*([" ".join(" ".join(does).split())] if does else []), option.is_value])


def options_source() -> str:
    found = {argument.key: option_line(it, argument) for it in directives() for argument in it.arguments if argument.is_option}
    rows = "".join(f'    (b"{key}", b"{line}"),\n' for key, line in found.items())
    return (
        "//! What the manual says of each option. Made of docs/SCRIPTS.md by `tests/repository/manual.py`.\n\n"
        "/// An option's key, and what it does and takes, on one line.\n"
        "#[rattlefmt::skip]\n"
        f"pub(crate) const OPTION_LINES: [(&[u8], &[u8]); {len(found)}] = [\n{rows}];\n")


def sources() -> dict[pathlib.Path, str]:
    """Each file that is made, with its text."""
    return {SOURCES / "pages.rt": pages_source(), SOURCES / "keys.rt": keys_source(), SOURCES / "options.rt": options_source()}
