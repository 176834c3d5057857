"""The page around its JSON text: what stands before it and what stands after it, from the files of crates/rb_view/assets. For a page of a book, whose
style and code are files of their own, also from those of crates/rb_book/assets.

    assemble.py before|after       writes one of the two
    assemble.py page < JSON        writes a whole page
    assemble.py renew < PAGE       writes a page anew: its rows as they are, and what is around them as the files are today
    assemble.py sources            writes the sources of rb_view's frame and of rb_book's, in which the program has the same
"""
from __future__ import annotations

import base64
import hashlib
import itertools
import pathlib
import re
import sys
from collections.abc import Callable, Sequence

sys.dont_write_bytecode = True
sys.path[:1] = [str(pathlib.Path(__file__).resolve().parents[2])]

CRATES = pathlib.Path(__file__).resolve().parents[2] / "crates"
CRATE = CRATES / "rb_view"
BOOK = CRATES / "rb_book"
ASSETS = CRATE / "assets"
SOURCES = CRATE / "src" / "frame"
ENTRY = "start.js"
# What each file of sources says of itself, the file that it is made of, and its constants, each with what it is.
HTML = ("The elements of a page.", "page.html", {
    "HEAD": "The page's head, up to its style.",
    "BODY": "From behind the style up to the rows.",
    "BETWEEN": "From behind the rows up to the code.",
    "END": "What stands behind the code.",
})
BOOK_HTML = ("The elements of a book's pages.", "page.html, and of assets/book.css,", {
    "HEAD": "A page's head, up to the way to the site's own folder.",
    "LINKED": "From there up to the links of the page.",
    "ELEMENTS": "From behind the links up to the rows.",
    "BETWEEN": "From behind the rows up to the way to the site's own folder.",
    "END": "From behind that way to the end of the page.",
    "CONTENTS": "The head of a contents page, up to its title.",
    "BOOK_STYLE": "What a book's style has more than a page's.",
})
GENERATOR = '<meta name="generator" content="raftbench">'
# Style and code of a book are files, and pictures are shown.
BOOK_POLICY = "default-src 'none'; style-src 'self'; script-src 'self'; img-src 'self'; base-uri 'none'; form-action 'none'"
# The styles in their order, each with what it is about.
STYLES = {
    "style": "The colours of a page, its header and what all of its parts share",
    "script_style": "The style of a page's script",
    "picture_style": "The style of a page's picture",
    "logs_style": "The style of the logs of a page, side by side",
    "after_style": "The style of what stands after the chosen directive",
    "narrow_style": "The style of a page on a narrow screen",
    "paper_style": "The style of a page on paper",
}
IMPORT = re.compile(r'^import \{[^}]*\} from "\./(\w+\.js)";\n', re.MULTILINE)
# Comments that have types: on lines of their own, and before an expression.
TYPES = re.compile(r"^[ \t]*/\*\*.*?\*/\n|/\*\*.*?\*/ ?", re.MULTILINE | re.DOTALL)
NAME = re.compile(r"^(?:export )?(?:const|let|function|class) (\w+)", re.MULTILINE)
EXPORT = re.compile(r"^export (?=(?:const|function|class) )", re.MULTILINE)


def text_of(name: str) -> str:
    return (ASSETS / name).read_text(encoding="utf-8")


def hash_of(text: str) -> str:
    return "'sha256-" + base64.b64encode(hashlib.sha256(text.encode()).digest()).decode() + "'"


def styles() -> list[str]:
    """The parts of the page's style, in their order."""
    return ["\n" + text_of(f"{name}.css") for name in STYLES]


def modules() -> list[str]:
    """The names of the page's modules, each after those that it imports."""
    order: list[str] = []

    def visit(name: str, path: list[str]) -> None:
        if name in path:
            raise ValueError(f"{' imports '.join([*path, name])}")
        for imported in IMPORT.findall(text_of(name)):
            visit(imported, [*path, name])
        if name not in order:
            order.append(name)
    visit(ENTRY, [])
    names = [name for module in order for name in NAME.findall(text_of(module))]
    if twice := sorted({name for name in names if names.count(name) > 1}):
        raise ValueError(f"{', '.join(twice)} would be there twice, since the page's modules share one scope")
    return order


def codes() -> list[str]:
    """The modules as parts of one strict script, in their order: without imports and exports, which one scope doesn't need, and without types."""
    parts = ["\n" + TYPES.sub("", EXPORT.sub("", IMPORT.sub("", text_of(name)))) for name in modules()]
    return ['\n"use strict";' + parts[0], *parts[1:]]


def elements() -> list[str]:
    """The parts of the page's own elements: those around the style, the rows and the code."""
    policy = f"default-src 'none'; style-src {hash_of(''.join(styles()))}; script-src {hash_of(''.join(codes()))}; base-uri 'none'; form-action 'none'"
    return re.split("{style}|{steps}|{code}", text_of("page.html").replace("{policy}", policy))


def book_elements() -> list[str]:
    """The same of a book's page, whose style and code are files; and the head of the contents page, and the book's style."""
    page = text_of("page.html").replace("<style>{style}</style>", '<link rel="stylesheet" href="{up}page.css">')
    page = page.replace("<script>{code}</script>", '<script src="{up}page.js"></script>').replace("<body>\n", "<body>\n{links}")
    texts = re.split("{up}|{links}|{steps}", page.replace("{policy}", BOOK_POLICY).replace("<meta name=\"viewport\"", GENERATOR + "\n<meta name=\"viewport\""))
    return [*texts, texts[0].split("raftbench</title>")[0], (BOOK / "assets" / "book.css").read_text(encoding="utf-8")]


def parts() -> tuple[str, str]:
    """What stands before the JSON text, and what stands after it."""
    head, body, between, end = elements()
    return head + "".join(styles()) + body, between + "".join(codes()) + end


def rows_in(page: str) -> str:
    """The JSON text of a page, in which no element can end."""
    return page.split('<script type="application/json" id="steps">', 1)[1].split("</script>", 1)[0]


# As sources


def literal(text: str) -> str:
    """A text as bytes of a source, a line of it a line."""
    escaped = text.replace("\\", "\\\\").replace('"', '\\"')
    inside = "".join(it if it.isascii() else "".join(f"\\x{byte:02x}" for byte in it.encode()) for it in escaped).split("\n")
    lines = [f"{line}\\n\\" for line in inside[:-1]] + [inside[-1]]
    # Blanks at a line's beginning would be taken away behind the backslash that ends the line before.
    return 'b"\\\n' + "\n".join(re.sub("^ ", r"\\x20", line) for line in lines) + '"'


def source(said: tuple[str, str, dict[str, str]], texts: list[str]) -> str:
    about, asset, constants = said
    items = [f"/// {does}\n#[rattlefmt::skip]\npub(crate) const {name}: &[u8] = {literal(text)};\n" for (name, does), text in zip(constants.items(), texts)]
    return "\n".join([f"//! {about} Made of assets/{asset} by `tests/page/assemble.py sources`.\n", *items])


def constant_of(module: str) -> str:
    return module.removesuffix(".js").upper()


def order() -> str:
    """Which constants are before the rows and which are after them, in order."""
    names = [constant_of(module) for module in modules()]
    style_names = [name.upper() for name in STYLES]
    uses = sorted(["use crate::frame::html::{BETWEEN, BODY, END, HEAD};", *(f"use crate::frame::{name.lower()}::{name};" for name in [*names, *style_names])])

    def function(said: str, name: str, parts: Sequence[str]) -> str:
        facts = " ∷ ".join(f"{part}.now" for part in parts)
        return (
            f"/// {said}\n#[rattlefmt::skip]\npub fn {name}() -> [&'static [u8]; {len(parts)}]\n"
            f"    ensures {{ map (λ part. part.now) result ≡ {facts} ∷ [] }}\n"
            f"{{\n    [{', '.join(parts)}]\n}}\n")
    return "\n".join([
        "//! What is around the rows of a page, in parts. Made by `tests/page/assemble.py sources`.\n",
        "ghost use Rattle.std.specs.Prelude.{◌≡◌, ◌∷◌, [], map};\n",
        "\n".join(uses) + "\n",
        function("The parts before the rows: the page's head with its style, and its elements.", "front", ["HEAD", *style_names, "BODY"]),
        function("The parts after them: the page's code.", "back", ["BETWEEN", *names, "END"]),
    ])


def library() -> str:
    """The module that has them."""
    names = sorted(["frame", "html", *STYLES, *(constant_of(module).lower() for module in modules())])
    return "\n".join([
        "//! What is around the rows of a page (docs/FORMATS.md): its own elements, its style and its code. Made by `tests/page/assemble.py sources`.",
        "//!",
        "//! The files are in assets, and the sources are made of them. The page's head names its style and its code by their hashes, so that no other",
        "//! runs in it.\n",
        *(f"mod {name};" for name in names),
        "\npub use frame::{back, front};\n",
    ])


def sources() -> dict[pathlib.Path, str]:
    """Each source that is made, with its text."""
    made = {"html": source(HTML, elements()), "frame": order()}
    for (name, about), text in zip(STYLES.items(), styles()):
        made[name] = source((f"{about}.", f"{name}.css", {name.upper(): "The style."}), [text])
    for module, text in zip(modules(), codes()):
        about = first_comment(module)
        made[module.removesuffix(".js")] = source((about, module, {constant_of(module): "The code."}), [text])
    book = {BOOK / "src" / "html.rt": source(BOOK_HTML, book_elements())}
    return {SOURCES / f"{name}.rt": text for name, text in made.items()} | {SOURCES.with_suffix(".rt"): library()} | book


def first_comment(module: str) -> str:
    """What a module says of itself, as one sentence of a source."""
    comment = "".join(itertools.takewhile(lambda line: line.startswith("// "), text_of(module).splitlines(keepends=True)))
    said = comment.replace("// ", "").replace("\n", " ")
    return "Code of a page. " + said.split(". ")[0].rstrip(". ") + "."


def write_sources() -> str:
    made = sources()
    for path in SOURCES.glob("*.rt"):
        if path not in made:
            path.unlink()
    for path, text in made.items():
        path.write_text(text)
    return ""


def main() -> None:
    before, after = parts()
    text: dict[str, Callable[[], str]] = {
        "before": lambda: before, "after": lambda: after, "page": lambda: before + sys.stdin.read() + after, "sources": write_sources,
        "renew": lambda: before + rows_in(sys.stdin.read()) + after,
    }
    sys.stdout.write(text[sys.argv[1]]())


if __name__ == "__main__":
    main()
