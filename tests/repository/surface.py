"""Reads from the sources what the crates give other programs: exported names, the signatures and conditions of public calls, and the parts of types.

A crate gives a type, a trait or a function if its lib.rt exports it, from a module of its own or from a crate below. A call of a type is a function or a
type of it, or of a trait, wherever it is declared. The parts of a type are its variants or its public fields, in order.
"""
import dataclasses
import functools
import re
from collections.abc import Iterator

from tests.repository.promises import OWNER

# The texts of sources, by their paths below crates/.
Texts = dict[str, str]
EXPORTED = re.compile(r"^pub use ([\w:]+)(?:::\{([^}]*)\})?;", re.MULTILINE)
DECLARED = re.compile(r"^pub (?:struct|enum|trait|type|fn) (\w+)", re.MULTILINE)
MEMBER = re.compile(r"^(    )?(pub )?(?:fn|type) (\w+)")
# Where a signature ends: at its clauses, at a comment on them, at its body, or at the end of a declaration.
SIGNATURE_END = re.compile(r"\n *(?:(?:requires|ensures\*?)\b|//)|;$| *\{\}?$", re.MULTILINE)
CONDITION = re.compile(r"^ *requires(?: \w+)? \{ (.*?) \};?$", re.MULTILINE | re.DOTALL)
TYPE = r"^pub (?:struct|enum) {}\b[^{{;]*\{{\n(.*?)^\}}"
NO_PART = re.compile(r"^ +(?://|#|pub\().*\n", re.MULTILINE)


@dataclasses.dataclass(frozen=True)
class Call:
    """A public call: its type or trait if it has one, its signature without the name, and what it requires of its caller."""

    owner: str
    name: str
    signature: str
    conditions: tuple[str, ...]


def one_line(text: str) -> str:
    """A text of several lines as one, without blanks within brackets and without a comma before the closing one."""
    return re.sub(r"(?<=[(\[<]) ", "", re.sub(r",? (?=[)\]>])(?<!-)", "", " ".join(text.split())))


def call_at(text: str, owner: str, name: str, indent: str) -> Call:
    """The call at the beginning of a text. What follows it is another's."""
    end = SIGNATURE_END.search(text)
    signature = text[:end.start()] if end else text
    clauses = ""
    if end and end[0].startswith("\n"):
        body = re.compile(rf";$|^{indent}\{{\}}?$", re.MULTILINE).search(text, end.start())
        clauses = text[end.start():body.end() if body else len(text)]
    after_name = re.sub(r"^ *(?:pub )?(?:fn|type) \w+", "", signature)
    return Call(owner, name, one_line(after_name), tuple(" ".join(it.split()) for it in CONDITION.findall(clauses)))


@functools.lru_cache(maxsize=None)
def calls_of(text: str) -> tuple[Call, ...]:
    """The public calls of a file, each with its type or trait."""
    found, owner, is_trait = [], "", False
    lines = text.splitlines()
    for at, line in enumerate(lines):
        if opened := OWNER.match(line):
            owner, is_trait = opened[1], " for " in line or "trait " in line
        elif line == "}":
            owner = ""
        elif (head := MEMBER.match(line)) and (head[2] or owner and is_trait):
            found.append(call_at("\n".join(lines[at:]), owner, head[3], head[1] or ""))
    return tuple(found)


def exports(text: str) -> dict[str, str]:
    """The names that a lib.rt or a module gives, and the path that each is taken from; of its own it is empty."""
    found = {name: "" for name in DECLARED.findall(text)}
    for path, listed in EXPORTED.findall(text):
        names = re.findall(r"\w+", listed) if listed else [path.rpartition("::")[2]]
        found |= {name: path if listed else path.rpartition("::")[0] for name in names}
    return found


def home_of(texts: Texts, place: str, name: str) -> str:
    """The crate that declares what this crate, or this module of it, gives under this name. Empty if it gives nothing of this name."""
    crate, *modules = place.split("::")
    given = exports(texts.get(f"{crate}/src/{'/'.join(modules) or 'lib'}.rt", "")).get(name)
    if given is None:
        return ""
    return home_of(texts, given, name) if given.startswith("rb_") else crate


def of_crate(texts: Texts, crate: str) -> list[str]:
    return [text for path, text in texts.items() if path.startswith(f"{crate}/")]


def calls_named(texts: Texts, crate: str, owner: str, name: str) -> list[Call]:
    """What a crate gives under this name of this type or trait, or of none."""
    home = home_of(texts, crate, owner or name)
    return [call for text in of_crate(texts, home or "none") for call in calls_of(text) if (call.owner, call.name) == (owner, name)]


def top_level(text: str) -> Iterator[str]:
    """The pieces of a list between the commas that stand in no brackets."""
    depth, piece = 0, ""
    for sign in text:
        depth += (sign in "([{<") - (sign in ")]}>")
        if sign == "," and depth == 0:
            yield piece.strip()
            piece = ""
        else:
            piece += sign
    if piece.strip():
        yield piece.strip()


def parts_of(texts: Texts, crate: str, name: str) -> str:
    """The variants or public fields of a type, in order, each with its type; empty if the type isn't found."""
    for text in of_crate(texts, home_of(texts, crate, name) or "none"):
        if found := re.search(TYPE.format(name), text, re.MULTILINE | re.DOTALL):
            pieces = [one_line(it).removeprefix("pub ") for it in top_level(NO_PART.sub("", found[1]))]
            return ", ".join(re.sub(r", \}$", " }", piece) for piece in pieces)
    return ""
