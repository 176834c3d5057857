"""What a server must offer of a text alone: folds, an outline, the canonical text, and words to go on with.

By docs/SCRIPTS.md and the protocol's specification (LSP 3.17). Texts are Python's: offsets count characters. Scripts are
read by the plain bench in plain/.
"""
import functools
import re
from collections.abc import Sequence
from typing import Any

from plain import script
from plain.cluster import Cluster
from tests.editors.oracle import line_starts, position, shown
from tests.editors.served import served
from tests.harness import TOP, matched

FUNCTION, PROPERTY, VALUE = 3, 10, 12
EVENT = 24
LONGEST_NAME = 80
CODE = re.compile(r"`([^`]*)`")
TOKEN = r"[^ \t=()]"
WHOLE_NAME = re.compile(rf"[ \t]*({TOKEN}+)(?=[ \t])")
VALUE_OF_KEY = r"=(?:\([^()]*\)|(?!\()[^ \t]*)"
# A value without a key is an error, and what is behind it continues as it does behind others.
WHOLE_ARGUMENT = re.compile(rf"[ \t]+(?:{TOKEN}+(?:{VALUE_OF_KEY})?|{VALUE_OF_KEY})(?=[ \t])")
NAME = re.compile(rf"[ \t]*({TOKEN}*)\Z")
ARGUMENT = re.compile(rf"[ \t]+({TOKEN}*)\Z")
VALUE_OF = re.compile(rf"[ \t]+({TOKEN}*)=(?!\()([^ \t]*)\Z")
LIST_OF = re.compile(rf"[ \t]+({TOKEN}*)=\(([^()]*)\Z")
BEGUN = re.compile(rf"[ \t]+({TOKEN}*)")
NUMBER = re.compile(r"[0-9]{1,10}\Z")
MOST_NODES, MOST_WORDS = 32, 64


# ---- where blocks stand

def blocks(text: str) -> Any:
    """Of each block that is served the first line of its head, the line behind that head, the line below its separator, and the line behind its last
    line that isn't blank; lines count from 0, and end at LF."""
    lines, found = script.lines_of(served(text).encode()), []
    reader = script.Reader(lines)
    while isinstance(block := reader.block(True), script.Block):
        head = reader.heads[-1] - 1
        behind = head + len(block.head)
        separator = next(n for n in range(behind, len(lines)) if lines[n].strip(b" \t") == b"----")
        end = reader.at
        while script.is_blank(lines[end - 1]):
            end -= 1
        found.append((head, behind, separator + 1, end))
    return found


def start_of(text: str, line: int, encoding: str) -> Any:
    """Where a script's line begins, or the text's end."""
    starts = line_starts(text)
    return position(text, starts[line] if line < len(starts) else len(text), encoding)


def fold(text: str, first: int, behind: int) -> Any:
    """The fold of a script's lines: an editor's last line is the one on which the last byte stands."""
    starts = line_starts(text)
    last = (starts[behind] if behind < len(starts) else len(text)) - 1
    return {"startLine": start_of(text, first, "utf-8")["line"], "endLine": position(text, last, "utf-8")["line"]}


def folds(text: str, _encoding: str) -> Any:
    """One a block, and one an expectation of more than one line."""
    found = []
    for head, _, below, end in blocks(text):
        found.append(fold(text, head, end))
        if end - below > 1:
            found.append(fold(text, below, end))
    return found


def symbols(text: str, encoding: str) -> Any:
    """One a block: the first line of its head is the name, as far as a name goes."""
    found, lines = [], text.split("\n")
    for head, behind, _, end in blocks(text):
        start = start_of(text, head, encoding)
        name = lines[head].rstrip("\r").lstrip(" \t")[:LONGEST_NAME]
        range_ = {"start": start, "end": start_of(text, end, encoding)}
        found.append({"name": shown(name), "kind": EVENT, "range": range_, "selectionRange": {"start": start, "end": start_of(text, behind, encoding)}})
    return found


# ---- the canonical text

def is_cut(text: str, at: int) -> bool:
    """Whether a place stands between CR and LF."""
    return text[at - 1:at + 1] == "\r\n"


def read(text: str) -> script.Script | None:
    """The script of a text, or None where it is no script."""
    try:
        return script.read_script(text.encode())
    except script.Fault:
        return None


def formatted(meant: script.Script) -> str:
    """The canonical text without the empty line that closes its last block."""
    text = meant.text().decode()
    return text.removesuffix("\n") if meant.blocks and not meant.tail else text


def formatting(text: str, encoding: str) -> Any:
    """One edit of what differs from that, around which the texts are the same."""
    meant = read(text)
    return [] if meant is None else edits_between(text, formatted(meant), encoding)


def range_formatting(text: str, first: int, last: int, encoding: str) -> Any:
    """The same of the directives that have a line from `first` to `last`, counted from 0, if the script stays as it is."""
    touched = [it for it in blocks(text) if it[0] <= last and first < it[3]]
    if (meant := read(text)) is None or not touched:
        return []
    starts = [*line_starts(text), len(text)]
    start, end = starts[touched[0][0]], starts[min(touched[-1][3], len(starts) - 1)]
    if (part := read(text[start:end])) is None:
        return []
    new = text[:start] + formatted(part) + text[end:]
    return edits_between(text, new, encoding) if read(new) == meant else []


def edits_between(text: str, new: str, encoding: str) -> Any:
    """One edit of what differs between two texts, if something does."""
    if new == text:
        return []
    front = next((n for n, (a, b) in enumerate(zip(text, new)) if a != b), min(len(text), len(new)))
    front -= is_cut(text, front)
    back, most = 0, min(len(text), len(new)) - front
    while back < most and text[-1 - back] == new[-1 - back]:
        back += 1
    stop = len(text) - back
    stop += is_cut(text, stop)
    range_ = {"start": position(text, front, encoding), "end": position(text, stop, encoding)}
    return [{"range": range_, "newText": new[front:len(new) - (len(text) - stop)]}]


# ---- words to go on with

def cells(line: str) -> list[str]:
    return [cell.strip() for cell in line.strip().strip("|").split("|")]


def id_places(words: str) -> int:
    """How many of a directive's words are ids, which are the first."""
    if words.startswith("ids"):
        return MOST_WORDS
    return next((n for n, word in enumerate(words.split(", ")) if word not in ("id", "from", "to")), len(words.split(", ")))


def table_of_directives() -> Any:
    """Of each directive's name its options, what it does, and how many of its words are ids, by the document's table; of each option its values,
    where it has some alone; and the options whose values are ids."""
    lines = (TOP / "docs" / "SCRIPTS.md").read_text().splitlines()
    at = lines.index("| Directive | Words | Options | Does |")
    rows = [cells(line) for line in lines[at + 2:lines.index("", at)]]
    directives = {matched(CODE.pattern, name)[1]: ([*CODE.findall(options), "log-level"], does, id_places(words)) for name, words, options, does in rows}
    at = lines.index("| What | Is |")
    rows = [cells(line) for line in lines[at + 2:lines.index("", at)]]
    values = {key: CODE.findall(is_.split(";")[0].split(", in")[0]) for what, is_ in rows for key in CODE.findall(what)}
    ids = {key for what, is_ in rows if "an id" in what or "number of ids" in is_ for key in CODE.findall(what)}
    at = next(n for n, line in enumerate(lines) if line.startswith("| Message |"))
    types = [name for line in lines[at + 2:lines.index("", at)] for name in cells(line)[0].split(", ")]
    kept = {key: values[key] for key in ("prevote", "checkquorum", "step-down-on-removal", "v1", "transition", "log-level")}
    return directives, kept | {"type": [*types, "MsgUnreachable"]}, ids


def plainly(text: str) -> str:
    return CODE.sub(r"\1", text)


def table_of_meanings() -> tuple[dict[str, str], list[tuple[str, str]]]:
    """What each option takes, by the document's table; and the letters of changes, but that which does nothing, with what they do to a node."""
    lines = (TOP / "docs" / "SCRIPTS.md").read_text().splitlines()
    at = lines.index("| What | Is |")
    rows = [cells(line) for line in lines[at + 2:lines.index("", at)]]
    meanings = {re.sub(r"^an? ", "", name): plainly(is_) for what, is_ in rows for name in plainly(what).split(", ")}
    at = lines.index("| Word | Means |")
    changes = [cells(line) for line in lines[at + 2:lines.index("", at)]]
    return meanings, [(word.strip("`")[0], means.replace("node 4", "the node")) for word, means in changes if means != "nothing"]


DIRECTIVES, VALUES, ID_KEYS = table_of_directives()
MEANINGS, CHANGES = table_of_meanings()


def joined(head: Sequence[str]) -> str:
    return "".join(line.rstrip(" \t")[:-1] + " " for line in head[:-1]) + head[-1]


def place_in(lines: list[str], front: str) -> tuple[str | None, str | None, int]:
    """Below these lines, on a line that begins so: the head up to there, its lines joined, or None; what there is of the line, if it is input of a
    change; and how many lines above are of the same block."""
    at = 0
    while True:
        while at < len(lines) and is_lead(lines[at]):
            at += 1
        if at == len(lines):
            return None if front.lstrip(" \t").startswith("#") else front, None, 0
        start = at
        while at < len(lines) and is_continued(lines[at]):
            at += 1
        if at == len(lines):
            return joined(lines[start:] + [front]), None, len(lines) - start
        at += 1
        while at < len(lines) and lines[at].strip(" \t") != "----":
            at += 1
        if at == len(lines):
            return None, front if name_of(lines[start]) == "propose-conf-change" else None, len(lines) - start
        behind = behind_expectation(lines, at + 1)
        if behind is None:
            return None, None, 0
        at = behind


def is_blank(line: str) -> bool:
    return not line.strip(" \t")


def is_lead(line: str) -> bool:
    return is_blank(line) or line.lstrip(" \t").startswith("#")


def is_continued(line: str) -> bool:
    return line.rstrip(" \t").endswith("\\")


def behind_expectation(lines: list[str], at: int) -> int | None:
    """The line behind the end of the expectation that begins on a line, or None where it hasn't ended."""
    if at >= len(lines):
        return None
    if lines[at] == "----":
        return next((n + 2 for n in range(at + 1, len(lines) - 1) if lines[n] == lines[n + 1] == "----"), None)
    return next((n + 1 for n in range(at, len(lines)) if is_blank(lines[n])), None)


def first_word(head: str) -> str:
    """The first argument of a joined head that has no key, as far as it goes."""
    name = WHOLE_NAME.match(head)
    at = name.end() if name else len(head)
    while found := BEGUN.match(head, at):
        if head[found.end():found.end() + 1] != "=":
            return found[1]
        whole = WHOLE_ARGUMENT.match(head, at)
        at = whole.end() if whole else len(head)
    return ""


@functools.lru_cache(maxsize=256)
def nodes_after(text: str) -> int:
    """How many nodes there are after a text, by the plain bench; none if it is no script."""
    try:
        found = script.read_script(text.encode())
    except script.Fault:
        return 0
    cluster = Cluster()
    for block in found.blocks:
        cluster.run(block.directive())
    return len(cluster.nodes)


def ids_of(nodes: int, head: str) -> list[str]:
    """The ids of so many nodes, and of those that the head itself adds, unless they would be too many."""
    more = int(first_word(head)) if name_of(head) == "add-nodes" and NUMBER.match(first_word(head)) else 0
    nodes += more if nodes + more <= MOST_NODES else 0
    return [str(id) for id in range(1, nodes + 1)]


def wanted(head: str, ids: list[str]) -> tuple[list[tuple[str, int]], str] | None:
    """What a joined head ends in: the words that may be there, each with what it is, and what there is of one; None where nothing is known."""
    if found := NAME.match(head):
        return [(name, FUNCTION) for name in DIRECTIVES], found[1]
    if not (name := WHOLE_NAME.match(head)):
        return None
    at, words = name.end(), 0
    while whole := WHOLE_ARGUMENT.match(head, at):
        at, words = whole.end(), words + ("=" not in whole[0])
    options, _, places = DIRECTIVES.get(name[1], (["log-level"], "", 0))
    if found := ARGUMENT.match(head, at):
        levels = VALUES["log-level"] if name[1] == "log-level" and words == 0 else []
        return [(key, PROPERTY) for key in options] + [(level, VALUE) for level in levels] + [(id, VALUE) for id in ids if words < places], found[1]
    if found := VALUE_OF.match(head, at) or LIST_OF.match(head, at):
        *listed, prefix = [found[2]] if found.re is VALUE_OF else re.split(r"[ \t,]", found[2])
        values = ids if found[1] in ID_KEYS else VALUES.get(found[1], [])
        return [(value, VALUE) for value in values if found[1] in options and value not in listed], prefix
    return None


def help_on(head: str, word: str, kind: int, is_id: bool) -> str:
    """The line of help on a word, as as_told gives it."""
    if kind == PROPERTY:
        return MEANINGS[word]
    if kind == VALUE and not is_id:
        return "some"
    return CODE.sub(r"\1", DIRECTIVES.get(word if kind == FUNCTION else name_of(head), ([], "", 0))[1])


def changes(front: str, nodes: int) -> list[tuple[str, str]]:
    """The words that a line of input of a change can continue with, each with its line of help."""
    *listed, prefix = re.split(r"[ \t,]", front)
    words = [(f"{letter}{id}", does) for letter, does in CHANGES for id in range(1, nodes + 1)]
    return [(word, does) for word, does in words if word.startswith(prefix) and word not in listed]


def name_of(head: str) -> str:
    return matched(rf"\A[ \t]*({TOKEN}*)", head)[1]


def completion(text: str, at: int, encoding: str) -> Any:
    """The items at a place: each with its label, its kind, what it puts there, and its line of help."""
    start = text.rfind("\n", 0, at) + 1
    lines = [line.rstrip("\r") for line in text[:start].split("\n")[:-1]]
    head, change, begun = place_in(lines, text[start:at])
    block = sum(len(line) + 1 for line in text.split("\n")[:len(lines) - begun])
    found: list[tuple[str, int, str]] = []
    prefix = ""
    if change is not None:
        prefix = re.split(r"[ \t,]", change)[-1]
        found = [(word, VALUE, does) for word, does in changes(change, nodes_after(text[:block]))]
    elif head is not None and (asked := wanted(head, [])):
        prefix = asked[1]
        ids = ids_of(nodes_after(text[:block]), head)
        words, prefix = wanted(head, ids) or ([], "")
        is_ids = [it for it in words if it not in asked[0]]
        found = [(word, kind, help_on(head, word, kind, (word, kind) in is_ids)) for word, kind in words if word.startswith(prefix)]
    range_ = {"start": position(text, at - len(prefix), encoding), "end": position(text, at, encoding)}
    items = []
    for word, kind, does in found:
        label = word + ("=" if kind == PROPERTY else "")
        items.append({"label": label, "kind": kind, "does": does, "textEdit": {"range": range_, "newText": label}})
    return items


def as_told(items: Any) -> Any:
    """Items as they came: of a directive what it does, which stands below its usage; of an option what it takes; of a change what it does; of
    another value whether anything is said of it."""
    told = []
    for item in items:
        documentation = re.split(r"\n {4}(?! )", item["documentation"])
        does = " ".join(documentation[-1].split()) if len(documentation) > 1 else item["documentation"]
        if item["kind"] == PROPERTY:
            does = does.split(": ")[-1]
        elif item["kind"] == VALUE and len(documentation) == 1 and not re.match(r"[vlr][0-9]", item["label"]):
            does = "some" if does else ""
        told.append({"label": item["label"], "kind": item["kind"], "does": does, "textEdit": item["textEdit"]})
    return told
