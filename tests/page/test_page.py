"""The page of a script: its own files, what the program writes (program.py), what a reader does with it in a browser (reader.py), and
what it shows beside what the script prints (beside.py); and traces (traces.py).

Its rows come from the plain bench (plain_steps.py). Pages of the tour, of a mismatch, of hostile texts, of lost messages, of a full
mailbox, of 32 nodes, of long output and of 20,000 directives are opened in a headless browser (Debian's `chromium`): by keys, by clicks,
by the place in the address and within frames, light and dark. Each arrow is followed from end to end, and each mark, each band and all
that stands after each step is held to what is printed; so is what stands after each ready and each delivery (events.py). Nothing may stand
in the console, and nothing may be fetched. Other tests try mismatches (difference.py), finding and filters (finding.py), keys, buttons and
playing (stepping.py), what is told of a page to readers who can't see it (access.py), print and narrow screens (paper.py), how texts are spelled (spelling.py), and the types of
the page's modules (types_of_modules.py). Where there is no browser, or no program, this says so.

With SEEN=FOLDER in the environment it writes what is seen into a folder, to look at.
"""
from __future__ import annotations

import ast
import base64
import dataclasses
import hashlib
import html.parser
import json
import os
import pathlib
import re
import subprocess
import tempfile
import xml.etree.ElementTree
from collections.abc import Iterator
from typing import Any

from plain.cluster import Cluster
from plain.script import Fault, read_script, read_with_lines
from tests.cases.case import scripts_below
from tests.harness import PROGRAM, TESTS, TOP, Result, results_of
from tests.page import access, assemble, beside, chart_parts, difference, events, finding, paper, program, spelling, stepping, traces, types_of_modules
from tests.page.browser import Browser, found
from tests.page.plain_chart import svg_of
from tests.page.plain_steps import cell, json_text, rows_of
from tests.page.reader import SEEN, Reader, counted
from tests.page.scripts import HOSTILE, LOST, MANY, NOBODY, SELF, TOUR, page_of, same

# Ways to put text in that a browser reads as marks or as code.
ACTING = "|".join([
    "innerHTML", "outerHTML", "insertAdjacentHTML", r"document\.write", "createContextualFragment", "DOMParser", "setHTML", "srcdoc",
    r"\beval\b", r"\bFunction\(", r"\bimport\(", r"\.on[a-z]+ =",
])
CHARTS = TOP / "crates" / "rb_view"
# The page of the tour's election, which people can open before anything is built.
ELECTION = TOP / "docs" / "pictures" / "election.html"


@dataclasses.dataclass
class Element:
    """An element that the page makes, with what is in it."""

    tag: str
    given: dict[str, str | None]
    text: str = ""


class Marks(html.parser.HTMLParser):
    """The elements of a page that hold text as it is, and its policy."""

    def __init__(self, text: str) -> None:
        super().__init__(convert_charrefs=False)
        self.elements: list[Element] = []
        self.policy = ""
        self.attributes: set[str] = set()
        self.open: Element | None = None
        self.feed(text)

    def handle_starttag(self, tag: str, attributes: list[tuple[str, str | None]]) -> None:
        given = dict(attributes)
        self.attributes |= set(given)
        if given.get("http-equiv") == "Content-Security-Policy":
            self.policy = given["content"] or ""
        self.open = None
        if tag in ("script", "style"):
            self.open = Element(tag, given)
            self.elements.append(self.open)

    def handle_endtag(self, tag: str) -> None:
        self.open = None

    def handle_data(self, data: str) -> None:
        if self.open:
            self.open.text += data


def hash_of(text: str) -> str:
    return "'sha256-" + base64.b64encode(hashlib.sha256(text.encode()).digest()).decode() + "'"


def policy_names_its_own_by_hash() -> None:
    marks = Marks(page_of(HOSTILE, "x"))
    elements: list[tuple[str, dict[str, str | None]]] = [("style", {}), ("script", {"type": "application/json", "id": "steps"}), ("script", {})]
    same("the elements", [(it.tag, it.given) for it in marks.elements], elements)
    style, _, code = (it.text for it in marks.elements)
    wanted = {"default-src 'none'", f"style-src {hash_of(style)}", f"script-src {hash_of(code)}", "base-uri 'none'", "form-action 'none'"}
    same("the policy", set(marks.policy.split("; ")), wanted)
    same("the attributes that act", {name for name in marks.attributes if name.startswith("on") or name in ("src", "href", "style")}, set())


def sources_are_made_of_the_files() -> None:
    for path, text in assemble.sources().items():
        same(f"{path.name}, which tests/page/assemble.py makes", path.read_text(), text)


def no_code_makes_marks() -> None:
    for name, code in zip(assemble.modules(), assemble.codes(), strict=True):
        same(f"what acts in {name}", re.findall(ACTING, code), [])
    same("what the look sees", len(re.findall(ACTING, "a.innerHTML = b; eval(c); d.onclick = e;")), 3)


def rows_are_inert_and_read_back() -> None:
    for data in [HOSTILE, *(path.read_bytes() for path in TOUR)]:
        rows = list(rows_of(data, "<&>é"))
        text = json_text(rows)
        same("the bytes that are marks or past ASCII", re.findall(r"[<>&]|[^\n -~]", text), [])
        plain = [[it if isinstance(it, int) else (it.encode() if isinstance(it, str) else it).decode("latin-1") for it in row] for row in rows]
        same("what reads back", json.loads(text), plain)
    same("a cell", cell(b'a"\\<\x00\xff'), '"a\\u0022\\u005c\\u003c\\u0000\\u00ff"')


def changes_add_up() -> None:
    """What the rows of changes leave standing after each directive is the state of a cluster that ran without being watched."""
    for path in TOUR:
        cluster, standing = Cluster(), Standing()
        blocks = iter(read_script(path.read_bytes()).blocks)
        for row in [*rows_of(path.read_bytes(), path.name)][1:]:
            if row[0] in ("step", "end") and standing.begun:
                cluster.run(next(blocks).directive())
                same(f"what stands in {path.name}", standing.seen(), seen_of(cluster))
            standing.read(row)


class Standing:
    """What stands, by the rows of changes."""

    def __init__(self) -> None:
        self.nodes: dict[int, list[Any]] = {}
        self.entries: dict[int, dict[int, int]] = {}
        self.views: dict[tuple[int, ...], list[Any]] = {}
        self.base: dict[int, int] = {}
        self.log, self.begun = 0, False

    def read(self, row: Any) -> None:
        name, *cells = row
        if name == "step":
            self.begun = True
        elif name == "node":
            self.nodes[cells[0]] = cells[1:]
        elif name == "log":
            self.log, self.base[cells[0]] = cells[0], cells[2]
            old = self.entries.get(cells[0], {})
            self.entries[cells[0]] = {index: old[index] for index in range(cells[2] + 1, cells[3] + 1)}
        elif name == "entry":
            self.entries[self.log][cells[0]] = cells[1]
        elif name == "view":
            self.views[tuple(cells[:2])] = cells[2:]
        elif name == "no-view":
            del self.views[tuple(cells)]

    def seen(self) -> tuple[Any, ...]:
        return self.nodes, self.base, self.entries, self.views


def seen_of(cluster: Cluster) -> tuple[Any, ...]:
    nodes = cluster.nodes.items()
    return (
        {id: [n.role, n.term, n.vote, n.lead, n.commit, n.applied, n.durable, len(n.content), n.content[-32:]] for id, n in nodes},
        {id: node.base for id, node in nodes},
        {id: {index: entry.term for index, entry in node.entries_from(node.base + 1)} for id, node in nodes},
        {
            (id, member): [v.state, v.match, v.next, v.inflight, int(v.waiting), v.pending, int(v.active)]
            for id, node in nodes for member, v in node.views.items()
        },
    )


def charts_have_every_message() -> None:
    """A picture has an arrow, a cross or a dotted line for each message, and nothing that acts."""
    for data in [LOST, SELF, NOBODY, HOSTILE, MANY, *(path.read_bytes() for path in TOUR)]:
        parts = list(xml.etree.ElementTree.fromstring(svg_of(data, "<&>")).iter())
        looks = [part.get("class") or "" for part in parts]
        came = tuple(sum(wanted in look.split() for look in looks) for wanted in ("delivered", "cross", "waiting"))
        same("the arrows", came, counted(list(rows_of(data, "x"))))
        kinds = {part.tag.removeprefix("{http://www.w3.org/2000/svg}") for part in parts}
        same("the elements", kinds, {"svg", "title", "desc", "style", "defs", "marker", "path", "rect", "text"})
        same("what fetches or acts", [name for part in parts for name in part.keys() if "href" in name or name.startswith("on")], [])
        same("the title", (parts[1].text or "")[:3], "<&>")
        same("whether what happens is told", (parts[2].text or "").count("\n") >= sum(came), True)


def pictures_of_documents_are_the_plain_ones() -> None:
    kept = (TOP / "docs" / "pictures" / "election.svg").read_text()
    same("the election", kept, svg_of(TOUR[0].read_bytes(), TOUR[0].name, 39))
    same("how it ends", kept.count("★ leader, t1"), 2)


def page_of_documents_is_todays() -> None:
    """The page that can be opened before anything is built. `./raftbench page examples/tour/01-election.txt` writes it; where only the files of
    assets have changed, `assemble.py renew` does, of the page itself. Without the rows that say why it is the plain bench's."""
    kept = program.without_remarks(ELECTION.read_bytes())
    same("the page of the election", kept, page_of(TOUR[0].read_bytes(), TOUR[0].name).encode())


def page_of_documents_is_the_programs() -> None:
    kept = ELECTION.read_bytes()
    same("the page of the election", program.answer(["page", TOUR[0]]), (kept, b"", 0))
    same("whether it has reasons", len(program.REMARK.findall(kept)) > 3, True)


def style_of_pictures_is_its_file() -> None:
    """What the program writes of how a picture looks is the file that people read and change."""
    inside = (CHARTS / "src" / "chart" / "style.rt").read_text().split(' = b"', 1)[1].removesuffix('";\n')
    same("the style", ast.literal_eval(f'b"""{inside}"""'), (CHARTS / "assets" / "style.svg").read_bytes())


def charts_of_the_program_are_the_plain_ones() -> None:
    """Byte for byte, of each script of the cases and the tour, and of hostile, long and broken ones; also of a part. In those at a limit more happens
    than a picture has room for."""
    with tempfile.TemporaryDirectory() as room:
        given = [LOST, HOSTILE, MANY, SELF, NOBODY, b"", b"# nothing\n"]
        for place, data in enumerate(given):
            pathlib.Path(room, f"{place} <&>.txt").write_bytes(data)
        for name, data in scripts_below(TESTS / "cases").items():
            pathlib.Path(room, f"{name}.txt").write_bytes(data)
        paths = [*pathlib.Path(room).iterdir(), *TOUR, *(TESTS / "cases").glob("*/*.txt")]
        paths = [path for path in paths if not path.name.startswith("limits-")]
        charted = [path for path in sorted(paths) if is_charted_as_plainly(path)]
        same("how many are charted", len(charted) > 150, True)


def is_charted_as_plainly(path: pathlib.Path) -> bool:
    """Whether the script can be read; where it can, its whole picture and that of a part are looked at."""
    data = path.read_bytes()
    try:
        read_script(data)
        _, lines = read_with_lines(data)
    except Fault:
        return False
    status = int(list(rows_of(data, path.name))[-1][2] > 0)
    middle, last = [*lines[len(lines) // 2:][:1], None][0], [*lines[len(lines) * 3 // 4:][:1], None][0]
    parts = {(None, None), (last, middle)}
    for until, start in parts:
        words = [word for name, line in (("--until", until), ("--from", start)) if line is not None for word in (name, str(line))]
        done = subprocess.run([PROGRAM, "chart", path, *words], stdout=subprocess.PIPE, stderr=subprocess.PIPE)
        same(f"what is told of {path.name}", (done.returncode, done.stderr), (status, b""))
        same(f"the picture of {path.name} {' '.join(words)}", done.stdout.decode(), svg_of(data, path.name, until, start))
    return True


ALONE = [
    policy_names_its_own_by_hash, sources_are_made_of_the_files, no_code_makes_marks, rows_are_inert_and_read_back, changes_add_up,
    charts_have_every_message, pictures_of_documents_are_the_plain_ones, page_of_documents_is_todays, style_of_pictures_is_its_file, beside.rows_tell_what_is_printed,
    *chart_parts.ALONE, *types_of_modules.ALONE,
]
MODULES = [events, difference, finding, stepping, access, paper, spelling]
IN_A_BROWSER = [*SEEN, *beside.BESIDE, *(test for module in MODULES for test in module.TESTS)]


def results(word: str) -> Iterator[Result]:
    """What needs nothing, what needs the program, and what needs a browser."""
    written = [*program.WRITTEN, *traces.TRACES, page_of_documents_is_the_programs, charts_of_the_program_are_the_plain_ones]
    yield from results_of(ALONE, word)
    yield from results_of(written, word, "" if program.found() else "the program")
    path = found()
    if not path:
        yield from results_of(IN_A_BROWSER, word, "a browser")
        return
    seen = os.environ.get("SEEN")
    with tempfile.TemporaryDirectory() as room, Browser(path) as browser:
        reader = Reader(browser, pathlib.Path(room), pathlib.Path(seen) if seen else None)
        yield from results_of(IN_A_BROWSER, word, "", reader)
