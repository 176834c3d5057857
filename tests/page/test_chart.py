"""The picture of a script alone: what it says to whom, what readers who can't see have of it, how `raftbench chart` ends, and whether all
of it is seen.

test_page.py holds pictures byte for byte to those of tests/page/plain_chart.py, and counts their arrows. Here labels and what is told are
held to the rows of a script; the program's refusals, statuses and failing writes to those of `run`; and what is drawn, light and dark,
to the picture's edges in a headless browser (Debian's `chromium`), where hostile texts must be texts. Where there is no program, or no
browser, this says so.

With SEEN=FOLDER in the environment it writes what is seen into a folder, to look at.
"""
from __future__ import annotations

import os
import pathlib
import re
import subprocess
import tempfile
import xml.etree.ElementTree
from collections.abc import Iterable, Iterator, Sequence
from typing import Any

from plain.script import read_script, read_with_lines
from tests.harness import PROGRAM, TOP, Result, results_of
from tests.page.browser import Browser, found
from tests.page.plain_chart import svg_of
from tests.page.plain_steps import Row, rows_of
from tests.page.scripts import HOSTILE, LOST, MANY, PAYLOADS, TOUR, same

ELECTION = TOP / "docs" / "pictures" / "election.svg"
FAILED = b"raftbench: input or output failed\n"
SVG = "{http://www.w3.org/2000/svg}"
MOST_SECONDS = 120
# The last node sends to itself, since its leader is itself after a snapshot of its own, and to a node that isn't there.
SELF = b"".join([
    b"add-nodes 2 voters=(1,2) index=10\n----\n\nsend-snapshot 2 2\n----\n\ndeliver-msgs 2\n----\n\nsend-snapshot 2 32\n----\n\n",
    b"propose 2 " + b"W" * 60 + b"\n----\n\nstabilize rounds=2\n----\n\n# After\n# all.\n",
])
# Numbers of ten digits, in an answer that refuses.
LONG = b"".join([
    b"add-nodes 2 voters=(1,2) index=999999999\n----\n\ncampaign 1\n----\n\nstabilize\n----\n\npropose 1 x\n----\n\nprocess-ready 1\n----\n\n",
    b"deliver-msgs drop=(2)\n----\n\npropose 1 y\n----\n\nstabilize\n----\n\n",
])
# Comments, and lines that look like some and are none: input, and what is expected, in both forms.
NOTED = b"".join([
    b"#\n#  The first \r\n\t## and more of it.\n\n# Another <b>.\nadd-nodes 1 voters=(1) \\\n# no note\n----\n# no note\n\n# A third.\nraft-state\n",
    b"# no note\n ---- \n----\n# no note\n\n----\nx\n----\n----\n# A fourth,\n#\n# and a fifth: \xff\nstatus 1\n----\n\n# The tail.\n",
])
NOTES = [
    (2, " The first"), (None, "and more of it."), (5, "Another <b>."), (11, "A third."), (22, "A fourth,"), (24, "and a fifth: \\xff"), (28, "The tail."),
]
# More events than a picture has room for, and a last directive with none.
LARGE = b"".join([
    b"log-level none\n----\nok\n\nadd-nodes 32 voters=(" + b",".join(str(id).encode() for id in range(1, 33)) + b") index=10\n----\nok\n\n",
    b"campaign 1\n----\nok\n\nstabilize\n----\nok\n\n", 4_200 * b"tick-heartbeat 1\n----\nok\n\nstabilize\n----\nok\n\n",
    b"tick-heartbeat 1\n----\nok\n\n",
])
REFUSED = {"BadLine": b"add-nodes =x\n----\n", "NoSeparator": b"add-nodes 1\n", "LineTooLong": b"raft-state\n----\n" + b"x" * 65_537}


def parts_of(svg: str) -> list[xml.etree.ElementTree.Element]:
    return list(xml.etree.ElementTree.fromstring(svg).iter())


def described(svg: str) -> list[str]:
    """What is told to readers who can't see, in lines."""
    [told] = [part.text for part in parts_of(svg) if part.tag == SVG + "desc"]
    return (told or "").splitlines()


# Without the program


def picture_is_named_and_described() -> None:
    """As WAI-ARIA has it: an image, with a name and a description by the elements that have these ids."""
    root, *parts = parts_of(svg_of(TOUR[0].read_bytes(), "a name", 39))
    ids = {part.get("id"): part.tag.removeprefix(SVG) for part in parts if part.get("id")}
    named = [ids.get(root.get(attribute)) for attribute in ("aria-labelledby", "aria-describedby")]
    same("its role, its name and its description", [root.get("role"), *named], ["img", "title", "desc"])


def labels_of(parts: list[xml.etree.ElementTree.Element]) -> tuple[list[tuple[int, str]], list[str]]:
    """The labels of messages: those to whom no arrow leads, with the node that they name, and the others."""
    kinds = {"vote", "append", "heartbeat", "snapshot", "proposal"}
    texts = [part.text or "" for part in parts if part.tag == SVG + "text" and kinds & set(part.get("class", "").split())]
    found = [groups for text in texts for groups in re.findall(r"\A(?:→(\d+) )?(.*)\Z", text, re.DOTALL)]
    return [(int(to), text) for to, text in found if to], [text for to, text in found if not to]


def unmet(rows: Iterable[Row]) -> tuple[list[int], Any]:
    """The receivers of messages that were not delivered, and how many were."""
    sent, delivered = [], 0
    for name, *cells in rows:
        if name in ("send", "queue"):
            sent.append(tuple(cells[:3]))
        elif name == "deliver":
            delivered += 1
            sent.remove(tuple(cells[:3]))
    return sorted(to for _, to, _ in sent), delivered


def what_no_arrow_leads_to_is_named() -> None:
    """The labels of messages that are lost or on their way say to whom they are, and no others do."""
    for data in [LOST, SELF, HOSTILE, *(path.read_bytes() for path in TOUR)]:
        aimed, others = labels_of(parts_of(svg_of(data, "x")))
        wanted, delivered = unmet([row for row in rows_of(data, "x") if row[0] in ("send", "queue", "deliver")])
        same("to whom what was lost or is on its way was sent", sorted(to for to, _ in aimed), wanted)
        same("how many were delivered", len(others), delivered)


def labels_say_type_and_term() -> None:
    """Each label begins with etcd's name of the type, and has the term, where the message is of one, and there is room."""
    for data in [LOST, SELF, *(path.read_bytes() for path in TOUR)]:
        sent = [row[3:5] for row in rows_of(data, "x") if row[0] in ("send", "queue")]
        wanted = sorted(" ".join([kind[3:], *([f"t{term}"] if term else [])]) for kind, term in sent)
        aimed, others = labels_of(parts_of(svg_of(data, "x")))
        texts = [*(text for _, text in aimed), *others]
        same("the types and terms", sorted(found[0] for text in texts if (found := re.match(r"\w+( t\d+)?", text))), wanted)


def labels_have_room() -> None:
    """Where a term has no room its label has none, and ends in an ellipsis where it has no room even so; all of it is told."""
    svg = svg_of(LONG, "x")
    _, labels = labels_of(parts_of(svg))
    same("the longest", [text for text in labels if len(text) >= 30], ["AppResp refused 1000000001, h…"])
    told = "node 2 sends AppResp t1 refused 1000000001, hint 1000000000 to node 1."
    same("whether all of it is told", [told in line for line in described(svg)].count(True), 1)


def notes_are_told() -> None:
    """The script's comments and heads, and nothing that looks like one."""
    told = described(svg_of(NOTED, "x"))
    wanted = [text if line is None else f"Line {line}: note: {text}" for line, text in NOTES]
    same("the notes", [line for line in told if line in wanted or "note" in line], wanted)
    heads = [line for line in told if not re.match(r"Line \d+: (note|node)", line)]
    same("the heads", [line for line in heads if line.startswith("Line 6: add-nodes")], ["Line 6: add-nodes 1 voters=(1) \\."])
    for path in TOUR:
        told, blocks = described(svg_of(path.read_bytes(), "x")), read_script(path.read_bytes()).blocks
        words = " ".join(told)
        for block in blocks:
            for line in [*block.lead, block.head[0]]:
                text = line.decode().lstrip("# ").strip()
                same(f"whether {text!r} of {path.name} is told", text in words, True)


def what_is_on_its_way_is_told() -> None:
    told = described(svg_of(LOST, "x"))
    wanted = [
        "Vote t2 last 1/10 from node 1 to node 2 is on its way.", "Vote t1 last 1/10 from node 1 to node 3 is on its way.",
        "Vote t2 last 1/10 from node 1 to node 3 is on its way.",
    ]
    same("what is on its way", told[-3:], [f"Line 16: {sentence}" for sentence in wanted])
    same("what is lost", [line for line in told if "dropped" in line], ["Line 10: Vote t1 last 1/10 from node 1 to node 2 is dropped."])
    same("a note of the program's", "Line 16: stopped after 2 rounds." in described(svg_of(SELF, "x")), True)


# What the program does


def answer(words: Sequence[Any], given: bytes = b"") -> tuple[bytes, bytes, int]:
    """What the program writes to these words, what it says of itself, and its status."""
    done = subprocess.run([PROGRAM, *words], input=given, capture_output=True, timeout=MOST_SECONDS)
    return done.stdout, done.stderr, done.returncode


def election_of_the_documents_is_the_program_s() -> None:
    """Byte for byte; tests/page holds it to the plain program's too, which made it."""
    for words in (["--until", "39", TOUR[0]], [TOUR[0], "--until", "39"], [TOUR[0], "--until=39"]):
        same("the election", answer(["chart", *words]), (ELECTION.read_bytes(), b"", 0))


def pictures_are_the_plain_ones() -> None:
    """Of what tests/page doesn't draw; and a status as of `run`, whatever the picture shows."""
    for data, status in [(NOTED, 1), (SELF, 1), (b"", 0), (b"# A note.\n", 0), (TOUR[3].read_bytes(), 0)]:
        same("the picture", answer(["chart", "-"], data), (svg_of(data, "standard input").encode(), b"", status))
        for line in (0, 1, 10**9):
            same(f"up to line {line}", answer(["chart", "-", "--until", str(line)], data)[0].decode(), svg_of(data, "standard input", line))
            same(f"from line {line}", answer(["chart", "-", "--from", str(line)], data)[0].decode(), svg_of(data, "standard input", None, line))


def parts_come_in_from_above() -> None:
    """A part from each directive on, and one of each directive alone, where messages are lost, sent to nobody, or find no room."""
    for data in [LOST, SELF, *(path.read_bytes() for path in TOUR[:4])]:
        _, lines = read_with_lines(data)
        for line in lines:
            parts: list[tuple[list[str], int | None]] = [([], None), (["--until", str(line)], line)]
            for words, until in parts:
                came = answer(["chart", "-", "--from", str(line), *words], data)[0].decode()
                same(f"from line {line} {' '.join(words)}", came, svg_of(data, "standard input", until, line))


def large_pictures_are_refused() -> None:
    """Nothing is written of one with more events than there is room for; a part of it is drawn."""
    said = b"raftbench: a picture has room for 500000 events: choose a part by --from and --until\n"
    same("a large picture", answer(["chart", "-"], LARGE), (b"", said, 3))
    last = LARGE.count(b"\n") - 3
    part, errors, status = answer(["chart", "-", "--from", str(last)], LARGE)
    same("a part of it", (part.startswith(b"<svg "), part.endswith(b"</svg>\n"), errors, status), (True, True, b"", 0))


def refusals_are_those_of_run() -> None:
    with tempfile.TemporaryDirectory() as room:
        cases: list[list[str | bytes]] = [[], [room], [f"{room}/none"], ["-", "--unknown"], ["-", "-"], [b"\xff"]]
        for name, data in REFUSED.items():
            pathlib.Path(room, name).write_bytes(data)
            cases.append([f"{room}/{name}"])
        for words in cases:
            output, errors, status = answer(["run", *words])
            same(f"whether run refuses {words}", (output, status > 1), (b"", True))
            wanted = output, errors.replace(b"Usage: raftbench run ", b"Usage: raftbench chart "), status
            same(f"what is answered to {words}", answer(["chart", *words]), wanted)
    for few in (["-", "--every", "4"], ["-", "--until"], ["-", "--from"], ["-", "--from", "y"], ["-", "--until", "x"], ["-", "--until", "-1"], ["-", "--until", "1", "--until", "2"]):
        output, errors, status = answer(["chart", *few], b"")
        same(f"what is answered to {few}", (output, errors.startswith((b"error: ", b"raftbench: ")), status), (b"", True, 2))


def full_devices_are_told() -> None:
    with open("/dev/full", "wb") as full:
        done = subprocess.run([PROGRAM, "chart", TOUR[0]], stdout=full, stderr=subprocess.PIPE, timeout=MOST_SECONDS)
    same("what is said of a full device", (done.stderr, done.returncode), (FAILED, 4))


def readers_that_go_away_are_told() -> None:
    """Who reads some and goes away has a beginning of the picture, of which a pipe holds a part alone."""
    whole = svg_of(MANY, "standard input").encode()
    for count in (0, 1, 4096, 30_000):
        with subprocess.Popen([PROGRAM, "chart", "-"], stdin=subprocess.PIPE, stdout=subprocess.PIPE, stderr=subprocess.PIPE) as running:
            assert running.stdin and running.stdout and running.stderr
            running.stdin.write(MANY)
            running.stdin.close()
            came = running.stdout.read(count)
            running.stdout.close()
            same("what is said of a reader that has gone", (running.stderr.read(), running.wait(MOST_SECONDS)), (FAILED, 4))
        same("what came", came, whole[:count])


def closed_outputs_are_told() -> None:
    done = subprocess.run(["sh", "-c", 'exec "$0" chart - >&-', PROGRAM], input=b"", stderr=subprocess.PIPE, timeout=MOST_SECONDS)
    same("what is said of an output that is closed", (done.stderr, done.returncode), (FAILED, 4))


def hostile_texts_are_text() -> None:
    """Each payload stands as text in the picture's description, and as much of it as there is room for in its place."""
    svg, errors, status = answer(["chart", "-"], HOSTILE)
    same("how it ends", (errors, status), (b"", 1))
    parts = parts_of(svg.decode())
    same("elements of others", {part.tag for part in parts} - {SVG + name for name in "svg title desc style defs marker path rect text".split()}, set())
    told = " ".join(described(svg.decode()))
    for text in ["</script><script>alert`1`</script>", "<!--<script>", "\"'><svg/onload>", "&lt;b&gt;", "ключ\\u202e日本語", "\\x80\\x81", "x" * 1024]:
        same(f"whether {text!r:.40} is told", text in told, True)
    same("the note", "Line 1: note: <img src=x onerror=alert(3)> </script><script>alert(4)</script>" in told, True)
    heads = [part.text or "" for part in parts if part.get("class") == "head"]
    same("what there is no room for", sum(head.endswith("…") for head in heads), 5)


def hostile_names_are_text() -> None:
    name = "<&>\"'</title><script>.txt"
    with tempfile.TemporaryDirectory() as room:
        path = pathlib.Path(room, name.replace("/", ":"))
        path.write_bytes(LOST)
        svg = answer(["chart", path])[0].decode()
    same("the title", parts_of(svg)[1].text, path.name)


# In a browser

# What runs past an edge of the picture, or from the gutter into the first node's column, by the browser's own boxes.
PAST = """(() => {
  const { width, height } = document.documentElement.viewBox.baseVal;
  const band = Math.min(width, ...[...document.querySelectorAll('.leader, .candidate, .precandidate, .follower')].map((it) => it.getBBox().x));
  return [...document.querySelectorAll('text, path.arrow, path.cross')].filter((it) => {
    const box = it.getBBox();
    const right = it.matches('.head') ? band : width;
    return box.x < 0 || box.y < 0 || box.x + box.width > right + 1 || box.y + box.height > height;
  }).map((it) => it.textContent || it.getAttribute('d'));
})()"""
COLOURS = """(() => {
  const colour = (name) => getComputedStyle(document.querySelector(name)).fill;
  return [colour('.background'), colour('.name'), colour('.leader'), colour('text.append')];
})()"""


def drawn(browser: Browser, room: pathlib.Path, name: str, svg: str, kept: pathlib.Path | None) -> None:
    """Opens a picture at its own size."""
    path = pathlib.Path(room) / f"{name}.svg"
    path.write_text(svg)
    width, height = (int(parts_of(svg)[0].get(side, "")) for side in ("width", "height"))
    browser.size(width, min(height, 12_000))
    browser.open(path)
    same(f"what the console has of {name}", browser.faults, [])
    if kept:
        browser.picture(kept / f"{name}.png")


def all_is_within_the_picture(browser: Browser, room: pathlib.Path, kept: pathlib.Path | None) -> None:
    """Whatever is drawn is seen: nothing goes past an edge, and no head into a column."""
    far_down = b"#\n" * 99_000 + TOUR[0].read_bytes()
    given = {path.stem: path.read_bytes() for path in TOUR}
    for name, data in {**given, "hostile": HOSTILE, "lost": LOST, "self": SELF, "many": MANY, "far-down": far_down, "long": LONG}.items():
        drawn(browser, room, name, svg_of(data, name), kept)
        same(f"what goes past an edge of {name}", browser.value(PAST), [])


def light_and_dark_differ(browser: Browser, room: pathlib.Path, kept: pathlib.Path | None) -> None:
    seen = {}
    for scheme in ("light", "dark"):
        browser.scheme(scheme)
        drawn(browser, room, f"partition-{scheme}", svg_of(TOUR[3].read_bytes(), "x"), kept)
        seen[scheme] = browser.value(COLOURS)
    browser.scheme("light")
    same("the grounds", [seen[scheme][0] for scheme in seen], ["rgb(255, 255, 255)", "rgb(20, 23, 28)"])
    same("how many colours are the same", sum(light == dark for light, dark in zip(*seen.values())), 0)


def hostile_texts_act_in_no_browser(browser: Browser, room: pathlib.Path, kept: pathlib.Path | None) -> None:
    drawn(browser, room, "acting", svg_of(HOSTILE, "<script>alert(1)</script>"), kept)
    same("elements of others", browser.value("document.querySelectorAll('script, img, iframe, foreignObject, a, b').length"), 0)
    texts = browser.value("[...document.querySelectorAll('.head')].map((it) => it.textContent)")
    same("whether payloads are seen", [payload.decode()[:12] in " ".join(texts) for payload in PAYLOADS[:5]], [True] * 5)


ALONE = [
    picture_is_named_and_described, what_no_arrow_leads_to_is_named, labels_say_type_and_term, labels_have_room,
    notes_are_told, what_is_on_its_way_is_told,
]
WRITTEN = [
    election_of_the_documents_is_the_program_s, pictures_are_the_plain_ones, parts_come_in_from_above, large_pictures_are_refused, refusals_are_those_of_run, full_devices_are_told,
    readers_that_go_away_are_told, closed_outputs_are_told, hostile_texts_are_text, hostile_names_are_text,
]
SEEN = [all_is_within_the_picture, light_and_dark_differ, hostile_texts_act_in_no_browser]


def results(word: str) -> Iterator[Result]:
    """What needs nothing, what needs the program, and what needs a browser."""
    yield from results_of(ALONE, word)
    yield from results_of(WRITTEN, word, "" if PROGRAM.exists() else "the program")
    path = found()
    if not path:
        yield from results_of(SEEN, word, "a browser")
        return
    seen = os.environ.get("SEEN")
    with tempfile.TemporaryDirectory() as room, Browser(path) as browser:
        yield from results_of(SEEN, word, "", browser, room, pathlib.Path(seen) if seen else None)
