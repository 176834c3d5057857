"""Writes a script's page: two frames with the viewer of `raftbench page`, one for your nodes and one for the reference."""
from __future__ import annotations

import base64
import dataclasses
import difflib
import hashlib
import html
import pathlib
import re
from typing import Iterator, Sequence

from plain.script import Block, Script, read_with_lines

from ..compare.comparison import Comparison
from ..compare.judge import Judge
from ..compare.runner_steps import steps_above
from ..compare.script import directive_of
from ..compare.stage import HostedCluster, Reference, allowed
from ..process.process import CallFailure, Process
from ..protocol.capabilities import reduced
from .rows import Recorder, Row, json_text

FORMAT = 2
STEPS = re.compile(r'(?<=<script type="application/json" id="steps">).*?(?=</script>)', re.DOTALL)
POLICY = re.compile(r'<meta http-equiv="Content-Security-Policy" content="([^"]*)">')
STYLE = """
:root { color-scheme: light dark } body { margin: 0; font: 15px/1.4 system-ui, sans-serif; display: flex; flex-direction: column; height: 100vh }
header { padding: .4rem .8rem; max-height: 30vh; overflow: auto } h1 { font-size: 1.05rem; margin: 0 } ol { margin: .2rem 0 0; padding-left: 1.6rem }
main { flex: 1; display: grid; grid-template-columns: 1fr 1fr; gap: 2px; min-height: 0 } figure { margin: 0; display: flex; flex-direction: column; min-width: 0 }
figcaption { padding: .1rem .8rem; font-weight: 600 } iframe { flex: 1; border: 0; border-top: 1px solid GrayText } label { font-weight: 400; margin-left: 1rem }
@media (max-width: 60rem) { main { grid-template-columns: 1fr; grid-template-rows: 1fr 1fr } }
"""
CODE = """
const frames = [...document.querySelectorAll("iframe")];
const together = document.getElementById("together");
const place = (frame) => frame.contentDocument?.getElementById("where")?.textContent.match(/^step (\\d+)/)?.[1];
const show = (frame, at) => { if (at && place(frame) !== at) frame.contentWindow.location.hash = "#" + at; };
for (const frame of frames) {
  const watch = () => {
    const where = frame.contentDocument?.getElementById("where");
    if (where) new MutationObserver(() => {
      if (together.checked) frames.filter((it) => it !== frame).forEach((it) => show(it, place(frame)));
    }).observe(where, { childList: true, characterData: true, subtree: true });
    const first = document.querySelector("a[data-place]");
    if (first) show(frame, first.dataset.place);
  };
  if (frame.contentDocument?.readyState === "complete" && frame.contentDocument.getElementById("where")) watch(); else frame.addEventListener("load", watch);
}
for (const link of document.querySelectorAll("a[data-place]")) link.addEventListener("click", (event) => {
  event.preventDefault();
  frames.forEach((frame) => show(frame, link.dataset.place));
});
"""


class NoViewer(Exception):
    """The program that has the viewer isn't here."""


@dataclasses.dataclass(frozen=True)
class Mark:
    """Something that was found: the number of its directive, and what it is."""

    place: int
    text: str


class RecordedHosts(Recorder, HostedCluster):
    """Your nodes."""


class RecordedReference(Recorder, Reference):
    """The reference."""


@dataclasses.dataclass
class Recording:
    """A run: each directive's number, its output, and its rows."""

    steps: list[tuple[int, list[str], list[Row]]] = dataclasses.field(default_factory=list)
    failure: Mark | None = None


def recorded(cluster: Recorder, blocks: Sequence[tuple[int, Block]], process: Process, chosen: Comparison) -> Recording:
    """Runs directives. A call that fails ends the run."""
    recording = Recording()
    for place, block in blocks:
        cluster.rows = []
        try:
            if chosen.has_steps and block.lead:
                cluster.carry_out(allowed(steps_above(block), process))
            output = cluster.run(directive_of(block))
        except CallFailure as failed:
            recording.steps.append((place, [], cluster.rows))
            recording.failure = Mark(place, str(failed))
            break
        recording.steps.append((place, output, cluster.rows))
    return recording


def difference_rows(expected: Sequence[bytes], actual: Sequence[bytes]) -> Iterator[Row]:
    """How an output differs from the expected one."""
    yield ["mismatch"]
    for kind, first, last, begin, end in difflib.SequenceMatcher(None, expected, actual, autojunk=False).get_opcodes():
        if kind == "equal":
            yield ["same", end - begin]
            continue
        yield from (["expected", line] for line in expected[first:last])
        if end > begin:
            yield ["actual", end - begin]


def page_rows(name: str, text: bytes, recording: Recording, marks: Sequence[Mark]) -> list[Row]:
    """All rows of one side. The text has the reference's outputs, so that mismatches are where your nodes' output differs."""
    script, lines = read_with_lines(text)
    rows: list[Row] = [["raftbench", FORMAT, name], ["text", text]]
    wrong = 0
    for at, (_, output, events) in enumerate(recording.steps):
        printed = [line.encode("utf-8", "replace") for line in output]
        rows.append(["step", lines[at]])
        rows += [["output", line] for line in printed]
        if tuple(printed) != script.blocks[at].expected:
            wrong += 1
            rows += difference_rows(script.blocks[at].expected, printed)
        rows += events
    line_of = {place: lines[at] for at, (place, _, _) in enumerate(recording.steps)}
    rows += [["warning", line_of[mark.place], mark.text] for mark in marks if mark.place in line_of]
    return [*rows, ["end", len(recording.steps), wrong]]


def frame(viewer: str, title: str, rows: Sequence[Row]) -> str:
    document = STEPS.sub(lambda _: json_text(rows), viewer, count=1)
    return f'<iframe title="{html.escape(title)}" srcdoc="{html.escape(document)}"></iframe>'


def hash_of(text: str) -> str:
    return f"'sha256-{base64.b64encode(hashlib.sha256(text.encode()).digest()).decode()}'"


def policy_of(viewer: str) -> str:
    """The viewer's content security policy, with the outer page's script and style: frames have the policy of the page around them too."""
    found = POLICY.search(viewer)
    if not found:
        raise NoViewer("the program's page has no content security policy")
    policy = html.unescape(found[1])
    for kind, text in (("script-src", CODE), ("style-src", STYLE)):
        policy = policy.replace(kind, f"{kind} {hash_of(text)}", 1)
    return policy.replace("frame-src 'none'", "frame-src 'self'")


@dataclasses.dataclass(frozen=True)
class PageWriter:
    """Writes pages of scripts that are run again on your nodes and on the reference."""

    process: Process
    judge: Judge
    chosen: Comparison

    def viewer(self, text: bytes) -> str:
        page = self.judge.page(text)
        if page is None or not STEPS.search(page.decode("utf-8", "replace")):
            raise NoViewer("pages need raftbench: build it by `./raftbench --help`, or name it by RAFTBENCH=PROGRAM")
        return page.decode("utf-8", "replace")

    def page(self, name: str, blocks: Sequence[Block], marks: Sequence[Mark]) -> str:
        """The page of a script, with what was found in it."""
        self.process.reset()
        less = [(place, reduced(block, self.process.hello)) for place, block in enumerate(blocks, 1)]
        kept = [(place, block) for place, block in less if block is not None]
        reference = recorded(RecordedReference(self.chosen.kind, self.chosen.begins_at_0), kept, self.process, self.chosen)
        mine = recorded(RecordedHosts(self.process, self.chosen.begins_at_0), kept, self.process, self.chosen)
        text = Script(tuple(block for _, block in kept), ()).text([tuple(line.encode() for line in output) for _, output, _ in reference.steps])
        marks = sorted({*marks, *([mine.failure] if mine.failure else [])}, key=lambda mark: mark.place)
        numbers = {place: at for at, (place, _) in enumerate(kept, 1)}
        found = "".join(f'<li><a href="#{numbers[mark.place]}" data-place="{numbers[mark.place]}">directive {numbers[mark.place]}</a>: {html.escape(mark.text)}</li>' for mark in marks if mark.place in numbers)
        viewer = self.viewer(text)
        sides: list[tuple[str, Recording, Sequence[Mark]]] = [(f"your nodes ({self.process.name})", mine, marks), ("the reference", reference, [])]
        frames = "".join(
            f"<figure><figcaption>{html.escape(title)}{LABEL if at == 0 else ''}</figcaption>{frame(viewer, title, page_rows(name, text, recording, shown))}</figure>"
            for at, (title, recording, shown) in enumerate(sides)
        )
        return (
            f'<!DOCTYPE html>\n<html lang="en">\n<head>\n<meta charset="utf-8">\n<meta http-equiv="Content-Security-Policy" content="{html.escape(policy_of(viewer))}">\n'
            f'<meta name="viewport" content="width=device-width, initial-scale=1">\n<title>{html.escape(name)}: raftbench-nodes</title>\n<style>{STYLE}</style>\n</head>\n<body>\n'
            f"<header><h1>{html.escape(name)}</h1><ol>{found}</ol></header>\n<main>{frames}</main>\n<script>{CODE}</script>\n</body>\n</html>\n"
        )

    def write(self, target: pathlib.Path, name: str, blocks: Sequence[Block], marks: Sequence[Mark]) -> None:
        target.parent.mkdir(parents=True, exist_ok=True)
        target.write_text(self.page(name, blocks, marks), encoding="utf-8")


LABEL = '<label><input type="checkbox" id="together" checked> go through both together</label>'
