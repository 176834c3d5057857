"""What a reader sees of pages in a browser, and does with them: keys, clicks, the place in the address, texts that would act."""
from __future__ import annotations

import contextlib
import html
import pathlib
import re
import statistics
import time
from collections.abc import Callable, Iterable, Sequence
from contextlib import AbstractContextManager

from plain.script import Block, read_script
from tests.page.browser import Browser, found
from tests.page.plain_steps import Row, rows_of
from tests.page.scripts import FULL, HOSTILE, LESS, LOST, MANY, OUTPUT, TOUR, Failed, long_page, mismatched, page_of, same

TALL = 12000
MOST_SECONDS = 20
# Where the page of the tour's election begins.
FIRST = "step 1 of 20"
# How many elements stand at most, or come and go in a step, however long the script is.
MOST_ELEMENTS = 3000
# What is on its way, as the right pane tells it: its heading, how many items are listed, and the last of them.
PENDING = """(() => {
  const items = [...document.querySelectorAll('#state > ol > li')];
  return [[...document.querySelectorAll('#state h2')].pop().textContent, items.length, items.pop().textContent];
})()"""
# Steps by a key; answers of each step the milliseconds from the key until what it changes is drawn, and how many elements come and go.
STEPS = """async (key, count) => {
  const size = (node) => 1 + (node.querySelectorAll ? node.querySelectorAll('*').length : 0);
  const [times, touched] = [[], []];
  const watch = new MutationObserver((records) => {
    const nodes = records.flatMap(({ addedNodes, removedNodes }) => [...addedNodes, ...removedNodes]);
    touched[touched.length - 1] += nodes.reduce((sum, node) => sum + size(node), 0);
  });
  watch.observe(document, { childList: true, subtree: true });
  for (let step = 0; step < count; step += 1) {
    touched.push(0);
    const start = performance.now();
    document.dispatchEvent(new KeyboardEvent('keydown', { key }));
    await new Promise((done) => requestAnimationFrame(() => setTimeout(done)));
    times.push(performance.now() - start);
  }
  return { times, touched };
}"""


class Reader:
    """A reader with a browser, who may keep what is seen."""

    def __init__(self, browser: Browser, room: pathlib.Path, kept: pathlib.Path | None) -> None:
        self.browser, self.room, self.kept = browser, room, kept

    def open(self, data: bytes, name: str, place: str = "") -> float:
        return self.open_page(page_of(data, name), name, place)

    def open_page(self, page: str, name: str, place: str = "") -> float:
        path = self.room / f"{name}.html"
        path.write_text(page)
        seconds = self.browser.open(path, place)
        self.keep(name + place.replace("#", "-"))
        return seconds

    def keep(self, name: str) -> None:
        self.quiet()
        if self.kept:
            self.browser.picture(self.kept / f"{name}.png")

    def quiet(self) -> None:
        same("what the console has", self.browser.faults, [])

    def comes_to(self, code: str, wanted: object) -> None:
        """Waits until an expression has this value: what happens in a frame isn't waited for by others."""
        until = time.monotonic() + MOST_SECONDS
        while (value := self.browser.value(code)) != wanted and time.monotonic() < until:
            self.browser.settle()
        same(code, value, wanted)

    def where(self) -> str:
        return self.text("where")

    def place(self) -> int:
        return int(self.where().removeprefix("step ").split()[0])

    def text(self, id: str) -> str:
        return str(self.browser.value(f"document.getElementById({id!r}).textContent"))

    def count(self, selector: str) -> int:
        return int(self.browser.value(f"document.querySelectorAll({selector!r}).length"))


def counted(rows: Iterable[Row]) -> tuple[int, int, int]:
    """How many messages were delivered, how many were lost, and how many are on their way at the end."""
    names = [row[0] for row in rows]
    given_up = names.count("no-room")
    sent = names.count("send") + names.count("queue")
    met = names.count("deliver") + names.count("drop")
    return names.count("deliver"), names.count("drop") + given_up, sent - given_up - met


def drawn(reader: Reader) -> tuple[int, ...]:
    """The same, as the picture has them."""
    path = "[...document.querySelectorAll('#drawing path{}')].map((it) => it.getAttribute('d')).join('').split('M').length - 1"
    return tuple(reader.browser.value(path.format(look)) for look in (".tip", ".cross", ".arrow.waiting"))


def marks_of(rows: Iterable[Row], blocks: Sequence[Block]) -> list[int]:
    """How many elections were won, configurations changed, snapshots restored and logs compacted."""
    errors = sum(row[0] == "error" for row in rows)
    compacts = sum(block.head[0].startswith(b"compact ") for block in blocks)
    names = [row[0] for row in rows]
    won = sum(row[0] == "became" and row[2] == "leader" for row in rows)
    return [won, names.count("switched"), names.count("restored"), compacts - (errors if compacts else 0)]


def marks_drawn(reader: Reader) -> list[int]:
    texts = reader.browser.value("[...document.querySelectorAll('#drawing .mark title')].map((it) => it.textContent)")
    return [sum(text.startswith(sign) for text in texts) for sign in ("★ leader", "◆ ", "▣ snapshot", "▣ compacted")]


# Whether the chosen directive ends within both panes.
IN_VIEW = """['script .block.chosen', 'drawing .row.chosen'].every((it) => {
  const chosen = document.querySelector('#' + it);
  const pane = document.getElementById(it.split(' ')[0]).getBoundingClientRect();
  const { top, bottom } = chosen ? chosen.getBoundingClientRect() : { top: -1, bottom: -1 };
  return top < pane.bottom && bottom <= pane.bottom + 1 && bottom > pane.top;
})"""


def tour_is_right_to_the_arrow(reader: Reader) -> None:
    for path in TOUR:
        data = path.read_bytes()
        rows, blocks = list(rows_of(data, path.name)), read_script(data).blocks
        reader.browser.size(1500, TALL)
        reader.open(data, path.stem)
        same(f"the arrows of {path.name}", drawn(reader), counted(rows))
        same("its steps", reader.where(), f"step 1 of {len(blocks)}, line {next(row[1] for row in rows if row[0] == 'step')}")
        same("its marks", marks_drawn(reader), marks_of(rows, blocks))
        reader.browser.size(1500, 900)
        reader.browser.press("End")
        same("its last step", reader.place(), len(blocks))
        same("whether it is in view", reader.browser.value(IN_VIEW), True)
        reader.keep(path.stem + "-end")


def lost_messages_end_in_crosses(reader: Reader) -> None:
    reader.browser.size(1500, 900)
    reader.open(LOST, "lost")
    same("the arrows", drawn(reader), (0, 1, 3))
    headings = "[...document.querySelectorAll('#state h2')].pop().textContent"
    seen = []
    for _ in range(6):
        seen.append(reader.browser.value(headings))
        reader.browser.press("ArrowDown")
    wanted = ["No messages", "No messages", "2 messages", "1 message", "1 message", "3 messages"]
    same("how many are on their way", seen, [f"{text} on {'its' if text == '1 message' else 'their'} way" for text in wanted])


def keys_and_clicks_step(reader: Reader) -> None:
    reader.open(TOUR[0].read_bytes(), "keys", "#5")
    places = [reader.place()]
    for key in ["ArrowDown", "j", "ArrowUp", "k", "PageDown", "PageUp", "End", "ArrowDown", "Home", "ArrowUp"]:
        reader.browser.press(key)
        places.append(reader.place())
    same("the places", places, [5, 6, 7, 6, 5, 15, 5, 20, 20, 1, 1])
    reader.browser.value("location.hash = '#12'; 0")
    reader.browser.settle()
    same("the place by the address", reader.place(), 12)
    reader.browser.press("ArrowDown")
    same("the address", reader.browser.value("location.hash"), "#13")
    for pane in ("script", "drawing"):
        box = reader.browser.value(f"(({{left, top}}) => [left, top])(document.getElementById({pane!r}).getBoundingClientRect())")
        reader.browser.press("Home")
        reader.browser.click(box[0] + 90, box[1] + 400)
        if reader.place() == 1:
            raise Failed(f"a click on the {pane} chooses nothing")
    reader.quiet()


def strange_places_are_answered(reader: Reader) -> None:
    for place, wanted in [("#0", 1), ("#999", 20), ("#x", 1), ("#<b>", 1), ("#20", 20)]:
        reader.open(TOUR[0].read_bytes(), "places", place)
        same(f"the place of {place}", reader.place(), wanted)


def mismatch_is_a_difference(reader: Reader) -> None:
    data, places = mismatched()
    reader.open(data, "mismatch")
    same("the counts", reader.text("counts"), "20 directives, 1 mismatch, 3 nodes")
    reader.browser.press("m")
    same("its place", [reader.place()], places)
    lines = "[...document.querySelectorAll('#script .{}')].map((it) => it.textContent).join(' ')"
    same("what was expected", reader.browser.value(lines.format("removed")), "- INFO 1 has MsgVoteResp granted from 2: other")
    same("what came", reader.browser.value(lines.format("added")), "+ INFO 1 has MsgVoteResp granted from 2: won")
    same("the head", reader.browser.value(lines.format("wrong")), "✗ deliver-msgs 1")
    reader.keep("mismatch-chosen")


def hostile_texts_are_text(reader: Reader) -> None:
    same("what the page would hold of it", page_of(b"", "x").count("alert"), 0)
    reader.browser.size(1500, 5000)
    reader.open(HOSTILE, "hostile")
    seen = reader.text("script")
    spelled = ["".join(f"\\x{byte:02x}" for byte in text.encode()) for text in ("ключ\u202e日本語", "\U0001f600")]
    shown = ["</script><script>alert(4)</script>", "<!--<script>", "\"'><svg/onload>", "&lt;b&gt;", "\\x80\\x81", *spelled]
    for text in shown:
        if text not in re.sub(r"\s", "", seen) and text not in seen:
            raise Failed(f"{text!r} isn't shown")
    same("whether all of the longest is shown", seen.count("x") >= 1024, True)
    same("elements of others", reader.count("img, iframe, #script script, #script svg, #state script, #script b, object"), 0)
    reader.browser.press("End")
    same("the diff", "- <b>no</b>" in reader.text("script"), True)
    reader.quiet()
    reader.browser.size(1500, 900)


def hostile_names_are_text(reader: Reader) -> None:
    name = "</title></script><img src=x onerror=alert`7`>"
    path = reader.room / "named.html"
    path.write_text(page_of(TOUR[0].read_bytes(), name))
    reader.browser.open(path)
    same("the heading", reader.text("name"), name)
    same("the title", reader.browser.value("document.title"), f"{name}: raftbench")
    reader.quiet()


def foreign_code_is_refused(reader: Reader) -> None:
    """The policy itself, with a page that somebody has tampered with: code of others in it doesn't run."""
    path = reader.room / "tampered.html"
    code = "document.title = 'run'"
    added = f'<script>{code}</script><img src="x" onerror="{code}">'
    path.write_text(page_of(TOUR[0].read_bytes(), "x").replace("</body>", added + "</body>"))
    reader.browser.open(path)
    same("the title", reader.browser.value("document.title"), "x: raftbench")
    refused = [fault for fault in reader.browser.faults if "Content Security Policy" in fault]
    same("whether the browser says so", len(refused) > 0, True)


def what_is_cut_off_is_told(reader: Reader) -> None:
    path = reader.room / "cut.html"
    path.write_text(page_of(TOUR[0].read_bytes(), "x")[:60_000].split('["end"')[0])
    reader.browser.open(path)
    is_hidden = reader.browser.value("document.getElementById('notice').hidden")
    same("whether the notice stands", "cut off" in reader.text("notice") and not is_hidden, True)


def thirty_two_nodes_stand_side_by_side(reader: Reader) -> None:
    reader.open(MANY, "many")
    same("the counts", reader.text("counts"), "5 directives, 5 mismatches, 32 nodes")
    reader.browser.press("End")
    same("the columns", reader.count("#heads .column"), 32)
    same("the nodes", reader.count("#state .node"), 32)
    reader.keep("many-end")


def full_mailbox_is_told(reader: Reader) -> None:
    """4,096 messages are on their way: not all of them are listed, and those that found no room aren't."""
    reader.open(FULL, "full", "#270")
    same("the step", reader.where(), "step 270 of 274, line 808")
    same("how many are on their way", reader.browser.value(PENDING), ["4096 messages on their way", 201, "and 3896 more"])
    reader.browser.press("ArrowDown")
    same("how many are on their way where one more is given up", reader.browser.value(PENDING)[0], "4096 messages on their way")
    same("what happened", reader.browser.value("document.querySelector('#state ol').textContent"), "no room for 1→2 MsgSnap term 1 1/11")
    reader.browser.press("ArrowDown")
    same("how many are on their way behind those that were met", reader.browser.value(PENDING)[0], "3830 messages on their way")


def long_output_is_shown_to_its_end(reader: Reader) -> None:
    reader.browser.size(1500, 900)
    reader.open(OUTPUT, "output")
    reader.browser.press("End")
    same("its last step", reader.place(), 5003)
    for top, line in [(0, "base=1/10 durable=10 commit=10 applied=10"), (1 << 30, '1/5010 "x" unsaved')]:
        reader.browser.value(f"document.getElementById('script').scrollTop += {top}; 0")
        reader.browser.settle()
        # A line may be wrapped at any of its blanks.
        same(f"whether {line} is shown", line.replace(" ", "") in reader.text("script").replace(" ", ""), True)
    reader.keep("output-end")


def framed(page: str, attributes: str) -> str:
    return f"<!DOCTYPE html><title>outer</title><body><iframe id=frame {attributes} width=1400 height=800 srcdoc='{html.escape(page)}'></iframe>"


def click_into(reader: Reader, asking: Callable[[], AbstractContextManager[None]], place: str) -> None:
    """Clicks into a frame until that chooses another directive: before the frame is drawn a click goes past it."""
    until = time.monotonic() + MOST_SECONDS
    chosen = FIRST
    while chosen == FIRST and time.monotonic() < until:
        reader.browser.click(300, 400)
        with asking():
            reader.browser.settle()
            chosen = reader.browser.value(place)
    same("whether a click into a frame chooses nothing", chosen == FIRST, False)


def frames_step_without_an_address(reader: Reader) -> None:
    """A frame that was given its document as a text, as a code review may show what is attached; also where scripts alone may run."""
    page = page_of(TOUR[0].read_bytes(), "framed")
    inner = "document.getElementById('frame').contentDocument"
    ways: list[tuple[str, Callable[[], AbstractContextManager[None]], str]] = [("", contextlib.nullcontext, inner), ("sandbox=allow-scripts", reader.browser.inside, "document")]
    for attributes, asking, document in ways:
        reader.open_page(framed(page, attributes), "framed")
        place = f"{document}.getElementById('where').textContent.split(',')[0]"
        with asking():
            reader.comes_to(place, FIRST)
        click_into(reader, asking, place)
        for keys, wanted in ((["Home"], FIRST), (["ArrowDown", "j"], "step 3 of 20")):
            reader.browser.press(*keys)
            with asking():
                reader.comes_to(place, wanted)
        reader.keep("framed-" + (attributes.partition("=")[0] or "alone"))


def twenty_thousand_directives_open(reader: Reader) -> None:
    seconds = reader.open_page(long_page(), "long")
    same("the counts", reader.text("counts"), "20000 directives, 0 mismatches, 3 nodes")
    same("whether few elements stand", reader.count("*") < MOST_ELEMENTS, True)
    reader.browser.press("End")
    same("the last place", reader.place(), 20000)
    steps = reader.browser.value(f"({STEPS})('ArrowUp', 100)")
    same("the place after a hundred steps", reader.place(), 19900)
    median, most = statistics.median(steps["times"]), max(steps["touched"])
    same("whether a step touches some elements, and few", 0 < most < MOST_ELEMENTS, True)
    reader.keep("long-end")
    print(f"20,000 directives open in {seconds:.1f} s, a step takes {median:.0f} ms and touches {most} elements")


def steps_take_no_more_work_in_a_long_script(reader: Reader) -> None:
    """By how often parts of the page's code run, which is the same on each machine: of 2,000 directives and of 20,000."""
    (opened, steps), (opened_long, steps_long) = runs_of(reader, "less", page_of(LESS, "less")), runs_of(reader, "long", long_page())
    print(f"opening runs {opened:,} and {opened_long:,} parts of the page's code, steps run {steps} and {steps_long}")
    same("whether ten times as many directives take some ten times the work", 8 * opened < opened_long < 12 * opened, True)
    for less, more in zip(steps, steps_long):
        same(f"whether {more} is hardly more than {less}", 0 < more < 1.25 * less, True)


def runs_of(reader: Reader, name: str, page: str) -> tuple[int, list[int]]:
    """How often parts of the code run when a page is opened, and at each of some steps; in a browser that has seen none of its code."""
    with Browser(found() or "") as browser, browser.counting():
        another = Reader(browser, reader.room, reader.kept)
        another.open_page(page, name)
        opened, steps = browser.runs(), []
        for key in ("End", "ArrowUp", "ArrowUp", "PageUp", "Home", "ArrowDown", "PageDown"):
            browser.press(key)
            steps.append(browser.runs())
        another.quiet()
    return opened, steps


def light_and_dark_differ(reader: Reader) -> None:
    colours = {}
    for scheme in ("light", "dark"):
        reader.browser.scheme(scheme)
        reader.open(TOUR[3].read_bytes(), f"partition-{scheme}", "#14")
        colours[scheme] = reader.browser.value("(({backgroundColor, color}) => [backgroundColor, color])(getComputedStyle(document.body))")
    same("the colours", colours, {"light": ["rgb(255, 255, 255)", "rgb(27, 31, 36)"], "dark": ["rgb(20, 23, 28)", "rgb(228, 231, 235)"]})
    reader.browser.scheme("light")




SEEN = [
    tour_is_right_to_the_arrow, lost_messages_end_in_crosses, keys_and_clicks_step, strange_places_are_answered, mismatch_is_a_difference,
    hostile_texts_are_text, hostile_names_are_text, foreign_code_is_refused, what_is_cut_off_is_told, thirty_two_nodes_stand_side_by_side,
    full_mailbox_is_told, long_output_is_shown_to_its_end, frames_step_without_an_address, twenty_thousand_directives_open,
    steps_take_no_more_work_in_a_long_script, light_and_dark_differ,
]
