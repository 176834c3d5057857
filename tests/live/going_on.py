"""Pages that went on after edits, next to fresh ones: each shows the same."""
from __future__ import annotations

import json
import pathlib
from collections.abc import Iterable, Iterator, Sequence
from typing import NamedTuple

from tests.live.alone import EQUAL
from tests.live.player import Player
from tests.live.playing import on_script
from tests.live.running import CAMPAIGN, START, Running
from tests.live.test_rows import ELECTION, changes
from tests.page.browser import Browser
from tests.page.scripts import same

LEVEL = b"log-level info\n----\nok\n\n"
# Reads a script's rows, and then puts stretches in, each a few directives at a time, as a page does; rows that don't come at once are asked for. Some
# stretches may come before that is done. Gives, of each, whether it could be put in; whether the model is that of all rows of the new script, read at once,
# as the live page reads them, and as a page alone does; and how long that is.
GOES_ON = """(async (isHasty, [first, ...changes]) => {
  const [{ Run }, { readRows }] = await Promise.all([import("/run.js"), import("/rows.js")]);
  const places = (list) => Array.from(list, (it) => it && (Array.isArray(it) ? it.map(({ number }) => number) : it.number));
  const plain = (key, value) => key === "sent" || key === "met" ? value && value.place : key === "message" ? value && value.number
    : key === "blocks" || key === "waiting" ? places(value) : value instanceof Map ? [...value] : value;
  const dump = (model) => JSON.stringify(model, plain);
  const fresh = (rows) => {
    const run = new Run(rows);
    run.goOn(1e9);
    return run;
  };
  const more = (run, rows) => {
    const from = run.steps.length;
    const end = rows.findIndex(([name]) => name === "warning" || name === "end");
    const starts = rows.flatMap(([name], at) => (name === "step" ? [at] : []));
    if (run.missing > 0) {
      run.add({ from, rows: rows.slice(starts[from], starts[from + 70] ?? end), end: rows.slice(end) });
    }
  };
  let run = fresh(first);
  return changes.map(({ stretch, of, rows }, at) => {
    const isPut = run.change(stretch, of);
    run = isPut ? run : new Run(rows);
    if (isHasty && isPut && at % 3 > 0) {
      run.goOn(30);
      more(run, rows);
      return [isPut, true, true, 1e9];
    }
    while (!run.isWhole) {
      run.goOn(3);
      more(run, rows);
    }
    const own = dump(run.model);
    return [isPut, own === dump(fresh(rows).model), own === dump(readRows(rows)), own.length];
  });
})"""


class Went(NamedTuple):
    """What became of a run that went on after an edit."""

    is_put: bool
    is_fresh: bool
    is_of_a_page: bool
    size: int


def went_on(browser: Browser, data: bytes, is_hasty: bool = False) -> Iterator[tuple[str, int, Went]]:
    """By each edit of a script, how long its rows are, and what became of the run."""
    found = list(changes(data))
    given = [found[0].before, *({"stretch": it.told["stretch"], "of": it.told["of"], "rows": it.now} for it in found)]
    told: list[Went] = []

    def does(player: Player, server: Running, path: pathlib.Path) -> None:
        told.extend(Went(*it) for it in player.browser.value(f"{GOES_ON}({json.dumps(is_hasty)}, {json.dumps(given)})"))
    on_script(browser, START, does)
    for it, went in zip(found, told, strict=True):
        yield it.what, len(json.dumps(it.now)), went


def a_run_that_goes_on_is_as_a_fresh_one(browser: Browser) -> None:
    """Where an edit shows a control character all texts are shown by numbers from then on, so all rows are needed: there, and back."""
    found = list(went_on(browser, ELECTION.read_bytes()))
    for what, size, went in found:
        same(f"whether the model is a fresh one after {what}", went.is_fresh and went.is_of_a_page and went.size > 20 * size ** 0.5, True)
    same("edits after which all rows are needed", [what for what, _, went in found if not went.is_put], [found[-3][0], found[-2][0]])


def a_run_whose_rows_come_in_parts_is_as_a_fresh_one(browser: Browser) -> None:
    """After an edit that is never forgotten only the first rows come at once; and the next edit may come before the others."""
    for is_hasty in (False, True):
        found = list(went_on(browser, ELECTION.read_bytes() + b"\n" + LEVEL * 500, is_hasty))
        for what, _, went in found:
            same(f"whether the model is a fresh one after {what}", went.is_fresh and went.is_of_a_page, True)


def a_run_with_skipped_messages_goes_on(browser: Browser) -> None:
    """A page alone takes the earliest message that says the same (docs/FORMATS.md), and a live one the one that the directive names."""
    found = list(went_on(browser, EQUAL))
    same("edits after which it isn't a fresh one", [what for what, _, went in found if not went.is_fresh], [])
    same("whether a page alone takes others", any(not went.is_of_a_page for _, _, went in found), True)


# All that is drawn but what each node may do, which is asked for later.
PANES = """['heads', 'drawing', 'description', 'directives', 'texts', 'logs', 'state', 'counts'].map((id) => {
  const copy = document.getElementById(id).cloneNode(true);
  copy.querySelectorAll('.live-does').forEach((it) => it.remove());
  return copy.innerHTML;
}).join()"""


def seen(player: Player, places: Iterable[int], count: int) -> dict[int, str]:
    """What is drawn at some directives."""
    panes = {}
    for place in places:
        player.browser.value(f"location.hash = '#{place}', 1")
        player.at(place, count)
        # One that comes from far away is brought to another height than one from near.
        player.browser.value("for (const id of ['scroll', 'script']) document.getElementById(id).scrollTop = 0, 1")
        player.browser.settle()
        panes[place] = str(player.browser.value(PANES))
    return panes


def same_after_a_load(player: Player, server: Running, places: Sequence[int], count: int) -> None:
    """Saves, loads the page again, and compares."""
    own = seen(player, places, count)
    server.enter().do("save")
    player.comes("document.title", "script.txt: raftbench live")
    player.browser.faults = []
    player.browser.load(f"http://{server.host}/")
    player.comes("document.getElementById('panes').hidden", False)
    fresh = seen(player, places, count)
    same("the directives that are shown otherwise", [place for place in places if own[place] != fresh[place]], [])


def a_page_that_went_on_is_as_a_fresh_one(browser: Browser) -> None:
    """What is drawn, at each directive, after edits and after the page was loaded again."""
    def does(player: Player, server: Running, path: pathlib.Path) -> None:
        player.browser.call("Emulation.setEmulatedMedia", features=[{"name": "prefers-reduced-motion", "value": "reduce"}])
        player.browser.value("document.getElementById('directives').focus()")
        for at, text in enumerate(["campaign 2", "stabilize", "propose 2 x1", "process-ready 2"], 3):
            player.directive(text)
            player.at(at, at)
            player.key("Escape")
        player.key("Home")
        player.at(1, 6)
        player.directive("raft-log 1")
        player.at(2, 7)
        player.key("Escape")
        player.key("ArrowDown")
        player.key("x")
        player.at(2, 6)
        same_after_a_load(player, server, range(1, 7), 6)
    on_script(browser, START + CAMPAIGN, does)


# How high the picture is, whenever that changes.
HEIGHTS = """(() => {
  window.heights = [];
  const extent = document.getElementById('extent');
  new MutationObserver(() => window.heights.push(parseInt(extent.style.height))).observe(extent, { attributes: true });
})()"""


def a_long_page_goes_on_in_parts(browser: Browser) -> None:
    """Of a long script 200 directives show at once after an edit, and then the rest. At the end all is as on a fresh page."""
    def does(player: Player, server: Running, path: pathlib.Path) -> None:
        player.browser.call("Emulation.setEmulatedMedia", features=[{"name": "prefers-reduced-motion", "value": "reduce"}])
        player.browser.value("document.getElementById('directives').focus(), location.hash = '#1', 1")
        player.at(1, 802)
        whole = player.browser.value("parseInt(document.getElementById('extent').style.height)")
        player.browser.value(HEIGHTS)
        player.directive("campaign 2")
        player.at(2, 803)
        player.key("Escape")
        player.comes("document.getElementById('counts').textContent", "803 directives, 0 mismatches, 3 nodes")
        heights = player.browser.value("window.heights")
        # Those of 202 directives, and of 803.
        same(f"whether {heights} begin with some of {whole}", (whole / 5 < heights[0] < whole / 3, heights[-1] > whole, heights == sorted(heights)), (True, True, True))
        same_after_a_load(player, server, [1, 2, 201, 402, 403, 404, 703, 803], 803)
    on_script(browser, START + LEVEL * 400 + CAMPAIGN + LEVEL * 400, does)
