"""Messages on their way, in the page: each is delivered or dropped by its arrow, by its row and by keys, alone or with others."""
from __future__ import annotations

import json
import pathlib
from typing import NamedTuple

from tests.live.cards import head
from tests.live.player import SHIFT, Player
from tests.live.playing import on_script
from tests.live.running import CAMPAIGN, START, Running
from tests.page.browser import Browser
from tests.page.scripts import same

# Three appends to each follower are on their way.
MANY = START + CAMPAIGN + b"stabilize\n----\n\n" + b"propose 1 x\n----\n\nprocess-ready 1\n----\n\n" * 3
# Where the arrow of a waiting message begins in the picture, a little to its right; or null while it isn't drawn.
POINT = """((at) => {
  const paths = [...document.querySelectorAll('#drawing path.arrow.waiting')];
  const starts = paths.flatMap((it) => [...it.getAttribute('d').matchAll(/M([\\d.]+) ([\\d.]+)/g)].map(([, x, y]) => new DOMPoint(Number(x) + 20, Number(y)).matrixTransform(it.getScreenCTM())));
  const found = starts.sort((one, other) => one.y - other.y)[at];
  return found ? [found.x, found.y] : null;
})"""
# The rows of the messages on their way, in order.
ROWS = "[...document.querySelectorAll('.live-message')].map((row) => [row.firstChild.textContent, ...[...row.querySelectorAll('button')].flatMap((it) => [it.textContent, it.title])])"


class Row(NamedTuple):
    """A message on its way, and its two buttons: their words, and their directives."""

    text: str
    deliver: str
    deliver_head: str
    drop: str
    drop_head: str


def rows_of(player: Player) -> list[Row]:
    """The rows of the messages on their way."""
    return [Row(*it) for it in player.browser.value(ROWS)]


def click_arrow(player: Player, at: int, modifiers: int = 0) -> None:
    """Clicks the waiting arrow that is at this place among those that are drawn, from the top, once the picture stands still."""
    player.comes(f"{POINT}({at}) !== null")
    before = None
    while (point := player.browser.value(f"{POINT}({at})")) is None or point != before:
        before = point
        player.browser.settle()
    x, y = point
    for kind in ("mousePressed", "mouseReleased"):
        player.browser.call("Input.dispatchMouseEvent", type=kind, x=x, y=y, button="left", clickCount=1, modifiers=modifiers)


def arrows_are_clicked(browser: Browser) -> None:
    """A click on the line of a message in the picture delivers it, with Shift it drops it."""
    def does(player: Player, server: Running, path: pathlib.Path) -> None:
        player.browser.call("Emulation.setEmulatedMedia", features=[{"name": "prefers-reduced-motion", "value": "reduce"}])
        player.directive("process-ready 1")
        player.at(3, 3)
        click_arrow(player, 0)
        player.at(4, 4)
        same("the head", head(player), "deliver-msgs 2 type=MsgVote")
        player.browser.value("document.getElementById('scroll').scrollTop = 0")
        player.browser.settle()
        click_arrow(player, 0, SHIFT)
        player.at(5, 5)
        same("the head", head(player), "deliver-msgs drop=3 type=MsgVote")
    on_script(browser, START + CAMPAIGN, does)


def one_of_several_is_taken_by_its_row(browser: Browser) -> None:
    """Of messages that differ by their place alone, each row's buttons say that they take one, and do."""
    def does(player: Player, server: Running, path: pathlib.Path) -> None:
        rows = rows_of(player)
        same("the words of the buttons", {(row.deliver, row.drop) for row in rows}, {("deliver", "drop")})
        same("how many directives there are", len({head for row in rows for head in (row.deliver_head, row.drop_head)}), 12)
        second = next(row for row in rows if row.deliver_head == "deliver-msgs 2 type=MsgApp skip=1 count=1")
        player.click(f'.live-message button[title={json.dumps(second.deliver_head)}]')
        player.at(10, 10)
        same("the head", head(player), second.deliver_head)
        player.comes("document.querySelectorAll('.live-message').length", 5)
        player.click('.live-message button[title="deliver-msgs drop=3 type=MsgApp skip=2 count=1"]')
        player.at(11, 11)
        same("the head", head(player), "deliver-msgs drop=3 type=MsgApp skip=2 count=1")
        player.comes("document.querySelectorAll('.live-message').length", 4)
        same("what is left", [row.text for row in rows_of(player)], [row.text for row in rows if row not in (second, rows[-1])])
    on_script(browser, MANY, does)


def one_of_several_is_taken_by_its_arrow(browser: Browser) -> None:
    """Of arrows of one type to one node each takes its own message."""
    def does(player: Player, server: Running, path: pathlib.Path) -> None:
        player.browser.call("Emulation.setEmulatedMedia", features=[{"name": "prefers-reduced-motion", "value": "reduce"}])
        player.comes(f"{POINT}(5) !== null")
        # The fourth arrow is the second that goes to node 3.
        click_arrow(player, 3)
        player.at(10, 10)
        same("the head", head(player), "deliver-msgs 3 type=MsgApp skip=1 count=1")
        click_arrow(player, 2)
        player.at(11, 11)
        same("the head", head(player), "deliver-msgs 2 type=MsgApp skip=1 count=1")
        click_arrow(player, 0, SHIFT)
        player.at(12, 12)
        same("the head", head(player), "deliver-msgs drop=2 type=MsgApp count=1")
    browser.size(1500, 1600)
    on_script(browser, MANY, does)


def one_of_several_is_taken_by_keys(browser: Browser) -> None:
    """`d` goes from message to message; Tab goes from delivering to dropping it."""
    def does(player: Player, server: Running, path: pathlib.Path) -> None:
        player.browser.value("document.getElementById('directives').focus()")
        for _ in range(3):
            player.key("d")
        player.comes("document.activeElement.title", "deliver-msgs 2 type=MsgApp skip=1 count=1")
        player.key("Enter")
        player.at(10, 10)
        same("the head", head(player), "deliver-msgs 2 type=MsgApp skip=1 count=1")
        # The focus is on the message that is in its place now; the last one comes after it, and then the first one.
        player.comes("document.activeElement.title", "deliver-msgs 2 type=MsgApp skip=1 count=1")
        player.key("d")
        player.comes("document.activeElement.title", "deliver-msgs 3 type=MsgApp skip=2 count=1")
        player.key("d")
        player.key("Tab")
        player.comes("document.activeElement.title", "deliver-msgs drop=2 type=MsgApp count=1")
        player.key("Enter")
        player.at(11, 11)
        same("the head", head(player), "deliver-msgs drop=2 type=MsgApp count=1")
    on_script(browser, MANY, does)


def all_to_a_node_and_from_it_are_taken(browser: Browser) -> None:
    """By the buttons of the node's card, which say how many."""
    def does(player: Player, server: Running, path: pathlib.Path) -> None:
        same("the buttons", [player.text(f'[data-key="{key}"]') for key in ("all-to 2", "all-from 1", "all-to 1")], ["all to it (3)", "all from it (6)", "all to it (0)"])
        player.click_to('[data-key="all-to 2"]', 10, 10)
        same("the head", head(player), "deliver-msgs 2")
        player.click_to('[data-key="process-ready 2"]', 11, 11)
        player.comes("document.querySelector('[data-key=\"all-from 1\"]').textContent", "all from it (3)")
        player.click_to('[data-key="all-from 1"]', 12, 12)
        same("the head", head(player), "deliver-msgs 3")
    on_script(browser, MANY, does)


def what_one_does_is_drawn_in_motion(browser: Browser) -> None:
    """A dot goes along the arrow of what is delivered; a reader who wants less motion sees none."""
    def does(player: Player, server: Running, path: pathlib.Path) -> None:
        player.browser.value("""(() => {
          window.dots = 0;
          new MutationObserver((seen) => seen.forEach(({ addedNodes }) => addedNodes.forEach((it) => (window.dots += Number(it.classList?.contains('travelling') ?? false)))))
            .observe(document.getElementById('drawing'), { childList: true, subtree: true });
        })()""")
        for wish, wanted in (("no-preference", True), ("reduce", False)):
            player.browser.call("Emulation.setEmulatedMedia", features=[{"name": "prefers-reduced-motion", "value": wish}])
            player.browser.value("window.dots = 0, 1")
            player.click_to('.live-message button[title="deliver-msgs 2 type=MsgVote"]', 4, 4)
            # In motion its two events are shown, and then all of it. Motion begins by a timer that is over before this one.
            player.browser.value("new Promise((done) => setTimeout(() => done(1), 500))")
            player.browser.settle()
            player.comes("window.dots > 0", wanted)
            player.comes("document.getElementById('where').textContent.includes(', event ')", False)
            player.key("u")
            player.at(3, 3)
    on_script(browser, START + CAMPAIGN + b"process-ready 1\n----\n\n", does)


TESTS = [
    arrows_are_clicked, one_of_several_is_taken_by_its_row, one_of_several_is_taken_by_its_arrow, one_of_several_is_taken_by_keys,
    all_to_a_node_and_from_it_are_taken, what_one_does_is_drawn_in_motion,
]
