"""The cards of nodes: each button inserts its directive, and a restart says before what it would lose."""
from __future__ import annotations

import pathlib

from tests.live.player import Player
from tests.live.playing import on_script
from tests.live.running import CAMPAIGN, START, Running, checked
from tests.page.browser import Browser
from tests.page.scripts import same

LED = START + CAMPAIGN + b"stabilize\n----\n\n"
# The button of each directive that a node may do, and the head that it inserts; node 1 leads, and its log is applied up to 11.
BUTTONS = {
    "tick-heartbeat 1": "tick-heartbeat 1", "process-ready 1": "process-ready 1", "propose 1": "propose 1 x1", "propose-conf-change 1": "propose-conf-change 1",
    "transfer-leadership 2": "transfer-leadership from=1 to=2", "forget-leader 3": "forget-leader 3", "compact 1": "compact 1 11", "tick-election 3": "tick-election 3",
    "campaign 2": "campaign 2", "restart 3": "restart 3",
}
LOST = "document.querySelector('[data-node=\"1\"] .live-lost')?.textContent ?? ''"
LABEL = "document.querySelector('[data-key=\"restart 1\"]').getAttribute('aria-label')"


def head(player: Player) -> str:
    """The head of the chosen directive, also if it is wrapped."""
    rows = player.browser.value("[...document.querySelectorAll('#script .chosen .head')].map((it) => it.textContent.trim())")
    return " ".join(rows)


def each_button_of_a_node_plays(browser: Browser) -> None:
    """What is played by all of them has the outputs that `check` expects; a word is the one that the field offers."""
    def does(player: Player, server: Running, path: pathlib.Path) -> None:
        player.click('[data-key="accept"]')
        player.comes("document.querySelectorAll('#script .wrong').length", 0)
        for count, (key, wanted) in enumerate(BUTTONS.items(), 4):
            if key.startswith("propose"):
                player.click(f'[data-key="{key}"]')
                player.comes("document.activeElement.id", "live-write")
                player.click('[data-key="insert"]')
            else:
                player.click_to(f'[data-key="{key}"]', count, count)
            player.at(count, count)
            same("the head", head(player), wanted)
        player.click('[data-key="save"]')
        player.comes("document.title", f"{path.name}: raftbench live")
        same("what check finds", checked(path), f"1 script, {3 + len(BUTTONS)} directives, 0 mismatches, 0 refused")
        same("the words of the change", b"\npropose-conf-change 1\nv4\n----\n" in path.read_bytes(), True)
    on_script(browser, LED, does)


def a_restart_says_before_what_it_loses(browser: Browser) -> None:
    """In the words of `check --why` (docs/USING.md, "Reasons"): where something would be lost, and of no other node."""
    def does(player: Player, server: Running, path: pathlib.Path) -> None:
        player.browser.value("document.getElementById('directives').focus()")
        player.directive("propose 1 a")
        player.at(4, 4)
        player.known()
        same("what is lost", [player.browser.value(it) for it in (LOST, LABEL)], ["restart loses entry 12", "restart 1, which loses entry 12"])
        same("how many nodes would lose something", player.browser.value("document.querySelectorAll('.live-lost:not(:empty)').length"), 1)
        player.seen("loses")
        player.key("Escape")
        player.key("k")
        player.at(3, 4)
        player.known()
        same("what is lost before", [player.browser.value(it) for it in (LOST, LABEL)], ["", "restart 1"])
        player.key("j")
        player.comes(LOST, "restart loses entry 12")
        player.click_to('[data-key="restart 1"]', 5, 5)
        same("what is said of it", player.text("#live-said"), "restart 1: INFO 1 restarted at term=1 vote=1 log=10..11 commit=11")
        player.known()
        same("what is lost then", player.browser.value(LOST), "")
    on_script(browser, LED, does)


TESTS = [each_button_of_a_node_plays, a_restart_says_before_what_it_loses]
