"""Presses that come before an earlier one is answered: each is done in its turn, for the page as it is then, or it is said that it isn't."""
from __future__ import annotations

import pathlib

from tests.live.arrows import MANY
from tests.live.changing import HEADS
from tests.live.player import Player
from tests.live.playing import on_script
from tests.live.running import CAMPAIGN, START, Running
from tests.page.browser import Browser
from tests.page.scripts import same

# Each answer of the server takes so many milliseconds longer.
LATE = 700
ALERT = "document.querySelector('.live-alert')?.textContent"
FIRST = '.live-message [data-key="deliver 1 2 MsgApp 0"]'
SECOND = '.live-message [data-key="deliver 1 2 MsgApp 1"]'


def answer_late(player: Player, milliseconds: int = LATE) -> None:
    """Has the server's answers come later."""
    player.browser.call("Network.emulateNetworkConditions", offline=False, latency=milliseconds, downloadThroughput=-1, uploadThroughput=-1)


def press_all(player: Player, *selectors: str) -> None:
    """Clicks elements one right after another, with no answer in between."""
    for x, y in [player.box(selector) for selector in selectors]:
        for kind in ("mousePressed", "mouseReleased"):
            player.browser.call("Input.dispatchMouseEvent", type=kind, x=x, y=y, button="left", clickCount=1)


def presses_wait_for_those_before_them(browser: Browser) -> None:
    """Buttons and keys: all are done, in their order, each after the directive that the one before it has put in."""
    def does(player: Player, server: Running, path: pathlib.Path) -> None:
        add, one, *_ = player.browser.value(HEADS)
        player.browser.value("document.getElementById('directives').focus()")
        answer_late(player)
        press_all(player, '[data-key="campaign 2"]', '[data-key="campaign 3"]', '[data-key="process-ready 3"]')
        player.key("s")
        player.key("u")
        player.comes(HEADS, [add, one, "campaign 2", "campaign 3", "process-ready 3", "stabilize"])
        player.comes(HEADS, [add, one, "campaign 2", "campaign 3", "process-ready 3"])
        answer_late(player, 0)
        same("what is said", player.browser.value(ALERT), None)
    browser.size(1500, 1600)
    on_script(browser, START + CAMPAIGN, does)


def messages_are_those_that_were_pressed(browser: Browser) -> None:
    """Of several of one type: once the first is delivered, the second is the first. What has arrived isn't delivered again, and nothing in its place."""
    def does(player: Player, server: Running, path: pathlib.Path) -> None:
        player.known()
        answer_late(player)
        press_all(player, FIRST, SECOND)
        player.comes(f"{HEADS}.slice(9)", ["deliver-msgs 2 type=MsgApp count=1"] * 2)
        player.at(11, 11)
        player.comes("document.querySelectorAll('.live-message').length", 4)
        press_all(player, FIRST, FIRST, '[data-key="stabilize"]')
        player.comes(f"{ALERT} ?? ''", "! That can't be done: the message isn't on its way any more. What was pressed after that isn't done. ")
        answer_late(player, 0)
        same("what was done", player.browser.value(f"{HEADS}.slice(11)"), ["deliver-msgs 2 type=MsgApp"])
    browser.size(1500, 1600)
    on_script(browser, MANY, does)


def directives_are_written_without_waiting(browser: Browser) -> None:
    """The field is there for the next one at once; one that errs comes back."""
    def does(player: Player, server: Running, path: pathlib.Path) -> None:
        answer_late(player)
        player.browser.value("document.getElementById('directives').focus()")
        player.directive("campaign 2")
        player.write("campaign 3")
        player.key("Enter")
        player.comes(f"{HEADS}.slice(2)", ["campaign 2", "campaign 3"])
        player.write("campain 1")
        player.key("Enter")
        player.comes("document.getElementById('live-write').value", "campain 1")
        player.comes(f"{ALERT}?.includes('did you mean \"campaign\"?')")
        answer_late(player, 0)
    browser.size(1500, 1600)
    on_script(browser, START + CAMPAIGN, does)


def what_was_chosen_meanwhile_isn_t_removed(browser: Browser) -> None:
    """Whoever goes elsewhere before an answer comes sees another page then, so what is pressed there is left out, and that is said."""
    def does(player: Player, server: Running, path: pathlib.Path) -> None:
        heads = player.browser.value(HEADS)
        player.browser.value("document.getElementById('directives').focus()")
        answer_late(player)
        for key in ("s", "k", "x"):
            player.key(key)
        player.comes(f"{ALERT} ?? ''", "! That can't be done: another directive was chosen meanwhile. ")
        answer_late(player, 0)
        same("the heads", player.browser.value(HEADS), [*heads, "stabilize"])
    browser.size(1500, 1600)
    on_script(browser, START + CAMPAIGN, does)


def a_key_that_is_held_goes_no_faster_than_the_server(browser: Browser) -> None:
    """What comes of it while an answer is waited for doesn't pile up."""
    def does(player: Player, server: Running, path: pathlib.Path) -> None:
        player.browser.value("document.getElementById('directives').focus()")
        answer_late(player)
        for count in range(8):
            player.browser.call("Input.dispatchKeyEvent", type="keyDown", key="s", text="s", windowsVirtualKeyCode=83, autoRepeat=count > 0)
        player.browser.call("Input.dispatchKeyEvent", type="keyUp", key="s")
        player.key("D")
        player.comes(f"{HEADS}.slice(-3)", ["campaign 1", "stabilize", "stabilize"])
        player.key("x")
        player.comes(f"{HEADS}.slice(-2)", ["campaign 1", "stabilize"])
        answer_late(player, 0)
    browser.size(1500, 1600)
    on_script(browser, START + CAMPAIGN, does)


def a_press_counts_though_its_button_moves(browser: Browser) -> None:
    """Where the page is laid out anew between press and release of a pointer that stays; but not where the pointer leaves the button."""
    def does(player: Player, server: Running, path: pathlib.Path) -> None:
        for width, far in ((700, 0), (1500, 300)):
            x, y = player.box('[data-key="stabilize"]')
            player.browser.call("Input.dispatchMouseEvent", type="mousePressed", x=x, y=y, button="left", clickCount=1)
            player.browser.size(width, 1600)
            player.browser.settle()
            player.browser.call("Input.dispatchMouseEvent", type="mouseReleased", x=x, y=y + far, button="left", clickCount=1)
            player.comes(f"{HEADS}.slice(-2)", ["campaign 1", "stabilize"])
        moved = player.box('[data-key="stabilize"]')
        same("whether it was elsewhere", moved != [x, y], True)
        player.browser.value("document.getElementById('directives').focus()")
        player.key("D")
        player.comes(f"{HEADS}.slice(-3)", ["campaign 1", "stabilize", "stabilize"])
    browser.size(1500, 1600)
    on_script(browser, START + CAMPAIGN, does)


def a_side_is_chosen_though_the_bar_is_drawn_again(browser: Browser) -> None:
    """Between press and release of its box: where the box stays, where it moves, and where it is let go elsewhere."""
    def does(player: Player, server: Running, path: pathlib.Path) -> None:
        def mouse(kind: str, x: float, y: float) -> None:
            player.browser.call("Input.dispatchMouseEvent", type=kind, x=x, y=y, button="left", clickCount=1)
        checked = "[...document.querySelectorAll('[data-key^=\"side \"]')].filter((box) => box.checked).map((box) => box.dataset.key)"
        for number in (1, 2):
            x, y = player.box(f'[data-key="side {number}"]')
            mouse("mousePressed", x, y)
            player.browser.value(f"location.hash = '#{number}', 1")
            player.at(number, 2)
            mouse("mouseReleased", x, y)
            player.comes(checked, [f"side {it}" for it in range(1, number + 1)])
        for width, far, wanted in ((700, 0, ["side 1", "side 2", "side 3"]), (1500, 300, ["side 1", "side 2", "side 3"]), (900, 0, ["side 1", "side 2"])):
            x, y = player.box('[data-key="side 3"]')
            mouse("mousePressed", x, y)
            player.browser.size(width, 1600)
            player.browser.settle()
            mouse("mouseReleased", x, y + far)
            player.comes(checked, wanted)
        server.enter().do("insert", place=2, text="raft-state")
        player.at(2, 3)
        player.click('[data-key="stabilize-side"]')
        player.comes("document.querySelector('#script .chosen .head').textContent", "stabilize 1 2")
    browser.size(1500, 1600)
    on_script(browser, START + CAMPAIGN, does)


TESTS = [
    presses_wait_for_those_before_them, messages_are_those_that_were_pressed, directives_are_written_without_waiting, what_was_chosen_meanwhile_isn_t_removed,
    a_key_that_is_held_goes_no_faster_than_the_server, a_press_counts_though_its_button_moves, a_side_is_chosen_though_the_bar_is_drawn_again,
]
