"""Edits of a script in the page: by buttons and by keys, with what they cost and what then differs; branches; what isn't UTF-8."""
from __future__ import annotations

import pathlib

from tests.live.cards import head
from tests.live.player import SHIFT, Player
from tests.live.playing import on_script
from tests.live.running import CAMPAIGN, START, Running, checked
from tests.page.browser import Browser
from tests.page.scripts import same

HEADS = "[...document.querySelectorAll('#script .head')].map((it) => it.textContent.trim().replace(/^✗ /, ''))"
WRONG = "document.querySelectorAll('#script .wrong').length"
COST = "document.querySelector('.live-cost').textContent"
CANDIDATE = b"campaign 2\n----\nINFO 2 became candidate at term 1\n\n"


def directives_are_edited_in_place(browser: Browser) -> None:
    """Its comment and its head, by keys; what then differs is marked in the script and in the picture, and accepted; undone, and done again."""
    def does(player: Player, server: Running, path: pathlib.Path) -> None:
        player.browser.value("document.getElementById('directives').focus()")
        player.key("e")
        player.comes("document.activeElement.value", "campaign 1")
        player.key("Home")
        player.write("# Why not 2?")
        player.key("Enter", modifiers=SHIFT)
        player.key("End")
        player.browser.value("document.activeElement.setSelectionRange(22, 23)")
        player.write("2")
        player.seen("edit")
        player.key("Enter")
        player.comes(WRONG, 1)
        same("the marks in the picture", player.browser.value("document.querySelectorAll('#drawing .head.bad').length") > 0, True)
        player.seen("mismatch")
        for key, wanted in (("a", 0), ("u", 1), ("r", 0)):
            player.key(key)
            player.comes(WRONG, wanted)
        player.key("s", modifiers=2, text="")
        player.comes("document.title", "script.txt: raftbench live")
        same("the script", path.read_bytes(), START + b"# Why not 2?\n" + CANDIDATE)
    on_script(browser, START + CAMPAIGN, does)


def inputs_are_edited_in_place(browser: Browser) -> None:
    """The words of a change of members are below its head; so is what comes of them."""
    def does(player: Player, server: Running, path: pathlib.Path) -> None:
        player.browser.value("document.getElementById('directives').focus()")
        player.key("e")
        player.comes("document.activeElement.value", "propose-conf-change 1\nv4")
        player.browser.value("document.activeElement.setSelectionRange(22, 23)")
        player.write("l")
        player.key("Enter")
        player.comes("document.querySelector('.live-edit')", None)
        player.comes("document.querySelector('#script .chosen .input').textContent", "l4")
        player.directive("stabilize log-level=info")
        player.at(5, 5)
        player.comes("document.getElementById('live-said').textContent.includes('INFO 1 switched to voters=(1,2,3) learners=(4)')")
        player.key("Escape")
        player.key("s", modifiers=2, text="")
        player.comes("document.title", "script.txt: raftbench live")
        same("what check finds", checked(path), "1 script, 5 directives, 0 mismatches, 0 refused")
        same("the input", b"\npropose-conf-change 1\nl4\n----\n" in path.read_bytes(), True)
    on_script(browser, START + CAMPAIGN + b"stabilize log-level=none\n----\nok\n\npropose-conf-change 1\nv4\n----\nok\n\n", does)


def words_are_offered_in_place(browser: Browser) -> None:
    """Where a directive stands, as in the field: the completion and the hints of the language server."""
    def does(player: Player, server: Running, path: pathlib.Path) -> None:
        player.browser.value("document.getElementById('directives').focus()")
        player.key("e")
        player.comes("document.activeElement.value", "campaign 1")
        player.browser.value("document.activeElement.select()")
        player.write("tick-e")
        player.comes("document.querySelector('.live-edit .live-offers b')?.textContent", "tick-election")
        player.key("ArrowDown")
        player.key("Enter")
        player.comes("document.activeElement.value.trim()", "tick-election")
        player.browser.value("document.activeElement.select()")
        player.write("campain 1")
        player.comes("document.querySelector('.live-edit .live-hint').textContent.includes('did you mean \"campaign\"?')")
        player.key("Escape")
        player.comes("document.querySelector('.live-edit')", None)
        same("the head", head(player), "campaign 1")
    on_script(browser, START + CAMPAIGN, does)


def directives_are_removed_moved_and_duplicated(browser: Browser) -> None:
    """By buttons, and back by undo, as far as one likes."""
    def does(player: Player, server: Running, path: pathlib.Path) -> None:
        add, one, two = "add-nodes 3 voters=(1,2,3) index=10", "campaign 1", "campaign 2"
        states = [[add, one, two], [add, one, two, two], [add, one, two], [add, two, one], [add, one, two]]
        player.comes(HEADS, states[0])
        for key, wanted in zip(("duplicate", "remove", "up", "down"), states[1:]):
            player.click(f'[data-key="{key}"]')
            player.comes(HEADS, wanted)
        for wanted in reversed(states[:-1]):
            player.click('[data-key="undo"]')
            player.comes(HEADS, wanted)
        same("whether more can be undone", player.browser.value("document.querySelector('[data-key=\"undo\"]').title"), "there is nothing to undo")
        for wanted in states[1:]:
            player.click('[data-key="redo"]')
            player.comes(HEADS, wanted)
    on_script(browser, START + CAMPAIGN + CANDIDATE, does)


def all_are_accepted_with_care(browser: Browser) -> None:
    """As `check --accept` does: what is below a new error stays, and the page says so."""
    def does(player: Player, server: Running, path: pathlib.Path) -> None:
        player.comes("document.querySelector('[data-key=\"accept-all\"]').textContent", "accept all (2)")
        player.click('[data-key="accept-all"]')
        player.comes("[...document.querySelectorAll('.live-alert')].some((it) => it.textContent.includes('was not accepted'))")
        player.seen("not-accepted")
        same("how many still differ", player.browser.value(WRONG), 2)
        player.key("Home")
        player.key("j")
        player.at(2, 3)
        player.key("x")
        player.at(1, 2)
        player.key("A")
        player.comes(WRONG, 0)
        player.key("s", modifiers=2, text="")
        player.comes("document.title", "script.txt: raftbench live")
        same("the script", path.read_bytes(), START + CANDIDATE)
    on_script(browser, START + CAMPAIGN.replace(b"campaign", b"campaing") + CANDIDATE.replace(b"INFO 2", b"INFO 1"), does)


def an_edit_says_what_it_cost(browser: Browser) -> None:
    """docs/USING.md: an edit reruns from the last checkpoint before it, and stops at the first at which the cluster is as before; they are 16 apart."""
    def does(player: Player, server: Running, path: pathlib.Path) -> None:
        player.browser.value("document.getElementById('directives').focus(), location.hash = '#200', 1")
        player.at(200, 402)
        player.directive("raft-state")
        player.at(201, 403)
        ran, _, of = player.browser.value(COST).removeprefix("ran ").partition(" of ")
        same(f"whether {ran} of {of} are few", (0 < int(ran) < 64, of), (True, "403"))
    on_script(browser, START + CAMPAIGN + b"log-level info\n----\nok\n\n" * 400, does)


def what_errs_is_inserted_if_one_is_sure(browser: Browser) -> None:
    """Its hint is shown first, and it is inserted only after a yes."""
    def does(player: Player, server: Running, path: pathlib.Path) -> None:
        player.browser.value("document.getElementById('directives').focus()")
        player.directive("campain 1")
        player.comes("document.querySelector('.live-alert')?.textContent.includes('did you mean \"campaign\"?')")
        player.seen("asks")
        player.click('[data-key="no"]')
        player.comes("document.querySelector('.live-alert')", None)
        player.click('[data-key="insert"]')
        player.comes("document.querySelector('[data-key=\"yes\"]') !== null")
        player.click('[data-key="yes"]')
        player.at(3, 3)
        player.click('[data-key="save"]')
        player.comes("document.title", "script.txt: raftbench live")
        same("the script", path.read_bytes(), START + CAMPAIGN + b'campain 1\n----\nerror: unknown directive "campain"\n\n')
    on_script(browser, START + CAMPAIGN, does)


def branches_stand_beside_each_other(browser: Browser) -> None:
    """Both pictures and both logs at once, in step; and the branch is saved in the place of the file."""
    def does(player: Player, server: Running, path: pathlib.Path) -> None:
        player.browser.value("document.getElementById('directives').focus()")
        player.key("w")
        player.comes("document.querySelectorAll('[data-key^=\"tab \"]').length", 2)
        player.directive("campaign 2")
        player.at(3, 3)
        player.click('[data-key="beside 1"]')
        inner = "document.querySelector('iframe').contentDocument"
        player.comes(f"{inner}?.getElementById('where')?.textContent.startsWith('step 2 of 2,')")
        for pane in ("drawing", "logs"):
            shown = [player.browser.value(f"{at}.getElementById('{pane}').getBoundingClientRect().width > 200") for at in ("document", inner)]
            same(f"whether both {pane} are shown", shown, [True, True])
        player.seen("beside")
        player.key("k")
        player.key("k")
        player.comes(f"{inner}.getElementById('where').textContent.startsWith('step 1 of 2,')")
        player.click('[data-key="save"]')
        player.comes("document.querySelector('[data-key=\"tab 2\"]').textContent.startsWith('file')")
        same("what check finds", checked(path), "1 script, 3 directives, 0 mismatches, 0 refused")
        player.click('[data-key="tab 1"]')
        player.at(2, 2)
        same("whether the frame is gone", player.browser.value("document.querySelector('iframe')"), None)
    on_script(browser, START + CAMPAIGN, does)


def what_is_not_utf8_is_edited_letter_by_letter(browser: Browser) -> None:
    """Each byte is a letter there, so that the others stay."""
    def does(player: Player, server: Running, path: pathlib.Path) -> None:
        player.browser.value("document.getElementById('directives').focus()")
        player.key("e")
        player.comes("document.activeElement.value", "# \u00ff\u00fe\ncampaign 1")
        player.key("End")
        player.browser.value("document.activeElement.setSelectionRange(4, 4)")
        player.write("!")
        player.key("Enter")
        player.comes("document.querySelector('.live-edit')", None)
        player.key("s", modifiers=2, text="")
        player.comes("document.title", "script.txt: raftbench live")
        same("the script", path.read_bytes(), START + b"# \xff\xfe!\n" + CAMPAIGN)
    on_script(browser, START + b"# \xff\xfe\n" + CAMPAIGN, does)


TESTS = [
    directives_are_edited_in_place, inputs_are_edited_in_place, words_are_offered_in_place, directives_are_removed_moved_and_duplicated, all_are_accepted_with_care,
    an_edit_says_what_it_cost, what_errs_is_inserted_if_one_is_sure, branches_stand_beside_each_other, what_is_not_utf8_is_edited_letter_by_letter,
]
