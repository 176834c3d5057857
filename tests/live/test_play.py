"""Playing in a headless browser, by mouse alone and by keys alone: an election, figure 3.7 of Ongaro's thesis and a repair, from an empty file;
saved, `check` finds no mismatch. Then each part of the page: arrows, what can't be done, editing, branches, other programs, own nodes.

With SEEN=FOLDER in the environment it writes what is seen into a folder, to look at.
"""
from __future__ import annotations

import pathlib
import re
import subprocess
import tempfile
from collections.abc import Callable, Iterator

from tests.harness import PROGRAM, TOP, Result, results_of
from tests.live import arrows, becoming, cards, changing, staying, turns
from tests.live.alone import each_waiting_message_is_taken_alone, the_program_takes_it_alone
from tests.live.each_message import ways_take_what_they_say
from tests.live.going_on import a_long_page_goes_on_in_parts, a_page_that_went_on_is_as_a_fresh_one, a_run_that_goes_on_is_as_a_fresh_one, a_run_whose_rows_come_in_parts_is_as_a_fresh_one, a_run_with_skipped_messages_goes_on
from tests.live.player import Player
from tests.live.playing import on_script
from tests.live.running import CAMPAIGN, START, Running, checked, put
from tests.page.browser import Browser, found
from tests.page.scripts import same

# The directives that were played, as the script has them.
ELECTION = ["add-nodes 3 voters=(1,2,3) index=10", "campaign 1", "process-ready 1", "deliver-msgs 2 type=MsgVote", "process-ready 2", "deliver-msgs 1 type=MsgVoteResp", "stabilize"]
# Figure 3.7 (a) to (c), with terms from 1 on: the entry of the first leader reaches one other node; the leader of the next term has another entry at
# its index; and the first one leads again, with its old entry before its new one. So the five logs differ.
FIGURE = [
    "add-nodes 5 voters=(1,2,3,4,5) index=10", "campaign 1", "stabilize",
    "propose 1 a", "stabilize 1 2", "deliver-msgs drop=(3,4,5)",
    "campaign 5", "process-ready 5", "deliver-msgs 3 type=MsgVote", "deliver-msgs 4 type=MsgVote", "process-ready 3", "process-ready 4", "deliver-msgs 5 type=MsgVoteResp from=3",
    "deliver-msgs 5 type=MsgVoteResp", "process-ready 5", "deliver-msgs 1 type=MsgVote", "process-ready 1", "deliver-msgs drop=(1,2,3,4,5)",
    "campaign 1", "process-ready 1", "deliver-msgs 2 type=MsgVote", "deliver-msgs 3 type=MsgVote", "process-ready 2", "process-ready 3",
    "deliver-msgs 1 type=MsgVoteResp from=2", "deliver-msgs 1 type=MsgVoteResp", "process-ready 1",
]
# The terms of the five logs from index 11 on.
FIGURE_LOGS = {1: [1, 1, 3], 2: [1, 1], 3: [1], 4: [1], 5: [1, 2]}
# The leader repairs them all.
REPAIR = [*FIGURE, "stabilize"]
MOST_PRESSES = 40
# The sides that are cut off, by the directive that drops what is between them.
SIDES = {"deliver-msgs drop=(3,4,5)": "12", "deliver-msgs drop=(1,2,3,4,5)": "5"}


def heads_of(path: pathlib.Path) -> list[str]:
    """The heads of a script, each below an empty line or at its beginning."""
    lines = ["", *path.read_text().split("\n")]
    return [line for above, line in zip(lines, lines[1:]) if not above and line]


def logs_of(path: pathlib.Path) -> dict[int, list[int]]:
    """By node, the terms of its log from index 11 on, as the language of scripts shows them at the end of a script."""
    asked = b"".join(b"raft-log %d\n----\n\n" % id for id in FIGURE_LOGS)
    done = subprocess.run([PROGRAM, "rewrite", "-"], input=path.read_bytes() + b"\n" + asked, capture_output=True, check=True).stdout.decode()
    shown = done.rpartition("raft-log 1\n----\n")[2].split("raft-log ")
    return {id: [int(term) for term in re.findall(r"^(\d+)/1[1-9] ", text, re.MULTILINE)] for id, text in enumerate(shown, 1)}


def saved(player: Player, server: Running, path: pathlib.Path, heads: list[str]) -> None:
    """What was saved is what was played, and `check` finds no mismatch."""
    player.comes("document.title", f"{path.name}: raftbench live")
    same("the heads", heads_of(path), heads)
    same("what check finds", checked(path), f"1 script, {len(heads)} directives, 0 mismatches, 0 refused")
    player.quiet()


def choose_side(player: Player, ids: str) -> None:
    """Checks the boxes of these nodes, and of no others."""
    for box in player.browser.value("[...document.querySelectorAll('[data-key^=\"side \"]')].map((box) => [box.dataset.key, box.checked])"):
        if box[1] != (box[0].removeprefix("side ") in ids):
            player.click(f'[data-key="{box[0]}"]')


def by_mouse(player: Player, heads: list[str]) -> None:
    """Plays directives by the buttons that say them; a way that has no button is clicked together."""
    player.comes("document.getElementById('live-count') !== null")
    for _ in range(int(heads[0].split()[1]) - 3):
        player.click_at("#live-count", -9, 0.25)
    player.click(".live-begin button")
    for count, head in enumerate(heads[1:], 2):
        player.at(count - 1, count - 1)
        name, _, rest = head.partition(" ")
        if name == "deliver-msgs" and rest.startswith("drop="):
            choose_side(player, SIDES[head])
            player.click_to('[data-key="cut"]', count, count)
        elif name == "deliver-msgs":
            player.click_to(f'.live-message button[title="{head}"]', count, count)
        elif name == "stabilize" and rest:
            choose_side(player, rest)
            player.click_to('[data-key="stabilize-side"]', count, count)
        elif name == "stabilize":
            player.click_to('[data-key="stabilize"]', count, count)
        elif name == "propose":
            # A word can't be clicked: the one that the field offers is taken by its button.
            player.click(f'[data-key="propose {rest[0]}"]')
            player.comes("document.activeElement.id", "live-write")
            player.click('[data-key="insert"]')
        else:
            player.click_to(f'[data-key="{head}"]', count, count)
        player.at(count, count)


def by_keys(player: Player, heads: list[str]) -> None:
    """Plays directives by writing them."""
    player.comes("document.activeElement.id", "live-count")
    for _ in range(int(heads[0].split()[1]) - 3):
        player.key("ArrowUp")
    player.key("Enter")
    player.at(1, 1)
    for count, head in enumerate(heads[1:], 2):
        if head == "stabilize":
            player.key("s")
        else:
            player.directive(head)
        player.at(count, count)
        player.comes("document.activeElement.id !== 'live-write' || document.getElementById('live-write').value === ''")
        player.key("Escape")
        player.comes("document.activeElement.id", "directives")


def play(browser: Browser, heads: list[str], does: Callable[[Player, list[str]], None], name: str) -> None:
    """Plays directives on a new file, saves it, and looks at what was saved."""
    with tempfile.TemporaryDirectory() as room:
        path = pathlib.Path(room, "new.txt")
        with Running(path) as server:
            player = Player(browser, server.address)
            does(player, heads)
            player.seen(name)
            if does is by_mouse:
                player.click('[data-key="save"]')
            else:
                player.key("s", modifiers=2, text="")
            # What is proposed by mouse has the words that the field offers.
            wanted = [head.replace("propose 1 a", "propose 1 x1") if does is by_mouse else head for head in heads]
            saved(player, server, path, wanted)
            if heads in (FIGURE, REPAIR):
                same("the logs", logs_of(path), FIGURE_LOGS if heads is FIGURE else dict.fromkeys(FIGURE_LOGS, FIGURE_LOGS[1]))


def election_by_mouse(browser: Browser) -> None:
    play(browser, ELECTION, by_mouse, "election-mouse")


def election_by_keys(browser: Browser) -> None:
    play(browser, ELECTION, by_keys, "election-keys")


def press_until(player: Player, key: str, code: str, wanted: str) -> None:
    """Presses a key until an expression has a value."""
    for _ in range(MOST_PRESSES):
        if player.browser.value(code) == wanted:
            return
        player.key(key)
    same(code, player.browser.value(code), wanted)


def on_buttons(player: Player, heads: list[str]) -> None:
    """Plays the election by keys that go to buttons, and Enter; no directive is written."""
    player.comes("document.activeElement.id", "live-count")
    player.key("Enter")
    player.at(1, 1)
    for count, head in enumerate(heads[1:], 2):
        name, _, rest = head.partition(" ")
        if name == "stabilize":
            player.key("s")
        elif name == "deliver-msgs":
            press_until(player, "d", "document.activeElement.title", head)
            player.key("Enter")
        else:
            press_until(player, "c", "document.activeElement.closest('[data-node]')?.dataset.node", rest)
            press_until(player, "Tab", "document.activeElement.dataset.key", head)
            player.key("Enter")
        player.at(count, count)


def election_by_keys_on_buttons(browser: Browser) -> None:
    play(browser, ELECTION, on_buttons, "election-buttons")


def figure_by_mouse(browser: Browser) -> None:
    play(browser, FIGURE, by_mouse, "figure-mouse")


def repair_by_mouse(browser: Browser) -> None:
    play(browser, REPAIR, by_mouse, "repair-mouse")


def figure_and_repair_by_keys(browser: Browser) -> None:
    play(browser, REPAIR, by_keys, "repair-keys")


def what_can_t_be_done_says_why(browser: Browser) -> None:
    """Before it is clicked, and after."""
    def does(player: Player, server: Running, path: pathlib.Path) -> None:
        button = "document.querySelector('[data-key=\"process-ready 2\"]')"
        player.comes(f"{button}.getAttribute('aria-disabled')", "true")
        same("why", player.browser.value(f"{button}.title"), "has nothing ready")
        player.click('[data-key="process-ready 2"]')
        player.comes("document.querySelector('.live-alert')?.textContent", "! That can't be done: process-ready 2: has nothing ready. ")
        same("how many directives there are", player.text("#where").split(",")[0], "step 2 of 2")
        player.seen("why")
    on_script(browser, START + CAMPAIGN, does)


def the_key_leaves_the_address(browser: Browser) -> None:
    """It is also nowhere in the page; and a page that is loaded again needs none."""
    def does(player: Player, server: Running, path: pathlib.Path) -> None:
        same("whether the key is in the address", server.key in str(player.browser.value("location.href")), False)
        same("whether it is in the page", server.key in str(player.browser.value("document.documentElement.outerHTML")), False)
        player.browser.load(f"http://{server.host}/")
        player.comes("document.getElementById('panes').hidden", False)
    on_script(browser, START + CAMPAIGN, does)


def words_are_offered(browser: Browser) -> None:
    """The completion of the language server, and its hints."""
    def does(player: Player, server: Running, path: pathlib.Path) -> None:
        player.browser.value("document.getElementById('directives').focus()")
        player.key("i")
        player.comes("document.activeElement.id", "live-write")
        player.write("raft-s")
        player.comes("document.querySelector('.live-writing .live-offers b')?.textContent", "raft-state")
        player.seen("offers")
        player.key("ArrowDown")
        player.key("Tab")
        player.comes("document.getElementById('live-write').value", "raft-state")
        player.key("Enter")
        player.at(3, 3)
        player.write("campain 1")
        player.key("Enter")
        player.comes("document.querySelector('.live-alert')?.textContent.includes('did you mean \"campaign\"?')")
        player.seen("asks")
    on_script(browser, START + CAMPAIGN, does)


def other_programs_and_windows_are_seen(browser: Browser) -> None:
    """Also that the server was killed: then the script can be copied from the page."""
    def does(player: Player, server: Running, path: pathlib.Path) -> None:
        put(path, START)
        player.comes("document.getElementById('where').textContent.startsWith('step 1 of 1,')")
        server.enter().do("insert", place=1, text="campaign 3")
        player.comes("document.getElementById('counts').textContent", "2 directives, 0 mismatches, 3 nodes")
        put(path, START + CAMPAIGN)
        player.comes("document.querySelector('.live-alert')?.textContent.startsWith('! The file was changed by somebody else.')")
        player.seen("theirs")
        server.process.kill()
        player.comes("document.querySelector('.live-copy')?.value.includes('campaign 3')")
        player.browser.faults = [it for it in player.browser.faults if "ERR_" not in it]
    on_script(browser, START + CAMPAIGN, does)


def presses_count_and_the_focus_stays(browser: Browser) -> None:
    """Also where the page is drawn again between press and release, or while what a button did is drawn in motion."""
    def does(player: Player, server: Running, path: pathlib.Path) -> None:
        x, y = player.box('[data-key="tick-heartbeat 2"]')
        for kind in ("mouseMoved", "mousePressed"):
            player.browser.call("Input.dispatchMouseEvent", type=kind, x=x, y=y, button="none" if kind == "mouseMoved" else "left", clickCount=int(kind == "mousePressed"))
        player.key("k")
        player.at(1, 2)
        player.browser.call("Input.dispatchMouseEvent", type="mouseReleased", x=x, y=y, button="left", clickCount=1)
        player.at(2, 3)
        same("the head", player.text("#script .chosen .head").strip(), "tick-heartbeat 2")
        player.key("j")
        player.at(3, 3)
        press_until(player, "c", "document.activeElement.closest('[data-node]')?.dataset.node", "1")
        press_until(player, "Tab", "document.activeElement.dataset.key", "process-ready 1")
        player.browser.value("""(() => {
          window.wheres = [];
          const where = document.getElementById('where');
          new MutationObserver(() => window.wheres.push(where.textContent)).observe(where, { childList: true, characterData: true, subtree: true });
        })()""")
        player.key("Enter")
        player.at(4, 4)
        # Its events in motion, and then all of it.
        player.comes("window.wheres.some((it) => it.includes(', event ')) && !window.wheres.at(-1).includes(', event ')")
        same("the focus", player.browser.value("document.activeElement.dataset.key"), "process-ready 1")
        same("whether what happened is folded still", player.browser.value("document.querySelector('#state details').open"), False)
    on_script(browser, START + CAMPAIGN, does)


def filters_stay(browser: Browser) -> None:
    """Also where what they keep comes so late in a script that it isn't read at once."""
    def does(player: Player, server: Running, path: pathlib.Path) -> None:
        count = int(player.text("#counts").split()[0])
        for name, value in (("node", "2"), ("type", "MsgVote")):
            player.browser.value(f"(() => {{ const it = document.getElementById('filter-{name}'); it.value = '{value}'; it.dispatchEvent(new Event('change')); }})()")
        player.browser.value("document.getElementById('directives').focus(), location.hash = '#1', 1")
        player.at(1, count)
        player.directive("raft-state")
        player.at(2, count + 1)
        player.comes("document.getElementById('counts').textContent.split(' ')[0]", str(count + 1))
        same("the filters", player.browser.value("['node', 'type'].map((name) => document.getElementById(`filter-${name}`).value)"), ["2", "MsgVote"])
        # A page with something that isn't saved isn't left without a question.
        player.key("Escape")
        player.key("u")
        player.comes("document.title", "script.txt: raftbench live")
    for between in (0, 300):
        on_script(browser, START + b"log-level info\n----\nok\n\n" * between + CAMPAIGN + b"process-ready 1\n----\n\n", does)


def nothing_of_a_script_acts(browser: Browser) -> None:
    """Texts that would be elements, if they were written as they are."""
    from tests.page.scripts import HOSTILE

    def does(player: Player, server: Running, path: pathlib.Path) -> None:
        same("elements of others", player.browser.value("document.querySelectorAll('img, object, #script script, #live script, svg script').length"), 0)
        # The comment is at the first directive.
        player.browser.value("document.getElementById('directives').focus()")
        player.key("Home")
        player.comes("document.getElementById('script').textContent.includes('<img src=x onerror=alert(3)>')")
        same("elements of others, there", player.browser.value("document.querySelectorAll('img, object, #script script, #live script, svg script').length"), 0)
    on_script(browser, HOSTILE, does)


def own_nodes_stand_in_two_halves(browser: Browser) -> None:
    """Where the user's nodes differ, what both printed is shown."""
    def does(player: Player, server: Running, path: pathlib.Path) -> None:
        player.comes("document.querySelectorAll('.live-theirs-marks button').length > 0")
        player.click(".live-theirs-marks button")
        player.comes("document.querySelectorAll('.live-halves pre').length", 2)
        player.seen("theirs-nodes")
    on_script(browser, (TOP / "examples" / "tour" / "01-election.txt").read_bytes(), does, "--with", f"{TOP}/nodes/plain --bug votes-twice")


TESTS = [
    a_run_that_goes_on_is_as_a_fresh_one, a_run_whose_rows_come_in_parts_is_as_a_fresh_one, a_run_with_skipped_messages_goes_on, a_page_that_went_on_is_as_a_fresh_one, a_long_page_goes_on_in_parts,
    ways_take_what_they_say, each_waiting_message_is_taken_alone, the_program_takes_it_alone,
    election_by_mouse, election_by_keys, election_by_keys_on_buttons, figure_by_mouse, repair_by_mouse, figure_and_repair_by_keys,
    what_can_t_be_done_says_why, the_key_leaves_the_address, words_are_offered, other_programs_and_windows_are_seen,
    presses_count_and_the_focus_stays, filters_stay, nothing_of_a_script_acts, own_nodes_stand_in_two_halves,
    *becoming.TESTS, *cards.TESTS, *arrows.TESTS, *changing.TESTS, *staying.TESTS, *turns.TESTS,
]


def results(word: str) -> Iterator[Result]:
    """The results of all tests, each in a browser of its own."""
    program = found()
    missing = "a browser" if program is None else "" if PROGRAM.exists() else "the program"
    if missing or program is None:
        yield from results_of(TESTS, word, missing)
        return
    # A browser for each: one asks before it leaves a page with something that isn't saved.
    for test in TESTS:
        if word in test.__name__.replace("_", "-"):
            with Browser(program) as browser:
                yield from results_of([test], word, "", browser)
