"""All that a page of `raftbench page` shows and does, the live page shows and does too."""
from __future__ import annotations

import pathlib
import subprocess
import tempfile

from tests.harness import PROGRAM
from tests.live.player import Player
from tests.live.playing import on_script
from tests.live.running import Running
from tests.page.browser import Browser
from tests.page.scripts import mismatched, same

# So that both pages show all of the script, though the live one has a bar above it.
WIDTH, HEIGHT = 1500, 6000
# Keys that go through the run, and the field of the search; after each both pages show the same.
KEYS = ["ArrowDown", "ArrowRight", "ArrowRight", "ArrowLeft", "PageDown", "m", "o", "M", "n", "End", "ArrowLeft", "Home", "j", "l", "PageUp"]
PLACES = ["#1", "#5", "#5.2", "#9.12", "#L20", "#999"]
# What both show, but the heights that the bar takes, and the buttons of playing.
SHOWN = """['heads', 'drawing', 'description', 'directives', 'texts', 'logs', 'state', 'counts', 'where', 'found', 'legend-items', 'said'].map((id) => {
  const copy = document.getElementById(id).cloneNode(true);
  copy.querySelectorAll('.live-does').forEach((it) => it.remove());
  copy.querySelectorAll('.live-message').forEach((it) => {
    it.removeAttribute('class');
    it.textContent = it.firstChild.textContent;
  });
  return [id, copy.innerHTML];
})"""
FILTER = "(() => { const it = document.getElementById('filter-node'); it.value = '2'; it.dispatchEvent(new Event('change')); document.getElementById('directives').focus(); return 1; })()"


def shown(browser: Browser) -> dict[str, str]:
    """What a page shows, by the part of the page."""
    browser.settle()
    browser.settle()
    return dict(browser.value(SHOWN))


def walked(browser: Browser) -> dict[str, dict[str, str]]:
    """What is shown at places of the address, after keys, and with a text that is looked for and a filter."""
    seen = {}
    for place in PLACES:
        browser.value(f"location.hash = '{place}', 1")
        seen[place] = shown(browser)
    browser.value("document.getElementById('directives').focus()")
    for at, key in enumerate(KEYS):
        browser.press(key)
        seen[f"{at} {key}"] = shown(browser)
    browser.press("/")
    browser.call("Input.insertText", text="MsgApp")
    browser.press("Enter")
    seen["found"] = shown(browser)
    browser.value(FILTER)
    seen["filtered"] = shown(browser)
    return seen


def what_a_page_shows_stays(browser: Browser) -> None:
    """Wherever the reader goes, both pages show the same."""
    data, _ = mismatched()
    browser.size(WIDTH, HEIGHT)
    browser.call("Emulation.setEmulatedMedia", features=[{"name": "prefers-reduced-motion", "value": "reduce"}])
    with tempfile.TemporaryDirectory() as room:
        script, page = pathlib.Path(room, "script.txt"), pathlib.Path(room, "page.html")
        script.write_bytes(data)
        page.write_bytes(subprocess.run([PROGRAM, "page", script], stdout=subprocess.PIPE, check=False).stdout)
        browser.open(page)
        wanted = walked(browser)

    def does(player: Player, server: Running, path: pathlib.Path) -> None:
        player.browser.value("location.hash = '#1', 1")
        player.at(1, 20)
        player.known()
        found = walked(player.browser)
        for when, panes in wanted.items():
            same(f"the panes that differ at {when}", [id for id in panes if panes[id] != found[when][id]], [])
    on_script(browser, data, does)


TESTS = [what_a_page_shows_stays]
