"""What is drawn again in the live page (live/page/become.js): elements that become others are as those that are made, and what stays is the same element."""
from __future__ import annotations

import contextlib
import pathlib
import random
from collections.abc import Iterator

from tests.live.going_on import PANES
from tests.live.player import Player
from tests.live.playing import on_script
from tests.live.running import CAMPAIGN, START, Running
from tests.live.test_somerows import TEXTS
from tests.page.browser import Browser
from tests.page.scripts import TOUR, same

# Random trees, one after another in the place of the one before. Gives what is wrong with them: another text than that of a tree that is made; a button
# that isn't the one with its key that was there; or one whose key is another than the one that it was made with.
BECOMES = """(async (rounds) => {
  const { become } = await import("/become.js");
  let seed = 1;
  const dice = (most) => (seed = (seed * 48271) % 2147483647) % most;
  const names = ["div", "span", "details", "button"];
  const made = (depth) => {
    const name = names[dice(4)];
    const element = document.createElement(name);
    for (const attribute of ["class", "title", "data-place"]) {
      if (dice(3) === 0) {
        element.setAttribute(attribute, String(dice(3)));
      }
    }
    if (dice(4) === 0) {
      element.style.top = `${dice(3)}px`;
    }
    if (name === "button") {
      element.dataset.key = String(dice(6));
      element.made = element.dataset.key;
    }
    element.append(...children(depth - 1));
    return element;
  };
  const children = (depth) => Array.from({ length: depth > 0 ? dice(5) : 0 }, () => (dice(4) === 0 ? `text ${dice(3)}` : made(depth)));
  const copies = (nodes) => nodes.map((node) => (typeof node === "string" ? node : node.cloneNode(true)));
  const wrong = [];
  const parent = document.createElement("div");
  for (let round = 0; round < rounds; round += 1) {
    const next = dice(5) === 0 ? [...parent.childNodes].filter(() => dice(3) > 0).map((node) => node.cloneNode(true)) : children(4);
    next.forEach((node) => node.querySelectorAll?.("button").forEach((button) => (button.made = button.dataset.key)));
    next.filter((node) => node.nodeName === "BUTTON").forEach((button) => (button.made = button.dataset.key));
    const wanted = document.createElement("div");
    wanted.append(...copies(next));
    const before = [...parent.children].filter((node) => node.nodeName === "BUTTON");
    become(parent, next);
    if (!parent.isEqualNode(wanted)) {
      wrong.push([parent.innerHTML, wanted.innerHTML]);
    }
    if (before.length === 1 && parent.querySelectorAll(":scope > button").length === 1 && before[0].dataset.key === parent.querySelector(":scope > button").dataset.key && before[0].parentNode !== parent) {
      wrong.push(["a button is another one", parent.innerHTML]);
    }
    wrong.push(...[...parent.querySelectorAll("button")].filter((button) => button.made !== button.dataset.key).map((button) => [button.outerHTML]));
    if (wrong.length > 0) {
      break;
    }
  }
  return wrong;
})"""


def elements_become_what_is_made(browser: Browser) -> None:
    def does(player: Player, server: Running, path: pathlib.Path) -> None:
        same("what is wrong", player.browser.value(f"{BECOMES}(3000)"), [])
    on_script(browser, START + CAMPAIGN, does)


EDITS_EACH = 25
# What the page shows of its position, and nothing that is asked for later.
PLACE = "document.getElementById('where').textContent"


def random_edit(server: Running, dice: random.Random) -> str:
    """Does something to the script, as another window does, and says what. What is refused changes nothing."""
    count = server.state["of"]
    kind = dice.choice(["insert", "insert", "insert", "replace", "remove", "duplicate", "move", "accept", "undo", "undo", "redo"])
    place = dice.randint(0 if kind == "insert" else 1, count)
    asked = {"place": place, "text": dice.choice(TEXTS), "by": dice.choice([1, -1]), "isSure": True, "all": kind == "accept" and dice.random() < 0.3}
    server.do(kind, **asked)
    server.look()
    return f"{kind} {asked}"


def panes(player: Player, place: int, count: int) -> str:
    """What is drawn at a directive, with the panes at their tops."""
    player.browser.value(f"location.hash = '#{place}', 1")
    player.at(place, count)
    player.comes("document.getElementById('counts').textContent.split(' ')[0]", str(count))
    player.browser.settle()
    player.browser.value("for (const id of ['scroll', 'script']) document.getElementById(id).scrollTop = 0, 1")
    player.browser.settle()
    return str(player.browser.value(PANES))


@contextlib.contextmanager
def another_window(browser: Browser) -> Iterator[None]:
    """Has the browser be asked in a new window, which is closed then."""
    own, faults = browser.session, browser.faults
    browser.session = None
    target = browser.call("Target.createTarget", url="about:blank", newWindow=True)["targetId"]
    browser.session = browser.call("Target.attachToTarget", targetId=target, flatten=True)["sessionId"]
    try:
        for domain in ("Page", "Runtime"):
            browser.call(f"{domain}.enable")
        browser.size(1500, 900)
        yield
    finally:
        browser.session = None
        browser.call("Target.closeTarget", targetId=target)
        browser.session, browser.faults = own, faults


def pages_after_random_edits_are_as_fresh_ones(browser: Browser) -> None:
    """Next to each edited page another one is loaded anew, which shows the same."""
    def does(player: Player, server: Running, path: pathlib.Path) -> None:
        dice = random.Random(path.stat().st_size)
        server.enter()
        for edit in range(EDITS_EACH):
            what = random_edit(server, dice)
            count = server.state["of"]
            place = dice.randint(1, count)
            player.comes(f"{PLACE}.includes(' of {count},')")
            own = panes(player, place, count)
            with another_window(browser):
                fresh = Player(browser, server.address)
                fresh.comes("document.getElementById('panes').hidden", False)
                same(f"whether edit {edit}, {what}, shows the same at {place}", own == panes(fresh, place, count), True)
    for script in (TOUR[0], TOUR[5]):
        on_script(browser, script.read_bytes(), does)


TESTS = [elements_become_what_is_made, pages_after_random_edits_are_as_fresh_ones]
