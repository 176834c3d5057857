"""A player: a browser on a live page, with a mouse or with keys. Both play with the page as it is; nothing is called in it."""
from __future__ import annotations

import json
import os
import pathlib
import time
from typing import Any

from tests.page.browser import Browser
from tests.page.scripts import same

MOST_SECONDS = 120
MOST_AIMS = 5
SHIFT = 8
# Where what is seen is written to, to look at.
SEEN = pathlib.Path(os.environ["SEEN"]) if "SEEN" in os.environ else None


class Player:
    """A browser on the page of a server."""

    def __init__(self, browser: Browser, address: str) -> None:
        self.browser = browser
        # What the page of a server that has ended still asks for is no fault of this one.
        browser.load("about:blank")
        browser.faults = []
        browser.load(address)

    def comes(self, code: str, wanted: object = True) -> None:
        """Waits until an expression has a value."""
        until = time.monotonic() + MOST_SECONDS
        while (value := self.browser.value(code)) != wanted and time.monotonic() < until:
            self.browser.settle()
        same(code, value, wanted)

    def quiet(self) -> None:
        """Nothing may stand in the console but what the page asks of its own server, and what the server refuses."""
        faults = [it for it in self.browser.faults if not it.startswith(("fetches http://127.0.0.1:", "log: Failed to load resource: the server responded with a status of 409"))]
        same("what the console has", faults, [])

    def seen(self, name: str) -> None:
        """Looks whether all is quiet, and keeps a picture if that is wanted."""
        self.quiet()
        if SEEN:
            self.browser.picture(SEEN / f"{name}.png")

    def box(self, selector: str) -> list[float]:
        """Scrolls an element into view and gives its middle. Waits until it is there, since the page replaces its buttons."""
        code = f"""(() => {{
          const found = document.querySelector({json.dumps(selector)});
          found?.scrollIntoView({{ block: "nearest" }});
          const {{ left, top, width, height }} = found?.getBoundingClientRect() ?? {{}};
          return width ? [left + width / 2, top + height / 2] : null;
        }})()"""
        until = time.monotonic() + MOST_SECONDS
        while (found := self.browser.value(code)) is None and time.monotonic() < until:
            self.browser.settle()
        same(f"whether there is {selector}", found is not None, True)
        return list(found)

    def click(self, selector: str) -> None:
        """Clicks the middle of an element that stands still. Where it has moved before it is pressed all the same, aims again."""
        hit = f"({{ target }}) => (window.hit = target.closest({json.dumps(selector)}) !== null)"
        for _ in range(MOST_AIMS):
            before = None
            while (point := self.box(selector)) != before:
                before = point
                self.browser.settle()
            self.browser.value(f"addEventListener('pointerdown', {hit}, {{ capture: true, once: true }})")
            self.browser.click(*point)
            if self.browser.value("window.hit"):
                return
        same(f"whether {selector} was hit", False, True)

    def click_at(self, selector: str, across: float, down: float) -> None:
        """Clicks inside an element: `across` pixels from its left edge, or from its right edge if negative; `down` is a fraction of its height."""
        x, y = self.box(selector)
        width, height = self.browser.value(f"(() => {{ const {{ width, height }} = document.querySelector({json.dumps(selector)}).getBoundingClientRect(); return [width, height]; }})()")
        left, top = x - width / 2, y - height / 2
        point = {"x": left + (across if across >= 0 else width + across), "y": top + down * height}
        for kind in ("mouseMoved", "mousePressed", "mouseReleased"):
            self.browser.call("Input.dispatchMouseEvent", type=kind, button="none" if kind == "mouseMoved" else "left", clickCount=0 if kind == "mouseMoved" else 1, **point)

    def click_to(self, selector: str, step: int, count: int) -> None:
        """Clicks, and waits until directive `step` of `count` is chosen."""
        self.click(selector)
        self.at(step, count)

    def at(self, step: int, count: int) -> None:
        """Waits until directive `step` of `count` is chosen."""
        self.comes(f"document.getElementById('where').textContent.startsWith('step {step} of {count},')")

    def known(self) -> None:
        """Waits until it is known what each node may do, and what it would lose by a restart."""
        self.comes("document.querySelectorAll('#state [aria-busy=\"true\"]').length", 0)

    def key(self, key: str, **more: Any) -> None:
        """Presses a key, as a keyboard does: Enter and letters also write."""
        codes = {"Enter": 13, "Tab": 9, "Escape": 27, "ArrowDown": 40, "ArrowUp": 38, "End": 35, "Home": 36, "Delete": 46, " ": 32}
        text = "\r" if key == "Enter" else key if len(key) == 1 else ""
        known = {"key": key, "windowsVirtualKeyCode": codes.get(key, ord(key.upper()) if len(key) == 1 and key.isalnum() else 0), **({"text": text} if text else {}), **more}
        self.browser.call("Input.dispatchKeyEvent", type="keyDown", **known)
        self.browser.call("Input.dispatchKeyEvent", type="keyUp", key=key, **{name: it for name, it in more.items() if name == "modifiers"})

    def write(self, text: str) -> None:
        """Writes a text, letter by letter."""
        for letter in text:
            self.key(letter)

    def directive(self, text: str) -> None:
        """Writes a directive after the chosen one, by keys alone."""
        self.key("i")
        self.comes("document.activeElement.id", "live-write")
        self.write(text)
        self.key("Enter")

    def text(self, selector: str) -> str:
        """The text of an element, or nothing if it isn't there."""
        return str(self.browser.value(f"document.querySelector({json.dumps(selector)})?.textContent ?? ''"))
