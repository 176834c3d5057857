"""A player on a script, for the tests of the page."""
from __future__ import annotations

import pathlib
import tempfile
from collections.abc import Callable

from tests.live.player import Player
from tests.live.running import Running
from tests.page.browser import Browser


def on_script(browser: Browser, data: bytes, does: Callable[[Player, Running, pathlib.Path], None], *words: str) -> None:
    """Plays on a script, and looks that the console stayed empty."""
    with tempfile.TemporaryDirectory() as room:
        path = pathlib.Path(room, "script.txt")
        path.write_bytes(data)
        with Running(path, *words) as server:
            player = Player(browser, server.address)
            player.comes("document.getElementById('panes').hidden", False)
            does(player, server, path)
            player.quiet()
