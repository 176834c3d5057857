"""Makes the pictures of a played election, play.png, and play-film.png, which moves: tests/live/film.py docs/pictures."""
from __future__ import annotations

import pathlib
import sys
import tempfile

sys.path[:1] = [str(pathlib.Path(__file__).resolve().parents[2])]

from tests.live.moving import moving  # noqa: E402
from tests.live.player import Player  # noqa: E402
from tests.live.running import Running  # noqa: E402
from tests.page.browser import Browser, found  # noqa: E402

WIDTH, HEIGHT = 1020, 600
# What is clicked, one after the other.
CLICKS = [
    ".live-begin button", '[data-key="campaign 1"]', '[data-key="process-ready 1"]', '.live-message button[title="deliver-msgs 2 type=MsgVote"]',
    '[data-key="process-ready 2"]', '.live-message button[title="deliver-msgs 1 type=MsgVoteResp"]', '[data-key="stabilize"]',
]


def film(room: pathlib.Path, browser: Browser) -> list[bytes]:
    """A picture after each click, as PNG."""
    pictures = []
    with Running(room / "election.txt") as server:
        browser.size(WIDTH, HEIGHT)
        player = Player(browser, server.address)
        browser.call("Emulation.setEmulatedMedia", features=[{"name": "prefers-reduced-motion", "value": "reduce"}])
        for count, selector in enumerate(CLICKS, 1):
            player.click(selector)
            player.at(count, count)
            player.known()
            browser.settle()
            browser.picture(room / "now.png")
            pictures.append((room / "now.png").read_bytes())
    return pictures


def main() -> None:
    folder, program = pathlib.Path(sys.argv[1]), found()
    assert program, "there is no browser"
    with tempfile.TemporaryDirectory() as room, Browser(program) as browser:
        pictures = film(pathlib.Path(room), browser)
    (folder / "play.png").write_bytes(pictures[3])
    (folder / "play-film.png").write_bytes(moving(pictures, [150] * (len(pictures) - 1) + [400]))


if __name__ == "__main__":
    main()
