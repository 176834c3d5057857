"""The command: reads the arguments, starts the server, prints its address, and opens a browser."""
from __future__ import annotations

import argparse
import pathlib
import signal
import sys
import threading
import time
import webbrowser
from typing import NoReturn

from . import theirs
from .book import write_book
from .guard import ADDRESS, Guard
from .live import Live
from .program import Missing, Refused, found_program
from .server import Served, Server
from .shell import files_of, found_assets

# An editor that shows pages in a frame of its own, by the scheme of that.
FRAMES = {"vscode": "vscode-webview:"}
LOOKS_EVERY = 0.25


def words_of(words: list[str]) -> argparse.Namespace:
    """Reads the arguments. Ends with status 2 and a sentence if they are wrong."""
    parser = argparse.ArgumentParser(prog="raftbench-live", description="Opens a page in which one plays with the cluster of a script. What one does becomes the script.")
    parser.add_argument("file", metavar="FILE", type=pathlib.Path, nargs="?", help="the script; a new one if it isn't there")
    parser.add_argument("--port", type=int, default=0, metavar="N", help="listens on this port; by default on one that is free")
    parser.add_argument("--no-browser", action="store_true", help="opens no browser")
    parser.add_argument("--with", dest="command", metavar="COMMAND", help="also runs the script on your own nodes (docs/OWN-NODES.md)")
    parser.add_argument("--in-editor", choices=sorted(FRAMES), help="lets this editor show the page in a frame")
    parser.add_argument("--book", metavar="FOLDER", type=pathlib.Path, help="writes a page for each script of a folder, with a contents page, and ends")
    parser.add_argument("--out", metavar="SITE", type=pathlib.Path, help="where --book writes: a folder that is empty or isn't there yet")
    parser.add_argument("--differing", action="store_true", help="with --book: only the scripts that differ")
    given = parser.parse_args(words)
    if (given.book is None) == (given.file is None) or (given.book is None) != (given.out is None):
        parser.error("give FILE, or --book FOLDER --out SITE")
    if not 0 <= given.port <= 65535:
        parser.error("a port is a number from 0 to 65535")
    return given


def watch(live: Live) -> None:
    """Looks a few times a second whether another program changed the file."""
    live.warm()
    while True:
        time.sleep(LOOKS_EVERY)
        live.look()


def stopped(_signal: int, _frame: object) -> NoReturn:
    """Ends the server as an interrupt does."""
    raise KeyboardInterrupt


def listening(served: Served, port: int) -> Server:
    """A server on this port, or on one that is free if it is 0."""
    try:
        return Server(served, port)
    except OSError as fault:
        raise Refused(f"port {port} can't be had: {fault.strerror}") from None


def served_of(given: argparse.Namespace, top: pathlib.Path, beside: pathlib.Path) -> Served:
    """What is served: the script, the page, and perhaps the user's own nodes."""
    live = Live(given.file, found_program(top, beside))
    tool = theirs.found_tool(top, beside) if given.command else []
    runs = (lambda data: theirs.run(tool, given.command, data)) if given.command else None
    return Served(live, files_of(found_assets(top)), Guard(FRAMES.get(given.in_editor, "")), runs)


def serve(served: Served, port: int, opens_browser: bool) -> int:
    """Serves the page of a script until it is interrupted. Gives the status."""
    server = listening(served, port)
    address = f"http://{ADDRESS}:{server.server_address[1]}/#key="
    # Also where a shell in the background has its commands ignore interrupts.
    for signum in (signal.SIGINT, signal.SIGTERM):
        signal.signal(signum, stopped)
    try:
        print(address + served.guard.key, flush=True)
        threading.Thread(target=watch, args=(served.live,), daemon=True).start()
        if opens_browser:
            threading.Thread(target=webbrowser.open, args=(address + served.guard.key_for_once(),), daemon=True).start()
        server.serve_forever()
    except KeyboardInterrupt:
        return 0
    finally:
        server.server_close()
        served.language.close()
        served.live.close()
    return 0


def main(words: list[str], top: pathlib.Path, beside: pathlib.Path) -> int:
    """Runs the command. `top` is the folder that this package is in, `beside` the folder of the command. Gives the status: 0, 2 for wrong
    arguments, 4 if something can't be read, written or found."""
    given = words_of(words)
    try:
        if given.book:
            return write_book(given.book, given.out, found_program(top, beside), given.differing)
        return serve(served_of(given, top, beside), given.port, not given.no_browser)
    except (Missing, Refused, OSError) as fault:
        print(f"raftbench-live: {fault}", file=sys.stderr)
        return 4
