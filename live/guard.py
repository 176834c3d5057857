"""Decides who may talk to the server: only its own page, in a browser of the user who started it.

The address that is printed ends in `#key=..`. A browser sends no fragment, so the key is in no request line, log or Referer; the page
takes it out of the address at once and exchanges it for a token, which stays in the tab's session storage. Each request after that names
the token in a header that no other origin can set. The address that the browser is started with has a key that counts once, since other
users of the machine may read the arguments of processes.
"""
from __future__ import annotations

import hmac
import secrets
import threading
from email.message import Message

ADDRESS = "127.0.0.1"


class Guard:
    """The keys, the token, and the names that the server answers to."""

    def __init__(self, frames: str = "") -> None:
        self.token, self.key = secrets.token_urlsafe(24), secrets.token_urlsafe(24)
        self.once: set[str] = set()
        self.lock = threading.Lock()
        self.frames = frames
        self.hosts: tuple[str, ...] = ()

    def listen(self, port: int) -> None:
        """Answers to the names of this port."""
        self.hosts = (f"{ADDRESS}:{port}", f"localhost:{port}")

    def key_for_once(self) -> str:
        """Makes a key that opens once."""
        made = secrets.token_urlsafe(24)
        with self.lock:
            self.once.add(made)
        return made

    def enters(self, key: object) -> bool:
        """Whether a key opens. One that counts once doesn't open again."""
        if not isinstance(key, str):
            return False
        with self.lock:
            found = next((it for it in self.once if hmac.compare_digest(it.encode(), key.encode())), None)
            if found:
                self.once.remove(found)
        return found is not None or hmac.compare_digest(key.encode(), self.key.encode())

    def is_ours(self, headers: Message) -> bool:
        """Whether a request names this server as its host, and comes from no page of another origin. A name that somebody had
        lead to 127.0.0.1 is no host of ours."""
        origin = headers.get("Origin")
        is_site_ours = headers.get("Sec-Fetch-Site", "none") in ("none", "same-origin") or self.is_framed(headers)
        return headers.get("Host") in self.hosts and (origin is None or origin in [f"http://{host}" for host in self.hosts]) and is_site_ours

    def is_framed(self, headers: Message) -> bool:
        """Whether an editor asks for the page in a frame, where that is allowed. The page alone says nothing of the script."""
        return bool(self.frames) and headers.get("Sec-Fetch-Mode") == "navigate" and headers.get("Sec-Fetch-Dest") == "iframe"

    def knows(self, headers: Message) -> bool:
        """Whether a request has the token."""
        given = headers.get("Authorization", "").removeprefix("Bearer ")
        return hmac.compare_digest(given.encode("latin-1", "replace"), self.token.encode())

    def policy(self) -> str:
        """Nothing but the server's own files, nothing in a page of others, and no text that becomes code."""
        return ("default-src 'none'; script-src 'self'; style-src 'self'; connect-src 'self'; frame-src 'self'; base-uri 'none'; form-action 'none'; "
                f"frame-ancestors 'self'{' ' + self.frames if self.frames else ''}; require-trusted-types-for 'script'")
