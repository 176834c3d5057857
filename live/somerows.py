"""A client of `raftbench lsp` that has the script that is shown, and asks for the rows of some directives (`raftbench/rows`, docs/FORMATS.md).

Of a script that it has had another form of, only the lines that aren't as they were are sent. So an edit costs what it changes, and what the program
needs to read the script.
"""
from __future__ import annotations

import json
import pathlib
from typing import Any

from .blocks import joined
from .chunks import Blocks, Shown
from .language import URI, Language
from .program import Refused
from .rows import SomeRows, read_some

NOTICE = b'{"jsonrpc":"2.0","method":'
NOTHING = Shown(Blocks())


class RowServer(Language):
    """A language server whose document is a script that is shown. It is started when it is first asked."""

    def __init__(self, program: pathlib.Path) -> None:
        super().__init__(program)
        self.shown = NOTHING
        self.cells = 0

    def _end(self) -> None:
        super()._end()
        self.shown, self.cells = NOTHING, 0

    # ---- the document

    def _take(self, now: Shown) -> None:
        """Makes a script the document."""
        if self.process is None:
            self._start()
        old = self.shown
        front, back = (now.count, 0) if old is now else old.blocks.ends(now.blocks)
        is_same_tail = old.tail == now.tail
        self.shown = now
        if is_same_tail and front == old.count == now.count:
            return
        self.cells = 0
        # An editor's lines also end at a CR alone, and a script's don't: then a place isn't named by its line.
        is_whole = not old.count or old.has_return_alone or now.has_return_alone
        change = {"text": now.data.decode()} if is_whole else _change(old, now, front, back if is_same_tail else 0)
        self._send("textDocument/didChange", {"textDocument": {"uri": URI, "version": next(self.numbers)}, "contentChanges": [change]})

    def _rows(self, first: int, count: int) -> SomeRows | None:
        """Asks for the rows of directives of the document, after the first ones. None if there are none: its run was stopped, or it isn't a script."""
        number = next(self.numbers)
        self._send("raftbench/rows", {"textDocument": {"uri": URI}, "from": first, "count": count}, number)
        front = b'{"id":%d,"jsonrpc":"2.0","result":' % number
        while not (body := self._body()).startswith(front):
            if not body.startswith(NOTICE) and json.loads(body).get("id") == number:
                return None
        found = read_some(body[len(front):].removesuffix(b"}"), first)
        self.cells = found.cells if found else 0
        return found

    # ---- the rows

    def cells_of(self, shown: Shown) -> int:
        """How many cells comparing leaves of a script, or 0 if that isn't known."""
        with self.lock:
            return self.cells if self.shown is shown else 0

    def is_read_as(self, shown: Shown, read: Shown) -> None:
        """Takes over how the program cuts a script into blocks, if that is the document."""
        with self.lock:
            self.shown = read if self.shown is shown else self.shown

    def rows(self, now: Shown, first: int, count: int) -> SomeRows | None:
        """The rows of so many directives of a script, after the first ones. None if the program has none for it; a script that isn't UTF-8 can't be sent."""
        with self.lock:
            try:
                self._take(now)
                return self._rows(first, count)
            except (OSError, ValueError, Refused):
                self._end()
                return None


def _change(old: Shown, now: Shown, front: int, back: int) -> dict[str, Any]:
    """Replaces the lines of an old script after the first blocks, and before the last ones or up to the end."""
    first, last = old.blocks.lines_before(front), old.blocks.lines_before(old.count - back) + (0 if back else len(old.tail))
    own = joined(now.blocks.between(front, now.count - back), () if back else now.tail)
    return {"range": {"start": {"line": first, "character": 0}, "end": {"line": last, "character": 0}}, "text": own.decode()}
