"""A branch: a script with its past and its future. Undo and redo have no limit."""
from __future__ import annotations

import dataclasses
import json
from collections.abc import Sequence

from .blocks import cut
from .chunks import Blocks, Shown, recut
from .program import Program, Refused
from .rows import PageRows, SomeRows, stretch
from .scriptfile import MOST_BYTES
from .session import Session
from .somerows import RowServer

NOT_ONE = "that isn't one directive"
TOO_LONG = "the script would be longer than 4,194,304 bytes"
# Of so many versions it is kept what was shown, so that a page that has one of them gets only what has changed since.
MOST_KEPT = 8
# The rows of so many directives are sent at once after an edit; the page asks for what follows them.
AT_ONCE = 200
# As long as so many cells are left at the end of a script, the rows of a directive don't depend on the mismatches before it (docs/FORMATS.md).
MOST_CELLS = 4_000_000
# More rows than these may have no room in a page.
MOST_ROWS = 59_000_000


@dataclasses.dataclass(frozen=True)
class Moment:
    """What a script was, and which directive was chosen."""

    shown: Shown
    chosen: int


@dataclasses.dataclass(frozen=True)
class Kept:
    """What was shown from a version on. The rows of the first directives, `front`, and of the last ones, `back`, were those of the version before."""

    version: int
    shown: Shown
    front: int = 0
    back: int = 0


class Branch:
    """A script that is played with. `ran` says how many directives the last change ran."""

    def __init__(self, number: int, program: Program, server: RowServer, data: bytes) -> None:
        self.number, self.program, self.server = number, program, server
        self.chosen = 0
        self.shown = Shown(Blocks())
        self.joined = (self.shown, b"")
        # All rows, where the program had to write them; and those that were asked for last.
        self.page: PageRows | None = None
        self.latest: SomeRows | None = None
        self.front = self.back = self.size = 0
        self.past: list[Moment] = []
        self.future: list[Moment] = []
        self.notes: list[str] = []
        self.ran = 0
        # How many directives the session has run since an edit began; None if none has begun.
        self.ahead: int | None = None
        self.session: Session | None = None
        self.kept: list[Kept] = []
        self.take_text(data)
        self.chosen = self.ran = self.count

    def close(self) -> None:
        """Ends its session."""
        if self.session:
            self.session.close()
            self.session = None

    @property
    def data(self) -> bytes:
        """The script."""
        if self.joined[0] is not self.shown:
            self.joined = (self.shown, self.shown.data)
        return self.joined[1]

    @property
    def count(self) -> int:
        """How many directives it has."""
        return self.shown.count

    # ---- what it becomes

    def choose(self, place: object) -> None:
        """Takes over which directive the page has chosen: undo comes back to it."""
        if isinstance(place, int) and 0 <= place <= self.count:
            self.chosen = place

    def written(self, data: bytes) -> PageRows:
        """All rows of a text. Raises Refused with what is wrong with it."""
        if len(data) > MOST_BYTES:
            raise Refused(TOO_LONG)
        return self.program.rows(data) if data else PageRows()

    def show(self, now: Shown) -> None:
        """Takes blocks as the script. Raises Refused, and keeps the old one, if the program doesn't find as many directives in them."""
        ran = self.follow(now.blocks)
        if not self.count or not now.count:
            self.take_text(now.data)
        else:
            self.take(now, ran)
        self.end(ran)

    def end(self, ran: int | None) -> None:
        """Ends an edit for which so many directives ran, or all of them if that isn't known."""
        self.ran += self.count if ran is None else ran
        self.ahead = None

    def take_text(self, data: bytes) -> None:
        """Takes a text as the script. Raises Refused, and keeps the old one, if the program refuses it."""
        page = self.written(data)
        found, tail = cut(data, page.heads())
        now = Shown(Blocks(found), tuple(tail))
        if now.data != data:
            raise Refused("the script can't be cut into its directives")
        old = self.shown.blocks
        front, back = old.ends(now.blocks)
        self.shown = Shown(old.with_these(front, len(old) - back, found[front:len(found) - back]), now.tail)
        self.page, self.latest, self.size = page, None, len(page.raw)
        self.front, self.back = min(front, self.front), 0

    def take(self, now: Shown, ran: int | None) -> None:
        """Takes blocks as the script, with the rows that may have changed, where a session has run so many directives."""
        if now.size > MOST_BYTES:
            raise Refused(TOO_LONG)
        old = self.shown
        front, back = old.blocks.ends(now.blocks)
        back = back if old.tail == now.tail else 0
        # One more at each end: an expectation without an end goes on into the next directive; and if the head after those that may have changed is
        # where it was, what follows it is read as it was.
        first, end = max(0, front - 1), now.count if ran is None else min(now.count, now.count - back + ran + 1)
        # Of many, the first rows are asked of a script that ends with them: what comes after isn't waited for, as they don't depend on it.
        count = front + AT_ONCE if ran is not None and end - front > AT_ONCE > now.count - back - first else now.count
        cells = self.server.cells_of(old)
        some, page = self.server.rows(now.first(count), first, min(end, count) - first), None
        left = now.count - end if some and count == now.count and min(cells, some.cells) >= MOST_CELLS else 0
        # All rows are counted as new ones, so that there are no more than a page has room for.
        size = self.size + (len(some.rows) * (end - first) // max(1, len(some.heads)) if some else MOST_ROWS)
        if some is None or size > MOST_ROWS:
            page, count = self.written(now.data), now.count
            some, size = page.some(first, end - first), len(page.raw)
        read = recut(now, first, back, some.heads)
        if read is None or (read.count, some.count) != (now.count, count):
            raise Refused(NOT_ONE)
        self.server.is_read_as(now, read)
        self.shown, self.page, self.latest, self.size = read, page, some, size
        # The directive before them may have become another one too, as where its expectation goes on.
        self.front, self.back = min(old.blocks.ends(read.blocks)[0], self.front), min(left, self.back)

    def change(self, blocks: Blocks, chosen: int, tail: Sequence[bytes] | None = None) -> None:
        """Makes these blocks the script, which can be undone."""
        before = self.moment()
        self.begin()
        self.show(Shown(blocks, self.shown.tail if tail is None else tuple(tail)))
        self.changed(before, chosen)

    def change_text(self, data: bytes, chosen: int) -> None:
        """Makes a text the script, which can be undone."""
        before = self.moment()
        if data != self.data:
            self.begin()
            self.take_text(data)
            self.end(self.follow(self.shown.blocks))
        self.changed(before, chosen)

    def changed(self, before: Moment, chosen: int) -> None:
        """Remembers what was before a change."""
        if not self.shown.has_same_text(before.shown):
            self.past.append(before)
            self.future.clear()
        self.chosen = min(chosen, self.count)

    def moment(self) -> Moment:
        """What it is now."""
        return Moment(self.shown, self.chosen)

    def go(self, back: bool) -> None:
        """Undoes the last change, or does it again."""
        one, other = (self.past, self.future) if back else (self.future, self.past)
        if not one:
            raise Refused("there is nothing to undo" if back else "there is nothing to redo")
        moment, now = one[-1], self.moment()
        self.begin()
        self.show(moment.shown)
        one.pop()
        other.append(now)
        self.chosen = moment.chosen

    # ---- the session, which says what a change runs

    def begin(self) -> None:
        """Begins an edit: a session has the script that is shown. What it can't load is run whole."""
        if self.ahead is None:
            self.ahead = 0
            try:
                if self.session is None:
                    self.session = Session(self.program.path, self.shown.blocks)
                self.session.become(self.shown.blocks)
            except (Refused, OSError):
                self.close()

    def give_up(self) -> None:
        """Ends an edit that was refused."""
        self.ahead = None

    def follow(self, blocks: Blocks) -> int | None:
        """Has the session take blocks. Gives how many directives it has run since the edit began, or None if it can't take them."""
        if self.session is None or self.ahead is None:
            return None
        try:
            self.ahead += self.session.become(blocks)
        except Refused:
            return None
        except OSError:
            self.close()
            return None
        return self.ahead

    def output(self, blocks: Blocks, place: int) -> list[bytes]:
        """What a directive prints in other blocks. Raises Refused if one of them isn't one directive."""
        self.begin()
        if self.session and self.ahead is not None:
            self.ahead += self.session.become(blocks)
            return self.session.output(place)
        page = self.written(blocks.text)
        if page.count != len(blocks):
            raise Refused(NOT_ONE)
        return [str(row[1]).encode("latin-1") for row in page.some(place - 1, 1).of(place) if row[0] == "output"]

    # ---- what a page gets of it

    def some(self, first: int, count: int) -> SomeRows:
        """The rows of so many directives, after the first ones."""
        found = None if self.page else self.server.rows(self.shown, first, count)
        return found or self.whole().some(first, count)

    def whole(self) -> PageRows:
        """All its rows."""
        self.page = self.page or self.written(self.data)
        return self.page

    def keep(self, version: int) -> None:
        """Remembers that this is what is shown from a version on."""
        if not self.kept or self.kept[-1].shown is not self.shown:
            self.kept = [*self.kept, Kept(version, self.shown, self.front, self.back)][-MOST_KEPT:]
        self.front = self.back = self.count

    def told(self, has: object) -> bytes:
        """What a page that has a version of it needs to show it, as members of an object of JSON: what has changed since, or all rows."""
        changes = [it for it in self.kept if not isinstance(has, int) or it.version > has]
        old = self.kept[-1 - len(changes)].shown if len(changes) < len(self.kept) else None
        if old is None or not old.count or not all(it.shown.count for it in changes):
            return b',"rows":' + self.whole().raw
        since = b',"since":' + json.dumps(has).encode()
        return since + b',"stretch":' + self.changed_since(old, changes) if changes else since

    def changed_since(self, old: Shown, changes: Sequence[Kept]) -> bytes:
        """What isn't as it was, by the versions since then."""
        front, back = min(it.front for it in changes), min(it.back for it in changes)
        end, some = min(self.count - back, front + AT_ONCE), self.latest
        if some is None or some.first > front or some.last < end:
            some = self.latest = self.some(front, max(0, end - front))
        return stretch(old, self.shown, some, front, min(back, self.count - some.last))
