"""The script that is played with: all its branches, and its file. Requests change it one at a time."""
from __future__ import annotations

import contextlib
import json
import pathlib
import queue
import threading
from typing import Any

from .branch import Branch
from .chunks import Blocks
from .edits import EDITS, Asked
from .losing import losses
from .may import Offers
from .program import Program, Refused
from .rows import ending
from .scriptfile import ScriptFile, Theirs
from .somerows import RowServer

MOST_BRANCHES = 20
# The rows of so many directives are sent at a time to a page that reads on.
AT_A_TIME = 500
OTHER = "the file has another text, which isn't shown here"
UNPROVED = "the program isn't proved, so it doesn't write into scripts: RAFTBENCH_UNPROVED=1 in the environment allows it"


class Stale(Refused):
    """What was asked for is about a script that has changed since."""


class Live:
    """Branches of a script, the file that one of them (`home`) follows, and those who want to know when something changes."""

    def __init__(self, path: pathlib.Path, program: Program) -> None:
        self.program, self.names = program, program.names()
        self.lock = threading.RLock()
        self.watchers: list[queue.Queue[str]] = []
        self.version, self.last = 0, 1
        self.fault = ""
        self.theirs: bytes | None = None
        self.file = ScriptFile(path)
        self.offers = Offers(program, self.names)
        self.server = RowServer(program.path)
        data = self.file.known or b""
        try:
            first = Branch(1, program, self.server, data)
        except Refused as refused:
            # What can't be shown is as another's: it isn't written over without a question.
            self.fault, self.theirs, self.file.known = f"the script can't be read: {refused}", data, None
            first = Branch(1, program, self.server, b"")
        self.branches = {1: first}
        self.home = 1
        first.keep(0)

    def warm(self) -> None:
        """Loads the script into the session and the language server that the first edit needs."""
        with self.lock:
            branch = self.branches[self.home]
            branch.begin()
            branch.give_up()
        if branch.count:
            self.server.rows(branch.shown, 0, 0)

    def close(self) -> None:
        """Ends all sessions, and the language server."""
        with self.lock:
            for branch in self.branches.values():
                branch.close()
            self.offers.close()
            self.server.close()

    def branch(self, asked: Asked) -> Branch:
        """The branch that is asked about. Raises Stale if it has been closed."""
        number = asked.get("branch", self.home)
        if not isinstance(number, int) or number not in self.branches:
            raise Stale("this branch has been closed")
        return self.branches[number]

    def branch_or_home(self, asked: Asked) -> Branch:
        """The branch that is asked about, or the one that the file follows if it has been closed."""
        with contextlib.suppress(Stale):
            return self.branch(asked)
        return self.branches[self.home]

    # ---- what one does

    def do(self, asked: Asked) -> Branch:
        """Does what is asked for, and gives the branch that is shown then."""
        with self.lock:
            if asked.get("version") != self.version:
                raise Stale("the script has changed meanwhile, so nothing was done: look again")
            branch, kind = self.branch(asked), str(asked.get("do"))
            branch.notes, branch.ran = [], 0
            if kind not in ("undo", "redo"):
                branch.choose(asked.get("at"))
            if kind in EDITS or kind in ("undo", "redo"):
                self.edit(branch, kind, asked)
            elif kind in OTHERS:
                branch = OTHERS[kind](self, branch, asked)
            else:
                raise Refused("that isn't something that can be done here")
            self.renew()
        self.tell()
        return branch

    def edit(self, branch: Branch, kind: str, asked: Asked) -> None:
        """Edits a script. One that refuses the edit stays as it is."""
        try:
            if kind in EDITS:
                EDITS[kind](branch, asked)
            else:
                branch.go(kind == "undo")
        finally:
            branch.give_up()

    def renew(self) -> None:
        """Begins another version."""
        self.version += 1
        for branch in self.branches.values():
            branch.keep(self.version)

    def save(self, branch: Branch, asked: Asked) -> Branch:
        """Writes the file. It is followed by this branch from then on."""
        if not self.program.may_save:
            raise Refused(UNPROVED)
        if self.fault and self.theirs is not None and not asked.get("isSure"):
            raise Theirs(OTHER)
        try:
            self.file.save(branch.data, bool(asked.get("isSure")))
        except Theirs:
            self.see_disk()
            raise
        self.home, self.theirs, self.fault = branch.number, None, ""
        return branch

    def load(self, branch: Branch, _: Asked) -> Branch:
        """Takes what somebody else wrote into the file; undo brings the own text back."""
        data = self.file.read()
        branch.change_text(data or b"", branch.chosen)
        self.file.known, self.theirs, self.fault, self.home = data, None, "", branch.number
        return branch

    def fork(self, branch: Branch, asked: Asked) -> Branch:
        """What if? Another branch goes on after a directive, and this one stays."""
        if len(self.branches) >= MOST_BRANCHES:
            raise Refused(f"there are {MOST_BRANCHES} branches: close one first")
        place = asked.get("place", branch.chosen)
        if not isinstance(place, int) or not 0 <= place <= branch.count:
            raise Refused("there is no such directive")
        self.last += 1
        made = Branch(self.last, self.program, self.server, branch.shown.first(place).data)
        self.branches[self.last] = made
        return made

    def drop(self, branch: Branch, asked: Asked) -> Branch:
        """Closes a branch. The one that the file follows stays."""
        if branch.number == self.home:
            raise Refused("the file follows this branch: save another one first")
        if branch.data != self.file.known and not asked.get("isSure"):
            raise Refused("this branch isn't saved")
        branch.close()
        del self.branches[branch.number]
        return self.branches[self.home]

    # ---- the file

    def look(self) -> None:
        """Takes over what another program wrote, if it wrote something. What is being saved here is no change of another's."""
        with self.lock:
            if self.file.has_changed():
                self.see_disk()

    def see_disk(self) -> None:
        """Takes over what another program wrote into the file, unless there is something of one's own that isn't saved."""
        with self.lock:
            home = self.branches[self.home]
            was_saved = home.data == (self.file.known or b"") or not home.past and not home.future
            self.fault, data = "", self.theirs
            try:
                data = self.file.read()
                if data == self.file.known or data == home.data:
                    self.file.known, self.theirs = data, None
                elif data is None:
                    self.fault, self.file.known, self.theirs = "the file is gone; saving makes it again", None, None
                elif was_saved:
                    home.ran = 0
                    home.change_text(data, home.chosen)
                    self.file.known, self.theirs = data, None
                else:
                    self.theirs = data
            except Refused as refused:
                self.fault, self.theirs = f"the file as it is now can't be shown: {refused}", data
            self.renew()
        self.tell()

    def tell(self) -> None:
        """Tells all who wait that there is another version."""
        for watcher in list(self.watchers):
            with contextlib.suppress(queue.Full):
                watcher.put_nowait(f"version {self.version}")

    # ---- what is shown

    def about(self, branch: Branch) -> dict[str, Any]:
        """What is said of a script beside its rows."""
        return {
            "version": self.version, "branch": branch.number, "home": self.home, "chosen": branch.chosen, "name": self.file.path.name,
            "branches": [{"number": it.number, "directives": it.count, "isSaved": self.is_saved(it)} for it in self.branches.values()],
            "undo": len(branch.past), "redo": len(branch.future), "isSaved": self.is_saved(branch), "isTheirs": self.theirs is not None,
            "fault": self.fault, "notes": branch.notes, "ran": branch.ran, "of": branch.count, "maySave": self.program.may_save,
            "directives": self.names,
        }

    def is_saved(self, branch: Branch) -> bool:
        """Whether the file has what a branch has."""
        return branch.data == (self.file.known or b"") and self.file.known is not None

    def state(self, branch: Branch, has: object) -> bytes:
        """What a page is made of: what is said of the script, and its rows; or of them only what has changed since the version that a page has."""
        with self.lock:
            return json.dumps(self.about(branch)).encode()[:-1] + branch.told(has) + b"}"

    def rows(self, asked: Asked) -> bytes:
        """The rows of some directives, for a page that has those before them."""
        with self.lock:
            branch, first = self.branch(asked), asked.get("from")
            if asked.get("version") != self.version:
                raise Stale("the script has changed meanwhile")
            if not isinstance(first, int) or not 0 <= first <= branch.count:
                raise Refused("there is no such directive")
            some = branch.some(first, AT_A_TIME)
            said = json.dumps({"version": self.version, "from": first}).encode()[:-1]
            return said + b',"rows":[' + some.between(some.first, some.last) + b"]" + ending(some, branch.shown) + b"}"

    def up_to(self, asked: Asked) -> tuple[Blocks, dict[str, Any]]:
        """The directives up to the one that is asked about; and which that is, of which version."""
        with self.lock:
            branch, place = self.branch(asked), asked.get("place")
            if not isinstance(place, int) or not 0 < place <= branch.count:
                raise Refused("there is no such directive")
            return branch.shown.blocks[:place], {"version": self.version, "place": place}

    def may(self, asked: Asked) -> bytes:
        """What each node may do after a directive, and why not."""
        blocks, about = self.up_to(asked)
        return json.dumps({**about, "nodes": self.offers.after(blocks)}).encode()

    def losses(self, asked: Asked) -> bytes:
        """What each node would lose if it restarted after a directive."""
        blocks, about = self.up_to(asked)
        ids = self.offers.after(blocks).keys() if "restart" in self.names else ()
        return json.dumps({**about, "nodes": losses(self.program, blocks, ids) if ids else {}}).encode()


OTHERS = {"save": Live.save, "load": Live.load, "fork": Live.fork, "close": Live.drop}
