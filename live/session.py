"""A client of `raftbench session` (docs/USING.md, "Sessions"): sends edits of a script, and only what they change is run."""
from __future__ import annotations

import contextlib
import os
import pathlib
import re
import subprocess
import tempfile
from collections.abc import Sequence

from .blocks import RULE, Block, bare
from .chunks import Blocks
from .program import Refused

# Of more changes than these the script is loaded anew.
MOST_CHANGES = 400
# So many directives are tried before their answers are read: their commands have room in a pipe.
MOST_TOGETHER = 100
DONE = re.compile(rb"done executed=(\d+) mismatches=(\d+)\n\Z")


class Session:
    """A session that is loaded with some blocks, and can become others. A process ends with `close`."""

    def __init__(self, program: pathlib.Path, blocks: Blocks = Blocks()) -> None:
        self.program = program
        self.blocks = Blocks()
        self.process: subprocess.Popen[bytes] | None = None
        self.load(blocks)

    def close(self) -> None:
        """Ends the process. Whoever still waits for an answer is told that the session has ended."""
        process, self.process = self.process, None
        if process:
            process.kill()
            for pipe in (process.stdin, process.stdout):
                with contextlib.suppress(OSError, ValueError):
                    assert pipe
                    pipe.close()
            process.wait()

    def load(self, blocks: Blocks) -> int:
        """Begins anew with these blocks. Gives how many directives ran."""
        self.close()
        handle, name = tempfile.mkstemp(prefix="raftbench-live-")
        try:
            with open(handle, "wb") as file:
                file.write(blocks.text)
            self.process = subprocess.Popen([self.program, "session", name], stdin=subprocess.PIPE, stdout=subprocess.PIPE, stderr=subprocess.DEVNULL)
            self.blocks = blocks
            self.output(0)
        finally:
            os.unlink(name)
        return len(self.blocks)

    # ---- the conversation

    def line(self) -> bytes:
        """The next line of its answers. Raises Refused if it has ended."""
        process, line = self.process, b""
        with contextlib.suppress(OSError, ValueError):
            line = process.stdout.readline() if process and process.stdout else b""
        if not line.endswith(b"\n"):
            raise Refused("the session has ended")
        return line

    def send(self, command: str, lines: Sequence[bytes] = ()) -> None:
        """Sends a command; whether it has ended shows when the answer is read."""
        process = self.process
        if process and process.stdin:
            with contextlib.suppress(OSError, ValueError):
                process.stdin.write(b"".join([command.encode() + b"\n", *(line + b"\n" for line in lines)]))
                process.stdin.flush()

    def edit(self, command: str, lines: Sequence[bytes] | None = None) -> int:
        """Sends an edit. Gives how many directives ran; raises Refused if it isn't taken."""
        self.send(command if lines is None else f"{command} {len(lines)}", lines or ())
        answer = self.line()
        done = DONE.match(answer)
        if not done:
            raise Refused(answer.decode("utf-8", "replace").strip().removeprefix("refused "))
        return int(done[1])

    def output(self, place: int) -> list[bytes]:
        """What a directive printed; nothing for one that isn't there."""
        self.send(f"show {place}")
        return self.shown()

    def shown(self) -> list[bytes]:
        """The answer to a `show`."""
        count = re.match(rb"output (\d+)\n", self.line())
        return [self.line().rstrip(b"\n") for _ in range(int(count[1]))] if count else []

    def tried(self, texts: Sequence[Sequence[bytes]]) -> list[list[bytes]]:
        """What each of these directives would print at the end of the script, each by itself. They are sent together, which is faster."""
        place, found = len(self.blocks) + 1, list[list[bytes]]()
        for start in range(0, len(texts), MOST_TOGETHER):
            some = texts[start:start + MOST_TOGETHER]
            for at, text in enumerate(some):
                self.send(f"{'insert' if at == 0 else 'replace'} {place} {len(text) + 1}", [*text, RULE])
                self.send(f"show {place}")
            self.send(f"remove {place}")
            for _ in some:
                self.line()
                found.append(self.shown())
            self.line()
        return found

    # ---- what becomes of the script

    def become(self, blocks: Blocks) -> int:
        """Takes other blocks in place of those that it has. Gives how many directives ran."""
        old = self.blocks
        front, back = old.ends(blocks)
        last, following = len(old) - back, len(blocks) - back
        if max(last, following) - front > MOST_CHANGES:
            return self.load(blocks)
        try:
            ran = self._put(front, old.between(front, last), blocks.between(front, following))
        except Refused:
            self.load(old)
            raise
        self.blocks = blocks
        return ran

    def _put(self, front: int, old: Sequence[Block], new: Sequence[Block]) -> int:
        """Puts some blocks in the place of others, each as one edit."""
        ran = 0
        for at, (one, other) in enumerate(zip(old, new), front + 1):
            if one.given() == other.given() and one != other:
                ran += self.edit(f"expect {at}", other.expected())
            elif one != other:
                ran += self.edit(f"replace {at}", [bare(line) for line in other.lines])
        for at, block in enumerate(new[len(old):], front + len(old) + 1):
            ran += self.edit(f"insert {at}", [bare(line) for line in block.lines])
        for _ in old[len(new):]:
            ran += self.edit(f"remove {front + len(new) + 1}")
        return ran
