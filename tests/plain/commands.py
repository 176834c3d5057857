"""Commands of a session that look random, from a seed: edits of all kinds, what shows the script and its outputs, and what is wrong."""

from plain.dice import Dice
from plain.session import Session

BAD_COMMANDS = [
    "sing", "insert", "insert 1", "insert 1 2 3", "remove 1 1", "accept 1", "Report", "show", "show x", "expect 1 65537", "show 00000000001",
    "insert -1 0", "remove +1", "report now", "\xff", "insert 1 4294967296", "#", "----",
]
# Lines that are not one block, and lines that can't be expected.
BAD_BLOCKS: list[list[str]] = [
    [], [""], ["# nothing"], ["raft-state"], ["raft-state", "----", "ok", "", "raft-state", "----", "ok"], ["raft-state", "----", "ok", "", "# tail"],
    ["=x", "----"], ["a=((1))", "----"], ["raft-state", "----", "----", "ok"], ["raft-state", "----", "ok", "----"], ["raft-state 1\\"],
    ["x " + "a " * 65, "----"], ["x a=(" + "1," * 65 + ")", "----"], ["x", "----", "a", "----", "----", "b"], ["", "", "x a(", "----"],
]
BAD_EXPECTATIONS = [["----"], ["a", "----"], ["----", "----", "a"], ["a", "----", "----", "b"]]
GOOD_EXPECTATIONS: list[list[str]] = [[], ["ok"], ["ok"], ["1", "2"], ["a", "----", "b"], ["", "a", ""], ["  "], ["mismatch 1"]]


class Commands(Dice):
    """Throws commands for a session whose script it is told of."""

    def __init__(self, seed: int) -> None:
        super().__init__(seed)
        self.full_chance = 0

    def command(self, session: Session) -> bytes:
        """The text of a command, with its lines."""
        kinds = ["insert", "replace", "remove", "expect", "accept", "show", "bad", "blank"]
        kind = self.choices(kinds, [30, 25, 15, 10, 2, 6, 3, 2])[0]
        thrown: str = getattr(self, "throw_" + kind)(session)
        return thrown.encode("latin-1")

    def place(self, session: Session, more: int = 0) -> int:
        count = len(session.script.blocks)
        if self.some(0.04):
            return self.choice([0, count + 1 + more, count + 2, 9999999999])
        return self.randint(1, max(1, count + more))

    def line(self, *words: object) -> str:
        """A line of words, in one of the ways in which it may be written."""
        blank = self.choice(["  ", " \t"]) if self.some(0.05) else " "
        text = blank.join(f"{word:0>3}" if isinstance(word, int) and self.some(0.05) else str(word) for word in words)
        written: str = (" " * self.some(0.03) + text + " " * self.some(0.03) + "\r" * self.some(0.03)) + "\n"
        return written

    def with_lines(self, name: str, place: int, lines: list[str]) -> str:
        return self.line(name, place, len(lines)) + "".join(line + "\n" for line in lines)

    def lines_of_block(self) -> list[str]:
        if self.some(0.06):
            return list(self.choice(BAD_BLOCKS))
        step = self.quiet_directive() if self.some(0.4) else self.directive()
        block: bytes = self.block(step)
        return block.decode("latin-1").split("\n")[:-1]

    def throw_insert(self, session: Session) -> str:
        return self.with_lines("insert", self.place(session, 1), self.lines_of_block())

    def throw_replace(self, session: Session) -> str:
        return self.with_lines("replace", self.place(session), self.lines_of_block())

    def throw_remove(self, session: Session) -> str:
        return self.line("remove", self.place(session))

    def throw_expect(self, session: Session) -> str:
        place, lines = self.place(session), list(self.choice(GOOD_EXPECTATIONS))
        if self.some(0.1):
            lines = list(self.choice(BAD_EXPECTATIONS))
        elif self.some(0.5) and 1 <= place <= len(session.outputs):
            lines = [line.decode() for line in session.outputs[place - 1]]
        return self.with_lines("expect", place, lines)

    def throw_accept(self, _: Session) -> str:
        return self.line("accept")

    def throw_show(self, session: Session) -> str:
        return self.line("show", self.place(session))

    def throw_bad(self, _: Session) -> str:
        return self.line(self.choice(BAD_COMMANDS))

    def throw_blank(self, _: Session) -> str:
        return self.choice(["\n", " \t\n", "\r\n"])

    def throw_end(self, session: Session) -> bytes:
        """What ends a session before its time."""
        cut = self.with_lines("insert", 1, ["raft-state", "----", "ok"])
        long = "x" * 65_537
        end = self.choice([cut[:-self.randint(3, 8)], self.with_lines("expect", 1, [long]), long + "\nreport\n", "expect 1 9\nreport\n", "report"])
        return end.encode()
