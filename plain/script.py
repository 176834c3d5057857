"""The format of scripts: the rules of docs/SCRIPTS.md one by one, over lists of lines of bytes."""
from __future__ import annotations

import re
from typing import Any, Callable, NamedTuple, Sequence

LONGEST_SCRIPT = 4_194_304
LONGEST_LINE = 65_536
MOST_DIRECTIVES = 20_000
MOST_ARGUMENTS = MOST_VALUES = 64
RULE = b"----"

TOKEN = rb"[^ \t=()]+"
NAME = re.compile(rb"[ \t]*(" + TOKEN + rb")(?=[ \t]|$)", re.DOTALL)
ARGUMENT = re.compile(rb"[ \t]+(" + TOKEN + rb")(?:(=)(?:\(([^()]*)\)|((?!\()[^ \t]*)))?(?=[ \t]|$)", re.DOTALL)


class Fault(Exception):
    """Why a text or an edit is refused; as text, its name, with its line where it has one."""

    def __str__(self) -> str:
        return str(self.args[0]) + (f" at line {self.args[1]}" if len(self.args) > 1 else "")


Lines = Sequence[bytes]


class Argument(NamedTuple):
    key: bytes
    has_equals: bool
    values: tuple[bytes, ...]


class Directive(NamedTuple):
    name: bytes
    arguments: tuple[Argument, ...]
    input: tuple[bytes, ...]


class Block(NamedTuple):
    lead: tuple[bytes, ...]
    head: tuple[bytes, ...]
    input: tuple[bytes, ...]
    expected: tuple[bytes, ...]

    def text(self, expected: Lines | None = None) -> bytes:
        """The canonical text, with other expected lines where these are given."""
        expected = self.expected if expected is None else expected
        rules = [RULE, RULE] if any(is_blank(line) or line == RULE for line in expected) else [RULE]
        closing = rules if len(rules) > 1 else []
        return joined([*self.lead, *self.head, *self.input, *rules, *expected, *closing, b""])

    def directive(self) -> Directive:
        """The name, the arguments and the input lines of a block that was read."""
        parsed = parsed_head(joined_head(self.head))
        assert parsed is not None
        return Directive(*parsed, self.input)


class Script(NamedTuple):
    blocks: tuple[Block, ...]
    tail: tuple[bytes, ...]

    def text(self, outputs: Sequence[Lines | None] | None = None) -> bytes:
        shown: Sequence[Lines | None] = [None] * len(self.blocks) if outputs is None else outputs
        return b"".join(block.text(lines) for block, lines in zip(self.blocks, shown)) + joined(self.tail)


def joined(lines: Lines) -> bytes:
    return b"".join(line + b"\n" for line in lines)


def lines_of(data: bytes) -> list[bytes]:
    """The lines of a text: each without its LF and the carriage returns directly before it."""
    if data and not data.endswith(b"\n"):
        data += b"\n"
    return [line.rstrip(b"\r") for line in data.split(b"\n")[:-1]]


def is_blank(line: bytes) -> bool:
    return not line.strip(b" \t")


def is_lead(line: bytes) -> bool:
    return is_blank(line) or line.lstrip(b" \t").startswith(b"#")


def is_continued(line: bytes) -> bool:
    return line.rstrip(b" \t").endswith(b"\\")


def is_readable(lines: Lines) -> bool:
    """Whether lines can be read back as an expectation."""
    pair = any(a == RULE == b for a, b in zip(lines, lines[1:]))
    wrong = any(b"\n" in line or line.endswith(b"\r") or len(line) > LONGEST_LINE for line in lines)
    return not pair and not wrong and (not lines or lines[-1] != RULE)


def joined_head(lines: Lines) -> bytes:
    """The head in one line; a last backslash with no line behind it is followed by an empty one."""
    return b"".join(line.rstrip(b" \t")[:-1] + b" " if is_continued(line) else line for line in lines)


def parsed_head(text: bytes) -> tuple[bytes, tuple[Argument, ...]] | None:
    """The name and the arguments of a joined head, or None."""
    found = NAME.match(text)
    if not found:
        return None
    name, at = found.group(1), found.end()
    arguments: list[Argument] = []
    while found := ARGUMENT.match(text, at):
        key, equals, listed, value = found.groups()
        values = () if not equals else (value,) if listed is None else tuple(piece for piece in re.split(rb"[ \t,]", listed) if piece)
        arguments.append(Argument(key, bool(equals), values))
        at = found.end()
    return (name, tuple(arguments)) if is_blank(text[at:]) else None


class Reader:
    """Takes blocks from lines, one after the other; lines are told by their number from 1 on."""

    def __init__(self, lines: list[bytes]) -> None:
        self.lines, self.at = lines, 0
        self.heads: list[int] = []  # the number of the first line of each head

    def take_while(self, holds: Callable[[bytes], bool]) -> tuple[bytes, ...]:
        start = self.at
        while self.at < len(self.lines) and holds(self.lines[self.at]):
            self.at += 1
        return tuple(self.lines[start:self.at])

    def block(self, is_allowed: bool) -> Block | tuple[bytes, ...]:
        """The next block, or what is left where there is no head."""
        lead = self.take_while(is_lead)
        if self.at == len(self.lines):
            return lead
        if not is_allowed:
            raise Fault("TooManyDirectives")
        first = self.at + 1
        self.heads.append(first)
        head = self.head(first)
        given = self.take_while(lambda line: line.strip(b" \t") != RULE)
        if self.at == len(self.lines):
            raise Fault("NoSeparator", first)
        self.at += 1
        return Block(lead, head, given, self.expected(self.at))

    def head(self, first: int) -> tuple[bytes, ...]:
        """The lines that ask for a further one, and the one behind them, if there is one."""
        head = self.take_while(is_continued) + tuple(self.lines[self.at:self.at + 1])
        self.at = min(self.at + 1, len(self.lines))
        parsed = parsed_head(joined_head(head))
        if parsed is None:
            raise Fault("BadLine", first)
        if len(parsed[1]) > MOST_ARGUMENTS or any(len(a.values) > MOST_VALUES for a in parsed[1]):
            raise Fault("TooManyArguments", first)
        return head

    def expected(self, separator: int) -> tuple[bytes, ...]:
        if self.lines[self.at:self.at + 1] == [RULE]:
            return self.double_form(separator)
        lines = self.take_while(lambda line: not is_blank(line))
        self.at = min(self.at + 1, len(self.lines))
        if not is_readable(lines):
            raise Fault("NotClosed", separator)
        return lines

    def double_form(self, separator: int) -> tuple[bytes, ...]:
        start = self.at + 1
        for at in range(start, len(self.lines) - 1):
            if self.lines[at] == RULE == self.lines[at + 1]:
                self.at = at + 2
                if self.at < len(self.lines) and is_blank(self.lines[self.at]):
                    self.at += 1
                return tuple(self.lines[start:at])
        raise Fault("NotClosed", separator)


def read_with_lines(data: bytes) -> tuple[Script, list[int]]:
    """The script of a text, and the line of each directive's head; a Fault where there is none."""
    if len(data) > LONGEST_SCRIPT:
        raise Fault("TooLong")
    lines = lines_of(data)
    for number, line in enumerate(lines, 1):
        if len(line) > LONGEST_LINE:
            raise Fault("LineTooLong", number)
    reader = Reader(lines)
    blocks: list[Block] = []
    while isinstance(block := reader.block(len(blocks) < MOST_DIRECTIVES), Block):
        blocks.append(block)
    return Script(tuple(blocks), block), reader.heads


def read(data: bytes) -> Script:
    """The script of a text; a Fault where there is none."""
    return read_with_lines(data)[0]


def read_script(data: bytes) -> Script:
    script = read(data)
    if len(script.text()) > LONGEST_SCRIPT:
        raise Fault("TooLong")
    return script


def read_block(data: bytes) -> Block:
    """The block that a text is, alone."""
    script = read(data)
    if len(script.blocks) != 1 or script.tail:
        raise Fault("NotOneBlock")
    if len(script.text()) > LONGEST_SCRIPT:
        raise Fault("TooLong")
    return script.blocks[0]


def edited(script: Script, kind: str, place: int, given: Any, outputs: Sequence[tuple[bytes, ...]]) -> Script:
    """A script with an edit made: given is a block, or expected lines. Faults are those of docs/USING.md, in their order."""
    blocks, count = list(script.blocks), len(script.blocks)
    if kind != "accept" and not 1 <= place <= count + (kind == "insert"):
        raise Fault("NoSuchPlace")
    expectations = outputs if kind == "accept" else [given] if kind == "expect" else []
    if not all(map(is_readable, expectations)):
        raise Fault("BadExpectation")
    if kind == "insert" and count == MOST_DIRECTIVES:
        raise Fault("TooManyDirectives")
    if kind == "accept":
        blocks = [block._replace(expected=tuple(lines)) for block, lines in zip(blocks, outputs)]
    elif kind == "expect":
        blocks[place - 1] = blocks[place - 1]._replace(expected=tuple(given))
    else:
        blocks[place - 1:place - (kind == "insert")] = [] if kind == "remove" else [given]
    new = Script(tuple(blocks), script.tail)
    if len(new.text()) > LONGEST_SCRIPT:
        raise Fault("TooLong")
    return new
