"""The blocks of a script as lines of its file. An edit changes the lines of its block alone; all other bytes stay.

docs/SCRIPTS.md has the rules of the format. The program has read the script before, and says on which line each head is. So only the ends of
blocks are looked for here.
"""
from __future__ import annotations

import dataclasses
import functools
from collections.abc import Iterable, Sequence

RULE = b"----"


def bare(line: bytes) -> bytes:
    """A line without its end."""
    return line.rstrip(b"\n").rstrip(b"\r") if line.endswith(b"\n") else line.rstrip(b"\r")


def is_blank(line: bytes) -> bool:
    """Whether a line has only blanks."""
    return not bare(line).strip(b" \t")


def lines_of(data: bytes) -> list[bytes]:
    """The lines of a text, with their ends."""
    parts = data.split(b"\n")
    return [part + b"\n" for part in parts[:-1]] + ([parts[-1]] if parts[-1] else [])


@dataclasses.dataclass(frozen=True)
class Block:
    """A directive and its expectation. `head` is the line at which the directive begins, `rule` that of its separator."""

    lines: tuple[bytes, ...]
    head: int
    rule: int

    @functools.cached_property
    def text(self) -> bytes:
        """Its lines, joined."""
        return b"".join(self.lines)

    @property
    def end(self) -> bytes:
        """How its lines end."""
        rule = self.lines[self.rule]
        return rule[len(bare(rule)):] or b"\n"

    def given(self) -> tuple[bytes, ...]:
        """What stands above the separator, without the ends of lines."""
        return tuple(bare(line) for line in self.lines[:self.rule])

    def expected(self) -> tuple[bytes, ...]:
        """The expectation, without the ends of lines."""
        below = [bare(line) for line in self.lines[self.rule + 1:]]
        if below[:1] == [RULE]:
            until = next(at for at in range(1, len(below)) if below[at:at + 2] == [RULE, RULE])
            return tuple(below[1:until])
        return tuple(line for line in below if not is_blank(line))

    def with_given(self, text: Sequence[bytes]) -> Block:
        """The same with other lines above the separator. Blank lines above its comments stay."""
        blank = next((at for at, line in enumerate(self.lines) if not is_blank(line)), self.rule)
        above = (*self.lines[:blank], *(line + self.end for line in text))
        return Block((*above, *self.lines[self.rule:]), self.head, len(above))

    def closed(self) -> Block:
        """The same with an empty line below, so that another block may follow."""
        last = self.lines[-1]
        if len(self.lines) - 1 > self.rule and is_blank(last):
            return self if last.endswith(b"\n") else dataclasses.replace(self, lines=(*self.lines[:-1], last + self.end))
        whole = last if last.endswith(b"\n") else last + self.end
        return dataclasses.replace(self, lines=(*self.lines[:-1], whole, self.end))


def new_block(given: Sequence[bytes], output: Sequence[bytes], end: bytes) -> Block:
    """A block of these lines, in canonical text. If the text has a separator of its own, it counts up to there."""
    until = next((at for at, line in enumerate(given) if line.strip(b" \t") == RULE), len(given))
    above = [line.rstrip(b"\r") for line in given[:until]]
    is_double = any(is_blank(line) or line == RULE for line in output)
    around = ([RULE], [RULE, RULE]) if is_double else ([], [])
    lines = [*above, RULE, *around[0], *output, *around[1], b""]
    return Block(tuple(line + end for line in lines), 0, len(above))


def _end_of_expectation(bares: Sequence[bytes], start: int) -> int:
    """The line after an expectation that begins here, and after one blank line below it."""
    at = start
    if bares[at:at + 1] == [RULE]:
        at += 1
        while at < len(bares) and not (bares[at] == RULE and bares[at + 1:at + 2] == [RULE]):
            at += 1
        at += 2
    else:
        while at < len(bares) and not is_blank(bares[at]):
            at += 1
    return at + 1 if at < len(bares) and is_blank(bares[at]) else min(at, len(bares))


def cut(data: bytes, heads: Iterable[int]) -> tuple[list[Block], list[bytes]]:
    """Cuts a script into its blocks, and the lines after the last one. `heads` are the lines of its heads, from 1."""
    lines = lines_of(data)
    bares = [bare(line) for line in lines]
    blocks: list[Block] = []
    start = 0
    for head in heads:
        at = head - 1
        while bares[at].rstrip(b" \t").endswith(b"\\") and at + 1 < len(lines):
            at += 1
        rule = at + 1
        while bares[rule].strip(b" \t") != RULE:
            rule += 1
        end = _end_of_expectation(bares, rule + 1)
        blocks.append(Block(tuple(lines[start:end]), head - 1 - start, rule - start))
        start = end
    return blocks, lines[start:]


def joined(blocks: Iterable[Block], tail: Iterable[bytes]) -> bytes:
    """The bytes of blocks, and of lines after them."""
    return b"".join(block.text for block in blocks) + b"".join(tail)
