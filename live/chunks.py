"""The blocks of a script in chunks, which versions of the script share: an edit costs what it changes, and little more, however long the script is."""
from __future__ import annotations

import bisect
import dataclasses
import itertools
import re
from collections.abc import Iterable, Iterator, Sequence
from typing import overload

from .blocks import Block, cut, joined

# A chunk has at most so many blocks; one that is left with fewer than a quarter of them is joined with the next one.
MOST = 256
RETURN_ALONE = re.compile(rb"\r(?!\n)")


@dataclasses.dataclass(frozen=True, eq=False)
class Chunk:
    """Some blocks, how many lines they have, their bytes, and whether a CR in them ends no line."""

    blocks: tuple[Block, ...]
    lines: int
    text: bytes
    has_return_alone: bool


def chunk_of(blocks: tuple[Block, ...]) -> Chunk:
    """A chunk of these blocks."""
    text = joined(blocks, ())
    return Chunk(blocks, lines_in(blocks), text, RETURN_ALONE.search(text) is not None)


def chunks_of(blocks: tuple[Block, ...]) -> tuple[Chunk, ...]:
    """Chunks of about the same size."""
    count = -(-len(blocks) // MOST)
    ends = [len(blocks) * at // count for at in range(count + 1)] if count else [0]
    return tuple(chunk_of(blocks[start:end]) for start, end in zip(ends, ends[1:]))


def lines_in(blocks: Iterable[Block]) -> int:
    """How many lines blocks have."""
    return sum(len(block.lines) for block in blocks)


class Blocks(Sequence[Block]):
    """Blocks that don't change. `starts` says how many blocks are before each chunk and, last, in all of them; `line_starts` how many lines."""

    def __init__(self, blocks: Iterable[Block] = (), chunks: tuple[Chunk, ...] | None = None) -> None:
        self.chunks = chunks_of(tuple(blocks)) if chunks is None else chunks
        self.starts = list(itertools.accumulate((len(chunk.blocks) for chunk in self.chunks), initial=0))
        self.line_starts = list(itertools.accumulate((chunk.lines for chunk in self.chunks), initial=0))

    # ---- as a list

    def __len__(self) -> int:
        return self.starts[-1]

    def __iter__(self) -> Iterator[Block]:
        return itertools.chain.from_iterable(chunk.blocks for chunk in self.chunks)

    def __eq__(self, other: object) -> bool:
        return isinstance(other, Blocks) and len(self) == len(other) and self._same_front(other) == len(self)

    @overload
    def __getitem__(self, at: int) -> Block: ...

    @overload
    def __getitem__(self, at: slice) -> Blocks: ...

    def __getitem__(self, at: int | slice) -> Block | Blocks:
        if isinstance(at, slice):
            start, end, _ = at.indices(len(self))
            return self.with_these(end, len(self)).with_these(0, start)
        place = at + len(self) if at < 0 else at
        if not 0 <= place < len(self):
            raise IndexError(at)
        chunk = self._chunk_at(place)
        return self.chunks[chunk].blocks[place - self.starts[chunk]]

    def _chunk_at(self, place: int) -> int:
        """The chunk that has this block, or the last one for the place behind all of them."""
        return max(0, min(bisect.bisect_right(self.starts, place) - 1, len(self.chunks) - 1))

    def between(self, front: int, end: int) -> list[Block]:
        """The blocks from one place up to another."""
        first, last = self._chunk_at(front), self._chunk_at(end)
        found = list(itertools.chain.from_iterable(chunk.blocks for chunk in self.chunks[first:last + 1]))
        return found[front - self.starts[first]:end - self.starts[first]]

    # ---- what it says of a script

    @property
    def text(self) -> bytes:
        """All their bytes."""
        return b"".join([chunk.text for chunk in self.chunks])

    @property
    def has_return_alone(self) -> bool:
        """Whether a CR in them ends no line."""
        return any(chunk.has_return_alone for chunk in self.chunks)

    def lines_before(self, place: int) -> int:
        """How many lines the blocks before this place have."""
        chunk = self._chunk_at(place)
        return self.line_starts[chunk] + (lines_in(self.chunks[chunk].blocks[:place - self.starts[chunk]]) if self.chunks else 0)

    def head(self, place: int) -> int:
        """The line of a block's head, from 1."""
        return self.lines_before(place) + self[place].head + 1

    def heads(self) -> list[int]:
        """The lines of all heads, from 1."""
        starts = itertools.accumulate((len(block.lines) for block in self), initial=0)
        return [start + block.head + 1 for start, block in zip(starts, self)]

    # ---- others that share its chunks

    def with_these(self, front: int, end: int, blocks: Iterable[Block] = ()) -> Blocks:
        """The same, but these blocks from one place up to another."""
        first, last = self._chunk_at(front), self._chunk_at(end)
        before = self.between(self.starts[first], front) if self.chunks else []
        after = self.between(end, self.starts[last + 1]) if self.chunks else []
        own, rest = (*before, *blocks, *after), self.chunks[last + 1:]
        while rest and 0 < len(own) < MOST // 4:
            own, rest = (*own, *rest[0].blocks), rest[1:]
        return Blocks((), (*self.chunks[:first], *chunks_of(own), *rest))

    def ends(self, other: Blocks) -> tuple[int, int]:
        """How many blocks are the same at both beginnings, and then at both ends."""
        front = self._same_front(other)
        return front, self._same_back(other, min(len(self), len(other)) - front)

    def _same_front(self, other: Blocks) -> int:
        at = next((at for at, (one, two) in enumerate(zip(self.chunks, other.chunks)) if one is not two), min(len(self.chunks), len(other.chunks)))
        ours = itertools.chain.from_iterable(chunk.blocks for chunk in self.chunks[at:])
        theirs = itertools.chain.from_iterable(chunk.blocks for chunk in other.chunks[at:])
        return self.starts[at] + same_in(ours, theirs)

    def _same_back(self, other: Blocks, most: int) -> int:
        ours, theirs = self.chunks[::-1], other.chunks[::-1]
        at = count = 0
        while at < min(len(ours), len(theirs)) and ours[at] is theirs[at] and count + len(ours[at].blocks) <= most:
            count, at = count + len(ours[at].blocks), at + 1
        one = itertools.chain.from_iterable(chunk.blocks[::-1] for chunk in ours[at:])
        two = itertools.chain.from_iterable(chunk.blocks[::-1] for chunk in theirs[at:])
        return count + same_in(itertools.islice(one, most - count), two)


def same_in(one: Iterable[Block], two: Iterable[Block]) -> int:
    """How many are the same at the beginning of both."""
    count = 0
    for ours, theirs in zip(one, two):
        if ours is not theirs and ours != theirs:
            break
        count += 1
    return count


@dataclasses.dataclass(frozen=True, eq=False)
class Shown:
    """A script as it is shown: its blocks, and the lines after the last one."""

    blocks: Blocks
    tail: tuple[bytes, ...] = ()

    @property
    def data(self) -> bytes:
        """Its bytes."""
        return self.blocks.text + b"".join(self.tail)

    @property
    def size(self) -> int:
        """How many bytes it has."""
        return sum(len(chunk.text) for chunk in self.blocks.chunks) + sum(map(len, self.tail))

    def has_same_text(self, other: Shown) -> bool:
        """Whether another one has the same bytes."""
        return self is other or self.tail == other.tail and self.blocks == other.blocks or self.size == other.size and self.data == other.data

    @property
    def count(self) -> int:
        """How many directives it has."""
        return len(self.blocks)

    @property
    def has_return_alone(self) -> bool:
        """Whether a CR in it ends no line."""
        return self.blocks.has_return_alone or any(RETURN_ALONE.search(line) for line in self.tail)

    def first(self, count: int) -> Shown:
        """The script of its first directives; itself if these are all."""
        return self if count >= self.count else Shown(self.blocks[:count])


def recut(now: Shown, front: int, back: int, heads: Sequence[int]) -> Shown | None:
    """The same script as the program reads it, by the lines of its heads from the first of `heads` on: blocks before `front`, and the last ones `back`,
    were cut before. None if these are read otherwise than they were cut."""
    end = now.count - back
    start, stop = now.blocks.lines_before(front), now.blocks.lines_before(end)
    own = [line - start for line in heads if line <= stop or not back]
    others = [now.blocks.head(place) for place in range(end, min(now.count, end + len(heads) - len(own)))]
    if [*heads[len(own):]] != others or any(line <= 0 for line in own):
        return None
    try:
        found, rest = cut(joined(now.blocks.between(front, end), () if back else now.tail), own)
    except IndexError:
        return None
    return None if back and rest else Shown(now.blocks.with_these(front, end, found), now.tail if back else tuple(rest))
