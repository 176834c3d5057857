"""Small moving pictures as PNG has them (https://www.w3.org/TR/png-3/, "Animation"): few colours, and of each picture only what differs from the one before."""
from __future__ import annotations

import collections
import dataclasses
import itertools
import struct
import zlib
from collections.abc import Iterator, Sequence

SIGN = b"\x89PNG\r\n\x1a\n"
MOST_COLOURS = 32
Box = tuple[int, int, int, int]


@dataclasses.dataclass(frozen=True)
class Picture:
    """A picture's pixels, each of three bytes, row by row."""

    width: int
    height: int
    pixels: bytes

    def colours(self) -> list[bytes]:
        return [self.pixels[at:at + 3] for at in range(0, len(self.pixels), 3)]


def chunk(name: bytes, data: bytes) -> bytes:
    return struct.pack(">I", len(data)) + name + data + struct.pack(">I", zlib.crc32(name + data))


def chunks(png: bytes) -> dict[bytes, bytes]:
    """The data of each kind of chunk, joined."""
    found: dict[bytes, bytes] = {}
    at = len(SIGN)
    while at < len(png):
        size, name = struct.unpack(">I4s", png[at:at + 8])
        found[name] = found.get(name, b"") + png[at + 8:at + 8 + size]
        at += 12 + size
    return found


def paeth(left: int, up: int, corner: int) -> int:
    """The neighbour that is nearest to left + up - corner ("Filter type 4: Paeth")."""
    guess = left + up - corner
    return min((left, up, corner), key=lambda it: abs(guess - it))


def unfiltered(kind: int, row: bytes, above: bytes, size: int) -> bytes:
    """A row as it was before its filter ("Filter types for filter method 0")."""
    made = bytearray(row)
    for at in range(len(made)):
        left = made[at - size] if at >= size else 0
        corner = above[at - size] if at >= size else 0
        made[at] = (made[at] + (0, left, above[at], (left + above[at]) // 2, paeth(left, above[at], corner))[kind]) & 255
    return bytes(made)


def read(png: bytes) -> Picture:
    """Reads what a browser writes: eight bits a colour, with or without opacity, not interlaced."""
    found = chunks(png)
    width, height, depth, kind, *others = struct.unpack(">IIBBBBB", found[b"IHDR"])
    assert (depth, others) == (8, [0, 0, 0]) and kind in (2, 6), (depth, kind, others)
    size = 3 if kind == 2 else 4
    data, above, rows = zlib.decompress(found[b"IDAT"]), bytes(size * width), list[bytes]()
    for start in range(0, len(data), size * width + 1):
        row = data[start + 1:start + 1 + size * width]
        above = unfiltered(data[start], row, above, size) if data[start] else row
        rows.append(above)
    pixels = b"".join(rows)
    return Picture(width, height, pixels if size == 3 else b"".join(pixels[at:at + 3] for at in range(0, len(pixels), 4)))


def palette_of(pictures: Sequence[Picture]) -> tuple[bytes, dict[bytes, int]]:
    """The commonest colours, and by each colour the number of the one among them that is nearest."""
    counts = collections.Counter(colour for picture in pictures for colour in picture.colours())
    kept = [colour for colour, _ in counts.most_common(MOST_COLOURS)]
    return b"".join(kept), {colour: min(range(len(kept)), key=lambda at: sum((one - other) ** 2 for one, other in zip(colour, kept[at]))) for colour in counts}


def differing(one: Sequence[bytes], other: Sequence[bytes]) -> Box:
    """The least box around what differs, of rows of pixels: left, top, width and height. If nothing does, one pixel."""
    rows = [at for at, (row, then) in enumerate(zip(one, other)) if row != then] or [0]
    columns = [at for at in range(len(one[0])) if any(one[row][at] != other[row][at] for row in range(rows[0], rows[-1] + 1))] or [0]
    return columns[0], rows[0], columns[-1] - columns[0] + 1, rows[-1] - rows[0] + 1


def packed(rows: Sequence[bytes], box: Box) -> bytes:
    left, top, width, height = box
    return zlib.compress(b"".join(b"\0" + row[left:left + width] for row in rows[top:top + height]), 9)


def moving(pngs: Sequence[bytes], times: Sequence[int]) -> bytes:
    """Pictures of one size as one that moves; each stays for its time, in hundredths of a second."""
    pictures = [read(png) for png in pngs]
    width, height = pictures[0].width, pictures[0].height
    assert {(it.width, it.height) for it in pictures} == {(width, height)}
    palette, nearest = palette_of(pictures)
    frames = []
    for picture in pictures:
        numbers = bytes(nearest[colour] for colour in picture.colours())
        frames.append([numbers[at:at + width] for at in range(0, len(numbers), width)])
    boxes = [(0, 0, width, height), *(differing(one, other) for one, other in zip(frames, frames[1:]))]
    made = [SIGN, chunk(b"IHDR", struct.pack(">IIBBBBB", width, height, 8, 3, 0, 0, 0)), chunk(b"PLTE", palette), chunk(b"acTL", struct.pack(">II", len(frames), 0))]
    return b"".join([*made, *parts(frames, boxes, times), chunk(b"IEND", b"")])


def parts(frames: Sequence[Sequence[bytes]], boxes: Sequence[Box], times: Sequence[int]) -> Iterator[bytes]:
    """The chunks of all frames. Each is drawn over the one before."""
    numbers = itertools.count()
    for at, (frame, (left, top, width, height), time) in enumerate(zip(frames, boxes, times, strict=True)):
        yield chunk(b"fcTL", struct.pack(">IIIIIHHBB", next(numbers), width, height, left, top, time, 100, 0, 0))
        data = packed(frame, (left, top, width, height))
        yield chunk(b"fdAT", struct.pack(">I", next(numbers)) + data) if at else chunk(b"IDAT", data)
