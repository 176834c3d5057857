"""A cache of scripts that ran: the calls, a digest of the nodes' answers, and the script's result. Nodes that give the same answers have the same
result, so the script needn't be run on the reference, checked or compared again.

A folder has a file for each process that wrote. A record has a script's name, the length of the packed data, a checksum, and the data. The length is
marked if something was found in the script, so that it can be tried first the next time.
"""
from __future__ import annotations

import array
import contextlib
import hashlib
import json
import mmap
import os
import pathlib
import secrets
import struct
import sys
import time
import zlib
from typing import BinaryIO, NamedTuple

TOP = pathlib.Path(__file__).resolve().parents[2]
RECORD, PACKED = struct.Struct("<16sII"), struct.Struct("<IIIIII32s")
# Marks the length of a record.
SHOWS = 1 << 31
# The oldest files go if all are larger than this.
MOST_BYTES = 128 << 20


def name_of_script(*parts: object) -> bytes:
    """A name of 16 bytes for what a script is made from."""
    return hashlib.blake2b("\n".join(map(str, parts)).encode(), digest_size=16).digest()


class ScriptRecord(NamedTuple):
    """A script that was tried: the calls, the answers' digest, and what it came to. `removed` are the places of directives that it went on without, `met` is
    where it takes the reference."""

    calls: bytes  # the lines
    asked: int  # how many
    digest: bytes
    compared: int
    agreed: int
    left_out: int
    kinds: tuple[tuple[str, int], ...]
    removed: tuple[int, ...]
    met: frozenset[int]
    made: tuple[tuple[str, int], ...] = ()  # what it makes the reference do
    again: tuple[str, ...] = ()  # what makes a script again in which something was found

    def packed(self) -> bytes:
        found = json.dumps([self.kinds, self.removed, self.made, self.again]).encode()
        head = PACKED.pack(self.asked, self.compared, self.agreed, self.left_out, len(found), len(self.met), self.digest)
        return zlib.compress(head + array.array("Q", self.met).tobytes() + found + self.calls, 1)


def unpacked(data: bytes) -> ScriptRecord:
    whole = zlib.decompress(data)
    asked, compared, agreed, left_out, length, many, digest = PACKED.unpack_from(whole)
    begun = PACKED.size + 8 * many
    kinds, removed, made, again = json.loads(whole[begun:begun + length])
    found = tuple((kind, place) for kind, place in kinds), tuple(removed)
    met = frozenset(array.array("Q", whole[PACKED.size:begun]))
    counts = tuple((what, count) for what, count in made)
    return ScriptRecord(whole[begun + length:], asked, digest, compared, agreed, left_out, *found, met, counts, tuple(again))


class Transcript:
    """Calls that were asked, and a digest of the answers."""

    def __init__(self) -> None:
        self.calls: list[bytes] = []
        self.asked = 0
        self.digest = hashlib.sha256()

    def add(self, calls: bytes, lines: list[bytes]) -> None:
        self.calls.append(calls)
        self.asked += len(lines)
        self.digest.update(b"\n".join(lines) + b"\n")


def default_folder() -> pathlib.Path:
    cache = os.environ.get("XDG_CACHE_HOME") or os.path.expanduser("~/.cache")
    return pathlib.Path(cache) / "raftbench" / "nodes"


def version_of_bench() -> str:
    """What the bench's own sources are, by their contents."""
    found = hashlib.sha256(sys.version.encode())
    for folder in ("plain", "raftbench_nodes"):
        for file in sorted((TOP / folder).rglob("*.py")):
            found.update(file.read_bytes())
    return found.hexdigest()


def trim(folder: pathlib.Path) -> None:
    """Removes the oldest files if all are too large. Other processes may do so at the same time."""
    files = []
    for file in folder.glob("*/*.records"):
        with contextlib.suppress(FileNotFoundError):
            found = file.stat()
            files.append((found.st_mtime, found.st_size, file))
    files.sort()
    excess = sum(size for _, size, _ in files) - MOST_BYTES
    for _, size, file in files:
        if excess <= 0:
            break
        file.unlink(missing_ok=True)
        excess -= size


class Memory:
    """What is remembered for one library, one way of comparing and one version of the bench, which `about` names. A folder that can't be used has nothing."""

    def __init__(self, folder: pathlib.Path, about: str) -> None:
        self.folder = folder
        self.places: dict[bytes, tuple[mmap.mmap, int, int, int]] = {}
        self.showing: set[bytes] = set()  # names of scripts in which something was found
        self.file: BinaryIO | None = None
        self.is_usable = True
        try:
            self.folder /= hashlib.sha256(f"{version_of_bench()} {about}".encode()).hexdigest()[:32]
            trim(folder)
            for file in sorted(self.folder.glob("*.records")):
                # Another process may have removed it by now.
                with contextlib.suppress(FileNotFoundError):
                    self.read(file)
        except (OSError, ValueError):
            self.is_usable = False

    def read(self, path: pathlib.Path) -> None:
        """Notes where the records of a file are; one that wasn't written to its end, or still is written, is the last."""
        with path.open("rb") as file:
            if os.fstat(file.fileno()).st_size == 0:
                return
            data = mmap.mmap(file.fileno(), 0, access=mmap.ACCESS_READ)
        at, size = 0, len(data)
        while at + RECORD.size <= size:
            name, marked, checksum = RECORD.unpack_from(data, at)
            at, length = at + RECORD.size, marked & ~SHOWS
            if at + length <= size:
                self.places[name] = data, at, length, checksum
                (self.showing.add if marked & SHOWS else self.showing.discard)(name)
            at += length

    def find(self, name: bytes) -> ScriptRecord | None:
        if name not in self.places:
            return None
        data, at, length, checksum = self.places[name]
        packed = data[at:at + length]
        return unpacked(packed) if zlib.crc32(packed) == checksum else None

    def note(self, name: bytes, known: ScriptRecord) -> None:
        """Writes a script. All of a record is written at once, so that a process may end at any time; after a part of one nothing is written."""
        packed = known.packed()
        record = RECORD.pack(name, len(packed) | (SHOWS if known.again else 0), zlib.crc32(packed)) + packed
        try:
            if self.file is None and self.is_usable:
                self.folder.mkdir(parents=True, exist_ok=True)
                # The file is this process's alone: others may have mapped it, on other machines too.
                self.file = (self.folder / f"{time.time_ns()}-{secrets.token_hex(4)}.records").open("xb", buffering=0)
            if self.file and self.file.write(record) < len(record):
                self.file, self.is_usable = None, False
        except OSError:
            self.file, self.is_usable = None, False
