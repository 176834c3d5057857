"""The script's file: reads it, watches it, and replaces it as a whole, as `raftbench check --accept` does (docs/USING.md, "Accept outputs")."""
from __future__ import annotations

import contextlib
import os
import pathlib
import secrets
import stat

from .program import Refused

MOST_BYTES = 4_194_304
Stamp = tuple[int, int, int]


def stamp_of(found: os.stat_result) -> Stamp:
    """What tells a file from a changed one: its time, its size and its number."""
    return found.st_mtime_ns, found.st_size, found.st_ino


class Theirs(Refused):
    """Somebody else has changed the file."""


class ScriptFile:
    """A script's file, with what it held when it was last read or written; nothing if it isn't there."""

    def __init__(self, path: pathlib.Path) -> None:
        self.path = path
        self.stamp: Stamp | None = None
        self.known: bytes | None = self.read()

    def read(self) -> bytes | None:
        """What the file holds now, or None if there is none. Raises Refused if it can't be read."""
        try:
            handle = os.open(self.path, os.O_RDONLY | os.O_NONBLOCK | os.O_CLOEXEC)
        except FileNotFoundError:
            self.stamp = None
            return None
        except OSError as fault:
            raise Refused(f"the file can't be read: {fault.strerror}") from None
        found = os.fstat(handle)
        if not stat.S_ISREG(found.st_mode):
            os.close(handle)
            raise Refused("that isn't a file")
        with open(handle, "rb") as file:
            data = file.read(MOST_BYTES + 1)
        self.stamp = stamp_of(found)
        return data

    def has_changed(self) -> bool:
        """Whether the file isn't the one that was last read."""
        try:
            found = os.stat(self.path)
        except OSError:
            return self.stamp is not None
        return stamp_of(found) != self.stamp

    def save(self, data: bytes, over_theirs: bool = False) -> None:
        """Writes the script. Raises Theirs if the file isn't what it was, unless it may be written over; then nothing is changed."""
        now = self.read()
        if now not in (self.known, data) and not over_theirs:
            raise Theirs("the file is gone" if now is None else "the file was changed by somebody else")
        if now != data:
            try:
                self._replace(data, self._old(now is None))
            except OSError as fault:
                raise Refused(f"the file can't be written: {fault.strerror}") from None
        self.known = data
        self.has_read(data)

    def has_read(self, data: bytes) -> None:
        """Remembers the file as it is now, if it holds this."""
        if self.read() != data:
            raise Theirs("the file was changed by somebody else while it was saved")

    def _old(self, is_new: bool) -> os.stat_result | None:
        """The file that is replaced, which has to be the one that was read, and one that may be written."""
        try:
            handle = os.open(self.path, os.O_WRONLY | os.O_NONBLOCK | os.O_CLOEXEC)
        except FileNotFoundError:
            if is_new:
                return None
            raise Theirs("the file is gone") from None
        with open(handle, "wb", closefd=True):
            old = os.fstat(handle)
        if stamp_of(old) != self.stamp:
            raise Theirs("the file was changed by somebody else")
        return old

    def _replace(self, data: bytes, old: os.stat_result | None) -> None:
        """Writes a new file in the same folder, with the old one's owner, group and permissions, and renames it."""
        target = pathlib.Path(os.path.realpath(self.path))
        new = target.with_name(f".raftbench-live-{secrets.token_hex(4)}.new")
        handle = os.open(new, os.O_WRONLY | os.O_CREAT | os.O_EXCL | os.O_NOFOLLOW | os.O_CLOEXEC, 0o600 if old else 0o666)
        try:
            with open(handle, "wb") as file:
                file.write(data)
                file.flush()
                if old:
                    made = os.fstat(handle)
                    if (made.st_uid, made.st_gid) != (old.st_uid, old.st_gid):
                        os.fchown(handle, old.st_uid, old.st_gid)
                    os.fchmod(handle, stat.S_IMODE(old.st_mode))
                os.fsync(handle)
            self._put_in_place(new, target, old)
        except BaseException:
            with contextlib.suppress(OSError):
                new.unlink()
            raise

    def _put_in_place(self, new: pathlib.Path, target: pathlib.Path, old: os.stat_result | None) -> None:
        """Renames, if the file is still the one that was looked at. A file that somebody has just made stays."""
        if old is None:
            os.link(new, target)
            new.unlink()
            return
        now = os.stat(target)
        if stamp_of(now) != stamp_of(old):
            raise Theirs("the file was changed by somebody else")
        os.rename(new, target)
