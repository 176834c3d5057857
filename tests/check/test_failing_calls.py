"""What `check` says and leaves if a call of the system fails, a file changes meanwhile, the disk is full, its reader goes away, or memory is refused.

Calls that fail are made by a filter of system calls (seccomp), which answers the calls that it is told with an error.
"""
import contextlib
import ctypes
import errno
import functools
import itertools
import os
import pathlib
import platform
import random
import re
import resource
import shutil
import signal
import struct
import subprocess
import time
from collections.abc import Callable, Iterator

from tests.check.checking import ACCEPTED, BAD, GOOD, MOST_SECONDS, UNWRITTEN, Answer, differs, files, listed, mismatch, run, totals, tree
from tests.harness import PROGRAM, TESTS, NotHere

NUMBERS = {
    "x86_64": {"arch": [0xC000003E], "write": [1], "fsync": [74], "rename": [82, 264, 316], "fchmod": [91], "create": [257], "unlink": [87, 263]},
    "aarch64": {"arch": [0xC00000B7], "write": [64], "fsync": [82], "rename": [38, 276], "fchmod": [52], "create": [56], "unlink": [35]},
}


def failing(error: int, *calls: str) -> Callable[..., object]:
    """Makes each such call answer the error in the process that it is called in. `write` fails for files alone, and not for the three
    streams; `create` is an opening that may make a file."""
    known = NUMBERS[platform.machine()]
    load, equal, bits, more, answer = 0x20, 0x15, 0x45, 0x25, 0x06
    allow, refuse = (answer, 0, 0, 0x7FFF0000), (answer, 0, 0, 0x00050000 | error)
    # The architecture, the number of the call, and its arguments stand at 4, 0, and from 16 on, eight bytes each.
    lines = [(load, 0, 0, 4), (equal, 1, 0, known["arch"][0]), allow]
    for call, number in [(call, number) for call in calls for number in known[call]]:
        lines.append((load, 0, 0, 0))
        if call == "write":
            lines += [(equal, 0, 3, number), (load, 0, 0, 16), (more, 0, 1, 2), refuse]
        elif call == "create":
            lines += [(equal, 0, 3, number), (load, 0, 0, 32), (bits, 0, 1, os.O_CREAT), refuse]
        else:
            lines += [(equal, 0, 1, number), refuse]
    lines.append(allow)
    program = b"".join(struct.pack("=HBBI", *line) for line in lines)
    text = ctypes.create_string_buffer(program, len(program))

    class Filter(ctypes.Structure):
        _fields_ = [("len", ctypes.c_ushort), ("filter", ctypes.c_void_p)]

    held = Filter(len(lines), ctypes.addressof(text))
    libc = ctypes.CDLL(None, use_errno=True)

    def install(_: object) -> None:
        # PR_SET_NO_NEW_PRIVS, and PR_SET_SECCOMP with SECCOMP_MODE_FILTER
        if libc.prctl(38, 1, 0, 0, 0) or libc.prctl(22, 2, ctypes.byref(held), 0, 0):
            os._exit(99)
    # What the call points to lives as long as the function.
    return functools.partial(install, text)


def look_at_failure(room: pathlib.Path, call: str, error: int) -> Iterator[str]:
    files(room, a_txt=BAD, b_txt=BAD)
    before = tree(room)
    came = run(room, "--accept", "a.txt", "b.txt", preexec_fn=failing(error, call))
    told = b"".join(UNWRITTEN.replace(b"a.txt", name) + name + f": {os.strerror(error)} (os error {error})\n".encode() for name in (b"a.txt", b"b.txt"))
    yield from differs(call, came, (4, mismatch("a.txt") + mismatch("b.txt") + listed("a.txt", "b.txt") + totals(2, 2, 2, failed=2), told))
    if tree(room) != before:
        yield f"{call}: left {tree(room)!r}"


def test_failing_creation(room: pathlib.Path) -> Iterator[str]:
    yield from look_at_failure(room, "create", errno.EROFS)


def test_failing_write(room: pathlib.Path) -> Iterator[str]:
    yield from look_at_failure(room, "write", errno.ENOSPC)


def test_failing_rights(room: pathlib.Path) -> Iterator[str]:
    yield from look_at_failure(room, "fchmod", errno.EPERM)


def test_failing_sync(room: pathlib.Path) -> Iterator[str]:
    yield from look_at_failure(room, "fsync", errno.EIO)


def test_failing_rename(room: pathlib.Path) -> Iterator[str]:
    yield from look_at_failure(room, "rename", errno.EIO)


def test_failing_removal(room: pathlib.Path) -> Iterator[str]:
    """Neither the new file takes the old one's place, nor can it be removed: where it lies is told."""
    files(room, a_txt=BAD)
    came = run(room, "--accept", ".", preexec_fn=failing(errno.EIO, "rename", "unlink"))
    told = b"./.raftbench-0.new: this new file could not be removed\n./" + UNWRITTEN + b"./a.txt: Input/output error (os error 5)\n"
    yield from differs("it", came, (4, mismatch("./a.txt") + totals(1, 1, 1, failed=1), told))
    if tree(room) != {"a.txt": BAD, ".raftbench-0.new": ACCEPTED}:
        yield f"{tree(room)!r}"


def test_size_limit_that_is_told(room: pathlib.Path) -> Iterator[str]:
    """The limit is met in the middle of the new file."""
    files(room, a_txt=BAD + b"\n" + b"# " + b"x" * 3000 + b"\n")
    before = tree(room)

    def limited() -> None:
        signal.signal(signal.SIGXFSZ, signal.SIG_IGN)
        resource.setrlimit(resource.RLIMIT_FSIZE, (1024, 1024))
    status, _, told = run(room, "--accept", "a.txt", preexec_fn=limited, restore_signals=False)
    if (status, tree(room)) != (4, before) or not told.startswith(UNWRITTEN) or b"File too large" not in told:
        yield f"{status} {told!r} {tree(room)!r}"


def test_size_limit_that_kills(room: pathlib.Path) -> Iterator[str]:
    """The limit ends the program by its signal: the old file stays, and the new one may lie beside it."""
    files(room, a_txt=BAD + b"\n" + b"# " + b"x" * 3000 + b"\n")
    before = tree(room)
    status, _, _ = run(room, "--accept", "a.txt", preexec_fn=lambda: resource.setrlimit(resource.RLIMIT_FSIZE, (1024, 1024)))
    left = {name: text for name, text in tree(room).items() if name != ".raftbench-0.new"}
    if status != -signal.SIGXFSZ or left != before:
        yield f"{status} {left!r}"


def test_killed(room: pathlib.Path) -> Iterator[str]:
    """Killed at any moment, it leaves the old text or the new one."""
    names = [f"{number}.txt" for number in range(40)]
    command: list[str | pathlib.Path] = [PROGRAM, "check", "--accept", "."]
    for name in names:
        (room / name).write_bytes(BAD)
    begun = time.monotonic()
    subprocess.run(command, cwd=room, stdin=subprocess.DEVNULL, stdout=subprocess.DEVNULL)
    whole = time.monotonic() - begun
    dice, met = random.Random(1), set()
    for _ in range(40):
        for name in names:
            (room / name).write_bytes(BAD)
        child = subprocess.Popen(command, cwd=room, stdin=subprocess.DEVNULL, stdout=subprocess.DEVNULL)
        with contextlib.suppress(subprocess.TimeoutExpired):
            child.wait(timeout=2 * whole * dice.random())
        child.kill()
        child.wait()
        left = tree(room)
        if any(left[name] not in (BAD, ACCEPTED) for name in names):
            yield f"{left!r}"
        if any(not re.fullmatch(r"\.raftbench-\d+\.new", name) for name in left.keys() - set(names)):
            yield f"{sorted(left)!r}"
        met |= {left[name] for name in names}
    if met != {BAD, ACCEPTED}:
        yield f"it was killed at no moment that matters: {met!r}"


def test_full_disk(room: pathlib.Path) -> Iterator[str]:
    """A file system of its own, with room for the old file and not for a second."""
    disk = room / "disk"
    disk.mkdir()
    if os.geteuid() != 0 or subprocess.run(["mount", "-t", "tmpfs", "-o", "size=64k", "none", disk], capture_output=True).returncode != 0:
        raise NotHere("no file system can be mounted")
    try:
        files(disk, a_txt=BAD + b"\n" + b"".join(b"# " + b"x" * 60 + b"\n" for _ in range(640)))
        before = tree(disk)
        status, _, told = run(disk, "--accept", "a.txt")
        if (status, tree(disk)) != (4, before) or not told.startswith(UNWRITTEN) or b"No space left" not in told:
            yield f"{status} {told!r} {sorted(tree(disk))}"
    finally:
        subprocess.run(["umount", disk], check=True)


def meddled(room: pathlib.Path, what: str, path: str, at: int | str) -> dict[str, str]:
    """The environment in which, at the first write to a descriptor (0: any above the streams) or the first opening of a path, something
    is done with a file."""
    shim = room.parent / "meddle.so"
    if not shim.exists():
        subprocess.run(["cc", "-shared", "-fPIC", "-O2", "-o", shim, TESTS / "check" / "meddle.c", "-ldl"], check=True)
    return dict(os.environ, LD_PRELOAD=str(shim), MEDDLE_HOW=what, MEDDLE_WITH=str(room / path), MEDDLE_AT=str(at))


def test_a_file_that_changes_is_not_replaced(room: pathlib.Path) -> Iterator[str]:
    files(room, a_txt=BAD)
    came = run(room, "--accept", "a.txt", env=meddled(room, "append", "a.txt", 0))
    told = UNWRITTEN + b"a.txt: the file has changed since it was read\n"
    yield from differs("it", came, (4, mismatch("a.txt") + totals(1, 1, 1, failed=1), told))
    if tree(room) != {"a.txt": BAD + b"#"}:
        yield f"{tree(room)!r}"


def test_a_file_that_vanishes_is_told(room: pathlib.Path) -> Iterator[str]:
    """The second is removed as the first is shown."""
    files(room, a_txt=BAD, b_txt=GOOD, c_txt=GOOD)
    came = run(room, ".", env=meddled(room, "remove", "b.txt", 1))
    yield from differs("it", came, (4, mismatch("./a.txt") + listed("./a.txt") + totals(2, 2, 1, failed=1), b"./b.txt: no such file or folder\n"))


def test_a_folder_that_vanishes_is_told(room: pathlib.Path) -> Iterator[str]:
    """It is listed with the first folder, and goes as that is entered. A name of which nothing is known and that is none of a script isn't
    missed."""
    files(room, a__a_txt=GOOD, c_txt=GOOD)
    for name in ("b", "b.txt"):
        (room / name).mkdir()
        came = run(room, ".", env=meddled(room, "remove", name, "./a/"))
        yield from differs(name, came, (4, totals(2, 2, failed=1), f"./{name}: no such file or folder\n".encode()))
    (room / "b").write_bytes(b"")
    yield from differs("file", run(room, ".", env=meddled(room, "remove", "b", "./a/")), (0, totals(2, 2), b""))


def test_a_file_that_vanishes_is_not_made_anew(room: pathlib.Path) -> Iterator[str]:
    files(room, a_txt=BAD)
    came = run(room, "--accept", "a.txt", env=meddled(room, "remove", "a.txt", 0))
    yield from differs("it", came, (4, None, UNWRITTEN + b"a.txt: No such file or directory (os error 2)\n"))
    if tree(room):
        yield f"{tree(room)!r}"


def test_greatest_status(room: pathlib.Path) -> Iterator[str]:
    """Of what is met on the paths, in any order."""
    files(room, good=GOOD, bad=BAD, refused=b"set\n")
    kinds = {"good": 0, "bad": 1, "refused": 3, "nothing": 4}
    for count in range(1, len(kinds) + 1):
        for paths in itertools.permutations(kinds, count):
            status, output, _ = run(room, *paths)
            wanted = totals(count - ("nothing" in paths), ("good" in paths) + ("bad" in paths), mismatches=int("bad" in paths),
                            refused=int("refused" in paths), failed=int("nothing" in paths))
            wanted = b"" if paths == ("nothing",) else wanted
            if status != max(kinds[path] for path in paths) or not output.endswith(wanted):
                yield f"{paths}: {status} {output!r}"


def test_one_script_without_memory(room: pathlib.Path) -> Iterator[str]:
    """One script prints gigabytes; it is told, and the others go on. The system may not promise more than there is."""
    elected = ["add-nodes 3 voters=(1,2,3) index=10", "campaign 1", "stabilize log-level=none", "log-level none"]
    heads = [*elected, *["propose 1 " + "x" * 64] * 5000, "stabilize", *["raft-log 1 log-level=debug"] * 9000]
    files(room, a_txt=BAD, b_txt="".join(f"{head}\n----\n\n" for head in heads).encode(), c_txt=BAD)
    limit = 300 * 1024 * 1024
    came = run(room, "--accept", ".", preexec_fn=lambda: resource.setrlimit(resource.RLIMIT_AS, (limit, limit)))
    accepted = b"".join(mismatch(f"./{name}.txt") + f"./{name}.txt: accepted 1 output\n".encode() for name in "ac")
    yield from differs("it", came, (5, accepted + totals(2, 2, accepted=2, failed=1), b"./b.txt: out of memory\n"))


def test_output_that_fails(room: pathlib.Path) -> Iterator[str]:
    """It is told once, the rest goes on, and what is accepted is."""
    files(room, a_txt=BAD, b_txt=BAD)
    with open("/dev/full", "wb") as full:
        came = run(room, "--accept", ".", stdout=full)
    yield from differs("it", came, (4, b"", b"raftbench: the report could not be written\n"))
    if tree(room) != {"a.txt": ACCEPTED, "b.txt": ACCEPTED}:
        yield f"{tree(room)!r}"


def test_errors_that_fail(room: pathlib.Path) -> Iterator[str]:
    files(room, a_txt=GOOD)
    with open("/dev/full", "wb") as full:
        yield from differs("it", run(room, "nothing", "a.txt", stderr=full), (4, totals(1, 1, failed=1), b""))


def test_streams_that_are_closed(room: pathlib.Path) -> Iterator[str]:
    """A new file takes no stream's place."""
    for closed in (">&-", "2>&-", ">&- 2>&-", "<&- >&- 2>&-"):
        files(room, a_txt=BAD, b_txt=BAD)
        subprocess.run(["/bin/sh", "-c", f'exec "$0" check --accept . nothing {closed}', PROGRAM], cwd=room, capture_output=True, timeout=MOST_SECONDS)
        if tree(room) != {"a.txt": ACCEPTED, "b.txt": ACCEPTED}:
            yield f"{closed}: {tree(room)!r}"


def test_reader_that_goes(room: pathlib.Path) -> Iterator[str]:
    """With SIGPIPE ignored, which the shell of a pipeline may have done. Nobody is told: who goes has read enough."""
    files(room, a_txt=BAD, b_txt=BAD)
    given, taken = os.pipe()
    os.close(given)
    came = run(room, "--accept", ".", stdout=taken, preexec_fn=lambda: signal.signal(signal.SIGPIPE, signal.SIG_IGN), restore_signals=False)
    os.close(taken)
    yield from differs("it", came, (4, b"", b""))
    if tree(room) != {"a.txt": ACCEPTED, "b.txt": ACCEPTED}:
        yield f"{tree(room)!r}"


def test_refused_memory(room: pathlib.Path) -> Iterator[str]:
    """Each allocation refused in turn: what is told, counted or left is whole."""
    shim = room.parent / "refuse.so"
    subprocess.run(["cc", "-shared", "-fPIC", "-O2", "-o", shim, TESTS / "faults" / "refuse.c", "-ldl"], check=True)
    words = ("--accept", "--verbose", ".", "nothing")
    wanted: Answer | None = None
    for at in itertools.count(0):
        shutil.rmtree(room)
        room.mkdir()
        files(room, a_txt=BAD, deep__b_txt=GOOD)
        env = dict(os.environ, LD_PRELOAD=str(shim), REFUSE_AT=str(at)) if at else dict(os.environ)
        status, output, told = run(room, *words, env=env)
        met, told = b"refused\n" in told, told.replace(b"refused\n", b"", 1)
        wanted = wanted or (status, output, told)
        left = tree(room)
        if left not in ({"a.txt": BAD, "deep/b.txt": GOOD}, {"a.txt": ACCEPTED, "deep/b.txt": GOOD}):
            yield f"at {at}: {left!r}"
        if (status, output, told) != wanted and (status != 5 or b"out of memory\n" not in told):
            yield f"at {at}: {status} {output!r} {told!r}"
        if at and not met:
            break
    if at < 20 or not wanted or wanted[0] != 4:
        yield f"{at} refusals, and {wanted!r}"
