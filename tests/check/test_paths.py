"""Which scripts `check` finds: links, folders, what is no file, names that are no text, what is ignored."""
import os
import pathlib
import socket
from collections.abc import Callable, Iterator

from tests.check.checking import ACCEPTED, BAD, GOOD, as_nobody, differs, everyones, files, mismatch, run, totals, tree


def test_each_once(room: pathlib.Path) -> Iterator[str]:
    """Whatever paths and links lead to it; loops of folders end."""
    files(room, a_txt=GOOD, deep__b_txt=GOOD)
    (room / "c.txt").symlink_to("a.txt")
    (room / "deep" / "back").symlink_to("..")
    (room / "other").symlink_to("deep")
    came = run(room, ".", "a.txt", "deep", "./deep/../a.txt", "c.txt", "other", room / "a.txt")
    yield from differs("it", came, (0, totals(2, 2), b""))


def test_names_by_hard_links_are_two_scripts(room: pathlib.Path) -> Iterator[str]:
    files(room, a_txt=BAD)
    os.link(room / "a.txt", room / "b.txt")
    came = run(room, "--accept", ".")
    yield from differs("it", came, (0, None, b""))
    if tree(room) != {"a.txt": ACCEPTED, "b.txt": ACCEPTED}:
        yield f"{tree(room)!r}"


def test_links_that_lead_nowhere(room: pathlib.Path) -> Iterator[str]:
    """Loops, and a link to nothing; those that would be no scripts and lead to nothing are passed over."""
    files(room, z_txt=GOOD)
    (room / "a.txt").symlink_to("b.txt")
    (room / "b.txt").symlink_to("a.txt")
    (room / "c").symlink_to("c")
    (room / "d.txt").symlink_to("nothing")
    (room / "e").symlink_to("nothing")
    loop = b": its links lead round in a loop\n"
    told = b"./a.txt" + loop + b"./b.txt" + loop + b"./c" + loop + b"./d.txt: no such file or folder\n"
    yield from differs("it", run(room, "."), (4, totals(1, 1, failed=4), told))


def test_links_in_a_row(room: pathlib.Path) -> Iterator[str]:
    """40 are followed, as the system follows them, and no more."""
    files(room, row__0=BAD, z_txt=GOOD)
    for number in range(1, 41):
        (room / "row" / str(number)).symlink_to(str(number - 1))
    (room / "row" / "41.txt").symlink_to("40")
    yield from differs("41", run(room, "row"), (4, b"", b"row/41.txt: its links lead round in a loop\nraftbench: no script was found\n"))
    yield from differs("40", run(room, "--accept", "row/40"), (0, mismatch("row/40") + b"row/40: accepted 1 output\n" + totals(1, 1, accepted=1), b""))
    if (room / "row" / "0").read_bytes() != ACCEPTED or len(list((room / "row").iterdir())) != 42:
        yield f"{tree(room)!r}"


def test_files_of_no_told_size(room: pathlib.Path) -> Iterator[str]:
    """A file of /proc that says that it has no bytes (proc(5)) is a failure, and not waited for: never an empty script."""
    for path in ("/proc/kmsg", "/proc/version", "/proc/self/mem"):
        if os.access(path, os.R_OK):
            yield from differs(path, run(room, path), (4, totals(0, 0, failed=1), path.encode() + b": it is neither a file nor a folder\n"))


def test_what_is_no_file(room: pathlib.Path) -> Iterator[str]:
    """Pipes, sockets and devices are not waited for."""
    files(room, z_txt=GOOD)
    os.mkfifo(room / "a.txt")
    os.mkfifo(room / "b")
    with socket.socket(socket.AF_UNIX) as end:
        here = os.getcwd()
        os.chdir(room)
        try:
            end.bind("c.txt")
        finally:
            os.chdir(here)
        (room / "d.txt").symlink_to("/dev/zero")
        came = run(room, ".", "/dev/null", "b")
    kinds = ((b"./a.txt", b"pipe"), (b"./c.txt", b"socket"), (b"./d.txt", b"device"), (b"/dev/null", b"device"), (b"b", b"pipe"))
    told = b"".join(name + b": it is a " + kind + b", neither a file nor a folder\n" for name, kind in kinds)
    yield from differs("it", came, (4, totals(1, 1, failed=5), told))


def test_names_that_are_no_text(room: pathlib.Path) -> Iterator[str]:
    files(room, z_txt=GOOD)
    (pathlib.Path(os.fsdecode(bytes(room) + b"/caf\xe9.txt"))).write_bytes(BAD)
    yield from differs("folder", run(room, "."), (4, totals(1, 1, failed=1), b"./caf\\xe9.txt: it could not be read\n"))
    yield from differs("word", run(room, b"caf\xe9.txt"), (2, b"", b"raftbench: bad usage\n"))


def test_what_is_ignored_is_no_file(room: pathlib.Path) -> Iterator[str]:
    """Where what a folder ignores can't be read, nothing of the folder is looked at."""
    files(room, a__a_txt=GOOD, b_txt=GOOD)
    names = room / "a" / ".raftbenchignore"
    ways: list[tuple[Callable[[], None], bytes]] = [
        (lambda: os.mkfifo(names), b"it is neither a file nor a folder"),
        (lambda: names.symlink_to("/dev/zero"), b"it is neither a file nor a folder"),
        (lambda: names.symlink_to(names.name), b"its links lead round in a loop"),
    ]
    for make, why in ways:
        make()
        yield from differs(why, run(room, "."), (4, totals(1, 1, failed=1), b"./a/.raftbenchignore: " + why + b"\n"))
        names.unlink()
    names.symlink_to("nothing")
    yield from differs("a link to nothing", run(room, "."), (0, totals(2, 2), b""))


def test_what_is_ignored_has_a_limit(room: pathlib.Path) -> Iterator[str]:
    """A file .raftbenchignore may have 1,048,576 bytes."""
    most = 1_048_576
    files(room, a_txt=GOOD, b__b_txt=GOOD, b___raftbenchignore=b"#" * (most - 1) + b"\n")
    yield from differs("at the limit", run(room, "."), (0, totals(2, 2), b""))
    (room / "b" / ".raftbenchignore").write_bytes(b"#" * most + b"\n")
    told = b"./b/.raftbenchignore: it could not be read\n./b/.raftbenchignore: it has more than 1,048,576 bytes\n"
    yield from differs("past the limit", run(room, "."), (4, totals(1, 1, failed=1), told))


def test_what_is_ignored_without_permission(room: pathlib.Path) -> Iterator[str]:
    files(room, a__a_txt=GOOD, a___raftbenchignore=b"a.txt\n", b_txt=GOOD)
    program = everyones(room)
    (room / "a" / ".raftbenchignore").chmod(0)
    came = run(room, ".", program=program, preexec_fn=as_nobody())
    yield from differs("it", came, (4, totals(1, 1, failed=1), b"./a/.raftbenchignore: there is no permission to read it\n"))


def test_folders_by_names_that_are_no_text(room: pathlib.Path) -> Iterator[str]:
    """The folder where it runs may have any name."""
    inner = pathlib.Path(os.fsdecode(bytes(room) + b"/caf\xe9"))
    inner.mkdir()
    files(inner, a_txt=BAD)
    yield from differs("it", run(inner, "--accept", "."), (0, None, b""))
    if tree(inner) != {"a.txt": ACCEPTED}:
        yield f"{tree(inner)!r}"
