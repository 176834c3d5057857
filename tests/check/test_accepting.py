"""What `check --accept` writes, into which files, with which rights, and what stays as it was."""
import os
import pathlib
import stat
from collections.abc import Iterator

from tests.check.checking import ACCEPTED, BAD, GOOD, UNKNOWN, UNWRITTEN, as_nobody, differs, everyones, files, listed, mismatch, run, totals, tree
from tests.harness import NotHere


def test_what_is_accepted(room: pathlib.Path) -> Iterator[str]:
    """The new text is the old one with other expectations, and matches; rights stay; a link stays one; what matches isn't touched."""
    files(room, a_txt=b"# a\r\n" + BAD.replace(b"\n", b"\r\n"), far__b_txt=BAD, c_txt=b"# c\r\n" + GOOD.replace(b"\n", b"\r\n"), d_txt=b"campaign 1\n")
    (room / "a.txt").chmod(0o640)
    (room / "far" / "b.txt").chmod(0o4755)
    (room / "link.txt").symlink_to("far/b.txt")
    (room / "near").mkdir()
    (room / "near" / "again.txt").symlink_to("../link.txt")
    written = {"a.txt": b"# a\r\n" + GOOD.replace(b"\n", b"\r\n"), "far/b.txt": GOOD}
    untouched = (room / "c.txt").stat()
    came = run(room, "--accept", "a.txt", "near", "c.txt", "d.txt")
    refusal = b"d.txt:1: no line ---- follows"
    if came[0] != 3 or refusal not in came[1] or came[2]:
        yield f"{came!r}"
    if not came[1].startswith(mismatch("a.txt", 2) + b"a.txt: accepted 1 output\n" + mismatch("near/again.txt") + b"near/again.txt: accepted 1 output\n"):
        yield f"{came!r}"
    if not came[1].endswith(totals(4, 3, refused=1, accepted=2)):
        yield f"{came!r}"
    for name, text in written.items():
        if (room / name).read_bytes() != text:
            yield f"{name} is {(room / name).read_bytes()!r}, and not {text!r}"
    if os.readlink(room / "link.txt") != "far/b.txt" or not (room / "near" / "again.txt").is_symlink():
        yield "a link is none any more"
    rights = [stat.S_IMODE((room / name).stat().st_mode) for name in ("a.txt", "far/b.txt")]
    if rights != [0o640, 0o4755]:
        yield f"rights {[oct(it) for it in rights]}"
    after = (room / "c.txt").stat()
    if (untouched.st_ino, untouched.st_mtime_ns, untouched.st_ctime_ns) != (after.st_ino, after.st_mtime_ns, after.st_ctime_ns):
        yield "what matches was touched"
    if (room / "d.txt").read_bytes() != b"campaign 1\n" or len(tree(room)) != 6:
        yield f"{tree(room)!r}"
    yield from differs("again", run(room, "a.txt", "near", "c.txt"), (0, totals(3, 3), b""))


def test_accepting_keeps_bytes(room: pathlib.Path) -> Iterator[str]:
    """All but the lines of an expectation that changes stays as it is, and the file ends as it ended."""
    for number, (text, wanted) in enumerate([
        (b"log-level info\n----\nno\n", b"log-level info\n----\nok\n"),
        (b"log-level info\n----\nno", b"log-level info\n----\nok"),
        (b"log-level info\n----", b"log-level info\n----\nok"),
        (b"log-level info\n----\nno\n\n\n", b"log-level info\n----\nok\n\n\n"),
        (b"log-level info\r\n----\r\nno\r\nno\r\n", b"log-level info\r\n----\r\nok\r\n"),
        (b"log-level info\r\n----\r\nno", b"log-level info\r\n----\r\nok"),
        (b"\t log-level   \\\n info\t\n ---- \nno\n# expected\n", b"\t log-level   \\\n info\t\n ---- \nok\n"),
        (b"# one\n\n\n\nlog-level info\n----\n\n\n\n# two\r\n\r\nlog-level none\r\n----\r\n\n# three",
         b"# one\n\n\n\nlog-level info\n----\nok\n\n\n\n# two\r\n\r\nlog-level none\r\n----\r\nok\r\n\n# three"),
        (b"log-level info\n----\n----\nno\n\nno\n----\n----\n# behind", b"log-level info\n----\n----\nok\n----\n----\n# behind"),
    ]):
        (room / "a.txt").write_bytes(text)
        run(room, "--accept", "a.txt")
        came = (room / "a.txt").read_bytes()
        if came != wanted:
            yield f"{number}: {came!r}, and not {wanted!r}"
        if run(room, "a.txt")[0] != 0:
            yield f"{number}: it doesn't match"


THREE = b"# one\r\n\r\nlog-level info\r\n----\r\nno\r\n\r\n\r\n# two\n log-level \\\n none\n----\n----\nno\n\nno\n----\n----\n\nlog-level info\n----\nno"


def test_accepting_one(room: pathlib.Path) -> Iterator[str]:
    """By each line from its head on, up to the next head; the bytes of the others stay."""
    for lines, old, new in [(range(3, 9), b"----\r\nno\r\n", b"----\r\nok\r\n"), (range(9, 19), b"no\n\nno\n", b"ok\n"), ((19, 20, 21, 99), b"info\n----\nno", b"info\n----\nok")]:
        for line in lines:
            (room / "a.txt").write_bytes(THREE)
            status, output, told = run(room, "--accept", f"a.txt:{line}")
            if (status, told) != (1, b"") or b"a.txt: accepted 1 output\n" not in output or not output.endswith(totals(1, 3, 2, accepted=1)):
                yield f"{line}: {status} {told!r} {output!r}"
            if (room / "a.txt").read_bytes() != THREE.replace(old, new):
                yield f"{line}: {(room / 'a.txt').read_bytes()!r}"
    first, third = THREE.replace(b"----\r\nno\r\n", b"----\r\nok\r\n"), THREE.replace(b"info\n----\nno", b"info\n----\nok")
    both, every = first.replace(b"info\n----\nno", b"info\n----\nok"), first.replace(b"info\n----\nno", b"info\n----\nok").replace(b"no\n\nno\n", b"ok\n")
    (room / "link.txt").symlink_to("a.txt")
    for words, wanted in [(("a.txt:19", "a.txt:3"), both), (("a.txt:3", "./a.txt:19"), both), (("./a.txt:19", "a.txt:3"), both), (("a.txt:3", "link.txt:19"), both),
                          ((str(room / "a.txt:19"), "a.txt:3"), both), (("a.txt:19", "./a.txt"), every), (("./a.txt:3", "b.txt:19"), first), (("b.txt:3", "a.txt:19"), third)]:
        (room / "a.txt").write_bytes(THREE)
        (room / "b.txt").unlink(missing_ok=True)
        if any(word.startswith("b") for word in words):
            (room / "b.txt").hardlink_to(room / "a.txt")
        came = run(room, "--accept", *words)
        if came[0] != (0 if wanted == every else 1) or came[2] or (room / "a.txt").read_bytes() != wanted:
            yield f"{words}: {came!r} {(room / 'a.txt').read_bytes()!r}"


def test_accepting_many(room: pathlib.Path) -> Iterator[str]:
    """However many directives a script has, and of more than one script at once."""
    few, many = 3, 250
    files(room, a_txt=b"\n".join([BAD] * many), b_txt=b"\n".join([BAD] * few))
    status, output, told = run(room, "--accept", "a.txt", "b.txt:5")
    if status != 1 or told or not output.endswith(totals(2, few + many, few - 1, accepted=many + 1)):
        yield f"{status} {told!r} {output[-200:]!r}"
    if tree(room) != {"a.txt": b"\n".join([GOOD] * many), "b.txt": b"\n".join([BAD, GOOD, BAD])}:
        yield f"{tree(room)!r}"


def test_accepting_one_that_matches(room: pathlib.Path) -> Iterator[str]:
    files(room, a_txt=GOOD + b"\n" + BAD)
    note = b"a.txt:1: there is nothing to accept: the output is the expected one\n"
    before = (room / "a.txt").stat().st_ino
    yield from differs("it", run(room, "--accept", "a.txt:2"), (1, mismatch("a.txt", 5) + note + totals(1, 2, 1), b""))
    if (room / "a.txt").stat().st_ino != before:
        yield "the script was written"
    yield from differs("both", run(room, "--accept", "a.txt:2", "a.txt:5"), (0, mismatch("a.txt", 5) + note + b"a.txt: accepted 1 output\n" + totals(1, 2, accepted=1), b""))
    yield from differs("all", run(room, "--accept", "a.txt:2"), (0, note + totals(1, 2), b""))


def test_accepting_one_that_is_not_there(room: pathlib.Path) -> Iterator[str]:
    files(room, a_txt=b"# none here\n" + BAD, b__c_txt=BAD)
    before = tree(room)
    for word, told in [("a.txt:1", UNWRITTEN + b"a.txt: no directive stands at the line or above it\n"), ("a.txt:0", UNWRITTEN + b"a.txt: no directive stands at the line or above it\n"),
                       ("d.txt:1", b"d.txt:1: no such file or folder\n"), ("b:1", b"b:1: no such file or folder\n"), ("a.txt:x", b"a.txt:x: no such file or folder\n"),
                       ("a.txt:", b"a.txt:: no such file or folder\n")]:
        status, _, came = run(room, "--accept", word)
        if status != 4 or not came.startswith(told) or tree(room) != before:
            yield f"{word}: {status} {came!r}"
    yield from differs("without --accept", run(room, "a.txt:2"), (1, mismatch("a.txt", 2) + totals(1, 1, 1), b""))
    yield from differs("above it", run(room, "a.txt:1"), (4, totals(0, 0, failed=1), b"a.txt: no directive is at this line or above it\n"))
    yield from differs("no file", run(room, "d.txt:1"), (4, b"", None))


def test_a_name_that_ends_in_a_line(room: pathlib.Path) -> Iterator[str]:
    """Where it is there, it is that file."""
    files(room, a_txt=BAD)
    (room / "a.txt:1").write_bytes(BAD)
    yield from differs("it", run(room, "--accept", "a.txt:1"), (0, mismatch("a.txt:1") + b"a.txt:1: accepted 1 output\n" + totals(1, 1, accepted=1), b""))
    if tree(room) != {"a.txt": BAD, "a.txt:1": ACCEPTED}:
        yield f"{tree(room)!r}"


def test_accepting_one_error(room: pathlib.Path) -> Iterator[str]:
    """A new error is left, unless errors are asked for; what isn't named isn't told."""
    text = b"campain 1\n----\n\ncampain 2\n----\n"
    files(room, a_txt=text)
    status, output, _ = run(room, "--accept", "a.txt:4")
    left = [line for line in output.split(b"\n") if line.endswith(b" was not accepted")]
    if status != 1 or left != [b'a.txt:4: campain 2: error: unknown directive "campain" was not accepted'] or (room / "a.txt").read_bytes() != text:
        yield f"{status} {output!r}"
    run(room, "--accept-errors", "a.txt:4")
    if (room / "a.txt").read_bytes() != text + UNKNOWN + b"\n":
        yield f"{(room / 'a.txt').read_bytes()!r}"


def test_owner_stays(room: pathlib.Path) -> Iterator[str]:
    if os.geteuid() != 0:
        raise NotHere("no file can be given away")
    files(room, a_txt=BAD)
    os.chown(room / "a.txt", 1234, 2345)
    (room / "a.txt").chmod(0o4640)
    run(room, "--accept", "a.txt")
    now = (room / "a.txt").stat()
    if (now.st_uid, now.st_gid, stat.S_IMODE(now.st_mode)) != (1234, 2345, 0o4640) or (room / "a.txt").read_bytes() != ACCEPTED:
        yield f"{now}"


def test_without_permission(room: pathlib.Path) -> Iterator[str]:
    """A folder that may not be listed, one that may not be entered, and a script that may not be read; the rest goes on."""
    files(room, a__a_txt=GOOD, b__b_txt=GOOD, c_txt=GOOD, d_txt=GOOD)
    program = everyones(room)
    (room / "a").chmod(0o311)
    (room / "b").chmod(0o744)
    (room / "c.txt").chmod(0o000)
    no = b": there is no permission to read it\n"
    try:
        if os.geteuid() != 0:
            (room / "b").chmod(0o400)
            (room / "a").chmod(0o100)
        came = run(room, ".", program=program, preexec_fn=as_nobody())
    finally:
        for name in ("a", "b"):
            (room / name).chmod(0o755)
    yield from differs("it", came, (4, totals(1, 1, failed=3), b"./a" + no + b"./b/b.txt" + no + b"./c.txt" + no))


def test_accepting_without_permission(room: pathlib.Path) -> Iterator[str]:
    """A folder that may not be written into, and a script that may not be."""
    files(room, a__a_txt=BAD, b__b_txt=BAD)
    program = everyones(room)
    if os.geteuid() == 0:
        os.chown(room / "b", 65534, 65534)
    (room / "a").chmod(0o555)
    (room / "a" / "a.txt").chmod(0o666)
    (room / "b" / "b.txt").chmod(0o444)
    before = tree(room)
    came = run(room, "--accept", ".", program=program, preexec_fn=as_nobody())
    (room / "a").chmod(0o755)
    told = b"".join(UNWRITTEN.replace(b"a.txt", name) + name + b": Permission denied (os error 13)\n" for name in (b"./a/a.txt", b"./b/b.txt"))
    yield from differs("it", came, (4, mismatch("./a/a.txt") + mismatch("./b/b.txt") + listed("./a/a.txt", "./b/b.txt") + totals(2, 2, 2, failed=2), told))
    if tree(room) != before:
        yield f"{tree(room)!r}"


def test_names_that_are_taken(room: pathlib.Path) -> Iterator[str]:
    """A new file has a name of its own, whatever lies about."""
    files(room, a_txt=BAD)
    (room / ".raftbench-0.new").write_bytes(b"not mine")
    (room / ".raftbench-1.new").symlink_to("a.txt")
    came = run(room, "--accept", ".")
    yield from differs("it", came, (0, mismatch("./a.txt") + b"./a.txt: accepted 1 output\n" + totals(1, 1, accepted=1), b""))
    if tree(room) != {"a.txt": ACCEPTED, ".raftbench-0.new": b"not mine", ".raftbench-1.new": "-> a.txt"}:
        yield f"{tree(room)!r}"


def test_a_thousand_names_are_tried(room: pathlib.Path) -> Iterator[str]:
    """The last of them is taken; where each lies about already, that is told and the script stays."""
    files(room, a_txt=BAD)
    for number in range(999):
        (room / f".raftbench-{number}.new").write_bytes(b"")
    came = run(room, "--accept", "a.txt")
    yield from differs("it", came, (0, mismatch("a.txt") + b"a.txt: accepted 1 output\n" + totals(1, 1, accepted=1), b""))
    if (room / "a.txt").read_bytes() != ACCEPTED or len(tree(room)) != 1000:
        yield "the script hasn't the accepted text, or a new file is left"
    files(room, a_txt=BAD)
    (room / ".raftbench-999.new").write_bytes(b"")
    status, _, told = run(room, "--accept", "a.txt")
    why = b"a.txt: its folder has all of .raftbench-0.new to .raftbench-999.new; remove them\n"
    if (status, told) != (4, UNWRITTEN + why) or (room / "a.txt").read_bytes() != BAD or len(tree(room)) != 1001:
        yield f"with no name left: {status}, {told!r}"
