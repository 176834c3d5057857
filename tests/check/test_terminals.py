"""What `check` does on terminals: colours, highlights, questions, how far it is."""
import contextlib
import fcntl
import itertools
import os
import pathlib
import pty
import re
import resource
import select
import signal
import subprocess
import termios
import time
from collections.abc import Callable, Iterator, Sequence
from typing import Any

from tests.check.checking import ACCEPTED, BAD, GOOD, MOST_SECONDS, TIME, UNKNOWN, differs, files, mismatch, run, totals, tree
from tests.harness import PROGRAM


def on_terminal(room: pathlib.Path, *words: str, streams: tuple[str, ...] = ("stdout", "stderr"), env: dict[str, str] | None = None, call: Sequence[str] = ("check",)) -> tuple[int, bytes, float | None]:
    """The status, and what a terminal got, whose streams these are; with the seconds after which the first of it came."""
    master, slave = pty.openpty()
    how: dict[str, Any] = {"stdout": subprocess.DEVNULL, "stderr": subprocess.DEVNULL, **{name: slave for name in streams}}
    around = {name: value for name, value in os.environ.items() if name != "NO_COLOR"}
    start = time.monotonic()
    child = subprocess.Popen([str(PROGRAM), *call, *words], cwd=room, stdin=subprocess.DEVNULL, env={**around, **(env or {})}, **how)
    os.close(slave)
    got, end, first = b"", start + MOST_SECONDS, None
    while time.monotonic() < end:
        ready, _, _ = select.select([master], [], [], 1)
        if ready:
            with contextlib.suppress(OSError):
                more = os.read(master, 65536)
                first = first or time.monotonic() - start
                got += more
                if more:
                    continue
            break
        if child.poll() is not None:
            break
    os.close(master)
    return child.wait(timeout=MOST_SECONDS), TIME.sub(b"TIME\n", got.replace(b"\r\n", b"\n")), first


RED, GREEN, PLAIN = b"\x1b[31m", b"\x1b[32m", b"\x1b[0m"
COLORED = b"a.txt:1: log-level info\n" + RED + b"- no" + PLAIN + b"\n" + GREEN + b"+ ok" + PLAIN + b"\n\n"


def test_colors(room: pathlib.Path) -> Iterator[str]:
    """On a terminal, unless they are refused; on a pipe where they are asked for."""
    files(room, a_txt=BAD)
    end = totals(1, 1, 1)
    for name, came, wanted in [
        ("terminal", on_terminal(room, "a.txt")[:2], COLORED),
        ("never", on_terminal(room, "a.txt", "--color", "never")[:2], mismatch("a.txt")),
        ("auto", on_terminal(room, "a.txt", "--color=auto")[:2], COLORED),
        ("NO_COLOR", on_terminal(room, "a.txt", env={"NO_COLOR": "1"})[:2], mismatch("a.txt")),
        ("empty NO_COLOR", on_terminal(room, "a.txt", env={"NO_COLOR": ""})[:2], COLORED),
        ("always and NO_COLOR", on_terminal(room, "a.txt", "--color=always", env={"NO_COLOR": "1"})[:2], COLORED),
        ("errors alone", on_terminal(room, "a.txt", streams=("stderr",))[:2], None),
        ("pipe", run(room, "a.txt")[:2], mismatch("a.txt")),
        ("pipe, always", run(room, "a.txt", "--color=always")[:2], COLORED),
    ]:
        if came != (1, wanted + end if wanted else b""):
            yield f"{name}: {came!r}"


# What is expected in place of `ok`, and how the lines are shown beside one another, with what is highlighted between brackets.
HIGHLIGHTS = [
    ("no", "- no", "+ ok"),
    ("oh", "- o[h]", "+ o[k]"),
    ("okay", "- ok[ay]", "+ ok[]"),
    ("look", "- [lo]ok", "+ []ok"),
    ("ook", "- o[o]k", "+ o[]k"),
    ("ok ", "- ok[ ]$", "+ ok[]"),
    ("\u00e9k", "- [\u00e9]k", "+ [o]k"),
    ("oh\nok", "- oh", "  ok"),
    ("oh\nuk", "- oh", "- uk", "+ ok"),
]


def test_highlights(room: pathlib.Path) -> Iterator[str]:
    """With colours what differs in a line and in the one that it stands for, where there are as many of each; without colours nothing."""
    for expected, *lines in HIGHLIGHTS:
        files(room, a_txt=f"log-level info\n----\n{expected}\n".encode())
        plain, colored = b"a.txt:1: log-level info\n", b"a.txt:1: log-level info\n"
        for line in lines:
            bare, shown = line.replace("[", "").replace("]", ""), line.replace("[", "\x1b[7m").replace("]", "\x1b[27m")
            plain += bare.encode() + b"\n"
            colored += {"-": RED, "+": GREEN}.get(line[0], b"") + shown.encode() + (b"" if line[0] == " " else PLAIN) + b"\n"
        for words, wanted in [((), plain), (("--color=always",), colored)]:
            came = run(room, "a.txt", *words)[:2]
            if came != (1, wanted + b"\n" + totals(1, 1, 1)):
                yield f"{expected!r}, {words}: {came!r}"


QUESTION = b"accept this output? [y,n,a,s,q,?] "


def question(number: int, count: int) -> bytes:
    """The question about one of so many outputs."""
    return b"%d of %d: " % (number, count) + QUESTION


# An answer to a question: bytes to write, a function to call with the process, or a number of seconds to wait before the next answer.
Given = bytes | float | Callable[[subprocess.Popen[bytes]], object]


def asked_on(terminal: tuple[int, int], call: Sequence[str | pathlib.Path], room: pathlib.Path, answers: Sequence[Given], env: dict[str, str]) -> tuple[int, bytes]:
    """The status, and what a terminal got, of which these are both sides, and where each question is answered by the next of these."""
    master, slave = terminal

    def leads() -> None:
        # Whoever runs the tests may ignore them, and a shell can't hear what was ignored when it began.
        for ends in (signal.SIGHUP, signal.SIGINT, signal.SIGQUIT, signal.SIGTERM):
            signal.signal(ends, signal.SIG_DFL)
        os.setsid()
        fcntl.ioctl(0, termios.TIOCSCTTY, 0)
    child = subprocess.Popen(call, cwd=room, stdin=slave, stdout=slave, stderr=slave, preexec_fn=leads, env={**os.environ, **env})
    got, seen, left, start, end = b"", 0, list(answers), 0.0, time.monotonic() + MOST_SECONDS
    while time.monotonic() < end:
        is_over = child.poll() is not None
        ready, _, _ = select.select([master], [], [], 0.02)
        if ready:
            got += os.read(master, 65536)
        elif is_over:
            break
        if left and got[seen:].endswith(QUESTION) and time.monotonic() >= start:
            answer = left.pop(0)
            if isinstance(answer, float):
                start = time.monotonic() + answer
                continue
            seen = len(got)
            if isinstance(answer, bytes):
                os.write(master, answer)
            else:
                answer(child)
    if child.poll() is None and left:
        child.kill()
    return child.wait(timeout=MOST_SECONDS), TIME.sub(b"TIME\n", got.replace(b"\r\n", b"\n"))


@contextlib.contextmanager
def terminal(without: int = 0) -> Iterator[tuple[int, int]]:
    """Both sides of a terminal, without these of the local modes."""
    master, slave = pty.openpty()
    how = termios.tcgetattr(slave)
    how[3] &= ~without
    termios.tcsetattr(slave, termios.TCSANOW, how)
    yield master, slave
    os.close(slave)
    os.close(master)


def reviewed(room: pathlib.Path, answers: tuple[bytes, ...], *words: str, ends: bytes = b"") -> tuple[int, bytes]:
    """The status, and what a terminal got that answers each question by the next of these, and then by what ends it."""
    with terminal(without=termios.ECHO) as sides:
        lines = [*(answer + b"\n" for answer in answers), *([ends] if ends else [])]
        return asked_on(sides, [PROGRAM, "check", "--review", "--color=never", *words], room, lines, {})


def first(path: str, differ: int, directives: int, line: int = 1) -> bytes:
    return f"{path}: {differ} of {directives} differ, first at line {line}\n".encode()


def test_review(room: pathlib.Path) -> Iterator[str]:
    """What is said yes to is accepted, and the bytes of all else stay. Each question says which of how many it is, below the directive and the comment above that."""
    blocks = [b"# %d\r\n" % number + BAD.replace(b"\n", b"\r\n") for number in range(4)]
    text = b"\r\n".join(blocks)
    for answers in itertools.product((b"y", b"n"), repeat=4):
        (room / "a.txt").write_bytes(text)
        status, got = reviewed(room, answers, "a.txt")
        yes = answers.count(b"y")
        wanted = first("a.txt", 4, 4, 2) + b"".join(b"# %d\n" % number + mismatch("a.txt", 2 + 5 * number) + question(number + 1, 4) for number in range(4))
        wanted += (b"a.txt: accepted %d output%s\n" % (yes, b"s" * (yes != 1))) * (yes > 0) + totals(1, 4, 4 - yes, accepted=yes)
        due = b"\r\n".join(block.replace(b"no", b"ok") if answer == b"y" else block for block, answer in zip(blocks, answers))
        if (status, got) != (0 if yes == 4 else 1, wanted) or (room / "a.txt").read_bytes() != due:
            yield f"{answers}: {status} {got!r} {(room / 'a.txt').read_bytes()!r}"


def test_review_of_the_rest(room: pathlib.Path) -> Iterator[str]:
    """`a` accepts all that follow in the script, but new errors; the next script is asked about again. `q` leaves all that follow."""
    error = b"campain 1\n----\n"
    text = BAD + b"\n" + BAD + b"\n" + error + b"\n" + BAD
    for words, came, accepted in (((), error, 3), (("--accept-errors",), error + UNKNOWN + b"\n", 4)):
        files(room, a_txt=text, b_txt=text, c_txt=BAD)
        status, got = reviewed(room, (b"n", b"a", b"y", b"q"), *words, ".")
        wanted = {"a.txt": BAD + b"\n" + GOOD + b"\n" + came + b"\n" + GOOD, "b.txt": GOOD + b"\n" + BAD + b"\n" + error + b"\n" + BAD, "c.txt": BAD}
        if status != 1 or tree(room) != wanted or got.count(QUESTION) != 4 or b"c.txt" in got or quitted(accepted, 1) not in got:
            yield f"{words}: {status} {got!r} {tree(room)!r}"
    files(room, a_txt=error)
    if reviewed(room, (b"y",), "a.txt")[0] != 0 or (room / "a.txt").read_bytes() != error + UNKNOWN + b"\n":
        yield "an error that was said yes to is left"


def test_review_that_skips(room: pathlib.Path) -> Iterator[str]:
    """`s` leaves all that follow in the script, and the next script is asked about again; only `q` says that the review ends."""
    three = b"\n".join([BAD] * 3)
    files(room, a_txt=three, b_txt=BAD)
    status, got = reviewed(room, (b"y", b"s", b"y"), ".")
    wanted = {"a.txt": ACCEPTED + b"\n" + BAD + b"\n" + BAD, "b.txt": ACCEPTED}
    if status != 1 or tree(room) != wanted or b"ends here" in got:
        yield f"{status} {got!r} {tree(room)!r}"
    for asked in (question(1, 3), question(2, 3), question(1, 1)):
        if got.count(asked) != 1:
            yield f"{asked!r} in {got!r}"


def test_review_of_a_comment(room: pathlib.Path) -> Iterator[str]:
    """The comments directly above a directive are shown, and no other line above it."""
    files(room, a_txt=b"# far\n\n# near\n  # nearer\n" + BAD)
    status, got = reviewed(room, (b"q",), "a.txt")
    wanted = first("a.txt", 1, 1, 5) + b"# near\n  # nearer\n" + mismatch("a.txt", 5) + question(1, 1) + quitted(0, 0) + totals(1, 1, 1)
    if (status, got) != (1, wanted):
        yield f"{status} {got!r}"


def quitted(accepted: int, left: int) -> bytes:
    """What is said where a review ends before its end."""
    return b"the review ends here; accepted so far: %d; scripts not looked at: %d\n" % (accepted, left)


def test_review_that_is_asked_again(room: pathlib.Path) -> Iterator[str]:
    """By `?` and by all else; the end of the input is as `q`."""
    files(room, a_txt=BAD, b_txt=BAD)
    status, got = reviewed(room, (b"?", b"x", b"", b"yes", b" y "), ".", ends=b"\x04")
    if status != 1 or tree(room) != {"a.txt": ACCEPTED, "b.txt": BAD} or got.count(b"q  leaves this one and all that follow, and ends\n") != 4:
        yield f"{status} {got!r} {tree(room)!r}"


def test_review_that_is_broken_off(room: pathlib.Path) -> Iterator[str]:
    """By Ctrl-C: the scripts before have what was said yes to, and the one that is asked about is as it was."""
    two = BAD + b"\n" + BAD
    files(room, a_txt=two, b_txt=two)
    status, got = reviewed(room, (b"y", b"y", b"y"), ".", ends=b"\x03")
    if status != -signal.SIGINT or tree(room) != {"a.txt": ACCEPTED + b"\n" + ACCEPTED, "b.txt": two}:
        yield f"{status} {got!r} {tree(room)!r}"


def test_review_with_warnings(room: pathlib.Path) -> Iterator[str]:
    files(room, a_txt=BAD + b"log-level none\n")
    before = tree(room)
    status, got = reviewed(room, (), "a.txt")
    if status != 1 or QUESTION in got or b"a.txt: nothing was accepted, since it has warnings; --force accepts all the same\n" not in got or tree(room) != before:
        yield f"{status} {got!r}"
    if reviewed(room, (b"y",), "--force", "a.txt")[0] != 0 or tree(room) != {"a.txt": ACCEPTED}:
        yield f"forced: {tree(room)!r}"


def test_review_of_one(room: pathlib.Path) -> Iterator[str]:
    files(room, a_txt=BAD + b"\n" + BAD)
    status, got = reviewed(room, (b"y",), "a.txt:6")
    if status != 1 or got.count(QUESTION) != 1 or tree(room) != {"a.txt": BAD + b"\n" + ACCEPTED}:
        yield f"{status} {got!r} {tree(room)!r}"


def test_review_without_a_terminal(room: pathlib.Path) -> Iterator[str]:
    files(room, a_txt=BAD)
    told = b"raftbench: --review: it asks on a terminal, and standard input or output is none\n"
    yield from differs("pipe", run(room, "--review", "."), (2, b"", told))
    yield from differs("output alone", on_terminal(room, "--review", ".", streams=("stdout",))[:2], (2, b""))
    unseen = b"raftbench: --review: it shows what it asks about, so it goes with neither --quiet nor --format\n"
    for words in (("-q",), ("--format", "json"), ("--format=github",)):
        yield from differs(words, reviewed(room, (), *words, "."), (2, unseen))
    if tree(room) != {"a.txt": BAD}:
        yield f"{tree(room)!r}"


def test_sentences(room: pathlib.Path) -> Iterator[str]:
    """Of the calls whose one line is fixed a second line says more where somebody reads or the environment asks for it, and only there."""
    files(room, a_txt=GOOD)
    (room / "folder").mkdir()
    folder = b"folder: it is a folder, and not a script; raftbench check takes folders\n"
    usage, failed = b"raftbench: bad usage\n", b"raftbench: input or output failed\n"
    for words, status, line, more in [
        (("run",), 2, usage, b"FILE is missing: the file of a script\n"),
        (("run", "nothing"), 4, failed, b"nothing: No such file or directory (os error 2)\n"),
        (("run", "folder"), 4, failed, folder),
        (("rewrite", "folder"), 4, failed, folder),
        (("session", "folder"), 4, failed, folder),
        (("page", "folder"), 4, failed, folder),
        (("rewrite", "a.txt", "--every", "65"), 2, usage, b"--every 65: a number from 1 to 64\n"),
        (("run", "a.txt", "--every", "x"), 2, usage, b"--every x: a number from 1 to 64\n"),
        (("session", "-"), 2, usage, b"-: a session's commands come from standard input, so its script stands in a file\n"),
        ((), 2, usage, subprocess.run([PROGRAM, "--help"], stdout=subprocess.PIPE).stdout),
    ]:
        came = on_terminal(room, *words, streams=("stderr",), call=())[:2]
        if came != (status, line + more):
            yield f"{words}: {came!r}"
        done = subprocess.run([PROGRAM, *words], cwd=room, stdin=subprocess.DEVNULL, capture_output=True, timeout=MOST_SECONDS)
        if (done.returncode, done.stdout, done.stderr) != (status, b"", line):
            yield f"{words}, without a terminal: {done!r}"
        for asked in ("1", ""):
            around = {**os.environ, "RAFTBENCH_EXPLAIN": asked}
            done = subprocess.run([PROGRAM, *words], cwd=room, env=around, stdin=subprocess.DEVNULL, capture_output=True, timeout=MOST_SECONDS)
            if (done.returncode, done.stdout, done.stderr) != (status, b"", line + more if asked else line):
                yield f"{words}, with RAFTBENCH_EXPLAIN={asked}: {done!r}"


def long_work(room: pathlib.Path) -> int:
    """How many names of one script it takes for a check of some three seconds."""
    directives = 200
    (room / "0.txt").write_bytes((GOOD + b"\n") * directives)
    count = 1
    while True:
        start = time.monotonic()
        came = run(room, ".")
        took = time.monotonic() - start
        assert came == (0, totals(count, count * directives), b""), came
        if took > 3:
            return count
        for number in range(count, 2 * count):
            os.link(room / "0.txt", room / f"{number}.txt")
        count *= 2


def test_progress(room: pathlib.Path) -> Iterator[str]:
    """Where errors go to a terminal, and once the work has taken a second: one line, which changes again and again, ten times a second
    at most, and is gone at the end."""
    count = long_work(room)
    start = time.monotonic()
    status, got, first = on_terminal(room, ".", streams=("stderr",))
    whole = time.monotonic() - start
    line = rb"\r\x1b\[K(\d+) of %d scripts" % count
    done = [int(it) for it in re.findall(line, got)]
    if status != 0 or not done or re.sub(line, b"", got) != b"\r\x1b[K":
        yield f"{status} {got!r}"
    elif done != sorted(set(done)) or done[-1] >= count or not 3 <= len(done) <= 10 * whole:
        yield f"{done!r} in {whole} seconds"
    elif first is None or first < 1:
        yield f"it shows after {first} seconds how far it is"
    status, got, _ = on_terminal(room, ".", "nothing")
    if status != 4 or got != b"nothing: no such file or folder\n" + line_shown(got) + totals(count, count * 200, failed=1):
        yield f"on one terminal: {status} {got!r}"
    files(room, short__a_txt=GOOD)
    if on_terminal(room, "short", streams=("stderr",)) != (0, b"", None):
        yield "short work shows how far it is"


def piped(room: pathlib.Path, *words: str) -> tuple[int, bytes, bytes]:
    done = subprocess.run([PROGRAM, *words, "slow.txt"], cwd=room, stdin=subprocess.DEVNULL, capture_output=True, timeout=MOST_SECONDS)
    return done.returncode, TIME.sub(b"TIME\n", done.stdout), done.stderr


def slow_directive(room: pathlib.Path) -> bytes:
    """The last directive of a script of 4,107, which takes a processor some four seconds: two followers hand 4,096 proposals to and fro."""
    heads = ["add-nodes 2 voters=(1,2) index=10", "send-snapshot 1 2", "send-snapshot 2 1", "deliver-msgs 1 2", "log-level none", "process-ready 1 2", "deliver-msgs 1 2"]
    heads += ["propose 1 x"] * 4096
    rounds = 1
    while True:
        slow = f"stabilize rounds={rounds}"
        (room / "slow.txt").write_text("".join(f"{head}\n----\nok\n\n" for head in [*heads, *[slow] * 4]))
        before = resource.getrusage(resource.RUSAGE_CHILDREN).ru_utime
        assert piped(room, "run")[2] == b""
        if resource.getrusage(resource.RUSAGE_CHILDREN).ru_utime - before > 4 or rounds == 1000:
            return slow.encode()
        rounds = min(2 * rounds, 1000)


def test_directive_that_takes_long(room: pathlib.Path) -> Iterator[str]:
    """Where errors go to a terminal, a line names a directive that takes long, once the script has run for a second. It is gone before the report is written.
    Nothing of it goes into a pipe."""
    head = slow_directive(room)
    line = rb"\r\x1b\[K(\d+) of 4107: ([ -~]*?)(?=\r)"
    for call in (("run",), ("rewrite",), ("check",), ("check", "--why")):
        status, out, errors = piped(room, *call)
        if errors:
            yield f"{call} in pipes: {errors!r}"
        came, got, first = on_terminal(room, "slow.txt", streams=("stderr",), call=call)
        if came != status or re.sub(line, b"", got) != b"\r\x1b[K" or (b"4107", head) not in re.findall(line, got):
            yield f"{call}: {came} {got[-300:]!r}"
        elif first is None or first < 1:
            yield f"{call}: it shows after {first} seconds what runs"
        came, got, _ = on_terminal(room, "slow.txt", call=call, env={"NO_COLOR": "1"})
        if came != status or re.sub(line, b"", got) != b"\r\x1b[K" + out:
            yield f"{call} on one terminal: {came} {got[:300]!r}"
    (room / "slow.txt").write_bytes(GOOD)
    for name in ("run", "rewrite", "check"):
        if on_terminal(room, "slow.txt", streams=("stderr",), call=(name,))[1:] != (b"", None):
            yield f"{name}: a short run shows what runs"


def line_shown(got: bytes) -> bytes:
    """What is shown of how far the work is: lines over one another, and the last of them taken away."""
    shown = re.search(rb"(?:\r\x1b\[K\d+ of \d+ scripts)+\r\x1b\[K", got)
    return shown[0] if shown else b"nothing"


def test_terminal_that_closes(room: pathlib.Path) -> Iterator[str]:
    """The report's terminal is gone before anything is written, and a hangup is ignored, as under nohup."""
    files(room, a_txt=BAD, b_txt=BAD)
    master, slave = pty.openpty()
    child = subprocess.Popen(
        ["/bin/sh", "-c", 'read line; exec "$0" check --accept .', PROGRAM], cwd=room, stdin=subprocess.PIPE, stdout=slave, stderr=subprocess.PIPE,
        preexec_fn=lambda: signal.signal(signal.SIGHUP, signal.SIG_IGN), restore_signals=False)
    os.close(slave)
    os.close(master)
    _, told = child.communicate(b"\n", timeout=MOST_SECONDS)
    yield from differs("it", (child.returncode, b"", told), (4, b"", b"raftbench: the report could not be written\n"))
    if tree(room) != {"a.txt": ACCEPTED, "b.txt": ACCEPTED}:
        yield f"{tree(room)!r}"
