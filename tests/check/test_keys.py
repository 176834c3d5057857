"""Reviews where a key is an answer: by editors/review, which sets the terminal's mode and puts it back, and by the program alone on a terminal that gives
each key at once.
"""
import itertools
import os
import pathlib
import re
import signal
import subprocess
import termios
from collections.abc import Callable, Iterator, Sequence

from tests.check.checking import ACCEPTED, BAD, MOST_SECONDS, files, tree
from tests.check.test_terminals import QUESTION, Given, asked_on, question, quitted, reviewed, terminal
from tests.harness import PROGRAM, TOP

REVIEW = TOP / "editors/review"
TWO = BAD + b"\n" + BAD
HELP = b"y  accepts this output\n"
# Soon after a key that is no answer none is one.
APART = 0.3
# A long text may still come when the first of these does.
ENDS: tuple[Given, ...] = (APART, b"q") * 5
KEYS = {"RAFTBENCH_KEYS": "1"}
TRIES = 8


def by_key(room: pathlib.Path, keys: Sequence[Given], *words: str, call: Sequence[str | pathlib.Path] = (REVIEW,)) -> tuple[int, bytes]:
    """The status, and what a terminal got where each question is answered by the next of these. The terminal has to be as before at the end."""
    with terminal() as sides:
        before = termios.tcgetattr(sides[1])
        came = asked_on(sides, [*call, "--color=never", *words], room, keys, {"RAFTBENCH": str(PROGRAM)})
        assert termios.tcgetattr(sides[1]) == before, f"{keys}: the terminal is in another mode"
    return came


def by_program(room: pathlib.Path, keys: Sequence[Given], *words: str) -> tuple[int, bytes]:
    """The same by the program alone, on a terminal that gives each key at once and shows none."""
    with terminal(without=termios.ICANON | termios.ECHO) as sides:
        return asked_on(sides, [PROGRAM, "check", "--review", "--color=never", *words], room, keys, KEYS)


Way = Callable[..., tuple[int, bytes]]
WAYS: dict[str, Way] = {"by editors/review": by_key, "by the program alone": by_program}


def put(room: pathlib.Path) -> None:
    files(room, a_txt=TWO, b_txt=BAD)


def apart(keys: Sequence[bytes]) -> list[Given]:
    """These keys, with a while after each that is no answer."""
    given: list[Given] = []
    for key in keys:
        given += [key] if key in (b"y", b"n", b"a", b"s", b"q") else [key, APART]
    return given


def lines_of(keys: Sequence[bytes], got: bytes) -> bytes:
    """What a terminal gets that shows each key and an end of a line behind its question, where it shows none."""
    left = list(keys)
    return re.sub(re.escape(QUESTION), lambda found: found[0] + (left.pop(0) + b"\n" if left else b""), got)


def test_a_key_is_an_answer(room: pathlib.Path) -> Iterator[str]:
    """Without Enter it does what it does with Enter, and is shown with the end of its line."""
    for keys in itertools.product((b"y", b"n", b"a", b"s", b"q", b"?", b"x"), repeat=2):
        answers = (*keys, b"n", b"q")
        put(room)
        status, got = reviewed(room, answers, ".")
        wanted = status, lines_of(answers, got), tree(room)
        for name, way in WAYS.items():
            put(room)
            came = (*way(room, apart(answers), "."), tree(room))
            if came != wanted:
                yield f"{keys}, {name}: {came!r}, and not {wanted!r}"


def test_a_failed_read_of_a_key_ends_a_review(room: pathlib.Path) -> Iterator[str]:
    """Standard input is the terminal, opened for writing alone."""
    put(room)
    before = tree(room)
    with terminal(without=termios.ICANON | termios.ECHO) as sides:
        unreadable = os.open(os.ttyname(sides[1]), os.O_WRONLY | os.O_NOCTTY)
        done = subprocess.run([PROGRAM, "check", "--review", "--color=never", "a.txt"], cwd=room, env=dict(os.environ, **KEYS),
                              stdin=unreadable, stdout=sides[1], stderr=subprocess.PIPE, timeout=MOST_SECONDS)
        os.close(unreadable)
    if (done.returncode, done.stderr, tree(room)) != (1, b"", before):
        yield f"{done.returncode} {done.stderr!r} {tree(room)!r}"


# Arrow and function keys, a key with Alt, a letter that isn't ASCII, texts that are pasted, and Enter.
NO_ANSWERS = [b"\x1b[A", b"\x1bOq", b"\x1b[a", b"\x1b[15~", b"\x1by", b"\x1b", "\u00e9".encode(), b"yyyy", b"y\n", b"ya", b"y" * 4000, b"Y", b" ", b"\n", b"\t", b"\0", b"\x7f", b"\xff"]


def test_no_other_key_is_an_answer(room: pathlib.Path) -> Iterator[str]:
    """Nothing of several bytes that come together is one: help follows, with nothing but the end of a line behind the question. A long text comes in parts."""
    for keys in NO_ANSWERS:
        for name, way in WAYS.items():
            put(room)
            before = tree(room)
            status, got = way(room, (keys, *ENDS), "a.txt")
            shown = keys if keys == b"Y" else b""
            if status != 1 or not 1 <= got.count(HELP) <= len(keys) / 4 + 1 or question(1, 2) + shown + b"\n" + HELP not in got or tree(room) != before:
                yield f"{keys[:20]!r}, {name}: {status} {got[-2000:]!r} {tree(room)!r}"


def test_what_follows_at_once_is_no_answer(room: pathlib.Path) -> Iterator[str]:
    """As the last letter of a text that is pasted, or of an escape sequence that comes in parts. Where the machine is busy the second may come too late, so
    this is tried more than once."""
    for way in WAYS.values():
        for first, last in ((b"\x1b", b"y"), (b"yyy", b"y"), (b"\x1bO", b"q"), (b"x", b"\x04")):
            for _ in range(TRIES):
                put(room)
                status, got = way(room, (first, last, APART, b"n", *ENDS), "a.txt")
                if status == 1 and got.count(HELP) == 2 and got.count(QUESTION) == 4 and tree(room)["a.txt"] == TWO:
                    break
            else:
                yield f"{first!r}, {last!r}: {status} {got!r} {tree(room)!r}"


def test_end_of_the_input(room: pathlib.Path) -> Iterator[str]:
    """By Ctrl-D, which such a terminal gives as a key, and where the input has ended."""
    for name, way in WAYS.items():
        put(room)
        status, got = way(room, (b"y", b"\x04"), ".")
        if status != 1 or question(2, 2) + b"\n./a.txt: accepted 1 output\n" + quitted(1, 1) not in got or tree(room) != {"a.txt": ACCEPTED + b"\n" + BAD, "b.txt": BAD}:
            yield f"{name}: {status} {got!r} {tree(room)!r}"
    put(room)
    with terminal(without=termios.ECHO) as sides:
        status, got = asked_on(sides, [PROGRAM, "check", "--review", "--color=never", "."], room, (b"\x04",), KEYS)
    if status != 1 or question(1, 2) + quitted(0, 1) not in got or tree(room) != {"a.txt": TWO, "b.txt": BAD}:
        yield f"no more input: {status} {got!r}"


def test_signals_end_a_review(room: pathlib.Path) -> Iterator[str]:
    """By Ctrl-C or another signal: the script that is asked about is as it was, and the terminal as before."""
    def given(name: signal.Signals) -> Given:
        return lambda child: child.send_signal(name)
    for ends, by in [(b"\x03", signal.SIGINT), (b"\x1c", signal.SIGQUIT), *((given(name), name) for name in (signal.SIGINT, signal.SIGTERM, signal.SIGHUP))]:
        files(room, a_txt=TWO, b_txt=TWO)
        status, got = by_key(room, (b"y", b"y", b"y", ends), ".")
        if status != -by or tree(room) != {"a.txt": ACCEPTED + b"\n" + ACCEPTED, "b.txt": TWO}:
            yield f"{by.name}, {ends!r}: {status} {got!r} {tree(room)!r}"


def test_stops_and_continues(room: pathlib.Path) -> Iterator[str]:
    """By Ctrl-Z in a shell: while it is stopped the terminal is as before, and then it asks again, and a key is an answer."""
    files(room, a_txt=BAD)
    shell = 'stty -g >before; "$@" --color=never a.txt; stty -g >stopped; fg >told'
    with terminal() as sides:
        call: list[str | pathlib.Path] = ["sh", "-mc", shell, "sh", REVIEW]
        status, got = asked_on(sides, call, room, (b"?", b"\x1a", APART, b"y"), {"RAFTBENCH": str(PROGRAM)})
    left = tree(room)
    if status != 0 or left["a.txt"] != ACCEPTED or left["before"] != left["stopped"] or got.count(QUESTION) != 3:
        yield f"{status} {got!r} {left!r}"


def test_status_is_given_on(room: pathlib.Path) -> Iterator[str]:
    """And without a terminal the program says why it doesn't ask."""
    refused = b"add-nodes 1\n"
    for keys, words, wanted in [((b"y",), ("a.txt",), 0), ((b"n",), ("a.txt",), 1), ((), ("-q", "a.txt"), 2), ((), ("bad.txt",), 3), ((), ("nothing",), 4), ((b"y",), ("--", "-.txt"), 0)]:
        files(room, a_txt=BAD, bad_txt=refused)
        (room / "-.txt").write_bytes(BAD)
        status, got = by_key(room, keys, *words)
        if status != wanted:
            yield f"{keys}, {words}: {status} {got!r}"
