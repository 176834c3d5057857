"""Scripts that tests of pages are made of: the tour, a mismatch, texts that would act, messages that are lost, 32 nodes, 20,000 directives."""
from __future__ import annotations

import functools

from plain.script import read_script
from tests.harness import TOP
from tests.page.assemble import parts
from tests.page.plain_steps import EVENTS_TOO, json_text, rows_of

TOUR = sorted((TOP / "examples" / "tour").glob("*.txt"))
PAYLOADS = [
    b"</script><script>alert`1`</script>", b"<!--<script>", b"\"'><svg/onload>", b"&lt;b&gt;", b"${alert`2`}\\u003c", bytes(range(128, 256)),
    "ключ\u202e日本語".encode(), b"\xf0\x9f\x98\x80" * 256, b"x" * 1024,
]
HOSTILE = b"".join([
    b"# <img src=x onerror=alert(3)> </script><script>alert(4)</script>\n",
    b"add-nodes 3 voters=(1,2,3) index=10 content=</script><script>alert`5`</script>\n----\n\ncampaign 1\n----\n\nstabilize\n----\n\n",
    *(b"propose 1 " + payload + b"\n----\n\n" for payload in PAYLOADS),
    b"stabilize\n----\n\nraft-log 2\n----\n----\n</script><script>alert(6)</script>\n\n<b>no</b>\n----\n----\n\n",
])
ALL = ",".join(map(str, range(1, 33))).encode()
MANY = b"add-nodes 32 voters=(" + ALL + b") index=10\n----\n\ncampaign 1\n----\n\nstabilize\n----\n\npropose 1 hello\n----\n\nstabilize\n----\n\n"
ROUND = b"propose 1 value\n----\nok\n\nstabilize\n----\nok\n\n"
BEFORE = b"log-level none\n----\nok\n\nadd-nodes 3 voters=(1,2,3) index=10\n----\nok\n\ncampaign 1\n----\nok\n\nstabilize\n----\nok\n\n"
LONG = BEFORE + 9998 * ROUND
LESS = BEFORE + 998 * ROUND
LOST = b"".join([
    b"add-nodes 3 voters=(1,2,3) index=10\n----\n\ncampaign 1\n----\n\nprocess-ready 1\n----\n\ndeliver-msgs drop=(2)\n----\n\n",
    b"campaign 1\n----\n\nprocess-ready 1\n----\n\n",
])
# A node that sends to itself: its lead is itself, after a snapshot of its own.
SELF = b"add-nodes 2 voters=(1,2) index=10\n----\n\nsend-snapshot 1 1\n----\n\nsend-snapshot 1 9\n----\n\ndeliver-msgs 1 drop=(9)\n----\n\n" \
    b"propose 1 x\n----\n\nstabilize rounds=2\n----\n\n"
# Messages to nodes that aren't there: some are dropped, the others stay on their way.
NOBODY = b"".join([
    b"add-nodes 2 voters=(1,2) learners=(3) index=10\n----\n\ncampaign 2\n----\n\nstabilize\n----\n\npropose 2 x\n----\n\nstabilize\n----\n\n",
    b"send-snapshot 1 9\n----\n\ndeliver-msgs drop=(3)\n----\n\ntick-heartbeat 2\n----\n\nstabilize\n----\n\n",
    b"add-nodes 1 index=10\n----\n\ndeliver-msgs 3\n----\n\n",
])
# What is told seldom: that nothing is ready, and that a change is refused or made empty.
RARE = b"".join([
    b"add-nodes 1 voters=(1) index=10\n----\n\nprocess-ready 1\n----\n\ncampaign 1\n----\n\nprocess-ready 1 1 1 1\n----\n\n",
    b"propose-conf-change 1\n----\n\npropose-conf-change 1 v1=true\nr1\n----\n\nstabilize\n----\n\nraft-log 1\n----\n\n",
])
# More messages than may be on their way: of the last ready some find room, and a snapshot finds none; then some make room for others.
FULL = b"".join([
    b"log-level none\n----\n\nadd-nodes 32 voters=(" + ALL + b") index=10\n----\n\ncampaign 1\n----\n\nstabilize\n----\n\n",
    133 * b"tick-heartbeat 1\n----\n\nprocess-ready 1\n----\n\n",
    b"send-snapshot 1 2\n----\n\ndeliver-msgs 2 drop=(3)\n----\n\nsend-snapshot 1 2\n----\n\nprocess-ready 2\n----\n\n",
])
# Five entries give way to one, and then nothing to the same append.
SEVERAL = b"".join([
    b"add-nodes 3 voters=(1,2,3) index=10\n----\n\ncampaign 1\n----\n\nstabilize\n----\n\n", 5 * b"propose 1 lost\n----\n\n",
    b"process-ready 1\n----\n\ndeliver-msgs drop=(2,3)\n----\n\ncampaign 2\n----\n\nprocess-ready 2\n----\n\ndeliver-msgs 3\n----\n\n",
    b"process-ready 3\n----\n\ndeliver-msgs 2\n----\n\nprocess-ready 2\n----\n\ndeliver-msgs 1\n----\n\nstabilize\n----\n\n",
])
# Nodes that restart: with entries, a term and a vote that they lose, and with nothing to lose; and messages out of their order, of which some are chosen.
RESTARTS = b"".join([
    b"add-nodes 3 voters=(1,2,3) index=10\n----\n\ncampaign 1\n----\n\nstabilize\n----\n\n", 3 * b"propose 1 x\n----\n\nprocess-ready 1\n----\n\n",
    b"deliver-msgs 2 skip=1 count=1\n----\n\ndeliver-msgs 2 3 from=1 type=MsgApp count=1\n----\n\nprocess-ready 2 3\n----\n\n",
    b"deliver-msgs drop=(2,3) count=1\n----\n\ndeliver-msgs 1 from=3\n----\n\npropose 1 lost\n----\n\npropose 1 lost\n----\n\nrestart 1\n----\n\n",
    b"campaign 3\n----\n\nrestart 3 2\n----\n\ncampaign 2\n----\n\nstabilize\n----\n\nrestart 1 3\n----\n\nstabilize\n----\n\n",
    b"propose 2 y\n----\n\nstabilize\n----\n\ncompact 2 12\n----\n\nrestart 2\n----\n\nprocess-ready 2\n----\n\n",
])
# Its last directive prints 5,001 lines.
OUTPUT = b"".join([
    b"add-nodes 1 voters=(1) index=10\n----\n\ncampaign 1\n----\n\nprocess-ready 1\n----\n\n", 4999 * b"propose 1 x\n----\n\n",
    b"raft-log 1\n----\n\n",
])


def to_and_fro(directives: int, rounds: int) -> bytes:
    """Two followers that take each other for the leader hand 4,096 proposals to and fro."""
    heads = [
        b"log-level none", b"add-nodes 2 voters=(1,2) index=10", b"send-snapshot 1 2", b"send-snapshot 2 1", b"deliver-msgs 1 2", b"process-ready 1 2",
        b"deliver-msgs 1 2", *4096 * [b"propose 1 x"], *directives * [b"stabilize rounds=%d" % rounds],
    ]
    return b"".join(head + b"\n----\nok\n\n" for head in heads)


class Failed(AssertionError):
    """What a test finds wrong."""


def same(what: str, came: object, wanted: object) -> None:
    if came != wanted:
        raise Failed(f"{what} is {came!r:.300}, and not {wanted!r:.300}")


def mismatched() -> tuple[bytes, list[int]]:
    """The tour's election with one line changed, and the place of its directive."""
    data = TOUR[0].read_bytes()
    same("how often the line stands", data.count(b"from 2: won"), 1)
    changed = data.replace(b"from 2: won", b"from 2: other")
    return changed, [place for place, block in enumerate(read_script(changed).blocks, 1) if b"from 2: other" in block.text()]


def page_of(data: bytes, name: str, format: int = EVENTS_TOO) -> str:
    before, after = parts()
    return before + json_text(rows_of(data, name, format)) + after


@functools.cache
def long_page(format: int = EVENTS_TOO) -> str:
    """The page of 20,000 directives, which takes the plain bench a minute."""
    return page_of(LONG, "long", format)
