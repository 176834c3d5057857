"""The scripts of examples/classics. Both benches print the same; nodes without a bug keep all promises; planted bugs show as tests/nodes/classics.txt says."""
import collections
import pathlib
import re
import subprocess
from collections.abc import Iterator

from plain.cluster import Cluster
from plain.node import Node
from plain.script import read_script
from raftbench_nodes.bugs.registry import BUGS
from raftbench_nodes.compare.comparison import Beside, Comparison
from raftbench_nodes.compare.made import THINGS
from raftbench_nodes.compare.runner_steps import steps_above
from raftbench_nodes.compare.script import blocks_of
from raftbench_nodes.explore.library import BEGINS, TreeScript, classics, distilled
from raftbench_nodes.process.process import Process
from raftbench_nodes.promises.clusters import WatchedReference
from raftbench_nodes.promises.run import PromiseRun
from raftbench_nodes.protocol.encoding import LIMITS, OPTIONAL_CALLS, Hello
from tests.harness import PROGRAM, TESTS, TOP

FOLDER = TOP / "examples" / "classics"
ALL = frozenset({"views", "messages", "ready"})


class InPlace(Process):
    """Nodes that can do all, and that aren't behind a process."""

    def __init__(self) -> None:
        super().__init__("true")
        self.hello = Hello("plain", calls=frozenset(OPTIONAL_CALLS), limits=frozenset(LIMITS), is_open=True, is_apart=True)


def promised(given: TreeScript, kind: type[Node]) -> tuple[PromiseRun, list[str]]:
    """A classic on nodes of a kind, and the names of the promises that they break."""
    run = PromiseRun(blocks_of(given.steps), InPlace(), Comparison(), WatchedReference(kind))
    result = run.result()
    return run, [broken.kind() for broken in result.broken]


def test_heads(room: pathlib.Path) -> Iterator[str]:
    """Each begins with what it shows and where that is from, in a line."""
    for given in classics():
        first = (FOLDER / given.title).read_text().split("\n")[0]
        if not re.fullmatch(rf"{BEGINS}[a-z].* \((thesis, [^()]*|etcd, \"[^\"]*\"|docs/NODE\.md, \"\w+\")\)\.", first) or len(first) > 125:
            yield f"{given.title} begins with {first!r}"
    if len(classics()) < 55:
        yield f"there are {len(classics())} classics"


def test_promises(room: pathlib.Path) -> Iterator[str]:
    """Nodes without a bug keep all promises, and heal. Nothing is left out, and all is met that is counted."""
    made: collections.Counter[str] = collections.Counter()
    for given in classics():
        run, broken = promised(given, Node)
        if broken or run.left_out or run.length != len(given.steps):
            yield f"{given.title}: {broken}, {run.left_out} left out"
        assert isinstance(run.cluster, WatchedReference)
        made.update(run.cluster.made)
    if never := [what for what in THINGS if not made[what]]:
        yield f"no classic has {never}"


def test_both_benches(room: pathlib.Path) -> Iterator[str]:
    """The program and the plain bench print what each script says. They carry out no steps."""
    done = subprocess.run([PROGRAM, "check", FOLDER], capture_output=True, text=True)
    if done.returncode or f"{len(classics())} scripts, " not in done.stdout or " 0 mismatches, 0 refused" not in done.stdout:
        yield done.stdout[-400:] + done.stderr
    for given in classics():
        cluster = Cluster()
        for block in read_script((FOLDER / given.title).read_bytes()).blocks:
            came = cluster.run(block.directive())
            if came != [line.decode("latin-1") for line in block.expected]:
                yield f"{given.title}: {block.head}: {came}"
                break


def shown_by(kind: type[Node]) -> tuple[str, str] | None:
    """The first classic that shows a bug, and how: by the promises alone, or beside nodes without it."""
    for given in classics():
        _, broken = promised(given, kind)
        if broken:
            return given.title, broken[0]
    return next(((given.title, "it differs") for given in classics() if differs(given, kind)), None)


def differs(given: TreeScript, kind: type[Node]) -> bool:
    """Whether states, logs, views, messages or what is ready differ after a directive."""
    beside = Beside(InPlace(), Comparison(aspects=ALL))
    ours, theirs = beside.ours, WatchedReference(kind)
    beside.theirs = theirs  # type: ignore[assignment]
    for block in blocks_of(given.steps):
        steps = steps_above(block)
        for side in (ours, theirs) if steps else ():
            side.carry_out(steps)
        if steps and beside.differs(1, "", [], []):
            return True
        lines = [side.run(block.directive()) for side in (ours, theirs)]
        if beside.differs(1, "", *lines):
            return True
    return False


def test_bugs(room: pathlib.Path) -> Iterator[str]:
    """The first classic that shows each planted bug is that of the table; those that none shows stand in it too."""
    rows = [line.split("\t") for line in (TESTS / "nodes" / "classics.txt").read_text().splitlines() if not line.startswith("#")]
    if sorted(bug for bug, *_ in rows) != sorted(BUGS):
        yield "rows and bugs differ"
    for bug, *wanted in rows:
        shown = shown_by(BUGS[bug])
        if list(shown or ["no classic"]) != wanted:
            yield f"{bug}: {shown}, and not {wanted}"


def test_distilled(room: pathlib.Path) -> Iterator[str]:
    """The distilled scripts can all be read, and are few."""
    if not 300 <= len(distilled()) <= 600:
        yield f"there are {len(distilled())}"
    yield from (f"{given.title}: a line that no script may have" for given in distilled() if any(step.block() is None for step in given.steps))
