"""No adapter outlives the tool that started it, however the tool ends: by a signal, a second interrupt, an exception, or SIGKILL."""
import concurrent.futures
import contextlib
import os
import pathlib
import signal
import subprocess
import sys
import time
from collections.abc import Callable, Iterator

from tests.harness import TESTS, TOP

START_SECONDS = 60.0
MOST_SECONDS = 20.0
# It writes down its process and one that it starts, and answers up to a call at which it hangs.
ADAPTER = f"echo $$ >>{{room}}/pids; sleep 500 & echo $! >>{{room}}/pids; exec {TESTS}/nodes/bad_node.py hangs"
TOUR = str(TOP / "examples" / "tour")
# Each tool with its words. The nodes may take longer than the test.
TOOLS = {
    "run": [TOUR],
    "promises": [TOUR],
    "shrink": [f"{TOUR}/01-election.txt"],
    "explore": ["--count", "50", "--jobs", "2", "--compare", "states"],
}


def is_alive(process: int) -> bool:
    """Whether there is such a process that hasn't ended: one that nobody has waited for has."""
    try:
        return pathlib.Path(f"/proc/{process}/stat").read_text().rpartition(")")[2].split()[0] != "Z"
    except OSError:
        return False


def waited_for(is_so: Callable[[], bool], seconds: float) -> bool:
    """Whether something comes to be so in time."""
    end = time.monotonic() + seconds
    while not is_so():
        if time.monotonic() >= end:
            return False
        time.sleep(0.05)
    return True


class Started:
    """A tool that runs, whose adapters write down their processes."""

    def __init__(self, room: pathlib.Path, command: list[str], count: int) -> None:
        self.pids, self.count = room / "pids", count
        # Signals that this test's caller ignores, as nohup does, end the tool all the same.
        heard = ["env", "--default-signal=HUP,INT,QUIT,TERM", *command]
        self.tool = subprocess.Popen(heard, stdout=subprocess.PIPE, stderr=subprocess.STDOUT, start_new_session=True)

    def adapters(self) -> list[int]:
        return [int(line) for line in self.pids.read_text().split()] if self.pids.exists() else []

    def left_after(self, end: Callable[[subprocess.Popen[bytes]], None]) -> str | None:
        """Ends the tool, and gives what is wrong then."""
        try:
            if not waited_for(lambda: len(self.adapters()) >= 2 * self.count, START_SECONDS):
                return f"it started {self.adapters()}"
            time.sleep(0.3)
            end(self.tool)
            # Whoever reads what it prints comes to the end.
            self.tool.communicate(timeout=START_SECONDS)
            waited_for(lambda: not any(map(is_alive, self.adapters())), MOST_SECONDS)
            left = [it for it in self.adapters() if is_alive(it)]
            return f"it ended with {self.tool.returncode}, and left {len(left)} of {len(self.adapters())} processes" if left else None
        finally:
            for process in [self.tool.pid, *self.adapters()]:
                with contextlib.suppress(ProcessLookupError):
                    os.kill(process, signal.SIGKILL)
            self.tool.wait()


def signals(*numbers: int) -> Callable[[subprocess.Popen[bytes]], None]:
    """What sends these, one after the other, to the tool alone."""
    def send(tool: subprocess.Popen[bytes]) -> None:
        for number in numbers:
            tool.send_signal(number)
            time.sleep(0.5)
    return send


def to_the_group(number: int) -> Callable[[subprocess.Popen[bytes]], None]:
    """What a terminal does."""
    def send(tool: subprocess.Popen[bytes]) -> None:
        for _ in range(2):
            with contextlib.suppress(ProcessLookupError):
                os.killpg(tool.pid, number)
            time.sleep(0.5)
    return send


ENDS = {
    "SIGTERM": signals(signal.SIGTERM),
    "SIGHUP": signals(signal.SIGHUP),
    "SIGQUIT": signals(signal.SIGQUIT),
    "SIGKILL": signals(signal.SIGKILL),
    "two interrupts": signals(signal.SIGINT, signal.SIGINT),
    "two interrupts of a terminal": to_the_group(signal.SIGINT),
    "a terminal that closes": to_the_group(signal.SIGHUP),
}


def ended(room: pathlib.Path, tool: str, name: str) -> str | None:
    """What is wrong when a tool ends in one of these ways."""
    place = room / f"{tool} {name}".replace(" ", "-")
    place.mkdir()
    command = [str(TOP / "nodes" / tool), "--with", ADAPTER.format(room=place), "--seconds", "300", *TOOLS[tool]]
    problem = Started(place, command, 2 if tool == "explore" else 1).left_after(ENDS[name])
    return problem and f"nodes/{tool} that ends by {name}: {problem}"


def test_tools_leave_nothing(room: pathlib.Path) -> Iterator[str]:
    """nodes/run and nodes/explore by all ends, the others killed. They mostly wait, so that they run side by side."""
    tried = [(tool, name) for tool in TOOLS for name in ENDS if tool in ("run", "explore") or name == "SIGKILL"]
    with concurrent.futures.ThreadPoolExecutor(4) as pool:
        yield from filter(None, pool.map(lambda it: ended(room, *it), tried))


# Programs that start an adapter in a process group or session of its own.
WRAPPED = {"timeout": "timeout 900 sh -c '{}'", "setsid": "setsid sh -c '{}'", "setsid that goes on alone": "setsid --fork sh -c '{}'"}


def test_adapters_in_other_groups(room: pathlib.Path) -> Iterator[str]:
    """Nor does an adapter outlive the tool below `timeout` or `setsid`."""
    def left(name: str, end: int) -> str | None:
        place = room / f"{name} {end}".replace(" ", "-")
        place.mkdir()
        command = [str(TOP / "nodes" / "run"), "--with", WRAPPED[name].format(ADAPTER.format(room=place)), "--seconds", "300", TOUR]
        problem = Started(place, command, 1).left_after(signals(end))
        return problem and f"below {name}, ended by {end}: {problem}"

    with concurrent.futures.ThreadPoolExecutor(4) as pool:
        yield from filter(None, pool.map(lambda it: left(*it), [(name, end) for name in WRAPPED for end in (signal.SIGKILL, signal.SIGTERM)]))


CLOSING = """process.close()
process.start()
process.close()
children = open(f"/proc/{os.getpid()}/task/{os.getpid()}/children").read().split()
print("left", len(children), len(os.listdir("/proc/self/fd")))"""
LIBRARY = """import os, sys, time
sys.path[:0] = [{top!r}]
from raftbench_nodes.process.process import Process
process = Process({adapter!r})
process.start()
time.sleep(1)
{last}
"""


def test_exceptions_leave_nothing(room: pathlib.Path) -> Iterator[str]:
    """Whoever uses the library and doesn't close."""
    for name, last in {"an exception": "raise ValueError", "an end": "pass", "os._exit": "os._exit(3)"}.items():
        place = room / name.replace(" ", "-")
        place.mkdir()
        text = LIBRARY.format(top=str(TOP), adapter=ADAPTER.format(room=place), last=last)
        problem = Started(place, [sys.executable, "-B", "-c", text], 1).left_after(lambda tool: None)
        if problem:
            yield f"a program that ends by {name}: {problem}"


def test_adapters_are_closed(room: pathlib.Path) -> Iterator[str]:
    """Nothing watches an adapter that was closed, and no descriptor is left."""
    text = LIBRARY.format(top=str(TOP), adapter=ADAPTER.format(room=room), last=CLOSING)
    done = subprocess.run([sys.executable, "-B", "-c", text], capture_output=True, text=True, timeout=60)
    if not done.stdout.startswith("left 0 ") or int(done.stdout.split()[2]) > 5:
        yield f"{done.stdout}{done.stderr}"
    if left := [it for it in (room / "pids").read_text().split() if is_alive(int(it))]:
        yield f"{len(left)} adapters are left"
