"""Runs several processes, each with nodes of its own. Idle workers take the next list of items; results are in the items' order. Workers end with the
process that started them, however it ends.
"""
from __future__ import annotations

import contextlib
import gc
import multiprocessing
import multiprocessing.connection
import os
import queue
import signal
import threading
import time
from typing import Any, Callable, Iterator, NamedTuple, Protocol, Sequence

from ..compare.judge import Unjudged
from .process import CallFailure, Process

FORKED = multiprocessing.get_context("fork")
LOOK_SECONDS = 0.2
# Scripts leave few cycles: Python's collector looks for them this seldom.
COLLECTS = 50_000, 50, 1000


class Worker(Protocol):
    """What a worker works with: it has a process that is closed at the end."""

    process: Process


class Report(NamedTuple):
    """What a worker says: the results of a list of items, or what failed; and how many seconds it waited for that list."""

    number: int
    results: list[Any]
    name: str = ""  # of the nodes
    waited: float = 0.0
    failure: str = ""


class WorkerError(Exception):
    """The nodes could not be started, the reference not judged, or a worker ended."""


Task = Callable[[Any, Any], Any]


def work(make: Callable[[], Worker], items: Any, results: Any) -> None:
    """What a worker does: pairs of a number and a list of tasks with their items, until there is None."""
    signal.signal(signal.SIGINT, signal.SIG_IGN)
    gc.set_threshold(*COLLECTS)
    threading.Thread(target=end_with_parent, daemon=True).start()
    worker = make()
    begun = time.monotonic()
    try:
        while (taken := items.get()) is not None:
            waited = time.monotonic() - begun
            number, task, chunk = taken
            found = [task(worker, item) for item in chunk]
            begun = time.monotonic()
            results.put(Report(number, found, worker.process.name, waited))
    except CallFailure as failed:
        results.put(Report(0, [], failure=str(failed)))
    except Unjudged as fault:
        results.put(Report(0, [], failure=f"the reference could not be judged: {fault}"))
    finally:
        worker.process.close()


def end_with_parent() -> None:
    """Ends this process at once when the one ends that started it. The watchdog of its nodes ends them then."""
    parent = multiprocessing.parent_process()
    if parent:
        multiprocessing.connection.wait([parent.sentinel])
        os._exit(1)


class Fleet:
    """Workers, what they were given, and what they gave back."""

    def __init__(self, jobs: int, make: Callable[[], Worker]) -> None:
        self.name, self.given, self.taken, self.jobs = "", 0, 0, jobs
        self.waited = 0.0  # seconds for which workers had nothing to do
        self.back: dict[int, list[Any]] = {}
        self.dropped: set[int] = set()
        self.workers: list[multiprocessing.context.ForkProcess] = []
        try:
            self.items, self.results = FORKED.Queue(), FORKED.Queue()
            for _ in range(jobs):
                worker = FORKED.Process(target=work, args=(make, self.items, self.results))
                worker.start()
                self.workers.append(worker)
        except OSError as fault:
            for worker in self.workers:
                worker.terminate()
            raise WorkerError(f"no worker could be started: {fault}") from None

    def give(self, task: Task, chunk: Sequence[Any]) -> None:
        self.items.put((self.given, task, list(chunk)))
        self.given += 1

    def take(self) -> list[Any]:
        """The results of the next chunk, in the order in which they were given; none if it was dropped."""
        while self.taken not in self.back and self.taken not in self.dropped:
            self.look()
        self.taken += 1
        return self.back.pop(self.taken - 1, [])

    def drop(self) -> None:
        """Takes back the chunks that no worker has begun."""
        with contextlib.suppress(queue.Empty):
            while True:
                self.dropped.add(self.items.get(timeout=LOOK_SECONDS / 4)[0])

    def look(self) -> None:
        """Takes one report of a worker, if there is one in time."""
        are_over = not all(worker.is_alive() for worker in self.workers)
        try:
            report: Report = self.results.get(timeout=LOOK_SECONDS)
        except queue.Empty:
            if are_over:
                raise WorkerError("a worker ended") from None
            return
        if report.failure:
            raise WorkerError(report.failure)
        self.name, self.waited = self.name or report.name, self.waited + report.waited
        self.back[report.number] = report.results

    def end(self, is_patient: bool = True) -> None:
        """Ends the workers; at once, where nobody waits for what they do."""
        for _ in self.workers:
            self.items.put(None)
        for worker in self.workers:
            worker.join(5 if is_patient else 0.2)
            if worker.is_alive():
                worker.terminate()
                worker.join(2)
        # Nobody reads what was given and not begun: this process doesn't wait for that when it ends.
        self.items.cancel_join_thread()


@contextlib.contextmanager
def interruptible() -> Iterator[Callable[[], bool]]:
    """Answers whether an interrupt has come; a second one is a KeyboardInterrupt."""
    seen: list[int] = []

    def interrupt(*_: object) -> None:
        if seen:
            raise KeyboardInterrupt
        seen.append(1)

    before = signal.signal(signal.SIGINT, interrupt)
    try:
        yield lambda: bool(seen)
    finally:
        signal.signal(signal.SIGINT, before)
