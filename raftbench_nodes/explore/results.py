"""The results of an exploration: as a text for people, as JSON, which can be merged, and as JUnit's XML."""
from __future__ import annotations

import collections
import dataclasses
import json
import pathlib
import re
import xml.etree.ElementTree as xml
from typing import Any, Iterator, Sequence

from ..compare.made import made_line
from ..protocol.encoding import printable
from .search import surprise

FORMAT = 1


@dataclasses.dataclass(frozen=True)
class KindResult:
    """A kind of what was found: in how many scripts, its shortest script, what is shown of it, and the text of a file with it."""

    kind: str
    count: int
    seed: int
    directives: int
    steps: list[str]  # a directive each, with the runner's steps before it; none if it wasn't shrunk
    shown: list[str]
    script: str
    also: list[str] = dataclasses.field(default_factory=list)  # other kinds that the same script shows
    first: str = ""  # the first script that shows it, by which --script makes it again
    origin: str = ""  # that which was shrunk
    cause: str = ""  # another kind, which has to be mended first

    def lines(self) -> list[str]:
        many = f"in {self.count} script{'s' * (self.count != 1)}" + (f", the first is {self.first}" if self.first else "")
        if not self.steps:
            return [f"{self.kind}: {many}; not shrunk"]
        other = f" of {self.origin.partition(',')[0]}" if self.origin not in ("", self.first) else ""
        also = [f"    it also shows: {', '.join(self.also)}"] if self.also else []
        cause = [f"    mend first: {self.cause}"] if self.cause else []
        return [
            f"{self.kind}: {many}; {self.directives} directives{other}, shrunk to {len(self.steps)}", *(f"    {step}" for step in self.steps), *self.shown, *also, *cause,
        ]

    def kinds(self) -> list[str]:
        return [self.kind, *self.also]

    def in_shard(self, shard: str) -> KindResult:
        """With the shard in which its scripts have their numbers."""
        first, origin = (f"{where}, in shard {shard}" if where.startswith("script ") else where for where in (self.first, self.origin))
        return dataclasses.replace(self, first=first, origin=origin)


@dataclasses.dataclass(frozen=True)
class Result:
    """What an exploration found."""

    program: str
    name: str  # of the library
    compared_by: list[str]
    scripts: int
    same: int
    compared: int
    agreed: int
    left_out: int
    seconds: float
    wrong: list[int]  # the numbers of scripts at which the reference is wrong
    kinds: list[KindResult]
    classics: int = 0
    classics_same: int = 0
    made: dict[str, int] = dataclasses.field(default_factory=dict)  # what the nodes were made to do, and how often
    dropped: dict[str, str] = dataclasses.field(default_factory=dict)  # what isn't compared since it differed too often, and in how many of how many scripts
    notes: list[str] = dataclasses.field(default_factory=list)

    def status(self) -> int:
        return 4 if self.wrong else 1 if self.kinds else 0

    def last_line(self) -> str:
        by = " and ".join(filter(None, [", ".join(["states", *self.compared_by[:-1]]) if self.compared_by else "states", *self.compared_by[-1:]]))
        what = f"compared by {by}: " if self.program != "promises" else "held to Raft's promises: "
        agreed = f"{self.agreed} of {self.compared} directives agree up to each script's first difference" if self.program != "promises" else f"{self.compared} directives"
        classics = f"{self.classics_same} of {self.classics} classics without a finding; " if self.classics else ""
        return (
            f"{self.name}, {what}{classics}{self.scripts} script{'s' * (self.scripts != 1)}, {self.same} without a finding; "
            f"{agreed}, {self.left_out} left out; {self.seconds:.1f} s"
        )

    def more_lines(self) -> list[str]:
        """What the last line rests on: what the nodes were made to do, and what wasn't compared."""
        made = [made_line(self.made)] if self.made else []
        dropped = [f"not compared: {aspect}, which differ first in {where}" for aspect, where in self.dropped.items()]
        return [*self.notes, *dropped, *made]

    def text(self) -> str:
        return "".join("\n".join(kind.lines()) + "\n\n" for kind in self.kinds) + "".join(line + "\n" for line in self.more_lines()) + self.last_line() + "\n"

    def json(self) -> str:
        return json.dumps({"format": FORMAT, **dataclasses.asdict(self)}, indent=1) + "\n"

    def junit(self) -> bytes:
        """A test case of all scripts without a finding, and a failed one of each kind."""
        suite = xml.Element("testsuite", name=f"{self.program} {self.name}", tests=str(len(self.kinds) + 1), failures=str(len(self.kinds)), time=f"{self.seconds:.1f}")
        xml.SubElement(suite, "testcase", classname=self.program, name=f"{self.same} of {self.scripts} scripts without a finding")
        for kind in self.kinds:
            case = xml.SubElement(suite, "testcase", classname=self.program, name=kind.kind)
            xml.SubElement(case, "failure", message=f"in {kind.count} scripts").text = "\n".join(kind.lines())
        root = xml.Element("testsuites")
        root.append(suite)
        return b'<?xml version="1.0" encoding="UTF-8"?>\n' + xml.tostring(root) + b"\n"

    def write(self, json_file: pathlib.Path | None, junit_file: pathlib.Path | None, folder: pathlib.Path | None) -> None:
        if json_file:
            json_file.write_text(self.json(), encoding="utf-8")
        if junit_file:
            junit_file.write_bytes(self.junit())
        if folder and self.kinds:
            folder.mkdir(parents=True, exist_ok=True)
            for file, kind in self.files(folder):
                file.write_bytes(kind.script.encode("latin-1"))

    def files(self, folder: pathlib.Path) -> Iterator[tuple[pathlib.Path, KindResult]]:
        """The short scripts by their paths."""
        for number, kind in enumerate(self.kinds, 1):
            if kind.script:
                yield folder / f"{number:02}-{re.sub('[^a-z]+', '-', kind.kind.lower())[:60].strip('-')}.txt", kind


def order_of(kind: KindResult) -> tuple[int, bool, int, int, str]:
    """What is most surprising first, and of that the shortest script."""
    return surprise(kind.kind), not kind.steps, len(kind.steps), kind.count, kind.kind


class Unreadable(Exception):
    """A file that isn't a result; its text says why."""


# Types of the parts of a result and of a kind, by name; of lists and objects those of what is in them.
NUMBERS = {"scripts", "same", "compared", "agreed", "left_out", "classics", "classics_same", "count", "seed", "directives"}
LISTS: dict[str, type] = {"compared_by": str, "wrong": int, "notes": str, "steps": str, "shown": str, "also": str}
OBJECTS: dict[str, type] = {"made": int, "dropped": str}


def read_result(path: pathlib.Path) -> Result:
    try:
        parts: Any = json.loads(path.read_text(encoding="utf-8"))
        if not isinstance(parts, dict) or parts.pop("format", None) != FORMAT:
            raise Unreadable(f"{path}: not a result of this format")
        kinds = parts.pop("kinds", None)
        if not isinstance(kinds, list) or not all(isinstance(kind, dict) for kind in kinds):
            raise Unreadable(f"{path}: kinds is not a list of objects")
        found = [KindResult(**{name: checked(name, value) for name, value in kind.items()}) for kind in kinds]
        return Result(**{name: checked(name, value) for name, value in parts.items()}, kinds=found)
    except (OSError, UnicodeDecodeError, ValueError, TypeError, RecursionError) as fault:
        raise Unreadable(f"{path}: {printable(str(fault))}") from None


def checked(name: str, value: Any) -> Any:
    """The part of this name, with all texts printable; ValueError if it is of another type."""
    if name in NUMBERS and type(value) is int:
        return value
    if name == "seconds" and type(value) in (int, float) and 0 <= value < 1e12:
        return float(value)
    if name in LISTS and isinstance(value, list) and all(type(each) is LISTS[name] for each in value):
        return [printable(each) if isinstance(each, str) else each for each in value]
    if name in OBJECTS and isinstance(value, dict) and all(type(each) is OBJECTS[name] for each in value.values()):
        return {printable(key): printable(each) if isinstance(each, str) else each for key, each in value.items()}
    if name == "script" and isinstance(value, str):
        value.encode("latin-1")
        return value
    if name not in {*NUMBERS, *LISTS, *OBJECTS, "seconds"} and isinstance(value, str):
        return printable(value)
    raise ValueError(f"{name} is not what a result has there")


def merged(results: Sequence[Result]) -> Result:
    """The results of shards as one: counts are added, and each kind has its shortest script."""
    kinds: dict[str, list[KindResult]] = {}
    for result in results:
        for kind in result.kinds:
            kinds.setdefault(kind.kind, []).append(kind)
    shortest = {name: min(same, key=lambda kind: (not kind.steps, len(kind.steps), kind.seed)) for name, same in kinds.items()}
    joined = [dataclasses.replace(kind, count=sum(one.count for one in kinds[name])) for name, kind in shortest.items()]
    joined.sort(key=order_of)
    first = results[0]
    made = sum((collections.Counter(r.made) for r in results), collections.Counter[str]())
    counted = {what: made[what] for r in results for what in r.made}
    return Result(
        first.program, first.name, first.compared_by, sum(r.scripts for r in results), sum(r.same for r in results), sum(r.compared for r in results),
        sum(r.agreed for r in results), sum(r.left_out for r in results), sum(r.seconds for r in results), sorted(seed for r in results for seed in r.wrong), joined,
        sum(r.classics for r in results), sum(r.classics_same for r in results), counted, {name: where for r in results for name, where in r.dropped.items()},
    )
