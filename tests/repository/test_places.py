"""Holds the lists of places at which a directive, an option, a type of message and an event are added (docs/ARCHITECTURE.md) to the sources: one
that there is is in the crates at just these places. So what a list names is all that adding another takes.
"""
import re
from collections import Counter
from collections.abc import Iterator
from typing import NamedTuple

from tests.harness import TOP


class Sample(NamedTuple):
    """What is added, by its section's title; how a line names the one that the list is held to; how many places are aimed at; and crates that the
    list leaves out, since they have its rules, and what is proved of these."""

    title: str
    known: re.Pattern[str]
    most: int
    rules: tuple[str, ...] = ()


DIRECTIVE = Sample("How a directive is added", re.compile(r"tick-heartbeat|\bTickHeartbeat\b"), 15)
EVENT = Sample("How an event is added", re.compile(r"lost-quorum|\bLostQuorum\b"), 5, ("rb_laws",))
OPTION = Sample("How an option of a directive is added", re.compile(r"checkquorum|\bCheckQuorum\b"), 6, ("rb_node", "rb_tracker", "rb_laws"))
TYPE = Sample("How a type of message is added", re.compile(r"TimeoutNow"), 8, ("rb_node", "rb_calls", "rb_laws"))
SAMPLES = (DIRECTIVE, OPTION, TYPE, EVENT)
# The texts of the manual are made of the document. What the names of other tools stand for takes a line only if there is such a name.
NO_PLACES = {f"crates/rb_report/src/help/{name}.rt" for name in ("pages", "keys", "options", "other_names")}


def listed(sample: Sample) -> list[str]:
    """The files of the list, in its order, a file as often as it has a place."""
    section = (TOP / "docs" / "ARCHITECTURE.md").read_text().split(f"\n## {sample.title}\n")[1].split("\n## ")[0]
    return re.findall(r"^[0-9]+\. `([^`]+)`", section, re.M)


def known(sample: Sample) -> Counter[str]:
    """How many lines of each file of the crates name it. The JavaScript in frame/ doesn't count."""
    files = [path for part in ("src", "specs", "proofs") for path in TOP.glob(f"crates/*/{part}/**/*") if path.suffix in (".rt", ".antt") and not {"tests", "frame", *sample.rules} & set(path.parts[len(TOP.parts):])]
    counts = {str(path.relative_to(TOP)): sum(bool(sample.known.search(line)) for line in path.read_text().splitlines()) for path in files}
    return Counter({file: count for file, count in counts.items() if count and file not in NO_PLACES})


def test_places_are_few() -> Iterator[str]:
    for sample in SAMPLES:
        count = len(listed(sample))
        if not 0 < count <= sample.most:
            yield f"{sample.title}: {count} places, and at most {sample.most} are aimed at"


def test_no_place_is_missing() -> Iterator[str]:
    """A place may have no line with the name, such as the one that says how long the table is; no line has no place."""
    for sample in SAMPLES:
        places, lines = Counter(it for it in listed(sample) if it.startswith("crates/")), known(sample)
        for file in sorted(set(places) ^ set(lines)):
            yield f"{sample.title}: {file} has {lines[file]} lines with the name, and {places[file]} places in the list"
        for file in sorted(file for file in lines if lines[file] > places[file] > 0):
            yield f"{sample.title}: {file} has {lines[file]} lines with the name, and {places[file]} places in the list"


def test_document_has_both_its_places() -> Iterator[str]:
    if listed(DIRECTIVE).count("docs/SCRIPTS.md") != 2:
        yield "the list names docs/SCRIPTS.md otherwise than for its row and its section"
