"""Looks at what rb_replay stands on: by crates.txt not on rb_cluster, nor on a crate that stands on it. Of rb_machine its
source names only the traits `Machine` and `Count`, outside its tests, and it makes no meter. So a session can run no
second cluster that nobody counts: a contract sees only the meter that is handed in.

And at what things are kept in, which no contract says. In rb_tracker: a window in a ring, the views in a map by id that keeps
their order, the sets of a configuration and the sorted indexes of `committed` in small vectors. And what copies share: the durable
entries of a split log stand in pages, each of which is one value behind a counted pointer, and so do the pieces of a content and
the pages of a node's outboxes; a copy of each is one more pointer.

And at names: no two types or traits of the crates have one name. Crates of tests have names of their own.
"""
import re
from collections.abc import Iterator

from tests.harness import TOP, Result

SOURCE = TOP / "crates" / "rb_replay" / "src"
TRAITS = {"Count", "Machine"}
# Lines that are no code: comments, what only proofs see, clauses.
NO_CODE = re.compile(r"^\s*(//|ghost\b|requires\b|ensures\b|#\[tactic)")


def code_of(text: str) -> str:
    return "\n".join(line for line in text.splitlines() if not NO_CODE.match(line))


def stands_on(rows: str) -> dict[str, set[str]]:
    """What each crate stands on by the rows of crates.txt, and by those of the crates that it names."""
    named = {}
    for row in rows.splitlines():
        name, _, crates = row.partition(":")
        if not row.startswith("#"):
            named[name.strip()] = set(crates.split())

    def below(name: str) -> set[str]:
        return named.get(name, set()).union(*map(below, named.get(name, ())))

    return {name: below(name) for name in named}


def map_faults(rows: str) -> Iterator[str]:
    """What is wrong with what rb_replay stands on."""
    below = stands_on(rows).get("rb_replay", set())
    if "rb_machine" not in below:
        yield "rb_replay doesn't stand on rb_machine"
    if "rb_cluster" in below:
        yield "rb_replay stands on rb_cluster"


def named_of(crate: str, code: str) -> set[str]:
    """What the code names of a crate."""
    names = set()
    for found in re.finditer(rf"\b{crate}\b(?:::(\{{[^}}]*\}}|\w+))?", code):
        listed = found.group(1) or "(all of it)"
        names |= set(re.findall(r"[\w()* ]+", listed.strip("{}")))
    return {name.strip() for name in names if name.strip()}


def faults(code: str) -> list[str]:
    found = [f"names {name} of rb_cluster" for name in sorted(named_of("rb_cluster", code))]
    found += [f"names {name} of rb_machine" for name in sorted(named_of("rb_machine", code) - TRAITS)]
    if re.search(r"\bCluster\b", code):
        found.append("names a cluster type")
    if re.search(r"\bMeter\b", re.sub(r"\bM::Meter\b(?!\s*(::|\{))", "", code)):
        found.append("names a meter otherwise than as the type M::Meter")
    return found


TRACKER, CHANGE, LOG, MESSAGE = (SOURCE.parents[1] / crate / "src" for crate in ("rb_tracker", "rb_vocab", "rb_raftlog", "rb_message"))
# What stands where: the folder, the file, the type or call that keeps it, what it keeps it in, and whose that is.
KEPT = [
    (TRACKER, "window.rt", r"struct Window \{(.*?)\n\}", r":\s*HeapCircularBuffer<u64>", r"use circular_buffer::HeapCircularBuffer;"),
    (TRACKER, "tracker.rt", r"struct Tracker \{(.*?)\n\}", r":\s*IndexMap<u64, Progress>", r"use indexmap::IndexMap;"),
    (TRACKER, "id_set.rt", r"struct IdSet \{(.*?)\n\}", r":\s*SmallVec<u64, \d+>", r"use smallvec::SmallVec;"),
    (TRACKER, "tracker/commit.rt", r"fn held_by_majority\((.*?)\n    \}", r":\s*SmallVec<u64, 16>.*sort_unstable", r"use smallvec::SmallVec;"),
    (LOG, "split_store.rt", r"struct SplitStore \{(.*?)\n\}", r"all: Pages<Entry>", r"use crate::pages::Pages;"),
    (LOG, "entries.rt", r"struct Entries \{(.*?)\n\}", r"list: Option<Rc<Pages<Entry>>>", r"use std::rc::Rc;"),
    (LOG, "pages.rt", r"struct Pages<T> \{(.*?)\n\}", r"pages: PageList<T>", r"use crate::page_list::PageList;"),
    (LOG, "page_list.rt", r"struct PageList<T> \{(.*?)\n\}", r"shared_vec: Option<SharedVec<Page<T>>>.*last: Option<Page<T>>", r"use crate::page::Page;"),
    (LOG, "shared_vec.rt", r"struct SharedVec<T> \{(.*?)\n\}", r"items: Rc<Vec<T>>", r"use std::rc::Rc;"),
    (LOG, "page.rt", r"struct Page<T> \{(.*?)\n\}", r"items: Rc<Vec<T>>", r"use std::rc::Rc;"),
    (LOG, "page.rt", r"fn try_copy(.*?)\n    \}", r"items: self\.items\.clone\(\)\?", r"use std::rc::Rc;"),
    (LOG, "content.rt", r"struct Content \{(.*?)\n\}", r"pieces: Pages<Shared<u8>>", r"use rb_vocab::Shared;"),
    (CHANGE, "shared.rt", r"struct Shared<T> \{(.*?)\n\}", r"items: RcSlice<T>", r"use std::rc::RcSlice;"),
    (CHANGE, "shared.rt", r"fn try_copy(.*?)\n    \}", r"items: self\.items\.clone\(\)\?", r"use std::rc::RcSlice;"),
    (MESSAGE, "outbox.rt", r"struct Outbox \{(.*?)\n\}", r"pages: Pages<Shared<Message>>", r"use rb_vocab::Shared;"),
]
SETS = ("incoming", "outgoing", "learners", "next")


def keeps(code: str, holder: str, kept: str, imported: str) -> bool:
    """Whether a type or call keeps something in what is imported."""
    held = re.search(holder, code, re.DOTALL)
    return bool(held and re.search(kept, held.group(1), re.DOTALL) and re.search(imported, code))


def are_sets(code: str) -> bool:
    """Whether each set of a configuration is an `IdSet`, which keeps its ids in a small vector."""
    held = re.search(r"struct Config \{(.*?)\n\}", code, re.DOTALL)
    return held is not None and all(re.search(rf"\b{name}: IdSet,", held[1]) for name in SETS)


def kept_faults() -> Iterator[str]:
    """What is wrong with how things are kept."""
    for folder, name, holder, kept, imported in KEPT:
        code, crate = code_of((folder / name).read_text()), folder.parent.name
        if not keeps(code, holder, kept, imported):
            yield f"{crate}/{name} doesn't keep what it should in {imported.split('::')[-1].strip(';')}"
        elif keeps(code.replace(imported, ""), holder, kept, imported):
            yield f"the look at {crate}/{name} sees nothing"
    config = code_of((TRACKER / "config.rt").read_text())
    if not are_sets(config):
        yield "rb_tracker/config.rt keeps its sets otherwise than in an IdSet"
    elif are_sets(config.replace("outgoing: IdSet", "outgoing: Vec<u64>")):
        yield "the look at rb_tracker/config.rt sees nothing"


# What declares a type or a trait.
DECLARED = re.compile(r"^\s*(?:pub(?:\(crate\))? )?(?:struct|enum|trait) (\w+)", re.MULTILINE)


def sources() -> dict[str, str]:
    """The texts of the sources by their paths, without those of tests."""
    paths = sorted((TOP / "crates").glob("*/src/**/*.rt"))
    return {str(path.relative_to(TOP / "crates")): path.read_text() for path in paths if not path.relative_to(TOP / "crates").parts[0].endswith("_tests")}


def name_faults(texts: dict[str, str]) -> Iterator[str]:
    """Names that stand for two things."""
    places: dict[str, list[str]] = {}
    for path, text in texts.items():
        for name in DECLARED.findall(text):
            places.setdefault(name, []).append(path)
    for name, paths in sorted(places.items()):
        if len(paths) > 1:
            yield f"{name} is declared in {' and in '.join(paths)}"


# Lines that name what rb_replay may not, rows by which it would name rb_cluster or build on a crate that does, and a type and a trait with another's name.
WRONG_LINES = [
    "use rb_machine::{Machine, PrintedLines};",
    "let meter = M::Meter::new();",
    "let meter = Meter::new();",
    "use rb_cluster::Meter;",
    "let c: Cluster = x;",
]
WRONG_ROWS = ["rb_replay: rb_machine rb_cluster", "rb_replay: rb_machine rb_lsp\nrb_lsp: rb_cluster"]
WRONG_NAMES = ["pub(crate) struct Entry {", "trait Machine {"]


def results(word: str) -> Iterator[Result]:
    """Each file of rb_replay, each kind of fault, and that each wrong line, row and name is seen."""
    files = [path for path in sorted(SOURCE.rglob("*.rt")) if "tests" not in path.relative_to(SOURCE).parts and path.name != "tests.rt"]
    rows, texts = (TOP / "crates.txt").read_text(), sources()
    told = {f"rb_replay/{path.name}": list(faults(code_of(path.read_text()))) for path in files}
    told["rb_replay has sources"] = [] if files else [f"none in {SOURCE}"]
    told |= {"crates that rb_replay builds on": list(map_faults(rows)), "what things are kept in": list(kept_faults()), "names of types": list(name_faults(texts))}
    seen = {it: faults(it) for it in WRONG_LINES}
    seen |= {it: list(map_faults(rows + it)) for it in WRONG_ROWS} | {it: list(name_faults({**texts, "line": it})) for it in WRONG_NAMES}
    told |= {f"what is wrong with {it!r} is seen": [] if wrong else ["it isn't seen"] for it, wrong in seen.items()}
    for name, wrong in told.items():
        if word in name:
            yield Result(name, tuple(wrong))
