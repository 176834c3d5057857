"""Compares each public call and type with what was agreed: surface.txt lists them, and what differs names words of docs/DECISIONS.md that say why.

A signature is compared with its parameters and its conditions, a type with its variants or public fields. The variants of a fault have the order in which
faults are looked for.
"""
import dataclasses
import re
from collections.abc import Iterator

from tests.harness import TESTS, TOP, Result
from tests.repository.surface import Texts, calls_named, home_of, parts_of
from tests.repository.test_sources import sources

TABLE = TESTS / "repository" / "surface.txt"
# A type of all crates: as agreed, as it is, and why.
RENAMED = ("OutOfMemory>", "AllocError>", "What memory refuses is `AllocError`")
# A status as the number by which the program ends.
NUMBERED = "impl From<Status> for u8 {"
TYPE_ROW = re.compile(r"^(\w+) \{ (.*) \}$")
CALL_ROW = re.compile(r"^(?:(\w+)::)?(\w+)(.*)$")


class BadTable(ValueError):
    """A line of the table is neither a row nor below one."""


@dataclasses.dataclass
class Row:
    """A call or a type: as it was agreed, its conditions, and where the code differs."""

    crate: str
    owner: str
    name: str
    agreed: str
    is_type: bool
    lines: dict[str, list[str]] = dataclasses.field(default_factory=lambda: {"if": [], "only if": [], "now": [], "why": []})

    def __str__(self) -> str:
        return f"{self.crate}'s {f'{self.owner}::' if self.owner else ''}{self.name}"

    def wanted(self) -> str:
        """What the code has to have."""
        return self.lines["now"][0] if self.lines["now"] else self.agreed


def row_of(crate: str, line: str) -> Row:
    """A row of a crate from its line."""
    if found := TYPE_ROW.match(line):
        return Row(crate, "", found[1], found[2], True)
    if called := CALL_ROW.match(line):
        return Row(crate, called[1] or "", called[2], called[3].replace(*RENAMED[:2]), False)
    raise BadTable(line)


def read_table(text: str) -> tuple[dict[str, list[str]], list[Row]]:
    """The names that each crate gives, and the rows."""
    names, rows, crate = dict[str, list[str]](), list[Row](), ""
    for line in text.splitlines():
        if line.startswith("["):
            crate = line.strip("[]")
        elif line.startswith("gives: "):
            names[crate] = line.removeprefix("gives: ").split()
        elif line.startswith("  "):
            key, _, said = line.strip().partition(": ")
            if not rows or key not in rows[-1].lines:
                raise BadTable(line)
            rows[-1].lines[key].append(said)
        elif line and not line.startswith("#"):
            rows.append(row_of(crate, line))
    return names, rows


def code_faults(texts: Texts, row: Row) -> Iterator[str]:
    """Where the code isn't what the row says."""
    conditions = sorted(row.lines["if"] + row.lines["only if"])
    if row.is_type:
        found, asked = {parts_of(texts, row.crate, row.name)} - {""}, conditions
    else:
        calls = calls_named(texts, row.crate, row.owner, row.name)
        found, asked = {call.signature for call in calls}, sorted({it for call in calls for it in call.conditions})
    if not found:
        yield f"{row.crate} doesn't give {str(row).split()[-1]}"
    elif found != {row.wanted()}:
        yield f"{row} is {' and '.join(sorted(found))}, not {row.wanted()}"
    elif asked != conditions:
        yield f"{row} requires {asked}, not {conditions}"


def reason_faults(row: Row, decisions: str) -> Iterator[str]:
    """Whether what differs, and nothing else, has a reason that docs/DECISIONS.md gives."""
    if row.lines["now"] and row.wanted() == row.agreed:
        yield f"{row} is as agreed, and surface.txt has another signature"
    if bool(row.lines["now"] or row.lines["only if"]) != bool(row.lines["why"]):
        yield f"{row} differs without a reason" if not row.lines["why"] else f"{row} has a reason and doesn't differ"
    for reason in row.lines["why"]:
        if reason not in decisions:
            yield f"{row}: docs/DECISIONS.md doesn't say: {reason}"


def faults(texts: Texts, table: str, decisions: str) -> Iterator[str]:
    """What is missing, what differs from the table, and what differs from what was agreed without a reason."""
    names, rows = read_table(table)
    said = " ".join(decisions.split())
    for crate, listed in names.items():
        yield from (f"{crate} doesn't give {name}" for name in listed if not home_of(texts, crate, name))
    for row in rows:
        yield from code_faults(texts, row)
        yield from reason_faults(row, said)
    if not any(NUMBERED in text for text in texts.values()):
        yield f"no crate has {NUMBERED}"
    if RENAMED[2] not in said:
        yield f"docs/DECISIONS.md doesn't say: {RENAMED[2]}"


# What is changed: the file, the text, what stands there then, and what is said of it.
CHANGED = [
    ("rb_script/src/edits.rt", "    pub fn edited(", "    pub(crate) fn edited(", "rb_script doesn't give Script::edited"),
    ("rb_script/src/fault.rt", "    NoSuchPlace,", "", "rb_script's EditFault is"),
    ("rb_script/src/fault.rt", "    BadLine(usize),", "    BadLine(u64),", "rb_script's ScriptFault is"),
    ("rb_raftlog/src/raft_log.rt", "    fn hint(", "    fn hints(", "rb_raftlog doesn't give RaftLog::hint"),
    ("rb_tracker/src/window.rt", "    pub fn push(", "    fn push(", "rb_tracker doesn't give Window::push"),
    ("rb_tracker/src/progress.rt", "requires { is_current_reject self.old index ≡ true }", "", "rb_tracker's Progress::refused requires []"),
    ("rb_node/src/ticking.rt", "    pub fn tick(", "    pub fn ticks(", "rb_node doesn't give Node::tick"),
    ("rb_node/src/calls.rt", "    pub fn set_timeout(&mut self, timeout: u64)", "    pub fn set_timeout(&mut self, timeout: u32)", "rb_node's Node::set_timeout is"),
    ("rb_node/src/calls.rt", "    pub fn set_timeout(&mut self, timeout: u64)\n", "    pub fn set_timeout(&mut self, timeout: u64)\n        requires { timeout ≤ 1000 }\n", "rb_node's Node::set_timeout requires ['timeout"),
    ("rb_machine/src/machine.rt", "    type Meter:", "    type Counter:", "rb_cluster doesn't give Machine::Meter"),
    ("rb_texts/src/lib.rt", "level_of", "", "rb_texts doesn't give level_of"),
    ("rb_vocab/src/lib.rt", "pub use level::{Level, level_of};", "", "rb_texts doesn't give Level"),
    ("rb_replay/src/session.rt", "    pub fn checkpoints(", "    fn checkpoints(", "rb_replay doesn't give Session::checkpoints"),
    ("rb_bench/src/running.rt", "    every: u64,\n    progress: &P,\n", "    every: u64,\n    progress: &P,\n    more: bool,\n", "rb_bench's run_over is"),
    ("rb_bench/src/choosing.rt", "pub mode: Option<Subcommand>", "pub mode: Option<String>", "rb_bench's Choice is mode: Option<String>"),
    ("rb_bench/src/lib.rt", "pub use session::serve;", "use session::serve;", "rb_bench doesn't give serve"),
]
# The same of the table, and of docs/DECISIONS.md.
CHANGED_TABLE = [
    ("  why: `vote_result` takes the votes\n", "", "rb_tracker's Tracker::vote_result differs without a reason"),
    ("  now: (&self, votes: &Votes) -> VoteResult\n", "", "rb_tracker's Tracker::vote_result is"),
    ("Tracker::vote_result(&self) ->", "Tracker::vote_result(&self, votes: &Votes) ->", "rb_tracker's Tracker::vote_result is as agreed"),
    ("  only if: is_current_reject", "  if: is_current_reject", "rb_tracker's Progress::refused has a reason and doesn't differ"),
]
CHANGED_DECISIONS = [
    ("`put` takes no allocator", "", "rb_texts's put: docs/DECISIONS.md doesn't say"),
    ("**`run_over` takes a `RunProgress` too**", "", "rb_bench's run_over: docs/DECISIONS.md doesn't say"),
]


def results(word: str) -> Iterator[Result]:
    """That all is as the table says, and that each change is seen."""
    texts, table, decisions = sources(), TABLE.read_text(), (TOP / "docs" / "DECISIONS.md").read_text()
    told = {"surface": tuple(faults(texts, table, decisions))}

    def try_change(old: str, text: str, missed: str, came: Iterator[str]) -> None:
        is_seen = text.count(old) >= 1 and any(fault.startswith(missed) for fault in came)
        told[f"surface: {missed}"] = () if is_seen else ("it isn't seen",)

    for path, old, new, missed in CHANGED:
        text = texts.get(path, "")
        try_change(old, text, missed, faults({**texts, path: text.replace(old, new)}, table, decisions))
    for old, new, missed in CHANGED_TABLE:
        try_change(old, table, missed, faults(texts, table.replace(old, new), decisions))
    for old, new, missed in CHANGED_DECISIONS:
        try_change(old, decisions, missed, faults(texts, table, decisions.replace(old, new)))
    for name, problems in told.items():
        if word in name:
            yield Result(name, problems)
