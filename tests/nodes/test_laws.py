"""The table of laws and promises: raftbench_nodes/promises/laws.py names each law of rb_calls and rb_laws once, and each promise; docs/NODE.md shows the same."""
import collections
import re
from collections.abc import Iterator

from raftbench_nodes.promises.checker import PROMISES
from raftbench_nodes.promises.laws import WATCHED, WITHOUT_A_LAW, form_of, table
from tests.harness import TOP
from tests.repository.promises import functions_of


def laws() -> frozenset[str]:
    """The names of all laws: the public functions of rb_calls and rb_laws."""
    return frozenset(law.name for crate in ("rb_calls", "rb_laws") for law in functions_of(crate) if law.is_public)


def test_each_law_stands_once() -> Iterator[str]:
    """Each law stands in one row, or is the same as one that does."""
    there, named = laws(), collections.Counter(law for each in WATCHED for law in each.laws)
    if len(there) < 70:
        yield f"rb_laws has {len(there)} laws"
    yield from (f"{law} is in {count} rows" for law, count in named.items() if count > 1)
    yield from (f"rb_laws has no {law}" for law in sorted(named.keys() - there))
    yield from (f"no row has {law}" for law in sorted(there) if form_of(law, there) not in named and law not in named)


def test_each_promise_stands_once() -> Iterator[str]:
    """Each promise is in one row, or it is said why no law is about it. A row has promises, or says why not."""
    named = collections.Counter(promise for each in WATCHED for promise in each.promises) + collections.Counter(WITHOUT_A_LAW.keys())
    yield from (f"{promise} is named {named[promise]} times" for promise in sorted({*PROMISES, *named}) if named[promise] != 1 or promise not in PROMISES)
    yield from (f"{each.laws}: a promise, or why none" for each in WATCHED if bool(each.promises) == bool(each.why_none))


def test_the_document_shows_the_table() -> Iterator[str]:
    """docs/NODE.md has these rows, and no others, and names the promises without a law."""
    part = (TOP / "docs" / "NODE.md").read_text().split("\n## Which promises of the tools hold nodes to which laws\n")[1].split("\n## ")[0]
    shown = re.findall(r"^\|.*\|$", part, re.M)[2:]
    if shown != table():
        yield "\n".join(["docs/NODE.md has to show:", *table()])
    text = " ".join(part.split())
    yield from (f"docs/NODE.md doesn't name *{promise}*" for promise in WITHOUT_A_LAW if f"*{promise}*" not in text)
