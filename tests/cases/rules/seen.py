"""Whether the scripts of this folder see the rules of docs/NODE.md: each definition that its tables name has a script, and each script
comes out otherwise over nodes with one of the wrong rules that it names (wrong.py).
"""
import pathlib
import re
from collections.abc import Iterator

from plain.cluster import Cluster
from plain.node import Node
from plain.script import Script, read_script
from tests.cases.rules.wrong import WRONG
from tests.harness import TOP

HERE = pathlib.Path(__file__).resolve().parent

NAMED = re.compile(r"^# Rule: ([A-Z]\w+(?:\.\w+)?)\. Wrong: ([a-z, -]+)\.$", re.M)


class Wrong(Cluster):
    """A cluster of nodes of some kind."""

    def __init__(self, Kind: type[Node]) -> None:
        super().__init__()
        # A method is put in the place of the class's.
        setattr(self, "new_node", Kind)


def rules_told() -> set[str]:
    """The definitions in the last column of the tables of what a node does."""
    text = (TOP / "docs" / "NODE.md").read_text()
    told = text[text.index("## A message"):text.index("## Where it isn't etcd's raft")]
    names = set()
    for row in re.findall(r"^\|.*\| ([^|]*) \|$", told, re.M):
        module = None
        for name in re.findall(r"`([\w.]+)`", row):
            module = name.split(".")[0] if name[0].isupper() else module
            names.add(name if name[0].isupper() else f"{module}.{name}")
    return names


def outputs_of(script: Script, Kind: type[Node]) -> list[tuple[bytes, ...]]:
    cluster = Wrong(Kind)
    return [tuple(line.encode() for line in cluster.run(block.directive())) for block in script.blocks]


def problems_of(path: pathlib.Path) -> tuple[list[str], str | None, set[str]]:
    """What is wrong with a script, and the rule and the wrong rules that it names."""
    found = NAMED.search(path.read_text())
    if not found:
        return ["no line '# Rule: .. Wrong: ..'"], None, set()
    rule, kinds = found[1], set(found[2].split(", "))
    script = read_script(path.read_bytes())
    recorded = [block.expected for block in script.blocks]
    problems = [] if outputs_of(script, Node) == recorded else ["the plain bench prints something else"]
    problems += [f"no wrong rule {name}" for name in kinds - set(WRONG)]
    problems += [f"doesn't see {name}" for name in kinds & set(WRONG) if outputs_of(script, WRONG[name]) == recorded]
    return problems, rule, kinds


def problems() -> Iterator[tuple[str, list[str]]]:
    """Pairs of a script's name, or of none, and what is wrong with it."""
    rules: set[str | None] = set()
    kinds: set[str] = set()
    for path in sorted(HERE.glob("*.txt")):
        wrong, rule, named = problems_of(path)
        rules.add(rule)
        kinds |= named
        yield path.stem, wrong
    yield "each rule has a script", [f"{name} has none" for name in sorted(rules_told() - rules)]
    yield "each wrong rule is seen", [f"{name} is named by no script" for name in sorted(set(WRONG) - kinds)]
