"""The planted bugs by name. Each is a class of plain nodes with one rule broken."""
from __future__ import annotations

from typing import Callable

from plain.node import Node

BUGS: dict[str, type[Node]] = {}


def planted(name: str) -> Callable[[type[Node]], type[Node]]:
    """Puts a kind of node under a name."""
    def put(kind: type[Node]) -> type[Node]:
        BUGS[name] = kind
        return kind
    return put
