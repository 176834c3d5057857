"""raftbench-nodes merge: merges the results of shards of explore or promises (docs/USING.md)."""
from __future__ import annotations

import argparse
import pathlib
import sys
from typing import Sequence

from ..compare.exceptions import accept
from ..explore.results import Unreadable, merged, read_result
from ..rules.switches import Unknown


def run(words: Sequence[str]) -> int:
    """The status of all of them: 0 if nothing was found, 1 if something was, 4 if the reference was wrong or a file can't be read."""
    parser = argparse.ArgumentParser(prog="raftbench-nodes merge", description="Merges results of explore or promises.")
    parser.add_argument("files", nargs="+", type=pathlib.Path, metavar="RESULT.json")
    parser.add_argument("--json", type=pathlib.Path, metavar="FILE", help="where to write the result")
    parser.add_argument("--junit", type=pathlib.Path, metavar="FILE", help="where to write the result")
    parser.add_argument("--out", type=pathlib.Path, metavar="FOLDER", help="where to write the short scripts")
    parser.add_argument("--accept", type=pathlib.Path, metavar="FILE", help="a list for --accepted, to which all kinds are added that it lacks")
    parser.add_argument("--reason", default="", help="why they are accepted")
    given = parser.parse_args(words)
    if given.accept and not given.reason.strip():
        parser.error("--accept needs a --reason")
    try:
        result = merged([read_result(file) for file in given.files])
        print(result.text(), end="")
        result.write(given.json, given.junit, given.out)
        if given.accept:
            accept(given.accept, [name for kind in result.kinds for name in kind.kinds()], given.reason)
    except (Unreadable, Unknown, OSError) as fault:
        print(f"raftbench-nodes merge: {fault}", file=sys.stderr)
        return 4
    return result.status()
