"""The arguments that several subcommands take, so that all take them in the same way."""
from __future__ import annotations

import argparse
import os
import pathlib
import re
import sys
from typing import Callable, Sequence

from ..compare.comparison import ASPECTS, Comparison
from ..compare.exceptions import exceptions_of
from ..explore.dice import DICE
from ..rules.lists import kind_like
from ..rules.switches import Unknown

PROGRAM = "raftbench-nodes"
MINUTES = 1.0


def complain(command: str, text: object) -> None:
    print(f"{PROGRAM} {command}: {text}", file=sys.stderr)


def parser_for(command: str, description: str) -> argparse.ArgumentParser:
    return argparse.ArgumentParser(prog=f"{PROGRAM} {command}", description=description)


def add_common(parser: argparse.ArgumentParser) -> None:
    """The arguments of each command that runs nodes."""
    parser.add_argument("--with", dest="command", required=True, metavar="COMMAND", help="the program that hosts your nodes: docs/OWN-NODES.md")
    parser.add_argument("--except", dest="ignored", action="append", default=[], metavar="'NAME: REASON'", help="a promise that isn't checked")
    parser.add_argument("--accepted", type=pathlib.Path, metavar="FILE", help="a list of known kinds, with reasons")
    parser.add_argument("--begin-at-0", action="store_true", help="nodes with voters begin with an empty log, not after a snapshot")
    parser.add_argument("--steps", choices=["run", "ignore"], default="run", help="whether to carry out the runner's steps in comments")
    parser.add_argument("--seconds", type=float, default=5.0, help="the time for one answer")


def add_comparing(parser: argparse.ArgumentParser, default: str) -> None:
    parser.add_argument("--compare", default=default, metavar="WORDS", help="what to compare: states, and with commas also " + ", ".join(ASPECTS))
    parser.add_argument("--like", default="", metavar="NAME|FILE", help="switches of the reference: rules in which your library differs")


def add_files(parser: argparse.ArgumentParser, count: str) -> None:
    """Scripts, and what is shown of them."""
    parser.add_argument("--filter", default="", metavar="WORD", help="only paths that contain WORD")
    parser.add_argument("--verbose", action="store_true", help="also shows what the nodes print")
    parser.add_argument("--page", type=pathlib.Path, metavar="FOLDER", help="writes a page of each script: what your nodes did, next to the reference")
    parser.add_argument("paths", nargs=count, type=pathlib.Path, metavar="PATH", help="a script, or a folder of scripts that end in .txt")


def add_seeds(parser: argparse.ArgumentParser, count: int | None) -> None:
    parser.add_argument("--seed", type=int, default=0, help="the first seed; explore and promises begin with the classics if it isn't given")
    parser.add_argument("--count", type=int, default=count, help="how many scripts")
    parser.add_argument("--jobs", type=int, default=len(os.sched_getaffinity(0)), help="how many processes run at the same time")


def add_results(parser: argparse.ArgumentParser) -> None:
    parser.add_argument("--out", type=pathlib.Path, metavar="FOLDER", help="where to write the short scripts and their pages")
    parser.add_argument("--json", type=pathlib.Path, metavar="FILE", help="where to write the result")
    parser.add_argument("--junit", type=pathlib.Path, metavar="FILE", help="where to write the result")


def add_exploring(parser: argparse.ArgumentParser) -> None:
    add_seeds(parser, None)
    parser.set_defaults(seed=None)
    parser.add_argument("--script", type=int, metavar="N", help="writes script N, which a search with the same words names, to standard output")
    parser.add_argument("--first", action="store_true", help="stops at the first kind, shrinks it and shows it")
    parser.add_argument("--at-least", type=int, default=0, metavar="N", help="fails if fewer scripts were run")
    add_results(parser)
    parser.add_argument("--minutes", type=float, help=f"how long; {MINUTES:g} by default, if there is no count")
    parser.add_argument("--dice", choices=DICE, default="mixed")
    parser.add_argument("--shard", type=shard_of, default=(1, 1), metavar="K/N", help="every Nth seed, from the Kth on")
    parser.add_argument("--fresh", action="store_true", help="doesn't remember in which scripts nodes agreed, and what they answered")


def shard_of(text: str) -> tuple[int, int]:
    found = re.fullmatch(r"(\d{1,6})/(\d{1,6})", text)
    if not found or not 1 <= int(found[1]) <= int(found[2]):
        raise argparse.ArgumentTypeError(f"{text}: must be K/N, with K from 1 to N")
    return int(found[1]), int(found[2])


def aspects_of(words: str) -> frozenset[str]:
    """What `--compare` names; Unknown for other words."""
    aspects = set(words.split(","))
    if not aspects <= {"states", *ASPECTS}:
        raise Unknown(f"--compare {words}: known are states, {', '.join(ASPECTS)}")
    return frozenset(aspects - {"states"})


def comparison_of(given: argparse.Namespace) -> Comparison:
    """How scripts are run and compared. Unknown for words that aren't known."""
    like, compare = getattr(given, "like", ""), getattr(given, "compare", "states")
    # Of a library with a list of switches all is compared; otherwise that is found out.
    all_aspects = frozenset({"views", "messages", "ready"}) if like else frozenset[str]()
    aspects = all_aspects if compare == "auto" else aspects_of(compare)
    return Comparison(kind_like(like), aspects, given.begin_at_0, given.steps == "run", exceptions_of(given.ignored))


def scripts_of(paths: Sequence[pathlib.Path], filter_word: str = "") -> list[pathlib.Path]:
    """The scripts of files and folders, each once, in the order of their names."""
    found: dict[pathlib.Path, pathlib.Path] = {}
    for path in paths:
        files = sorted(file for file in path.rglob("*.txt") if file.is_file() and not any(part.startswith(".") for part in file.relative_to(path).parts))
        for file in files if path.is_dir() else [path]:
            if filter_word in str(file):
                found.setdefault(file.resolve(), file)
    return list(found.values())


def checked(command: str, read: Callable[[], int]) -> int:
    """Runs a command. A word that isn't known gives the status 2."""
    try:
        return read()
    except Unknown as fault:
        complain(command, fault)
        return 2
