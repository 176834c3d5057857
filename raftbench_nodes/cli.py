"""The command raftbench-nodes. Each subcommand is a module of tools/."""
from __future__ import annotations

import sys
import traceback
from typing import Callable, NamedTuple, Sequence

from .output import OutputError, checked_output, discard_output
from .tools import explore, files, merge, plain, replay, switches

PROGRAM = "raftbench-nodes"
# The status after a fault of the tools themselves: never that of a finding, so that a job fails. It is EX_SOFTWARE of sysexits.h.
FAULT = 70


class Command(NamedTuple):
    """A subcommand: what it does in a line, and the function that runs it."""

    summary: str
    run: Callable[[Sequence[str]], int]


COMMANDS = {
    "run": Command("runs scripts on your nodes and on the reference, and shows where they first differ", files.run),
    "promises": Command("checks Raft's promises on your nodes alone; without a PATH it explores", files.promises),
    "explore": Command("makes scripts, compares, checks promises, and shrinks the first script of each kind", explore.run),
    "switches": Command("finds switches with which the reference does as your nodes", switches.run),
    "shrink": Command("shortens a script as long as it shows the same kind", files.shrink),
    "replay": Command("checks traces of what your library did elsewhere", replay.run),
    "merge": Command("joins the results of shards", merge.run),
    "plain": Command("hosts the reference itself, or one with a planted bug", plain.run),
}


def usage() -> str:
    rows = "".join(f"  {name:10}{command.summary}\n" for name, command in COMMANDS.items())
    return f"usage: {PROGRAM} COMMAND ..\n\n{rows}\n{PROGRAM} COMMAND --help lists a command's options. docs/OWN-NODES.md is the tutorial.\n"


def carry_out(words: Sequence[str]) -> int:
    """Runs a subcommand, or shows the usage."""
    name, *rest = list(words) or [""]
    if name in ("-h", "--help"):
        print(usage(), end="")
        return 0
    if name not in COMMANDS:
        print(f"{PROGRAM}: {f'there is no command {name}' if name else 'a command is missing'}\n{usage()}", end="", file=sys.stderr)
        return 2
    try:
        return COMMANDS[name].run(rest)
    except SystemExit as ended:  # of argparse: it has shown help, or what is wrong
        return ended.code if isinstance(ended.code, int) else 0


def main(words: Sequence[str] | None = None) -> int:
    """Runs a subcommand. Output that can't be written ends it without a traceback; an exception that nobody expects with one, and with the status FAULT."""
    if sys.stdout is None:
        print(f"{PROGRAM}: standard output is closed", file=sys.stderr)
        return 4
    if sys.stdout is sys.__stdout__:
        sys.stdout = checked_output()
    try:
        status = carry_out(sys.argv[1:] if words is None else words)
        sys.stdout.flush()
        return status
    except BrokenPipeError:
        discard_output()
        return 4
    except OutputError as fault:
        discard_output()
        print(f"{PROGRAM}: standard output: {fault}", file=sys.stderr)
        return 4
    except Exception:
        traceback.print_exc()
        return FAULT
