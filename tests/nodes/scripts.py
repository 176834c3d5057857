"""Scripts that several tests run on nodes."""
import pathlib

from plain.script import Fault, read_script
from tests.cases.case import scripts_below
from tests.harness import TESTS

# A longer script takes a node behind the protocol more than a minute.
MOST_BYTES = 70_000

def write_scripts(room: pathlib.Path) -> None:
    """Writes the scripts of tests/cases that can be read, but the longest, into a folder."""
    for name, data in scripts_below(TESTS / "cases").items():
        if len(data) > MOST_BYTES:
            continue
        try:
            read_script(data)
        except Fault:
            continue
        (room / f"{name}.txt").write_bytes(data)
