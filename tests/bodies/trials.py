"""The judge itself is tried: each edit of trials.edits has a line `verdict: KIND`, which is what must come of it in rb_text."""
import pathlib
import re
import tempfile

from tests.bodies.batches import judged
from tests.bodies.beside import Gate
from tests.bodies.crates import Crate, NotReady
from tests.bodies.edits import Edit, read_edits
from tests.bodies.verdicts import Kind, Verdict

HERE = pathlib.Path(__file__).resolve().parent
CRATE = "rb_text"


def stays_beside() -> bool:
    """Whether the judge begins with what a run of `rt ci` has proved, and knows how many processors that takes."""
    low = Crate("low", (), ())
    crates = {"low": low, "high": Crate("high", (), (low,))}
    seen = []
    with tempfile.TemporaryDirectory(prefix="bodies-") as room:
        folder = pathlib.Path(room)
        gate = Gate(folder, crates)
        for name, text in [("said", ""), ("said", "rt: low proved\n"), ("said", "rt: low proved\nrt: high NOT PROVED\n"), ("status", "1\n")]:
            (folder / name).write_text(text)
            gate.read()
            seen.append((gate.may_judge("low"), gate.may_judge("high"), gate.busy()))
    return seen == [(False, False, 1), (True, False, 1), (True, False, 0), (True, True, 0)]


def tried(crates: dict[str, Crate]) -> tuple[int, int]:
    """Prints a line for each trial, and gives how many have come out as they must, and how many otherwise."""
    edits = read_edits(HERE / "trials.edits", CRATE)
    due = dict(re.findall(r"(?ms)^name: (\w+)$.*?^verdict: (\w+)$", (HERE / "trials.edits").read_text()))
    found = {name: Verdict(Kind.NOT_MADE, str(error)) for name, error in edits.items() if not isinstance(error, Edit)}
    try:
        judged(crates[CRATE], [it for it in edits.values() if isinstance(it, Edit)], lambda edit, verdict: found.update({edit.name: verdict}))
    except NotReady as error:
        print(f"FAILED the judge: {error}", flush=True)
        return 0, len(edits) + 1
    failed = int(not stays_beside())
    if failed:
        print("FAILED the judge beside a run of `rt ci`", flush=True)
    for name, verdict in found.items():
        is_right = verdict.kind.name.lower() == due[name]
        failed += not is_right
        print(f"{'' if is_right else 'FAILED '}the judge of {name}: {verdict.kind.value}: {verdict.line[:160]}", flush=True)
    count = len(edits) + 1
    print(f"the judge: {count - failed} of {count} trials have come out as they must", flush=True)
    return count - failed, failed
