"""The ways of docs/USING.md to share seeds: GNU parallel, a Slurm array and a Kubernetes indexed Job, each with two workers on this machine.

`ssh`, `sbatch` and `kubectl` are stand-ins that run the same commands here, with the environment that the engine gives a worker. The merged result is
that of one run of all seeds. Workers may share a cache, and a fault of the tools is no finding.
"""
from __future__ import annotations

import json
import multiprocessing
import os
import pathlib
import re
import shutil
import subprocess
import sys
from collections.abc import Iterator

from raftbench_nodes.process import cache
from tests.harness import TOP, NotHere

SHARDS, EACH = 2, 2
# As sshd does, it names a shell, also where this test has none: GNU parallel starts that on the other machine, and takes it for a success if it can't.
SSH = """#!/bin/sh
while case $1 in -*) true ;; *) false ;; esac; do shift; done
shift
[ "$1" != -- ] || shift
SHELL=/bin/sh exec sh -c "$*"
"""
SBATCH = """#!/bin/bash
[ "$1 $2 $3" = "--wait --array=1-2 --wrap" ] || exit 9
SLURM_ARRAY_TASK_ID=1 SLURM_ARRAY_TASK_COUNT=2 sh -c "$4" & one=$!
SLURM_ARRAY_TASK_ID=2 SLURM_ARRAY_TASK_COUNT=2 sh -c "$4" & wait $one && wait $!
"""


def shown(language: str, word: str) -> str:
    """The block of docs/USING.md that has a word, for few scripts and an adapter of this clone."""
    blocks = re.findall(rf"^```{language}\n(.*?)^```$", (TOP / "docs/USING.md").read_text(), re.M | re.S)
    block: str = next(block for block in blocks if word in block)
    return block.replace("--minutes 30", f"--count {EACH} --jobs 1 --seconds 300 --compare states").replace("./my-nodes", f"{TOP}/nodes/plain")


def put_tools(room: pathlib.Path) -> dict[str, str]:
    tools = room / "tools"
    tools.mkdir()
    for name, text in (("ssh", SSH), ("sbatch", SBATCH)):
        (tools / name).write_text(text)
        (tools / name).chmod(0o755)
    (tools / "raftbench-nodes").symlink_to(TOP / "raftbench-nodes")
    # A CI may have no SHELL.
    around = {name: value for name, value in os.environ.items() if name != "SHELL"}
    return {**around, "PATH": f"{tools}:{os.environ['PATH']}", "XDG_CACHE_HOME": str(room / "cache"), "HOME": str(room)}


def check_results(room: pathlib.Path, around: dict[str, str], said: object) -> None:
    """Both shards are there, and merged they are what one run of all seeds finds. If one is missing, what the engine said is shown."""
    missing = [name for name in ("1.json", "2.json") if not (room / name).exists()]
    assert not missing, f"no {', '.join(missing)}, but {sorted(path.name for path in room.iterdir())}: {said}"
    merge = ["raftbench-nodes", "merge", "1.json", "2.json", "--json", "all.json", "--out", "found"]
    merged = subprocess.run(merge, cwd=room, env=around, capture_output=True, text=True, timeout=300)
    assert merged.returncode in (0, 1) and f" {SHARDS * EACH} scripts, " in merged.stdout, merged
    results = [json.loads((room / name).read_text()) for name in ("1.json", "2.json", "all.json")]
    assert [result["scripts"] for result in results] == [EACH, EACH, SHARDS * EACH], results
    assert {kind["kind"] for kind in results[2]["kinds"]} == {kind["kind"] for result in results[:2] for kind in result["kinds"]}, results


def test_gnu_parallel(room: pathlib.Path) -> None:
    if not shutil.which("parallel"):
        raise NotHere("parallel")
    around = put_tools(room)
    (room / ".parallel").mkdir()
    (room / ".parallel/will-cite").touch()
    done = subprocess.run(["bash", "-c", shown("sh", "parallel")], cwd=room, env=around, capture_output=True, text=True, timeout=600)
    assert done.returncode == 0, done
    check_results(room, around, done)


def test_slurm_array(room: pathlib.Path) -> None:
    around = put_tools(room)
    done = subprocess.run(["bash", "-c", shown("sh", "sbatch")], cwd=room, env=around, capture_output=True, text=True, timeout=600)
    assert done.returncode == 0, done
    check_results(room, around, done)


def test_kubernetes_job(room: pathlib.Path) -> None:
    """Each completion has its index, from 0 on, in JOB_COMPLETION_INDEX."""
    around, job = put_tools(room), shown("yaml", "kind: Job")
    assert "completionMode: Indexed" in job and f"completions: {SHARDS}," in job, job
    text = re.findall(r"command: \[sh, -c, '(.*)'\]\}\]", job, re.S)[0]
    logs = [room / f"{index}.log" for index in range(SHARDS)]
    workers = []
    for index, log in enumerate(logs):
        with log.open("wb") as to:
            workers.append(subprocess.Popen(["sh", "-c", text], cwd=room, env={**around, "JOB_COMPLETION_INDEX": str(index)}, stdout=to, stderr=subprocess.STDOUT))
    statuses = [worker.wait(600) for worker in workers]
    said = [log.read_text() for log in logs]
    assert statuses == [0] * SHARDS, (statuses, said)
    check_results(room, around, said)


FAULTY = """
import sys
from raftbench_nodes import cli
def fail(words: object) -> int:
    raise OSError("as if the disk were full")
cli.COMMANDS["explore"] = cli.Command("", fail)
sys.exit(cli.main(["explore"]))
"""


def test_a_fault_is_no_finding(room: pathlib.Path) -> None:
    """An exception that nobody expects ends with a traceback and status 70, also while the package is read; so what the documents show of jobs fails."""
    done = subprocess.run([sys.executable, "-B", "-c", FAULTY], cwd=TOP, capture_output=True, text=True, timeout=300)
    assert done.returncode == 70 and "Traceback" in done.stderr and "as if the disk were full" in done.stderr, done
    (room / "raftbench_nodes").mkdir()
    (room / "raftbench_nodes/__init__.py").write_text("0 / 0\n")
    shutil.copy(TOP / "raftbench-nodes", room)
    done = subprocess.run([room / "raftbench-nodes", "explore"], capture_output=True, text=True, timeout=300)
    assert done.returncode == 70 and "ZeroDivisionError" in done.stderr, done
    tools = put_tools(room)
    (room / "tools/raftbench-nodes").unlink()
    (room / "tools/raftbench-nodes").symlink_to(room / "raftbench-nodes")
    done = subprocess.run(["bash", "-c", shown("sh", "sbatch")], cwd=room, env=tools, capture_output=True, text=True, timeout=300)
    assert done.returncode != 0, done


# What each tool of nodes/ prints goes to a full disk.
PRINTING: dict[str, list[str]] = {
    "run": ["--with", "nodes/plain", "examples/tour/01-election.txt"], "promises": ["--with", "nodes/plain", "examples/tour/01-election.txt"],
    "explore": ["--with", "nodes/first", "--count", "1", "--fresh", "--jobs", "1", "--seed", "0"], "switches": ["--with", "nodes/plain", "examples/tour/01-election.txt"],
    "shrink": ["--with", "nodes/first", "examples/tour/01-election.txt"], "replay": ["nodes/trace/refused.txt"], "merge": ["--help"], "plain": [],
}


def test_full_output(room: pathlib.Path) -> Iterator[str]:
    """If its output can't be written, each tool says so, and ends with status 4 and without a traceback; so with a closed output."""
    tools = sorted(path.name for path in (TOP / "nodes").iterdir() if path.is_file() and "raftbench-nodes" in path.read_text() and path.name != "command.sh")
    if tools != sorted(PRINTING):
        yield f"nodes/ has {tools}"
    for tool, words in PRINTING.items():
        for given, to in ((words, ">/dev/full"), (["--help"], ">/dev/full"), (["--help"], ">&-")):
            command = f"echo '{{\"call\": \"hello\", \"protocol\": 1}}' | nodes/{tool} \"$@\" {to}"
            done = subprocess.run(["bash", "-c", command, "-", *given], cwd=TOP, capture_output=True, text=True, timeout=300)
            if done.returncode != 4 or "Traceback" in done.stderr or "raftbench-nodes: standard output" not in done.stderr:
                yield f"nodes/{tool} {' '.join(given)} {to}: {done.returncode}, {done.stderr[-300:]}"


STARTS, ROUNDS, SCRIPTS = 6, 30, 5


def known_of(start: int, script: int) -> cache.ScriptRecord:
    calls, kinds = b"%d %d\n" % (start, script) * 40, (("a kind", script),)
    return cache.ScriptRecord(calls, 40, bytes([start] * 32), script, script, 0, kinds, (start,), frozenset({script}))


def share_cache(folder: pathlib.Path, start: int, results: multiprocessing.Queue[str]) -> None:
    """Opens the cache again and again, reads what is there, and writes; more than the cache may hold, so that each process removes what others wrote."""
    cache.MOST_BYTES = 4000
    names = {b"%08d%08d" % pair: known_of(*pair) for pair in ((one, script) for one in range(STARTS) for script in range(SCRIPTS))}
    try:
        for _ in range(ROUNDS):
            memory = cache.Memory(folder, "all the same")
            assert all(memory.find(name) == names[name] for name in memory.places), "a record is another"
            for script in range(SCRIPTS):
                memory.note(b"%08d%08d" % (start, script), known_of(start, script))
            assert memory.is_usable and memory.file, "it can't be used"
            memory.file.close()
        results.put("")
    except Exception as fault:
        results.put(f"start {start}: {fault!r}")


def test_many_starts_share_a_cache(room: pathlib.Path) -> None:
    """Processes that begin at once over an empty cache, write to it, and remove what is too much: each can use it, and reads what was written."""
    context = multiprocessing.get_context("fork")
    results: multiprocessing.Queue[str] = context.Queue()
    starts = [context.Process(target=share_cache, args=(room / "not/there/yet", start, results)) for start in range(STARTS)]
    for each in starts:
        each.start()
    said = [results.get(timeout=600) for _ in starts]
    for each in starts:
        each.join()
    assert not any(said), said
    folder = next((room / "not/there/yet").iterdir())
    assert list(folder.glob("*.records")) and sum(path.stat().st_size for path in folder.glob("*.records")) < 100_000


def test_a_record_that_was_cut_is_none(room: pathlib.Path) -> None:
    """A file that ends anywhere within a record has the records before it, and one that another process removes is passed over."""
    memory, ends = cache.Memory(room, "cut"), []
    for script in range(3):
        memory.note(b"%016d" % script, known_of(1, script))
        (file,) = memory.folder.glob("*.records")
        ends.append(file.stat().st_size)
    whole = file.read_bytes()
    for length in range(len(whole) + 1):
        file.write_bytes(whole[:length])
        again = cache.Memory(room, "cut")
        found = [again.find(b"%016d" % script) for script in range(3)]
        assert again.is_usable and found == [known_of(1, script) if end <= length else None for script, end in enumerate(ends)], length
    (memory.folder / "0-gone.records").symlink_to("nothing")
    assert cache.Memory(room, "cut").is_usable
