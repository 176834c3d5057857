"""Installs into temporary folders, from a small copy of the repository whose program only pretends, and takes it away again;
lets each step fail in turn; looks at the program's man page; and drives the completions of bash, and of zsh and fish where they are here.
What is installed for editors is used as they do, where the program is built.
"""
import itertools
import pathlib
import re
import shutil
import signal
import stat
import subprocess
import sys

from tests.harness import BUILT, TOP, NotHere
from tests.shipping.places import Place, kept

MAN = TOP / "share/man/man1/raftbench.1"
# What takes a spacing, and what takes none.
FILED = ["rewrite", "run", "session"]
COMMANDS = sorted([*FILED, "chart", "check", "directives", "look", "lsp", "page", "trace"])
OPTIONS = ["--accept", "--accept-errors", "--brief", "--color", "--every", "--filter", "--first", "--force", "--format", "--from", "--help", "--out", "--pages", "--quiet",
           "--review", "--strict", "--until", "--verbose", "--version", "--warn", "--why"]
DIRECTIVES = re.findall(r"^\| `([a-z-]+)` \|", (TOP / "docs/SCRIPTS.md").read_text().split("\n## Directives\n")[1].split("\n\n| What ")[0], re.M)
SECTIONS = ["NAME", "SYNOPSIS", "DESCRIPTION", "COMMANDS", "OPTIONS", "EXIT STATUS", "ENVIRONMENT", "FILES", "EXAMPLES", "SEE ALSO"]
# The files of editors that are all put alike.
EDITORS = [name for name in kept(TOP / "editors") if "/" in name]
# The packages of raftbench-nodes, the package for Go, C's header with its example, the lists of switches, and a first adapter.
PACKAGES = [f"{it}/{name}" for it in ("plain", "raftbench_nodes") for name in kept(TOP / it) if "__pycache__" not in name]
MODULE = [f"nodes/go/{name}" for name in kept(TOP / "nodes/go") if name.endswith((".go", ".mod")) and not name.endswith("_test.go")]
FILES = [f"nodes/{folder}/{name}" for folder in ("c", "like") for name in kept(TOP / "nodes" / folder)]
NODES = ["nodes/first", "raftbench-nodes", *FILES, *MODULE, *PACKAGES]
# raftbench-live's package, and what it shows of a page.
LIVE = [f"live/{name}" for name in kept(TOP / "live") if name.endswith((".css", ".js", ".py"))]
ASSETS = [f"crates/rb_view/assets/{name}" for name in kept(TOP / "crates/rb_view/assets") if name.endswith((".css", ".html", ".js"))]
# What is put, and where in the clone it stands.
SOURCES = {
    "bin/raftbench": "made",
    "bin/raftbench-from-etcd": "editors/from-etcd",
    "bin/raftbench-to-shiviz": "editors/to-shiviz",
    "bin/raftbench-live": "raftbench-live",
    "bin/raftbench-review": "editors/review",
    "bin/raftbench-nodes": "nodes/command.sh",
    **{f"share/{name}": f"share/{name}" for name in kept(TOP / "share")},
    **{f"share/raftbench/editors/{name}": f"editors/{name}" for name in ["README.md", *EDITORS]},
    **{f"share/raftbench/{name}": name for name in NODES},
    **{f"share/raftbench/{name}": name for name in LIVE},
    **{f"share/raftbench/live/assets/{pathlib.PurePath(name).name}": name for name in ASSETS},
}
PUT = {name: 0o755 if name.startswith("bin/") or name in ("share/raftbench/nodes/first", "share/raftbench/raftbench-nodes") else 0o644 for name in [*SOURCES, "share/raftbench/installed"]}
# It proves nothing, and makes a program if it is told to prove first.
WRAPPER = """#!/bin/sh
[ "$RAFTBENCH_PROVE_FIRST $*" = '1 --help' ] || exit 9
cd "$(dirname "$0")" && mkdir -p crates/raftbench/out && cp made crates/raftbench/out/raftbench
"""
PROGRAM = "#!/bin/sh\necho program \"$@\"\n# " + 4096 * "." + "\n"
NEXT_PROGRAM = PROGRAM.replace("program", "next")


class Clone(Place):
    def __init__(self, room: pathlib.Path) -> None:
        more = ("nodes/c", "nodes/like", "nodes/go", "nodes/first", "nodes/command.sh", "plain", "raftbench_nodes", "raftbench-nodes", "raftbench-live", "live", "crates/rb_view/assets")
        super().__init__(room, "install", "share", "editors", *more)
        self.write("raftbench", WRAPPER)
        self.write("made", PROGRAM)
        self.prefix = self.room / "the prefix"

    def install(self) -> str:
        status, output, told = self.call([self.prefix])
        assert (status, told) == (0, ""), (status, told)
        return output

    def is_built_already(self) -> None:
        """Nothing calls tools but ./install itself."""
        self.write("crates/raftbench/out/raftbench", (self.clone / "made").read_text())
        self.write("raftbench", "#!/bin/sh\n")


def tree(folder: pathlib.Path) -> dict[str, tuple[int, bytes] | None] | None:
    """What stands in a folder: of each file its mode and its bytes. None if there is no such folder."""
    if not folder.exists():
        return None
    return {
        str(path.relative_to(folder)): (stat.S_IMODE(path.stat().st_mode), path.read_bytes()) if path.is_file() else None
        for path in folder.rglob("*")
    }


def files_of(folder: pathlib.Path) -> dict[str, int]:
    return {name: found[0] for name, found in (tree(folder) or {}).items() if found}


def test_puts_each_file(place: Clone) -> None:
    """All that editors use, and nothing that an editor left there; then the next program."""
    for name in ("vim/syntax/raftbench.vim~", "vim/syntax/.raftbench.vim.swp"):
        place.write(f"editors/{name}", "left")
    output = place.install()
    assert files_of(place.prefix) == PUT, files_of(place.prefix)
    for name in PUT:
        is_part = name.startswith("share/raftbench/live/") or any(name.endswith(f"/{it}") for it in EDITORS) or name.removeprefix("share/raftbench/") in NODES
        assert (f"{place.prefix}/{name}: " in output) != is_part, (name, output)
    for name, source in SOURCES.items():
        assert (place.prefix / name).read_bytes() == (place.clone / source).read_bytes(), name
    assert place.call("x", program=place.prefix / "bin/raftbench")[1] == "program x\n"
    assert "PATH" in output
    place.write("made", NEXT_PROGRAM)
    place.install()
    assert files_of(place.prefix) == PUT, files_of(place.prefix)
    assert (place.prefix / "bin/raftbench").read_text() == NEXT_PROGRAM


def test_is_used_where_it_is_put(place: Clone) -> None:
    """The converter of etcd's scripts calls the program that is installed beside it."""
    if not BUILT.exists():
        raise NotHere
    shutil.copy(BUILT, place.clone / "made")
    place.install()
    script = place.room / "script.txt"
    script.write_text("add-nodes 1 voters=(1) index=10\n----\nok\n")
    around = {"PATH": f"{pathlib.Path(sys.executable).parent}:/usr/bin:/bin"}
    status, output, told = place.call([script], program=place.prefix / "bin/raftbench-from-etcd", around=around)
    assert (status, told) == (0, "") and "INFO 1 started at 1/10 with voters=(1)" in output, (status, output, told)


def test_reviews_where_it_is_put(place: Clone) -> None:
    """What sets the terminal for a review calls the program that is installed beside it, by a link too, and in a clone that above it."""
    place.around.pop("RAFTBENCH", None)
    place.install()
    review = place.prefix / "bin/raftbench-review"
    (place.room / "link").symlink_to(review)
    for program in (review, place.room / "link", "./raftbench-review"):
        assert place.call(["a b", "-v"], program=program, cwd=review.parent) == (0, "program check --review a b -v\n", ""), program
    assert place.call("raftbench-review x", program="sh", cwd=review.parent)[1] == "program check --review x\n"
    place.write("raftbench", "#!/bin/sh\necho clone \"$@\"\n")
    assert place.call("x", program=place.clone / "editors/review")[1] == "clone check --review x\n"


def test_runs_nodes_where_it_is_put(place: Clone) -> None:
    """raftbench-nodes runs from the path and by a link, finds its lists, and has the example of an adapter."""
    place.install()
    (place.room / "link").symlink_to(place.prefix / "bin/raftbench-nodes")
    around = {"PATH": f"{place.prefix / 'bin'}:{pathlib.Path(sys.executable).parent}:/usr/bin:/bin", "HOME": str(place.room)}
    for program in (place.prefix / "bin/raftbench-nodes", place.room / "link"):
        status, output, told = place.call(["promises", "--with", "raftbench-nodes plain", "--count", "1", "--jobs", "1", "--seconds", "300"], program=program, around=around)
        assert (status, told) == (0, "") and "1 script, 1 without a finding" in output, (status, output, told)
    status, _, told = place.call(["run", "--with", "true", "--like", "nothing", "x"], program=place.prefix / "bin/raftbench-nodes", around=around)
    assert status == 2 and "known are etcd-3.4, etcd-3.5, hashicorp, libraft, openvswitch" in told, told


def test_takes_words(place: Clone) -> None:
    """A folder is named, or is in the home folder."""
    assert place.call(["under here"])[0] == 0 and files_of(place.room / "under here") == PUT
    for words in (["--nothing"], ["a", "b"], [""]):
        assert place.call(words)[0] == 2, words
    assert place.call("--help")[:2] == (0, "usage: ./install [--remove] [PREFIX]\n")
    place.around["HOME"] = str(place.room)
    for _ in range(2):
        assert place.call("")[0] == 0 and files_of(place.room / ".local") == PUT
    assert place.call("--remove")[0] == 0 and not (place.room / ".local").exists()
    del place.around["HOME"]
    status, _, told = place.call("")
    assert status == 2 and "HOME" in told, told


def test_takes_away_what_it_put(place: Clone) -> None:
    place.install()
    output = place.call(["--remove", place.prefix])[1]
    assert "removed " in output and not place.prefix.exists(), tree(place.prefix)
    status, _, told = place.call(["--remove", place.prefix])
    assert status == 1 and "nothing is installed" in told, told


def test_leaves_what_others_put(place: Clone) -> None:
    (place.prefix / "bin").mkdir(parents=True)
    (place.prefix / "share").mkdir()
    place.install()
    (place.prefix / "share/man/man1/other.1").write_text("other")
    # Folders that the first installation made are taken away after a second one too.
    place.install()
    assert place.call(["--remove", place.prefix])[0] == 0
    left = tree(place.prefix)
    assert set(left or ()) == {"bin", "share", "share/man", "share/man/man1", "share/man/man1/other.1"}, left


def test_fails_where_a_folder_is_in_the_way(place: Clone) -> None:
    (place.prefix / "bin/raftbench").mkdir(parents=True)
    status, _, told = place.call([place.prefix])
    assert status == 1 and "is a folder" in told and set(tree(place.prefix) or ()) == {"bin", "bin/raftbench"}, told


def test_fails_where_it_is_not_built(place: Clone) -> None:
    place.write("raftbench", "#!/bin/sh\nexit 70\n")
    assert place.call([place.prefix])[0] == 70 and not place.prefix.exists()


# The calls of `./install` that change something. Each is made to fail, or to send the process a signal, at each of its calls in turn.
CHANGES = ["os.mkdir", "os.rename", "os.link", "os.replace", "os.chmod", "os.unlink", "os.rmdir", "shutil.copyfile"]


def install_stopped_at(place: Clone, at: int, number: int, words: list[str]) -> tuple[int, str]:
    """Runs `./install` in a process of its own whose change number `at` fails, or which gets a signal then. Returns its status, negative after a signal, and its errors."""
    driver = place.room / "stopped.py"
    driver.write_text(STOPPED)
    done = subprocess.run(
        [sys.executable, driver, place.program, str(at), str(int(number)), *CHANGES, "--", *words], capture_output=True, text=True, env=place.around, check=False
    )
    return done.returncode, done.stderr


STOPPED = """
import importlib.machinery, importlib.util, os, shutil, signal, sys
from typing import Callable
_, path, at, number, *rest = sys.argv
changes, words = rest[:rest.index("--")], rest[rest.index("--") + 1:]
loader = importlib.machinery.SourceFileLoader("install", path)
spec = importlib.util.spec_from_loader("install", loader)
assert spec
module = importlib.util.module_from_spec(spec)
sys.dont_write_bytecode = True
loader.exec_module(module)
left = int(at)
def stopping(change: Callable[..., object]) -> Callable[..., object]:
    def stopped(*words: object, **how: object) -> object:
        global left
        left -= 1
        if left == 0 and number != "0":
            os.kill(os.getpid(), int(number))
        elif left == 0:
            raise OSError(28, "no room is left")
        return change(*words, **how)
    return stopped
for name in changes:
    owner, _, call = name.partition(".")
    setattr(sys.modules[owner], call, stopping(getattr(sys.modules[owner], call)))
sys.argv = [path, *words]
try:
    module.main()
finally:
    if left > 0:
        print("all done", file=sys.stderr)
"""


def few_files(place: Clone) -> dict[str, int]:
    """Leaves one file of the many that are installed alike, and returns what is to be installed."""
    gone = {name for alike in ([f"editors/{name}" for name in EDITORS], PACKAGES, MODULE, FILES, LIVE, ASSETS) for name in alike[1:]}
    for name in gone:
        place.write(name, None)
    place.is_built_already()
    return {name: mode for name, mode in PUT.items() if SOURCES.get(name) not in gone}


def test_failures_leave_what_was_there(place: Clone) -> None:
    """If a change fails, whichever it is, everything is as before, with nothing installed and with an earlier version."""
    wanted = few_files(place)
    for is_there in (False, True):
        for at in itertools.count(1):
            shutil.rmtree(place.prefix.parent / "the prefix", ignore_errors=True)
            place.write("made", PROGRAM)
            place.is_built_already()
            if is_there:
                place.install()
            before = tree(place.prefix)
            place.write("made", NEXT_PROGRAM)
            place.is_built_already()
            status, told = install_stopped_at(place, at, 0, [str(place.prefix)])
            if "all done" in told:
                break
            # Removing what is temporary may fail: all is installed then, and the next call removes it.
            assert status in (0, 1), (at, status, told)
            if files_of(place.prefix).keys() >= wanted.keys() and (place.prefix / "bin/raftbench").read_text() == NEXT_PROGRAM:
                place.install()
                assert files_of(place.prefix) == wanted, (at, files_of(place.prefix))
                continue
            assert "no room is left" in told and tree(place.prefix) == before, (at, told, tree(place.prefix))
        assert at > 40 and files_of(place.prefix) == wanted, (at, told)


def test_interrupts_leave_what_was_there(place: Clone) -> None:
    """A signal before any third change: everything is as before, or all is installed where the signal comes too late."""
    wanted, stopped = few_files(place), 0
    for number, is_there in itertools.product((signal.SIGINT, signal.SIGTERM, signal.SIGHUP), (False, True)):
        for at in itertools.count(1 + number % 3, 3):
            shutil.rmtree(place.prefix, ignore_errors=True)
            place.write("made", PROGRAM)
            place.is_built_already()
            if is_there:
                place.install()
            before = tree(place.prefix)
            place.write("made", NEXT_PROGRAM)
            place.is_built_already()
            status, told = install_stopped_at(place, at, number, [str(place.prefix)])
            if status == 0:
                assert files_of(place.prefix) == wanted and (place.prefix / "bin/raftbench").read_text() == NEXT_PROGRAM, (number, at, told)
            else:
                stopped += 1
                assert status == 1 and "interrupted" in told and tree(place.prefix) == before, (number, at, status, told, tree(place.prefix))
            assert not list(place.room.glob(".raftbench-*")), (number, at)
            if status == 0:
                break
    assert stopped > 60, stopped


def test_a_killed_call_is_made_good(place: Clone) -> None:
    """Killed at any change, each file is an old or a new one, and whole; the next call installs all, or removes all."""
    wanted = few_files(place)
    place.install()
    full = tree(place.prefix)
    for words, is_there in itertools.product((["install"], ["remove"]), (False, True)):
        for at in itertools.count(1):
            shutil.rmtree(place.prefix, ignore_errors=True)
            if is_there:
                place.install()
            status, told = install_stopped_at(place, at, signal.SIGKILL, [str(place.prefix)])
            if "all done" in told:
                assert status == 0, told
                break
            assert status == -9, (at, status, told)
            for name, found in (tree(place.prefix) or {}).items():
                assert not found or name not in wanted or found == (full or {})[name], (at, name)
            if words == ["install"]:
                place.install()
                assert tree(place.prefix) == full, (at, tree(place.prefix))
            else:
                place.call(["--remove", place.prefix])
                assert not place.prefix.exists(), (at, tree(place.prefix))
            assert not list(place.room.glob(".raftbench-*")), (words, is_there, at, list(place.room.rglob(".raftbench-*")))
        assert at > 40, at


def test_two_at_once(place: Clone) -> None:
    """Each waits for the other, and all is installed."""
    few_files(place)
    calls = [place.start([place.prefix]) for _ in range(4)]
    assert [call.wait(60) for call in calls] == [0, 0, 0, 0]
    first = tree(place.prefix)
    shutil.rmtree(place.prefix)
    place.install()
    assert tree(place.prefix) == first


def test_others_may_read_it(place: Clone) -> None:
    """Whatever the umask is."""
    few_files(place)
    status, _, told = place.call(["-c", 'umask 077; exec "$@"', "bash", place.program, place.prefix], program="bash")
    assert status == 0, told
    assert {stat.S_IMODE(path.stat().st_mode) for path in [place.prefix, *place.prefix.rglob("*")] if path.is_dir()} == {0o755}


def test_removes_nothing_outside(place: Clone) -> None:
    """A list that names a path outside PREFIX, or leads there by a link, removes nothing there."""
    few_files(place)
    place.install()
    listed = place.prefix / "share/raftbench/installed"
    text = listed.read_text()
    kept = place.room / "kept"
    kept.write_text("kept")
    for line in ("file ../kept\n", f"file {kept}\n", "folder ../\n"):
        listed.write_text(text + line)
        status, _, told = place.call(["--remove", place.prefix])
        assert status == 1 and "outside" in told and kept.exists() and (place.prefix / "bin/raftbench").exists(), told
    (place.prefix / "link").symlink_to(place.room)
    listed.write_text(text + "file link/kept\n")
    status, _, told = place.call(["--remove", place.prefix])
    assert status == 1 and "link/kept" in told and kept.exists(), told


# Lines that `./install` doesn't write, and what is said of each.
STRANGE = {
    b"above x\n": "says ['x'] of the folders above",
    b"above -1\n": "says ['-1'] of the folders above",
    b"above 9999\n": "says ['9999'] of the folders above",
    b"above 1\nabove 1\n": "says ['1', '1'] of the folders above",
    b"links bin\n": "line 2 is 'links bin'",
    b"file \n": "line 2 is 'file '",
    b"file .\n": "line 2 is 'file .'",
    b"file a\0b\n": "line 2 is 'file a\\x00b'",
    b"\xff\x1b[2J\n": "line 2 is '\\udcff\\x1b[2J'",
    b"\n\n": "line 2 is ''",
    b"file ../\x1b[2J\n": "names ../\\x1b[2J, which is outside",
}


def test_strange_lists_are_named(place: Clone) -> None:
    """A list or a journal that `./install` can't have written is named with its line, and nothing is removed."""
    few_files(place)
    place.install()
    for name in ("share/raftbench/installed", ".raftbench-installing"):
        path = place.prefix / name
        before = path.read_bytes() if path.exists() else None
        for line, wanted in STRANGE.items():
            path.write_bytes(b"file bin/raftbench\n" + line + b"file bin/other\n")
            there = tree(place.prefix)
            for words in (["--remove", str(place.prefix)], [str(place.prefix)]):
                status, output, told = place.call(words)
                assert (status, output) == (1, "") and wanted in told and "Traceback" not in told, (line, words, status, output, told)
                assert tree(place.prefix) == there, (line, words)
        if before is None:
            path.unlink()
        else:
            path.write_bytes(before)
    assert place.call(["--remove", place.prefix])[0] == 0 and not place.prefix.exists()


def test_names_do_not_act(place: Clone) -> None:
    """A folder's name is shown so that no character of it acts in a terminal or ends a line."""
    few_files(place)
    prefix = place.room / "a\n::stop::\x1b[2J\u202e\u200b\U000e0041\udcff"
    escaped = r"a\n::stop::\x1b[2J\u202e\u200b\U000e0041\xff"
    calls: list[list[str | pathlib.Path]] = [[prefix], ["--remove", prefix], ["--remove", prefix], [prefix / "bin/raftbench/x"]]
    outputs = [place.call(words) for words in calls]
    assert [status for status, _, _ in outputs] == [0, 0, 1, 0], outputs
    # The folders above that were created go too.
    assert place.call(["--remove", prefix / "bin/raftbench/x"])[0] == 0 and not prefix.exists()
    prefix.mkdir()
    (prefix / "bin").write_text("")
    outputs.append(place.call([prefix / "bin"]))
    (prefix / "bin").unlink()
    (prefix / "bin/raftbench").mkdir(parents=True)
    outputs.append(place.call([prefix]))
    assert [status for status, _, _ in outputs[4:]] == [1, 1], outputs[4:]
    for _, output, told in outputs:
        for line in (output + told).splitlines():
            assert line.isprintable() and (escaped in line or "[Errno" in line), line


def test_goes_on_if_nobody_reads(place: Clone) -> None:
    """With a full disk for standard output, or a reader that is gone, everything is installed and removed."""
    wanted = few_files(place)
    for where in (">/dev/full", "| true"):
        for removes, left in ((False, wanted), (True, {})):
            words = ["--remove"] if removes else []
            done = place.call(["-c", f'set -o pipefail; "$@" {where}', "bash", place.program, *words, place.prefix], program="bash")
            assert (done[0], done[2], files_of(place.prefix)) == (0, "", left), (where, words, done)


def test_has_a_man_page(place: Clone) -> None:
    text = MAN.read_text()

    def listed(section: str, row: str) -> list[str]:
        return re.findall(row, text.split(f".SH {section}\n")[1].split(".SH")[0], re.M)

    assert text.startswith(".TH RAFTBENCH 1 "), "no heading"
    sections = re.findall(r"^\.SH (.*)$", text, re.M)
    assert sections == SECTIONS, sections
    assert listed("NAME", r"\Araftbench \\- \S.*$"), "no name"
    assert listed("EXIT STATUS", r"^\.B (\d)$") == list("012345"), "not each status"
    assert sorted(listed("COMMANDS", r"^\.TP\n\.BI (\w+)")) == COMMANDS, "not each command"
    assert all(option in text.replace("\\-", "-") for option in OPTIONS), "not each option"


def test_man_page_is_laid_out(place: Clone) -> None:
    """By man and groff, where they are here."""
    if shutil.which("groff"):
        status, _, told = place.call(["-man", "-Tutf8", "-ww", "-z", MAN], program="groff")
        assert (status, told) == (0, ""), told
    if shutil.which("man"):
        status, output, told = place.call(["-P", "cat", "-l", MAN], program="man", around={"MANWIDTH": "80"})
        assert status == 0 and "raftbench rewrite FILE [--every K]" in output, (output[:400], told)
        long = [line for line in output.splitlines() if len(line) > 80]
        assert not long, long
    if not shutil.which("man") and not shutil.which("groff"):
        raise NotHere


def test_program_has_these_words(place: Clone) -> None:
    """What the program says of itself, where it is built."""
    if not BUILT.exists():
        raise NotHere
    said = [place.call(words, program=BUILT)[1] for words in ("--help", *(f"{command} --help" for command in COMMANDS))]
    listed = said[0].split("Commands:\n")[1].split("\n\n")[0]
    assert sorted(set(re.findall(r"^  (\w+) ", listed, re.M)) - {"help"}) == COMMANDS, listed
    found = sorted(set(re.findall(r"--[a-z-]+", "\n".join(said))))
    assert found == OPTIONS, found


def completed_by_bash(words: list[str], place: Clone) -> list[str]:
    asked = f'source "$1"; shift; COMP_WORDS=("$@"); COMP_CWORD=$(($# - 1)); _{words[0].replace("-", "_")}; printf "%s\\n" "${{COMPREPLY[@]}}"'
    page = TOP / "share/bash-completion/completions" / words[0]
    status, output, told = place.call(["-c", asked, "bash", page, *words], program="bash")
    assert (status, told) == (0, ""), told
    return sorted(output.split())


def completed_by_fish(words: list[str], place: Clone) -> list[str]:
    page = TOP / f"share/fish/vendor_completions.d/{words[0]}.fish"
    asked = f"source '{page}'; complete -C '{' '.join(words)}'"
    status, output, told = place.call(["-N", "-c", asked], program="fish", around={"HOME": str(place.room)})
    assert (status, told) == (0, ""), told
    return sorted(line.split("\t")[0] for line in output.splitlines())


# In a terminal of its own a key shows what can be put in.
ZSH_ASKED = r"""
fpath=(FOLDER $fpath)
autoload -U compinit && compinit -u -D
shown() {
    compadd() {
        local -a put
        builtin compadd -O put "$@"
        print -rl -- "CAN BE PUT "${^put}
        builtin compadd "$@"
    }
    _main_complete
    exit
}
zle -C shown list-choices shown
bindkey "^I" shown
print READY
"""
ZSH = r"""
zmodload zsh/zpty
zpty asked zsh -f -i
zpty -w asked ". $1"
while zpty -r asked line && [[ $line != *READY* ]]; do :; done
zpty -wn asked "$2"$'\t'
while zpty -r asked line; do print -r -- "$line"; done
"""


def completed_by_zsh(words: list[str], place: Clone) -> list[str]:
    setup = place.room / "setup"
    setup.write_text(ZSH_ASKED.replace("FOLDER", f"'{TOP}/share/zsh/site-functions'"))
    around = {"HOME": str(place.room), "TERM": "dumb"}
    _, output, _ = place.call(["-f", "-c", ZSH, "zsh", setup, " ".join(words)], program="zsh", around=around)
    return sorted(set(re.findall(r"CAN BE PUT (\S+)", output)))


COMPLETED_BY = {"bash": completed_by_bash, "fish": completed_by_fish, "zsh": completed_by_zsh}


def completes(place: Clone, shell: str) -> None:
    def offered(*words: str) -> list[str]:
        return COMPLETED_BY[shell](["raftbench", *words], place)

    assert [word for word in offered("") if not word.startswith("-")] == COMMANDS, offered("")
    for command in [*FILED, "chart", "check", "look", "page", "trace"]:
        assert "script.txt" in offered(command, "scr"), command
        is_there = "--every" in [word.rstrip("=") for word in offered(command, "--e")]
        assert is_there == (command in FILED), command
    for words, wanted in (
        ("re", ["rewrite"]),
        ("directives ", sorted(DIRECTIVES)),
        ("directives tick-", ["tick-election", "tick-heartbeat"]),
        ("check script.txt --color al", ["always"]),
    ):
        assert offered(*words.split(" ")) == wanted, (words, offered(*words.split(" ")))
    for words, one in (("run --every 1", "16"), ("check --a", "--accept"), ("chart --u", "--until"), ("rewrite --w", "--warn")):
        assert one in [word.rstrip("=") for word in offered(*words.split(" "))], words


def test_bash_completes_after_an_equals_sign(place: Clone) -> None:
    """bash gives `--color=al` as three words, and `--color=` as two."""
    for given, wanted in (
        (["--color", "=", "al"], ["always"]), (["--color", "="], ["always", "auto", "never"]), (["--format", "=", "j"], ["json", "junit"]),
        (["--format", "="], ["github", "json", "junit", "text"]), (["--filter", "="], []), (["--filter", "=", "s"], []),
        # Where COMP_WORDBREAKS has no =, it is one word.
        (["--color="], ["--color=always", "--color=auto", "--color=never"]), (["--format=j"], ["--format=json", "--format=junit"]), (["--filter=s"], []),
    ):
        assert completed_by_bash(["raftbench", "check", *given], place) == wanted, given
    assert completed_by_bash(["raftbench", "run", "--every", "=", "6"], place) == ["64"]


def test_completes_in_each_shell(place: Clone) -> None:
    (place.room / "script.txt").touch()
    for shell in COMPLETED_BY:
        if shutil.which(shell):
            completes(place, shell)
        else:
            print(f"completes_in_each_shell: {shell} is not tried, since it isn't here")


def test_raftbench_live_is_completed_and_has_a_man_page(place: Clone) -> None:
    """Its options are those of its own help, in each shell and in its man page."""
    (place.room / "script.txt").touch()
    status, told, _ = place.call(["--help"], program=str(TOP / "raftbench-live"))
    options = sorted(set(re.findall(r"--[a-z-]+", told)))
    assert status == 0 and "--with" in options, told
    page = (TOP / "share/man/man1/raftbench-live.1").read_text().replace("\\-", "-")
    assert {f"--{name}" for name in re.findall(r"--([a-z-]+)", page)} == {*options} - {"--help"}, page
    for shell in filter(shutil.which, COMPLETED_BY):
        def offered(*words: str, shell: str = shell) -> list[str]:
            return [word.rstrip("=") for word in COMPLETED_BY[shell](["raftbench-live", *words], place)]

        assert [word for word in offered("--") if word.startswith("--")] == options, (shell, offered("--"))
        assert "script.txt" in offered("scr"), shell
        assert offered("--in-editor", "v") == ["vscode"], shell
