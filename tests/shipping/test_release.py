"""Releases from a small clone whose program and toolchain only pretend, and looks at the archive: what is in it, what PROOF says, that only what the
toolchain says is proved is packed, and that a second run, by another clone and under other settings, gives the same bytes. Where the program is built, it is started in a bare root folder
that has nothing but what the system's loader lists, and docs/USING.md's hook and jobs are carried out with an archive of it.
"""
import hashlib
import os
import pathlib
import re
import shutil
import subprocess
import sys
import tarfile
import time
from typing import Any

from tests.harness import BUILT, TOP, NotHere, matched
from tests.shipping.places import Place, kept, put_program

KIT = "kit-1 logic ab"
PRETENDING = f"#!/bin/sh\n[ \"$1\" = --version ] && echo 'raftbench 1.2.3, proved with {KIT}'\nexit 0\n"
# It says its kit, and does what the file `ci` says in a folder that has the program's crates alone.
TOOLCHAIN = """#!/bin/sh
case $1 in version) cat "$PLACE/kit" ;; ci) [ ! -e crates/other ] && . "$PLACE/ci" ;; *) exit 9 ;; esac
"""
# One crate was proved before. The program is made of the commit's files.
PROVES = """mkdir -p crates/raftbench/out && cp made crates/raftbench/out/raftbench
printf '%s\n' 'rt: low proved' 'rt: mid is kept: an earlier run' '== raftbench' 'rt: raftbench proved' '3 passed, 0 failed'
"""
ROWS = "# rows\nlow:\nraftbench: mid clap\nother: low\nmid: low # as other does\n"
CRATES = ("low", "mid", "other", "raftbench")
SAVE = ["-c", "user.name=x", "-c", "user.email=x@x", "commit", "-q", "-m", "one"]
MATCHING = "add-nodes 1 voters=(1) index=10\n----\nINFO 1 started at 1/10 with voters=(1)\n"


class Clone(Place):
    """A small clone with a commit."""

    def __init__(self, room: pathlib.Path) -> None:
        # No setting of whoever runs this.
        os.environ.update(GIT_CONFIG_GLOBAL=os.devnull, GIT_CONFIG_NOSYSTEM="1")
        super().__init__(room, "release", "raftbench", "install", "README.md", "share", "editors", "docs", "examples", "nodes", "plain", "raftbench-nodes", "raftbench_nodes", "raftbench-live", "live", "tests/cases/rules")
        (self.clone / "tests/nodes").mkdir()
        shutil.copy(TOP / "tests/nodes/bugs.txt", self.clone / "tests/nodes")
        for name in CRATES:
            self.write(f"crates/{name}/src/lib.rt", f"{name}\n")
        self.write(".gitignore", "out/\n")
        self.write("crates.txt", ROWS)
        self.write("made", PRETENDING)
        put_program(self.room / "tools/rt", TOOLCHAIN)
        self.says(PROVES)
        self.around |= {"PATH": f"{self.room}/tools:{self.around['PATH']}", "PLACE": str(self.room)}
        self.git("init", "-q")
        self.save()

    def says(self, ci: str, kit: str = KIT) -> None:
        """What the toolchain does, and its kit."""
        (self.room / "ci").write_text(ci)
        (self.room / "kit").write_text(f"{kit}\n")

    def fails(self, wanted: str) -> None:
        """Nothing is packed, and this is told."""
        status, output, told = self.call("")
        assert (status, output) == (1, "") and wanted in told, (status, output, told)
        assert not list(self.room.glob("*.tar.gz")) and not list(self.room.glob(".raftbench*")), "something is packed"

    def take_the_built(self) -> None:
        """The program that is built, where it is."""
        if not BUILT.exists():
            raise NotHere
        shutil.copy(BUILT, self.clone / "made")
        self.says(PROVES, matched(r", proved with (.*)$", subprocess.run([BUILT, "--version"], capture_output=True, text=True, check=True).stdout)[1])
        self.save()

    def git(self, *words: str | pathlib.Path, at: pathlib.Path | None = None) -> str:
        status, output, told = self.call(words, program="git", cwd=at or self.clone)
        assert status == 0, (words, told)
        return output.strip()

    def save(self) -> None:
        self.git("add", "-A")
        self.git(*SAVE)

    def archive(self, *words: str, **how: Any) -> pathlib.Path:
        status, output, told = self.call(words, **how)
        assert (status, told) == (0, ""), (status, output, told)
        return self.room / output.split()[0]


def is_run(path: pathlib.Path) -> bool:
    return path.is_file() and os.access(path, os.X_OK) and path.stat().st_mode & 0o100 != 0


def test_has_what_is_used(place: Clone) -> None:
    path = place.archive()
    assert path.name == f"raftbench-1.2.3-{place.git('rev-parse', 'HEAD')[:10]}-{os.uname().machine}.tar.gz", path
    with tarfile.open(path) as packed:
        members = packed.getmembers()
    name = path.name.removesuffix(".tar.gz")
    assert [it.name for it in members] == sorted((it.name for it in members), key=lambda it: it.split("/")), "not in order"
    there = {it.name.removeprefix(f"{name}/") for it in members if it.isfile()}
    wanted = {"PROOF", "README.md", "bin/raftbench", *(f"bin/raftbench-{it}" for it in ("from-etcd", "live", "nodes", "review", "to-shiviz"))}
    wanted |= {f"{it}/{path}" for it in ("docs", "examples", "nodes", "plain", "raftbench_nodes", "tests/cases/rules") for path in kept(TOP / it)}
    # Adapters that were built here aren't packed.
    wanted = {it for it in wanted if "/out/" not in it}
    wanted |= {"tests/nodes/bugs.txt", "raftbench-nodes"}
    wanted |= {f"share/{path}" for path in kept(TOP / "share")}
    wanted |= {f"share/raftbench/{it}/{path}" for it in ("nodes/like", "plain", "raftbench_nodes") for path in kept(TOP / it)} | {"share/raftbench/nodes/first", "share/raftbench/raftbench-nodes"}
    wanted |= {f"share/raftbench/nodes/go/{path}" for path in kept(TOP / "nodes/go") if path.endswith((".go", ".mod")) and not path.endswith("_test.go")}
    wanted |= {f"share/raftbench/editors/{path}" for path in kept(TOP / "editors") if path not in ("from-etcd", "review", "to-shiviz")}
    wanted |= {f"share/raftbench/live/{path}" for path in kept(TOP / "live") if path.endswith((".css", ".js", ".py"))}
    wanted |= {f"share/raftbench/nodes/c/{path}" for path in kept(TOP / "nodes/c") if path.endswith((".c", ".h"))}
    wanted = {it for it in wanted if "__pycache__" not in it}
    assert there == wanted, (sorted(there - wanted)[:3], sorted(wanted - there)[:3])
    when = int(place.git("log", "-1", "--format=%ct"))
    for it in members:
        assert (it.uid, it.gid, it.mtime) == (0, 0, when), it.get_info()
        assert it.mode == (0o755 if it.isdir() or f"{name}/bin/" in it.name or is_run(TOP / it.name.removeprefix(f"{name}/")) or it.name.endswith(("/nodes/first", "/raftbench/raftbench-nodes")) else 0o644), it.get_info()
    readme = read_from(path, "README.md").decode()
    assert readme.startswith("# raftbench 1.2.3, unpacked\n\nYou have the proved program.") and readme.endswith((TOP / "README.md").read_text()), readme[:200]
    assert not list(place.room.glob(".raftbench*")), "something is left"


def read_from(path: pathlib.Path, name: str) -> bytes:
    with tarfile.open(path) as packed:
        file = packed.extractfile(f"{path.name.removesuffix('.tar.gz')}/{name}")
        assert file, f"{name} is no file"
        return file.read()


def test_says_what_was_proved(place: Clone) -> None:
    path = place.archive()
    told = read_from(path, "PROOF").decode()
    commit = place.git("rev-parse", "HEAD")
    assert told.startswith(f"raftbench 1.2.3 for {os.uname().machine}\n"), told
    assert f"\ncommit    {commit}\nkit       {KIT}\nprogram   bin/raftbench, sha256 {hashlib.sha256(PRETENDING.encode()).hexdigest()}\nloads     nothing\n" in told, told
    # Each crate of the program after those that it stands on, and no other.
    rows = re.findall(r"^(\w+) +proved +([0-9a-f]{40,})$", told, re.M)
    assert rows == [(name, place.git("rev-parse", f"HEAD:crates/{name}")) for name in ("low", "mid", "raftbench")], rows
    assert f"    git checkout {commit}\n" in told and "sha256sum crates/raftbench/out/raftbench" in told, told


def test_packs_what_the_toolchain_has_proved(place: Clone) -> None:
    """Not what stands in the program's place, though ./raftbench takes it for built from these sources."""
    (place.room / "start").touch()
    put_program(place.clone / "crates/raftbench/out/raftbench", f"#!/bin/sh\necho 'raftbench 1.2.3, proved with {KIT}'\n")
    start = {"RAFTBENCH_BUILT_AFTER": str(place.room / "start")}
    os.utime(place.clone / "crates/raftbench/out/raftbench", (time.time() + 5, time.time() + 5))
    # ./raftbench is told that it was built after this moment, as ./test does.
    assert place.call("run", program=place.clone / "raftbench", around=start)[1] == f"raftbench 1.2.3, proved with {KIT}\n"
    assert (place.clone / "crates/raftbench/out/built.sums").exists()
    path = place.archive()
    assert read_from(path, "bin/raftbench").decode() == PRETENDING
    path.unlink()
    # Nor where the toolchain refuses a crate, has no verdict of it, builds no program, or is another.
    place.says(PROVES.replace("rt: mid is kept: an earlier run", "rt: mid NOT PROVED").replace("3 passed, 0 failed'", "rt: FAILED: mid' '2 passed, 1 failed'; exit 1"))
    place.fails("not all is proved: rt: FAILED: mid")
    for missing in ("low proved", "mid is kept: an earlier run", "raftbench proved"):
        for said in ("", "rt: low proved nothing", "rt: mid", "rt: mid: its tests are proved"):
            place.says(PROVES.replace(f"rt: {missing}", said))
            place.fails(f"rt ci has not said that {missing.split()[0]} is proved")
    place.says(PROVES.replace("cp made crates", "cp nothing crates"))
    place.fails("rt ci has built no program")
    place.says(PROVES, "kit-2")
    place.fails("and rt is of kit-2")
    place.says(PROVES)
    place.write("made", PRETENDING.replace(", proved with ", ", not proved, "))
    place.save()
    place.fails("not proved")


def test_gives_the_same_bytes(place: Clone) -> None:
    first = place.archive().read_bytes()
    other = place.room / "another clone"
    place.git("clone", "-q", ".", other)
    for path in other.rglob("*.md"):
        os.utime(path, (1, 1))
    (place.room / "to").mkdir()
    old = os.umask(0o077)
    try:
        around = {"TZ": "Asia/Tokyo", "LC_ALL": "C.UTF-8", "HOME": str(place.room), "RAFTBENCH_BUILT_AFTER": "/", "RAFTBENCH_UNPROVED": "1"}
        second = place.archive("to", program=other / "release", around=around).read_bytes()
    finally:
        os.umask(old)
    assert first == second
    # Another commit gives others.
    (place.clone / "README.md").write_text("another\n")
    place.save()
    assert place.archive().read_bytes() != first


def test_packs_a_commit_alone(place: Clone) -> None:
    (place.clone / "crates/low/src/lib.rt").write_text("changed\n")
    status, told, error = place.call("")
    assert (status, told) == (1, "") and "crates/low/src/lib.rt" in error, (status, told, error)
    place.git("checkout", "-q", ".")
    (place.clone / "new").write_text("new\n")
    assert place.call("")[0] == 1
    (place.clone / "new").unlink()
    shutil.rmtree(place.clone / ".git")
    status, told, error = place.call("", around={"GIT_CEILING_DIRECTORIES": str(place.room)})
    assert (status, told) == (1, "") and "no clone" in error, (status, told, error)
    assert not list(place.room.glob("*.tar.gz"))


def test_fails_plainly(place: Clone) -> None:
    assert place.call("--help") == (0, "usage: ./release [FOLDER]\n", "")
    assert place.call("a b")[0] == 2 and place.call("--nothing")[0] == 2
    status, told, error = place.call("nowhere")
    assert (status, told) == (1, "") and "nowhere is no folder" in error, error
    (place.clone / "made").write_text("#!/bin/sh\necho otherwise\n")
    place.save()
    status, told, error = place.call("")
    assert (status, told) == (1, "") and "otherwise" in error, error
    (place.clone / "raftbench").write_text("#!/bin/sh\nexit 70\n")
    place.save()
    assert place.call("")[0] == 70
    assert not list(place.room.glob("*.tar.gz")) and not list(place.room.glob(".raftbench*"))


def loaded_with(program: pathlib.Path, before: str = "") -> list[str]:
    """The files that the system's loader lists behind this, and the loader itself, which stands without an arrow."""
    if not shutil.which("ldd"):
        raise NotHere
    listed = subprocess.run(["ldd", program], capture_output=True, text=True, check=True).stdout
    return re.findall(rf"{before}(/\S+) \(0x", listed, re.M)


def in_root(root: pathlib.Path, *words: str) -> subprocess.CompletedProcess[str]:
    """A call in a root folder of its own; by a user's namespace, where this isn't the root user."""
    chroot, unshare = (shutil.which(name, path=f"{os.environ['PATH']}:/usr/sbin:/sbin") or "" for name in ("chroot", "unshare"))
    if not chroot or os.geteuid() and not unshare:
        raise NotHere("chroot or unshare")
    around = [unshare, "--user", "--map-root-user"] if os.geteuid() else []
    nothing: dict[str, str] = {}
    return subprocess.run([*around, chroot, root, *words], capture_output=True, text=True, env=nothing)


def test_starts_in_a_bare_root(place: Clone) -> None:
    """Nothing of the toolchain, no shell and no other file is there."""
    if not BUILT.exists():
        raise NotHere
    root = place.room / "root"
    for path in loaded_with(BUILT):
        target = root / path.lstrip("/")
        target.parent.mkdir(parents=True, exist_ok=True)
        shutil.copy(path, target)
    assert len(kept(root)) <= 5 and all(re.match(r"(?:.*/)?(?:ld-|ld64|lib(?:c|m|gcc_s)\.so)", name) for name in kept(root)), kept(root)
    shutil.copy(BUILT, root / "raftbench")
    shutil.copytree(TOP / "examples/tour", root / "tour")
    done = in_root(root, "/raftbench", "--version")
    if re.search(r"not permitted|denied|unshare failed", done.stderr):
        raise NotHere
    assert done.returncode == 0 and done.stdout.startswith("raftbench "), done
    done = in_root(root, "/raftbench", "check", "/tour")
    assert done.returncode == 0 and re.match(r"\d+ scripts, \d+ directives, 0 mismatches, 0 refused, ", done.stdout), done
    (root / "tour/01-election.txt").write_text("add-nodes 1\n----\nno\n")
    assert in_root(root, "/raftbench", "check", "/tour").returncode == 1


def test_nodes_work_where_they_are_unpacked(place: Clone) -> None:
    """Without the toolchain. They find the program beside them, or in the path."""
    place.take_the_built()
    place.around.pop("RAFTBENCH", None)
    folder = put_archive(place, place.room)
    around = {"PATH": f"{pathlib.Path(sys.executable).parent}:/usr/bin:/bin", "HOME": str(place.room)}
    for program in ("bin/raftbench", "usr/bin/raftbench"):
        status, output, told = place.call(["--with", folder / "nodes/first", folder / "examples/tour/01-election.txt"], program=folder / "nodes/run", around=around)
        assert status in (0, 1) and "1 script, " in output and not told, (program, status, output, told)
        # It is installed elsewhere.
        (folder / "usr/bin").mkdir(parents=True, exist_ok=True)
        if program == "bin/raftbench":
            (folder / program).rename(folder / "usr/bin/raftbench")
        around = {**around, "PATH": f"{folder / 'usr/bin'}:{around['PATH']}"}
    (folder / "usr/bin/raftbench").unlink()
    last = place.call(["--with", folder / "nodes/first", folder / "examples/tour/01-election.txt"], program=folder / "nodes/run", around=around)
    assert "the reference isn't compared" in last[2], last


def test_debian_has_a_package(place: Clone) -> None:
    """It has the archive's files where Debian has them, is the same whenever it is made, is installed into a folder, used there, and removed."""
    for tool in ("dpkg", "dpkg-deb", *([] if os.geteuid() == 0 else ["fakeroot"])):
        if not shutil.which(tool):
            raise NotHere(tool)
    place.take_the_built()
    place.around.pop("RAFTBENCH", None)
    around = {"PATH": f"{place.around['PATH']}:/usr/sbin:/sbin"}
    archive, package = place.call("", around=around)[1].split()
    first = (place.room / package).read_bytes()
    assert place.call("", around=around)[1].split() == [archive, package] and (place.room / package).read_bytes() == first, "other bytes"
    assert matched(r"raftbench_([0-9.]+)\+([0-9a-f]{10})_\w+\.deb$", package)[2] == place.git("rev-parse", "HEAD")[:10]
    root = place.room / "root"
    (root / "var/lib/dpkg").mkdir(parents=True)
    (root / "var/lib/dpkg/status").touch()
    as_root = [] if os.geteuid() == 0 else ["fakeroot"]

    def dpkg(*words: str) -> str:
        # The C library isn't in that root.
        status, output, told = place.call([*as_root, "dpkg", f"--root={root}", "--force-depends", *words][1:], program=[*as_root, "dpkg"][0], around=around)
        assert status == 0, (words, output, told)
        return output

    dpkg("--install", package)
    listed = dpkg("--listfiles", "raftbench").splitlines()
    for name in ("bin/raftbench", "bin/raftbench-from-etcd", "bin/raftbench-nodes", "bin/raftbench-review", "share/zsh/vendor-completions/_raftbench-nodes", "share/man/man1/raftbench.1.gz", "share/zsh/vendor-completions/_raftbench", "share/raftbench/nodes/run",
                 "share/doc/raftbench/copyright", "share/doc/raftbench/changelog.Debian.gz", "share/doc/raftbench/PROOF", "share/bash-completion/completions/raftbench"):
        assert f"/usr/{name}" in listed and (root / "usr" / name).is_file(), name
    bare = {"PATH": f"{root / 'usr/bin'}:{pathlib.Path(sys.executable).parent}:/usr/bin:/bin"}
    tour = root / "usr/share/doc/raftbench/examples/tour"
    status, output, _ = place.call(["check", tour], program=root / "usr/bin/raftbench", around=bare)
    assert status == 0 and " 0 mismatches, 0 refused" in output, output
    status, output, told = place.call(["--with", root / "usr/share/raftbench/nodes/first", tour / "01-election.txt"], program=root / "usr/share/raftbench/nodes/run", around=bare)
    assert "1 script, " in output and not told, (output, told)
    dpkg("--purge", "raftbench")
    assert not [path for path in root.rglob("*raftbench*") if "var" not in path.relative_to(root).parts], "something is left"


def shown_in(document: pathlib.Path, language: str) -> list[str]:
    """What a document shows in this language, in order."""
    return re.findall(rf"^```{language}\n(.*?)^```$", document.read_text(), re.M | re.S)


def put_archive(place: Clone, into: pathlib.Path) -> pathlib.Path:
    path = place.archive()
    with tarfile.open(path) as packed:
        packed.extractall(into)
    return into / path.name.removesuffix(".tar.gz")


def test_stops_a_commit(place: Clone) -> None:
    """By docs/USING.md's hook, in both of its forms, with the unpacked archive's program in the path; PROOF names what that loads."""
    place.take_the_built()
    hook, for_changes, *_ = shown_in(TOP / "docs/USING.md", "sh")
    folder = put_archive(place, place.room)
    loads = matched(r"^loads     (.*)$", (folder / "PROOF").read_text())[1]
    assert sorted(loads.split(",")[0].split()) == sorted(pathlib.Path(it).name for it in loaded_with(BUILT, "=> ")), loads
    around = {"PATH": f"{folder / 'bin'}:{os.environ['PATH']}"}
    theirs = place.room / "theirs"
    (theirs / "tests").mkdir(parents=True)
    script = theirs / "tests/one.txt"
    script.write_text(MATCHING)
    place.git("init", "-q", at=theirs)
    put_program(theirs / ".git/hooks/pre-commit", hook)

    def commit() -> tuple[int, str, str]:
        place.git("add", "-A", at=theirs)
        return place.call(SAVE, program="git", cwd=theirs, around=around)

    status, *told = commit()
    assert status == 0, told
    for text in (hook, re.sub(r"^git ls-files .*\n", lambda _: for_changes, hook, flags=re.M)):
        put_program(theirs / ".git/hooks/pre-commit", text)
        script.write_text(MATCHING.replace("1/10", "1/11"))
        status, *told = commit()
        assert status != 0 and "tests/one.txt:1: add-nodes" in "".join(told), told
        # What is staged counts, whatever the working copy is.
        script.write_text(MATCHING)
        status, *told = place.call(SAVE, program="git", cwd=theirs, around=around)
        assert status != 0 and "tests/one.txt:1: add-nodes" in "".join(told), told


def carried_out(job: str, folder: pathlib.Path) -> subprocess.CompletedProcess[str]:
    """The first of a job's commands that fails, or the last: they stand behind `run:`, or in the list below `script:`."""
    commands = re.findall(r"^ *- run: (.*)$", job, re.M) + re.findall(r"^    - (?!uses|run)(.*)$", job, re.M)
    assert len(commands) > 1, job
    for command in commands:
        done = subprocess.run(["sh", "-e", "-c", command], cwd=folder, capture_output=True, text=True)
        if done.returncode:
            break
    return done


def test_carries_out_the_jobs(place: Clone) -> None:
    """Each job's commands, in a folder that has the archive and its sum, as docs/USING.md says."""
    place.take_the_built()
    archive = place.archive()
    jobs = [job for job in shown_in(TOP / "docs/USING.md", "yaml") if "raftbench check" in job]
    assert len(jobs) == 2, jobs
    for at, job in enumerate(jobs):
        theirs = place.room / f"job {at}"
        (theirs / "tests").mkdir(parents=True)
        (theirs / "tools").mkdir()
        (theirs / "tests/one.txt").write_text(MATCHING)
        shutil.copy(archive, theirs / "tools")
        (theirs / "tools/raftbench.sha256").write_text(f"{hashlib.sha256(archive.read_bytes()).hexdigest()}  tools/{archive.name}\n")
        done = carried_out(job, theirs)
        # GitLab's job writes its report into a file.
        xml = theirs / "raftbench.xml"
        told = ("", "::error file=tests/one.txt,line=1,") if "--format github" in job else ('failures="0"', "tests/one.txt:1: add-nodes")
        assert done.returncode == 0 and told[0] in done.stdout + (xml.read_text() if xml.exists() else ""), (job, done)
        (theirs / "tests/one.txt").write_text(MATCHING.replace("1/10", "1/11"))
        done = carried_out(job, theirs)
        assert done.returncode == 1 and told[1] in done.stdout + (xml.read_text() if xml.exists() else ""), done
        (theirs / "tools" / archive.name).write_bytes(b"another archive")
        done = carried_out(job, theirs)
        assert done.returncode == 1 and "FAILED" in done.stdout, done
