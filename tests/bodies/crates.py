"""The crates of the repository, and the toolchain's check of a copy of one."""
import dataclasses
import functools
import pathlib
import shutil
import subprocess
import tempfile

from tests.bodies.edits import PARTS
from tests.harness import TOP


class NotReady(Exception):
    """A crate that isn't proved as it stands, so that no edit of it can be judged."""


@dataclasses.dataclass(frozen=True)
class Crate:
    """A crate: its name, the toolchain's libraries and the crates that it names."""

    name: str
    libraries: tuple[str, ...]
    named: tuple["Crate", ...]

    @property
    def folder(self) -> pathlib.Path:
        return TOP / "crates" / self.name

    @property
    def built(self) -> pathlib.Path:
        """The built library, which is there where the crate was proved."""
        return self.folder / "out" / "rlib" / f"{self.name}.rlib"

    def below(self) -> list["Crate"]:
        """All crates below this one, each behind those that it names."""
        found: list[Crate] = []
        for crate in self.named:
            found += [it for it in [*crate.below(), crate] if it not in found]
        return found

    def files(self) -> list[pathlib.Path]:
        """The files that a check reads."""
        return [path for part in PARTS for path in sorted((self.folder / part).rglob("*")) if path.is_file()]


def crates_of(root: pathlib.Path = TOP) -> dict[str, Crate]:
    """The crates that crates.txt lists, by name."""
    lines = [line.partition("#")[0].partition(":") for line in (root / "crates.txt").read_text().splitlines()]
    named = {name.split()[0]: names.split() for name, _, names in lines if name.strip()}

    @functools.lru_cache(maxsize=None)
    def made(name: str) -> Crate:
        libraries = tuple(it for it in named[name] if it not in named)
        return Crate(name, libraries, tuple(made(it) for it in named[name] if it in named))

    return {name: made(name) for name in named}


@functools.lru_cache(maxsize=None)
def toolchain() -> pathlib.Path:
    """The toolchain's folder, where the page is to which `rt doc` points."""
    page = subprocess.run(["rt", "doc"], check=True, capture_output=True, text=True).stdout
    return pathlib.Path(page.strip()).parent


def is_left_by_the_gate(crates: list[Crate]) -> bool:
    """Whether the built libraries are those of one `rt ci`: they have no stamp, and each is newer than all that it is made of."""
    for crate in crates:
        if not crate.built.is_dir() or (crate.built.parent / "stamp").exists():
            return False
        parts = [*crate.files(), *(it.built for it in crate.below())]
        if crate.built.stat().st_mtime < max(part.stat().st_mtime for part in parts):
            return False
    return True


def make_ready(crate: Crate) -> None:
    """Proves the crate and those below it where that is not done. Raises NotReady where one isn't proved."""
    if is_left_by_the_gate([*crate.below(), crate]):
        return
    made = subprocess.run(["rt", "lib", "--jobs", "1"], cwd=crate.folder, stdin=subprocess.DEVNULL, capture_output=True, text=True, errors="replace")
    if made.returncode:
        said = (made.stdout + made.stderr).strip().splitlines()
        raise NotReady(f"{crate.name} isn't proved as it stands: {said[-1] if said else made.returncode}")


def check(crate: Crate, texts: dict[str, str], functions: list[str], kept: pathlib.Path) -> str:
    """What the toolchain's check says of these functions in a copy of the crate with these texts. It keeps its work in the folder `kept`.

    Where a text is of a crate below, all crates below are read as source, and of their functions nothing is proved.
    """
    kit = toolchain()
    sources = crate.below() if any(file.startswith("../") for file in texts) else []
    with tempfile.TemporaryDirectory(prefix="bodies-") as folder:
        room = pathlib.Path(folder, crate.name)
        for it in [crate, *sources]:
            for part in PARTS:
                if (it.folder / part).is_dir():
                    shutil.copytree(it.folder / part, room.parent / it.name / part)
        for file, text in texts.items():
            (room / file).write_text(text)
        words = [str(kit / "bin" / "rattle"), "check", "--crate-name", crate.name, "src/lib.rt", "--jobs", "1"]
        for library in sorted({"std", *crate.libraries, *(name for it in sources for name in it.libraries)}):
            words += ["--extern", f"{library}={kit}/rlibs/{library}.rlib"]
        for it in sources or crate.named:
            words += ["--lib", f"{it.name}=../{it.name}/src/lib.rt"] if sources else ["--extern", f"{it.name}={it.built}"]
        for path in [kit / "rlibs", *(it.built.parent for it in crate.below() if not sources)]:
            words += ["-L", f"dependency={path}"]
        words += ["--antt-project", f"{kit}/rattle/logic/antt-project.json", "--logic-built", f"{kit}/logic_built", "--incremental", str(kept)]
        for function in functions:
            words += ["--only", function]
        ran = subprocess.run(words, cwd=room, stdin=subprocess.DEVNULL, stdout=subprocess.PIPE, stderr=subprocess.STDOUT, text=True, errors="replace")
        return ran.stdout
