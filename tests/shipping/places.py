"""What the tests of ./raftbench, ./install and ./release share: a small clone of the repository, where programs only pretend."""
import os
import pathlib
import shutil
import subprocess
from collections.abc import Sequence
from typing import Any

from tests.harness import TOP

# A call takes a second, and long on a machine that proves meanwhile.
MOST_SECONDS = 300


def put_program(path: pathlib.Path, text: str) -> None:
    path.parent.mkdir(parents=True, exist_ok=True)
    path.write_text(text)
    path.chmod(0o755)


def kept(folder: pathlib.Path) -> list[str]:
    """The files below a folder, by their paths from there."""
    return sorted(str(path.relative_to(folder)) for path in folder.rglob("*") if path.is_file())


class Place:
    """A room, and in it a clone that has some of the repository. One of its programs is called, in a folder and an environment."""

    def __init__(self, room: pathlib.Path, program: str, *names: str) -> None:
        self.room = pathlib.Path(room)
        self.room.chmod(0o755)
        self.clone = self.room / "a clone"
        self.clone.mkdir()
        for name in (program, *names):
            if (TOP / name).is_dir():
                shutil.copytree(TOP / name, self.clone / name, ignore=shutil.ignore_patterns("__pycache__"))
            else:
                shutil.copy(TOP / name, self.clone / name)
        self.program, self.at, self.around = self.clone / program, self.room, dict(os.environ)

    def write(self, name: str, text: str | None) -> None:
        """Puts a file into the clone that may be run, or without a text takes one away, or a folder."""
        path = self.clone / name
        if text is not None:
            put_program(path, text)
        elif path.is_dir():
            shutil.rmtree(path)
        else:
            path.unlink()

    def start(self, words: str | Sequence[str | pathlib.Path], program: pathlib.Path | str | None = None, around: dict[str, str] | None = None, **how: Any) -> subprocess.Popen[str]:
        how = {**dict.fromkeys(("stdin", "stdout", "stderr"), subprocess.PIPE), "cwd": self.at, "text": True, **how}
        listed = words.split() if isinstance(words, str) else words
        started: subprocess.Popen[str] = subprocess.Popen([program or self.program, *listed], env={**self.around, **(around or {})}, **how)
        return started

    def call(self, words: str | Sequence[str | pathlib.Path], given: str = "", **how: Any) -> tuple[int, str, str]:
        """The status, the output and what is told."""
        started = self.start(words, **how)
        output, told = started.communicate(given, MOST_SECONDS)
        return started.returncode, output, told
