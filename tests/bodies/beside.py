"""What a run of `rt ci` that goes on has said so far: which crates it has proved, and how many processors it leaves idle."""
import pathlib
import re

from tests.bodies.crates import Crate


class Gate:
    """A run of `rt ci` with one job a proof, by a folder: what it says goes into the file `said`, and `status` stands there once it has ended."""

    def __init__(self, folder: pathlib.Path, crates: dict[str, Crate]) -> None:
        self.folder = folder
        self.crates = crates
        self.have_tests = {name for name, crate in crates.items() if any("#[test]" in it.read_text() for it in crate.folder.glob("src/**/*.rt"))}
        self.read()

    def read(self) -> None:
        """Reads what it has said by now."""
        self.has_ended = (self.folder / "status").exists()
        said = self.folder / "said"
        text = said.read_text(errors="replace") if said.exists() else ""
        self.proved = set(re.findall(r"^rt: (\w+) (?:proved$|is kept: )", text, re.M))
        ended = re.findall(r"^rt: (\w+)(: its tests are)? (?:proved$|is kept: |NOT PROVED)", text, re.M)
        self.ended = {name for name, tests in ended if not tests}
        self.ended_tests = {name for name, tests in ended if tests}

    def may_judge(self, name: str) -> bool:
        """Whether a crate stands as it will once the run has ended."""
        return self.has_ended or name in self.proved

    def busy(self) -> int:
        """How many proofs go on or could: those of crates and of their tests whose libraries are all proved."""
        if self.has_ended:
            return 0
        begun = {name for name, crate in self.crates.items() if all(it.name in self.ended for it in crate.below())}
        return len(begun - self.ended) + len((begun & self.have_tests) - self.ended_tests)
