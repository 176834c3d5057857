"""Looks that each Python file has types on all its functions, as `mypy --strict` reads them, also in programs that stand in strings; and that it imports
nothing that it doesn't use, as pyflakes sees it.

Where one of the two isn't installed (Debian: mypy, pyflakes3), that is said and not tried.
"""
import ast
import pathlib
import re
import shutil
import subprocess
import tempfile
from collections.abc import Iterator

from tests.harness import TOP, NotHere

MOST_SECONDS = 600


def is_python(path: pathlib.Path) -> bool:
    """Whether a file is Python: by its name, or a command by its first line."""
    if path.suffix:
        return path.suffix == ".py"
    with path.open("rb") as file:
        return file.readline() == b"#!/usr/bin/env python3\n"


def python_files() -> list[pathlib.Path]:
    """All Python files of the repository, in order."""
    folders = [TOP / name for name in ("plain", "raftbench_nodes", "nodes", "live", "tests", "bench", "editors")]
    found = [path for folder in folders for path in folder.rglob("*") if path.is_file() and not path.is_symlink() and "__pycache__" not in path.parts]
    return [path for path in sorted([*found, TOP / "install", TOP / "raftbench-live", TOP / "raftbench-nodes"]) if is_python(path)]


def said_by(tool: str, *words: str | pathlib.Path) -> list[str]:
    """What a tool says of the repository, in lines. Raises NotHere where there is no such tool."""
    if not shutil.which(tool):
        raise NotHere(tool)
    done = subprocess.run([tool, *words], cwd=TOP, capture_output=True, text=True, timeout=MOST_SECONDS)
    assert done.returncode in (0, 1), done.stderr
    return done.stdout.splitlines()


def programs_in(text: str) -> list[str]:
    """The strings of a Python file that are programs with functions."""
    strings = [node.value for node in ast.walk(ast.parse(text)) if isinstance(node, ast.Constant) and isinstance(node.value, str)]
    return [string for string in strings if re.search(r"^ *def \w+\(", string, re.MULTILINE) and is_program(string)]


def is_program(text: str) -> bool:
    try:
        ast.parse(text)
    except SyntaxError:
        return False
    return True


def test_each_function_has_types() -> Iterator[str]:
    modules = [path for path in python_files() if path.suffix]
    commands = [path for path in python_files() if not path.suffix]
    assert len(modules) > 100 and len(commands) > 8, f"{len(modules)} modules, {len(commands)} commands"
    with tempfile.TemporaryDirectory() as cache:
        options = ("--strict", "--explicit-package-bases", "--no-error-summary", f"--cache-dir={cache}")
        yield from said_by("mypy", *options, *modules)
        for command in commands:
            yield from said_by("mypy", *options, command)
        for path in python_files():
            for program in programs_in(path.read_text()):
                yield from (f"{path}: a program in it: {line}" for line in said_by("mypy", *options, "-c", program))


def test_a_program_in_a_string_is_seen() -> Iterator[str]:
    wanted = ["def work(item: int) -> int:\n    return item\n", "class It:\n    def work(self) -> None: ...\n"]
    if programs_in(f"PROGRAMS = {wanted!r}\nOTHERS = ['def work of', 'work(it)']\n") != wanted:
        yield "programs in strings aren't seen"


def test_nothing_is_imported_for_nothing() -> Iterator[str]:
    # What is imported for what it does says so.
    yield from (line for line in said_by("pyflakes3", *python_files()) if not is_marked(line))


def is_marked(line: str) -> bool:
    """Whether the line of a file that pyflakes names has the mark of an import that is meant: `noqa` with F401."""
    path, number, *_ = line.split(":")
    return re.search(r"# noqa: .*\bF401\b", pathlib.Path(path).read_text().splitlines()[int(number) - 1]) is not None
