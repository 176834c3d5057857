"""Looks at the extension of editors/vscode as a package: its manifest and the files that it names, and its types by the compiler of TypeScript.
vscode.js and monaco.js run it.
"""
import json
import pathlib
import re
import shutil
import struct
import subprocess
from collections.abc import Iterator
from typing import Any

from tests.harness import TESTS, TOP, NotHere

VSCODE = TOP / "editors/vscode"
TYPES = TESTS / "editors/types"
LEAST_PIXELS = 128
# Commands that nobody but the server's lenses call.
INNER = {"raftbench.accept"}


def package() -> Any:
    return json.loads((VSCODE / "package.json").read_text())


def test_manifest_names_what_is_there() -> Iterator[str]:
    it = package()
    language, grammar, snippets = (it["contributes"][name][0] for name in ("languages", "grammars", "snippets"))
    if not language["id"] == grammar["language"] == snippets["language"] == it["name"] == "raftbench":
        yield f"languages: {language}, {grammar}, {snippets}"
    for name in (it["main"], it["icon"], language["configuration"], grammar["path"], snippets["path"], "README.md"):
        if not (VSCODE / name).is_file():
            yield f"there is no {name}"
    if json.loads((VSCODE / grammar["path"]).read_text())["scopeName"] != grammar["scopeName"]:
        yield "the grammar has another scope"
    if json.loads((VSCODE / language["configuration"]).read_text())["comments"] != {"lineComment": "#"}:
        yield "comments begin otherwise"
    for name in ("description", "license", "repository", "publisher", "keywords"):
        if not it.get(name):
            yield f"there is no {name}"
    if it["version"] != re.findall(r"^## (\S+)$", (TOP / "docs/CHANGES.md").read_text(), re.M)[0]:
        yield f"the version is {it['version']}"


def test_icon_is_large_enough() -> Iterator[str]:
    begin = (VSCODE / package()["icon"]).read_bytes()[:24]
    if begin[:8] != b"\x89PNG\r\n\x1a\n" or min(struct.unpack(">II", begin[16:])) < LEAST_PIXELS:
        yield f"the icon begins with {begin!r}"


def test_commands_are_registered() -> Iterator[str]:
    """Each command of the manifest is one of the extension, starts it, and is in its README.md. Lenses call those that the server names."""
    it = package()
    named = {command["command"]: command for command in it["contributes"]["commands"]}
    registered = set(re.findall(r'registerCommand\("([\w.]+)"', (VSCODE / "extension.js").read_text()))
    starting = [event.partition(":")[2] for event in it["activationEvents"] if event.startswith("onCommand:")]
    if not INNER < registered or not set(named) == registered - INNER == set(starting) or len(named) < 3:
        yield f"commands: {sorted(named)}, {registered}, {starting}"
    rows = re.findall(r"^\| `(.+?)` \|", (VSCODE / "README.md").read_text(), re.M)
    if sorted(rows) != sorted(f"{command['category']}: {command['title']}" for command in named.values()):
        yield f"README.md has the commands {rows}"
    used = {entry["command"] for entries in it["contributes"]["menus"].values() for entry in entries}
    if not used <= set(named):
        yield f"menus: {used}"


def test_a_folder_names_no_program() -> Iterator[str]:
    """The extension works in folders that aren't trusted, since a folder's settings can't name the program."""
    it = package()
    if it["capabilities"] != {"untrustedWorkspaces": {"supported": True}}:
        yield f"trust: {it['capabilities']}"
    if it["contributes"]["configuration"]["properties"]["raftbench.program"].get("scope") != "machine":
        yield "a folder's settings can name the program"


def checked(folder: pathlib.Path) -> str:
    """What tsc says of the files that a folder's tsconfig.json names."""
    if not shutil.which("tsc"):
        raise NotHere("tsc")
    return subprocess.run(["tsc", "-p", folder], capture_output=True, text=True, check=False).stdout


def test_types_are_right() -> Iterator[str]:
    yield from checked(TYPES).splitlines()


def test_a_wrong_name_is_found(room: pathlib.Path) -> Iterator[str]:
    """By the same look, in a copy."""
    shutil.copytree(TYPES, room / "tests/editors/types")
    shutil.copytree(VSCODE, room / "editors/vscode")
    path = room / "editors/vscode/extension.js"
    path.write_text(path.read_text().replace("onDidOpenTextDocument(look)", "onDidOpenTextDocument(lok)"))
    if "'lok'" not in checked(room / "tests/editors/types"):
        yield "a wrong name isn't found"
