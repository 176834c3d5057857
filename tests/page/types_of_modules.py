"""The page's modules by the compiler of TypeScript (Debian's node-typescript), and by what holds for their sources."""
import pathlib
import re
import shutil
import subprocess
import tempfile

from tests.harness import TOP
from tests.page import assemble
from tests.page.scripts import same

MOST_LINES = 500


def checked(folder: pathlib.Path) -> str:
    """What tsc says of a folder of modules."""
    done = subprocess.run(["tsc", "-p", folder], capture_output=True, text=True, check=False)
    return done.stdout


def modules_have_their_types() -> None:
    if not shutil.which("tsc"):
        print("NOT TRIED, since tsc isn't here: the types of the page's modules")
        return
    same("what is wrong with the types", checked(assemble.ASSETS), "")
    same("what is wrong with those of raftbench-live", checked(TOP / "live" / "page"), "")
    with tempfile.TemporaryDirectory() as room:
        folder = pathlib.Path(room, "assets")
        shutil.copytree(assemble.ASSETS, folder)
        (folder / "text.js").write_text((folder / "text.js").read_text().replace("text.slice(0, isCut ?", "text.slice(0, isCat ?"))
        same("whether a wrong name is found", "isCat" in checked(folder), True)


def modules_are_short_and_all_used() -> None:
    modules = {path.name: path.read_text() for path in assemble.ASSETS.glob("*.js")}
    same("modules that are too long", {name for name, text in modules.items() if text.count("\n") > MOST_LINES}, set())
    same("modules that the page doesn't have", set(modules) - set(assemble.modules()), {"types.js"})
    same("modules that don't say what they are", {name for name, text in modules.items() if not text.startswith("// ")}, set())


def two_names_are_found() -> None:
    """Modules share one scope, so no name may be there twice: the check itself."""
    names = [name for module in assemble.modules() for name in assemble.NAME.findall((assemble.ASSETS / module).read_text())]
    same("names that are there twice", sorted({name for name in names if names.count(name) > 1}), [])
    same("what a look finds", assemble.NAME.findall("export class A {}\nconst b = 1;\n  const c = 2;\nfunction d() {}\n"), ["A", "b", "d"])
    same("what is left of a module", assemble.EXPORT.sub("", 'export const a = 1;\n'), "const a = 1;\n")
    same("what is imported", assemble.IMPORT.findall('import { a, b } from "./c.js";\n'), ["c.js"])
    same("what is left of types", assemble.TYPES.sub("", "/**\n * @type {a}\n */\nconst a = /** @type {b} */ (c);\n  /** @type {d} */\nf();\n"), "const a = (c);\nf();\n")
    same("whether types are left", [code for code in assemble.codes() if "/**" in code or "@type" in code], [])
    same("whether imports are left", re.findall(r"^(?:import|export)\b", "".join(assemble.codes()), re.MULTILINE), [])


ALONE = [modules_have_their_types, modules_are_short_and_all_used, two_names_are_found]
