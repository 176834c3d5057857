"""The files that a browser loads: the page's elements, styles and modules from rb_view, and those of playing."""
from __future__ import annotations

import pathlib
import re

from .program import Missing

# The styles of a page, in their order; playing's own is last.
STYLES = ["style", "script_style", "picture_style", "logs_style", "after_style", "narrow_style", "paper_style"]
# The module that starts the page of one run, which live.js takes the place of.
LEFT_OUT = {"start.js", "types.js"}
NO_SCRIPTS = "<noscript><p>This page needs JavaScript: what one clicks becomes the script. <code>raftbench chart FILE</code> writes a picture without.</p></noscript>"
Files = dict[str, tuple[str, bytes]]


def found_assets(top: pathlib.Path) -> pathlib.Path:
    """The page's own files: in a clone, or where they are installed beside this package."""
    places = [top / "crates" / "rb_view" / "assets", pathlib.Path(__file__).resolve().parent / "assets"]
    found = next((place for place in places if (place / "page.html").exists()), None)
    if not found:
        raise Missing(f"the page's files are missing: {places[-1]}")
    return found


def elements_of(html: str) -> str:
    """The page's elements, with the style and the code as files of the server, and room for playing."""
    html = re.sub(r'<meta http-equiv="Content-Security-Policy"[^>]*>\n', "", html)
    html = html.replace("<style>{style}</style>", '<link rel="stylesheet" href="style.css">')
    html = re.sub(r'<script type="application/json" id="steps">.*?</script>\n<script>.*?</script>', '<script type="module" src="live.js"></script>', html, flags=re.DOTALL)
    html = html.replace('<p id="notice">', f'{NO_SCRIPTS}\n<section id="live" aria-label="Play" hidden></section>\n<p id="notice">')
    return html.replace('<dialog id="help"', '<div id="live-said" role="status"></div>\n<dialog id="help"')


def files_of(assets: pathlib.Path) -> Files:
    """Each file by its name in the address; the page is at the empty one."""
    own = pathlib.Path(__file__).resolve().parent / "page"
    modules = [*assets.glob("*.js"), *own.glob("*.js")]
    files: Files = {path.name: ("text/javascript; charset=utf-8", path.read_bytes()) for path in modules if path.name not in LEFT_OUT}
    style = [*(assets / f"{name}.css" for name in STYLES), own / "live.css"]
    files["style.css"] = ("text/css; charset=utf-8", b"\n".join(path.read_bytes() for path in style))
    files[""] = ("text/html; charset=utf-8", elements_of((assets / "page.html").read_text(encoding="utf-8")).encode())
    return files
