"""Sites of a folder's scripts: which files they have, where their links lead, what a browser shows of them, and how writing one ends."""
from __future__ import annotations

import html.parser
import pathlib
import shutil
import subprocess
import urllib.parse
from collections.abc import Iterator

from tests.harness import PROGRAM, TOP
from tests.page.browser import Browser, found

# Some of the tour: its first script's comment has a title, and its second page has one before it and one after it.
TOUR = sorted((TOP / "examples" / "tour").glob("*.txt"))[:3]
BEGIN, END = '<script type="application/json" id="steps">', "</script>"
RIGHT = b"add-nodes 1 voters=(1) index=10 log-level=none\n----\nok\n"
WRONG = b"# Its output is wrong. The rest isn't its title.\n" + RIGHT.replace(b"ok", b"no")


class Links(html.parser.HTMLParser):
    """The addresses of a page's links, styles, codes and pictures, and the words of its contents."""

    def __init__(self, page: pathlib.Path) -> None:
        super().__init__()
        self.addresses: list[str] = []
        self.relations: dict[str, str] = {}
        self.words: list[str] = []
        self.feed(page.read_text())

    def handle_starttag(self, tag: str, attrs: list[tuple[str, str | None]]) -> None:
        given = dict(attrs)
        self.addresses += [address for name in ("href", "src") if (address := given.get(name))]
        if tag == "a" and given.get("rel"):
            self.relations[given["rel"] or ""] = given["href"] or ""

    def handle_data(self, data: str) -> None:
        self.words.append(data)


def run(*words: str | pathlib.Path) -> subprocess.CompletedProcess[bytes]:
    return subprocess.run([PROGRAM, *words], capture_output=True, timeout=120, check=False)


def tour_in(room: pathlib.Path) -> pathlib.Path:
    """A folder with the scripts of the tour."""
    folder = room / "tour"
    folder.mkdir()
    for path in TOUR:
        shutil.copy(path, folder)
    return folder


def files_in(site: pathlib.Path) -> set[str]:
    return {path.relative_to(site).as_posix() for path in site.rglob("*") if path.is_file()}


def lost_links(site: pathlib.Path) -> Iterator[str]:
    """The addresses of a site's pages at which there is no file."""
    for page in site.rglob("*.html"):
        for address in Links(page).addresses:
            if not (page.parent / urllib.parse.unquote(address)).is_file():
                yield f"{page.name} leads to {address}"


def rows_in(page: str) -> str:
    """The rows of a page after the first, which has the script's name."""
    return page.split(BEGIN, 1)[1].split(END, 1)[0].split("\n", 1)[1]


def test_each_script_of_a_folder_has_a_page_and_a_picture(room: pathlib.Path) -> Iterator[str]:
    site = room / "site"
    done = run("page", tour_in(room), "--out", site)
    if (done.returncode, done.stdout, done.stderr) != (0, b"", b""):
        yield f"{done}"
    wanted = {f"{path.stem}.{kind}" for path in TOUR for kind in ("html", "svg")} | {"index.html", "page.css", "page.js"}
    if files_in(site) != wanted:
        yield f"{files_in(site) ^ wanted}"
    yield from lost_links(site)
    contents = (site / "index.html").read_text()
    places = [contents.find(f'<a href="{path.stem}.html">') for path in TOUR]
    if -1 in places or places != sorted(places) or "An election, message by message (Ongaro's thesis, section 3.4)." not in contents:
        yield f"contents: {places}"
    for path in TOUR:
        alone, page = run("page", path).stdout.decode(), (site / f"{path.stem}.html").read_text()
        if rows_in(alone) != rows_in(page):
            yield f"{path.name}: its rows are others than those of its page alone"
        if (site / f"{path.stem}.svg").read_text() != run("chart", path).stdout.decode().replace(path.name, path.stem):
            yield f"{path.name}: its picture is another than its picture alone"
        if "function " in page or "<style>" in page:
            yield f"{path.name}: its page has the code or the style itself"


def test_the_style_and_the_code_are_those_of_a_page(room: pathlib.Path) -> None:
    site = room / "site"
    run("page", TOUR[0], "--out", site)
    alone = run("page", TOUR[0]).stdout.decode()
    assert (site / "page.css").read_text().startswith(alone.split("<style>", 1)[1].split("</style>", 1)[0])
    assert (site / "page.js").read_text() == alone.split("</script>\n<script>", 1)[1].split("</script>", 1)[0]


def test_pages_lead_to_those_before_and_after_them(room: pathlib.Path) -> None:
    folder, site = room / "scripts", room / "site"
    (folder / "b #%?").mkdir(parents=True)
    for name in ("a.txt", "b #%?/\u00e9 <&\">'.txt", "c.txt"):
        (folder / name).write_bytes(RIGHT)
    assert run("page", folder, "--out", site).returncode == 0
    pages = ["a.html", "b #%?/\u00e9 <&\">'.html", "c.html"]
    assert {it for it in files_in(site) if it.endswith(".html")} == {*pages, "index.html"}
    assert list(lost_links(site)) == []
    ways = [Links(site / page).relations for page in pages]
    assert [sorted(it) for it in ways] == [["next"], ["next", "prev"], ["prev"]]
    there = [{key: ((site / page).parent / urllib.parse.unquote(to)).resolve() for key, to in it.items()} for page, it in zip(pages, ways)]
    assert (there[0]["next"], there[1]["prev"], there[1]["next"], there[2]["prev"]) == tuple((site / pages[at]).resolve() for at in (1, 0, 2, 1))
    assert pages[1].removesuffix(".html") in Links(site / "index.html").words


def test_a_check_writes_pages_of_what_differs(room: pathlib.Path) -> Iterator[str]:
    folder = room / "scripts"
    (folder / "more").mkdir(parents=True)
    (folder / "right.txt").write_bytes(RIGHT)
    (folder / "none.txt").write_bytes(b"campaign 1\n")
    assets = {"index.html", "page.css", "page.js"}
    none: set[str] = set()
    for data, status, pages, words in ((WRONG, 3, {"more/wrong.html", "more/wrong.svg"}, "Its output is wrong."), (RIGHT, 3, none, "No script differs.")):
        site = room / f"site{len(pages)}"
        (folder / "more" / "wrong.txt").write_bytes(data)
        done = run("check", "--quiet", folder, "--pages", site)
        if done.returncode != status or files_in(site) != pages | assets:
            yield f"{done} {files_in(site)}"
        if words not in Links(site / "index.html").words:
            yield f"{Links(site / 'index.html').words}"


def test_scripts_of_several_paths_keep_their_folders(room: pathlib.Path) -> None:
    for name in ("one", "two"):
        (room / name).mkdir()
        (room / name / "a.txt").write_bytes(WRONG)
    assert run("check", "--quiet", room / "one", room / "two", "--pages", room / "site").returncode == 1
    assert {it for it in files_in(room / "site") if it.endswith(".svg")} == {"one/a.svg", "two/a.svg"}


def test_what_is_there_is_left(room: pathlib.Path) -> Iterator[str]:
    (room / "site").mkdir()
    (room / "empty").mkdir()
    (room / "none.txt").write_bytes(b"campaign 1\n")
    cases = [(TOUR[0], "site", 4, b"input or output failed"), (room / "empty", "new", 4, b"input or output failed"), (room / "gone", "new", 4, b"input or output failed"),
             (room / "none.txt", "new", 3, b"script refused: NoSeparator at line 1")]
    for path, site, status, said in cases:
        done = run("page", path, "--out", room / site)
        if done.returncode != status or said not in done.stderr or files_in(room / site) or (room / "new").exists():
            yield f"{path.name}: {done}"


def test_without_javascript_a_page_has_a_sentence_and_the_picture(room: pathlib.Path) -> Iterator[str]:
    program = found()
    if program is None:
        print("no browser is here, so no page is opened without JavaScript")
        return
    site = room / "site"
    run("page", tour_in(room), "--out", site)
    with Browser(program) as browser:
        browser.call("Emulation.setScriptExecutionDisabled", value=True)
        browser.load((site / f"{TOUR[1].stem}.html").as_uri())
        seen = browser.value("""(() => {
          const image = document.querySelector('noscript img');
          return [document.querySelector('noscript p').textContent, image.complete && image.naturalWidth > 300 && image.getBoundingClientRect().height > 300];
        })()""")
        if seen != ["With JavaScript, this page goes through the script step by step. Here is its picture.", True]:
            yield f"{seen}"
        links = browser.value("[...document.querySelectorAll('.book a')].map((it) => it.getAttribute('href'))")
        if links != ["index.html", f"{TOUR[0].stem}.html", f"{TOUR[2].stem}.html"]:
            yield f"{links}"


def test_a_browser_shows_a_site(room: pathlib.Path) -> Iterator[str]:
    program = found()
    if program is None:
        print("no browser is here, so a site isn't opened in one")
        return
    site = room / "site"
    run("page", tour_in(room), "--out", site)
    with Browser(program) as browser:
        browser.open(site / "index.html")
        if browser.value("document.querySelectorAll('li a').length") != len(TOUR):
            yield "not all scripts are in the contents"
        browser.open(site / f"{TOUR[1].stem}.html")
        if browser.value("document.getElementById('panes').hidden") or not browser.value("document.querySelectorAll('#directives > *').length"):
            yield "a page shows no script"
        yield from browser.faults
        if browser.value("getComputedStyle(document.querySelector('.book')).display") != "flex":
            yield "a page has no style"
