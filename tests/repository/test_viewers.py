"""What a session runs on knows nobody who shows it: no crate below rb_replay and rb_cluster stands on one that shows something, and none of their names
is a viewer's word.

Names are looked at in definitions, code and lemmas, by their words: `rows_of_page` has three. A comment may say who a thing is for.
"""
import re
from collections.abc import Iterator

from tests.harness import TOP
from tests.repository.crate_map import CRATES, files_of

RUN = ["rb_replay", "rb_cluster", "rb_laws"]
# Words of what shows a run. `report` is a session's own, and `look` a verb.
VIEWERS = {
    "chart", "charts", "picture", "pictures", "svg", "html", "css", "browser", "hover", "hovers", "editor", "diagnostic", "diagnostics", "viewer", "viewers",
    "screen", "scene", "trace", "traces", "tracer", "render", "json",
}
# rb_text writes texts for all, those of JSON too; logs and messages keep entries in pages.
OWN = {"rb_text": {"json", "page"}, "rb_raftlog": {"page", "pages"}, "rb_message": {"page", "pages"}}
SHOWS = {
    "rb_view", "rb_report", "rb_script_report", "rb_lsp", "rb_editor", "rb_args", "rb_bench", "rb_files", "rb_check", "rb_book", "rb_site", "rb_program", "raftbench",
}
WORD = re.compile(r"[A-Z]?[a-z]+|[A-Z]+(?![a-z])")
COMMENT = re.compile(r"(?://|-- ).*")


def below() -> dict[str, set[str]]:
    """What each crate names in crates.txt."""
    rows = [row.partition("#")[0].partition(":") for row in (TOP / "crates.txt").read_text().splitlines()]
    return {name.split()[0]: set(rest.split()) for name, _, rest in rows if name.strip()}


def crates_below(names: list[str]) -> set[str]:
    found, left, rows = set[str](), list(names), below()
    while left:
        name = left.pop()
        if name in rows and name not in found:
            found.add(name)
            left += rows[name]
    return found


def test_no_crate_of_a_run_stands_on_one_that_shows() -> Iterator[str]:
    found = crates_below(RUN)
    assert len(found) > 12, found
    assert SHOWS <= set(below()), SHOWS - set(below())
    for name in sorted(found & SHOWS):
        yield f"{name}, which shows a run, is below {', '.join(RUN)}"


def test_no_name_of_a_run_is_a_viewers() -> Iterator[str]:
    for name in sorted(crates_below(RUN)):
        words = (VIEWERS | {"page", "pages"}) - OWN.get(name, set())
        for path in sorted(it for part in files_of(CRATES / name) for it in part):
            for number, line in enumerate(path.read_text().splitlines(), 1):
                for word in sorted({it.lower() for it in WORD.findall(COMMENT.sub("", line))} & words):
                    yield f"{path.relative_to(TOP)}:{number} names a viewer: {word}"


def test_words_of_viewers_are_found() -> None:
    """The look finds words within names."""
    assert {it.lower() for it in WORD.findall("rows_of_page PageRows HTML_TEXT chartOf")} & (VIEWERS | {"page"}) == {"page", "html", "chart"}
