"""Finding texts and filtering events, also of what isn't drawn."""
from tests.page.assemble import parts
from tests.page.plain_steps import Row, json_text, rows_of
from tests.page.reader import Reader
from tests.page.scripts import LESS, TOUR, page_of, same

CHOOSE = "((it, value) => { it.value = value; it.dispatchEvent(new Event('change')); })(document.getElementById('%s'), '%s')"


def look_for(reader: Reader, text: str) -> None:
    reader.browser.press("/")
    reader.browser.press(*text)
    same("the text in place of the last one", reader.browser.value("document.getElementById('find').value"), text)
    reader.browser.press("Escape")


def address(reader: Reader) -> str:
    return str(reader.browser.value("location.hash"))


def texts_are_found(reader: Reader) -> None:
    """In heads, comments, outputs, events and labels; after the last comes the first."""
    reader.open(TOUR[0].read_bytes(), "find")
    places_of: dict[str, list[str]] = {
        "tick-election": ["#2"], "became leader at term 1": ["#6.3"], "a question before": [], "★ leader": ["#6.3", "#16.4"], "without a word": ["#6"],
        "MsgVoteResp granted from 2": ["#6.2", "#13.4"], "1→3 MsgVote ": ["#3.3", "#9.2"],
    }
    for text, wanted in places_of.items():
        reader.browser.press("Home")
        look_for(reader, text)
        places = []
        for _ in wanted:
            reader.browser.press("n")
            places.append(address(reader))
        same(f"where {text} is", places, wanted)
        reader.browser.press("n")
        same(f"where it goes on from the last {text}", address(reader), wanted[0] if wanted else "#1")
        same(f"what is told of {text}", reader.text("found"), {0: "not found", 1: "no other"}.get(len(wanted), ""))
    reader.browser.press("N")
    same("the place before", address(reader), "#9.2")
    reader.quiet()


def enter_finds_and_leaves_the_field(reader: Reader) -> None:
    """After Enter the keys are those of the page again: the field keeps its text, and n and N go on."""
    reader.open(TOUR[0].read_bytes(), "enter", "#1")
    reader.browser.press("/", *"leader", "Enter")
    places = [address(reader)]
    for key in ("n", "N"):
        reader.browser.press(key)
        places.append(address(reader))
    same("the field", reader.browser.value("document.getElementById('find').value"), "leader")
    same("where Enter, n and N lead", (places[0] == places[2], places[0] != places[1], "#1" in places), (True, True, False))
    reader.quiet()


def what_is_not_drawn_is_found(reader: Reader) -> None:
    reader.open_page(page_of(LESS + b"# the needle\nraft-state\n----\n\n", "less"), "less")
    look_for(reader, "needle")
    same("whether it was drawn", "needle" in reader.text("texts"), False)
    reader.browser.press("n")
    same("where it is", address(reader), "#2001")
    marked = "[...document.querySelectorAll('#script mark.found')].map((it) => it.textContent)"
    same("what is marked", reader.browser.value(marked), ["needle"])


def filters_leave_what_they_say(reader: Reader) -> None:
    reader.open(TOUR[2].read_bytes(), "filters", "#22.1")
    reader.browser.value(CHOOSE % ("filter-type", "MsgAppResp"))
    reader.browser.value(CHOOSE % ("filter-node", "3"))
    reader.browser.settle()
    items = reader.browser.value("[...document.querySelectorAll('#state details li')].map((it) => it.textContent)")
    same("what happened of these", [item.split(" term")[0] for item in items], ["send 3→1 MsgAppResp", "deliver 3→1 MsgAppResp"] * 3)
    same("how many of how many", reader.browser.value("document.querySelector('#state summary').textContent"), "What happened (6 of 26)")
    labels = reader.browser.value("[...document.querySelectorAll('#drawing .label')].map((it) => [it.matches('.dim'), it.querySelector('title').textContent])")
    kept = [title for is_dim, title in labels if not is_dim]
    same("which labels are left", {title.split()[1] for title in kept}, {"MsgAppResp"})
    same("whether others are faint", len(kept) < len(labels), True)
    places = []
    for _ in range(3):
        reader.browser.press("n")
        places.append(address(reader))
    same("where they are", places, ["#22.6", "#22.9", "#22.21"])
    reader.browser.value(CHOOSE % ("filter-node", "0"))
    reader.browser.value(CHOOSE % ("filter-type", ""))
    reader.browser.value(CHOOSE % ("filter-term", "2"))
    reader.browser.press("Home", "n")
    same("the first of term 2", reader.text("said"), "3 candidate, t2")
    reader.quiet()


def what_is_seen_is_found(reader: Reader) -> None:
    """Comments across their lines, also the last one; labels and marks as the picture has them; input; and reasons, hints and warnings."""
    reader.open(TOUR[2].read_bytes() + b"\n# Nothing\n# comes here.\n", "seen")
    wanted = {
        "that went different ways": "#1", "spares the leader": "#22", "Nothing comes": "#25", "App +4 after 1/11": "#21.", "✗14 hint 11": "#21.", "↺ 12+ replaced": "#22.13",
        "saves 12–15": "#21.", "✓ commit 15": "#21.",
    }
    for text, place in wanted.items():
        reader.browser.press("Home")
        look_for(reader, text)
        reader.browser.press("n")
        same(f"where {text} is", address(reader).startswith(place) or address(reader), True)
        same(f"what is told of {text}", reader.text("found"), "no other" if address(reader) == "#1" else "")
    reader.open(TOUR[5].read_bytes(), "seen")
    look_for(reader, "l4")
    reader.browser.press("n")
    same("where the input is", address(reader), "#6")
    before, after = parts()
    reader.open_page(before + json_text(remarked(TOUR[0].read_bytes())) + after, "seen")
    for text, place in {"why it is so": "#9.13", "did you mean": "#21.1", "looks like a directive": "#21"}.items():
        reader.browser.press("Home")
        look_for(reader, text)
        reader.browser.press("n")
        same(f"where {text} is", address(reader), place)
    reader.quiet()


def remarked(data: bytes) -> list[Row]:
    """The rows of a script with an error at its end, and with a reason, a hint and a warning."""
    rows: list[Row] = []
    for row in rows_of(data + b"\ncampain 1\n----\n\n", "remarks"):
        rows += [["warning", 999, "this looks like a directive"]] if row[0] == "end" else []
        rows.append(row)
        rows += [["reason", "ignored: this is why it is so"]] if row[:3] == ["ignored", 1, "MsgVoteResp"] else []
        rows += [["hint", 'did you mean "campaign"?']] if row[0] == "error" else []
    return rows


TESTS = [texts_are_found, enter_finds_and_leaves_the_field, what_is_seen_is_found, what_is_not_drawn_is_found, filters_leave_what_they_say]
