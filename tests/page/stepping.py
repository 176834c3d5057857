"""Keys, buttons, addresses and playing; and that keys leave readers what they scroll with."""
from tests.page.reader import Reader
from tests.page.scripts import OUTPUT, TOUR, mismatched, same

FOCUS = "document.getElementById({!r}).focus(); 0"


def address(reader: Reader) -> str:
    return str(reader.browser.value("location.hash"))


def buttons_do_what_their_keys_do(reader: Reader) -> None:
    reader.open(mismatched()[0], "buttons", "#9")
    places = []
    for button in ["next-step", "last-step", "next-event", "next-event", "last-event", "next-mismatch"]:
        reader.browser.value(f"document.getElementById({button!r}).click(); 0")
        reader.browser.settle()
        places.append(address(reader))
    same("the places", places, ["#10", "#9", "#9.1", "#9.2", "#9.1", "#6"])
    keys = "[...document.querySelectorAll('#help-keys kbd')].map((it) => it.textContent)"
    reader.browser.press("?")
    same("whether the help is open", reader.browser.value("document.getElementById('help').open"), True)
    same("whether it has the keys", {"↓", "→", "Space", "/", "n", "m", "?"} <= set(reader.browser.value(keys)), True)
    reader.browser.press("j")
    same("whether keys step below it", address(reader), "#6")
    reader.browser.value("document.getElementById('help-close').click(); 0")
    reader.browser.press("j")
    same("whether they do again", address(reader), "#7")
    reader.quiet()


def lines_lead_to_their_directives(reader: Reader) -> None:
    """A line of the head, of the output and of the comment before it; docs/USING.md names lines of heads."""
    for place, wanted in [("#L39", "#6"), ("#L41", "#6"), ("#L38", "#6"), ("#L36", "#5"), ("#L1", "#1"), ("#L4", "#1"), ("#L9999", "#20"), ("#L39.2", "#6.2"), ("#6.99", "#6.3")]:
        reader.open(TOUR[0].read_bytes(), "lines", place)
        same(f"the place of {place}", address(reader), wanted)


def keys_scroll_what_overflows(reader: Reader) -> None:
    """With the focus in what goes on out of view its keys scroll it; j and → still step; a long output is scrolled before the next ten."""
    reader.browser.size(1200, 420)
    reader.open(TOUR[0].read_bytes(), "scrolls", "#9.4")
    for pane, key in [("state", "PageDown"), ("scroll", "ArrowDown"), ("state", "End"), ("scroll", " ")]:
        reader.browser.value(FOCUS.format(pane))
        reader.browser.press(key)
        same(f"whether {key} steps with the focus in {pane}", address(reader), "#9.4")
    reader.browser.press("j")
    same("whether j steps there", address(reader), "#10")
    reader.browser.size(1500, 900)
    reader.open(OUTPUT, "scrolls", "#5003")
    reader.browser.value(FOCUS.format("directives"))
    tops = []
    for key in ["PageDown", "PageDown", "PageUp"]:
        reader.browser.press(key)
        tops.append(reader.browser.value("document.getElementById('script').scrollTop"))
    same("whether a long output is scrolled", tops[0] < tops[1] and tops[2] == tops[0], True)
    same("the place", address(reader), "#5003")
    reader.quiet()


def space_plays_and_stops(reader: Reader) -> None:
    reader.open(TOUR[0].read_bytes(), "plays", "#9")
    reader.browser.value("document.getElementById('speed').value = '8'; 0")
    reader.browser.press(" ")
    same("what the button says", reader.text("play"), "❚❚ stop")
    reader.comes_to("location.hash.startsWith('#9.') && Number(location.hash.slice(3)) >= 3", True)
    reader.browser.press(" ")
    place = address(reader)
    same("what the button says then", reader.text("play"), "▶ play")
    reader.browser.value("new Promise((done) => setTimeout(done, 400))")
    same("whether it stopped", address(reader), place)
    reader.browser.press("+", "-", "-")
    same("the speed", reader.browser.value("document.getElementById('speed').value"), "2")
    reader.browser.press("End", " ")
    reader.comes_to("document.getElementById('play').textContent", "▶ play")
    reader.quiet()


TESTS = [buttons_do_what_their_keys_do, lines_lead_to_their_directives, keys_scroll_what_overflows, space_plays_and_stops]
