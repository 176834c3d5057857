"""A page on paper, on a narrow screen and at widths between."""
import base64
import re

from plain.script import read_script
from tests.page.finding import CHOOSE
from tests.page.reader import Reader
from tests.page.scripts import TOUR, mismatched, same

# Puts a page into print as a browser does, and answers what is there.
PRINTED = """(() => {
  window.dispatchEvent(new Event('beforeprint'));
  const texts = (selector) => [...document.querySelectorAll(selector)].map((it) => it.textContent);
  const pieces = [...document.querySelectorAll('#print figure > svg')].map((it) => it.viewBox.baseVal.height);
  const found = { lines: texts('#print .script div'), titles: texts('#print .label title'), marks: texts('#print .mark title'), pieces, notes: texts('#print > p') };
  window.dispatchEvent(new Event('afterprint'));
  return { ...found, left: document.getElementById('print').childElementCount };
})()"""
# Which labels of the picture overlap: those above it, and those in it.
MEETING = """(() => {
  const ofText = (it) => {
    const range = document.createRange();
    range.selectNodeContents(it);
    return range.getBoundingClientRect();
  };
  const ofDrawing = (it) => {
    const [box, at] = [it.getBBox(), it.getScreenCTM()];
    return new DOMRect(box.x + at.e, box.y + at.f + ABOVE, box.width, box.height - ABOVE);
  };
  const boxes = (selector, boxOf) => [...document.querySelectorAll(selector)].filter((it) => it.checkVisibility())
    .map((it) => ({ text: it.firstChild?.data ?? '', box: boxOf(it) })).filter(({ text }) => text);
  const meet = ({ box: one }, { box: other }) => Math.min(one.right, other.right) - Math.max(one.left, other.left) > 1
    && Math.min(one.bottom, other.bottom) - Math.max(one.top, other.top) > 1;
  const found = (labels) => labels.flatMap((one, at) => labels.slice(at + 1).filter((other) => meet(one, other)).map((other) => `${one.text} | ${other.text}`));
  const [heads, drawn] = [boxes('#heads .gutter, #heads b, #heads .column span', ofText), boxes('#drawing text', ofDrawing)];
  return { count: heads.length + drawn.length, meeting: [...found(heads), ...found(drawn)] };
})()""".replace("ABOVE", "2")  # pixels of a line that are above its capital letters
WIDTHS = (390, 700, 800, 900, 1050, 1200)
TALL = 6000
PAGES = re.compile(rb"/Type\s*/Page\b(?!s)")


def all_of_it_is_printed(reader: Reader) -> None:
    """Each line of the script but comments, each message, and no piece is taller than a page."""
    for data in [TOUR[0].read_bytes(), TOUR[5].read_bytes(), mismatched()[0]]:
        reader.open(data, "printed")
        came = reader.browser.value(PRINTED)
        blocks = read_script(data).blocks
        wanted = [line.decode() for block in blocks for line in (*block.head, *block.expected)]
        same("how many lines are printed", len(came["lines"]) >= len(wanted), True)
        texts = {re.sub(r"^\d+  (✗ )?|^[-+] |^  (?=\w+ \d)", "", line).strip() for line in came["lines"]}
        same("the lines that aren't", [line for line in wanted if line.strip() not in texts and f"- {line}" not in came["lines"]][:3], [])
        same("how tall a piece is at most", max(came["pieces"]) <= 930, True)
        sent = sum(" send " in line or line.startswith("queue ") for block in blocks for line in map(bytes.decode, block.expected))
        same("whether all messages are there", len(set(came["titles"])) > 0 and len(came["titles"]) >= sent, True)
        same("what is left of it on the screen", came["left"], 0)
        reader.quiet()


def what_filters_leave_is_printed(reader: Reader) -> None:
    """Directives with an event of node 3 and MsgVoteResp alone, in the script as in the picture, and a sentence that says so."""
    data = TOUR[0].read_bytes().partition(b"stabilize log-level=none")[0]
    reader.open(data, "printed-filtered")
    whole = reader.browser.value(PRINTED)
    reader.browser.value(CHOOSE % ("filter-type", "MsgVoteResp"))
    reader.browser.value(CHOOSE % ("filter-node", "3"))
    came = reader.browser.value(PRINTED)
    blocks = read_script(data).blocks
    kept = [block for block in blocks if any(b"MsgVoteResp" in line and re.search(rb"\b3\b", line) for line in block.expected)]
    heads = [re.sub(r"^\d+  ", "", line) for line in came["lines"] if re.match(r"\d+  ", line)]
    same("the directives", heads, [block.head[0].decode() for block in kept])
    same("the sentence", came["notes"], [f"{len(kept)} directives of {len(blocks)}, those that the filters leave."])
    same("whether the picture is shorter", 0 < sum(came["pieces"]) < sum(whole["pieces"]), True)
    same("what is said of a whole script", whole["notes"], [])
    reader.quiet()


def header_stays(reader: Reader) -> None:
    """From directive to event, at the widths of laptops."""
    for width in (1280, 1366, 1400, 1440):
        reader.browser.size(width, 800)
        reader.open(TOUR[2].read_bytes(), "header", "#4")
        heights = []
        for place in ("#4", "#22.1", "#22.26", "#25"):
            reader.browser.value(f"location.hash = '{place}'")
            reader.browser.settle()
            heights.append(reader.browser.value("document.getElementById('top').getBoundingClientRect().height"))
        same(f"how many heights the header has at {width}", len(set(heights)), 1)
    reader.browser.size(1500, 900)


def paper_is_light(reader: Reader) -> None:
    reader.browser.scheme("dark")
    reader.open(TOUR[2].read_bytes(), "paper")
    pdf = base64.b64decode(reader.browser.call("Page.printToPDF")["data"])
    same("whether it takes several pages", len(PAGES.findall(pdf)) > 3, True)
    reader.browser.call("Emulation.setEmulatedMedia", media="print")
    colours = reader.browser.value("(({color, backgroundColor}) => [color, backgroundColor])(getComputedStyle(document.body))")
    reader.browser.call("Emulation.setEmulatedMedia", media="")
    reader.browser.scheme("light")
    same("its colours", colours, ["rgb(27, 31, 36)", "rgb(255, 255, 255)"])
    if reader.kept:
        (reader.kept / "paper.pdf").write_bytes(pdf)


def drawing_is_the_same_after_printing(reader: Reader) -> None:
    """A page that was printed is drawn as one that wasn't."""
    drawn = "document.getElementById('drawing').innerHTML"
    reader.open(TOUR[2].read_bytes(), "before", "#21.4")
    before = reader.browser.value(drawn)
    reader.browser.value(PRINTED)
    reader.browser.settle()
    same("the picture", reader.browser.value(drawn) == before, True)


def narrow_panes_are_below_one_another(reader: Reader) -> None:
    reader.browser.size(390, 844)
    reader.open(TOUR[5].read_bytes(), "narrow", "#23.12")
    boxes = reader.browser.value("['script', 'picture', 'state'].map((id) => document.getElementById(id).getBoundingClientRect()).map((it) => [it.top, it.bottom, it.width])")
    same("whether each is below the one before", all(one[1] <= other[0] + 1 for one, other in zip(boxes, boxes[1:])), True)
    same("how wide they are", [width for _, _, width in boxes], [390] * 3)
    same("whether the page is as wide as the screen", reader.browser.value("document.documentElement.scrollWidth"), 390)
    filters = "[...document.querySelectorAll('#search select')].filter((it) => it.checkVisibility() && it.getBoundingClientRect().right < 390).length"
    same("how many filters there are", reader.browser.value(filters), 3)
    same("whether the legend is folded", reader.browser.value("document.getElementById('legend').open"), False)
    same("whether the chosen label is in view", reader.browser.value(
        "(() => { const it = document.querySelector('#drawing .now'); const box = it.getBoundingClientRect(); return box.left >= 0 && box.left < 390; })()"), True)
    reader.keep("narrow-chosen")
    reader.browser.size(1500, 900)


def cards_are_in_view(reader: Reader) -> None:
    """On all but narrow screens a chosen event's item and the first card are in the pane of the state at once."""
    tops = "['#state li.now', '#state article'].map((it) => document.querySelector(it).getBoundingClientRect().top - document.getElementById('state').getBoundingClientRect().top)"
    for width, height in [(700, 900), (800, 900), (1000, 800), (1280, 800)]:
        reader.browser.size(width, height)
        reader.open(TOUR[2].read_bytes(), "cards", "#22.20")
        room = reader.browser.value("document.getElementById('state').clientHeight")
        wide = "[...document.querySelectorAll('#state .views')].every((it) => it.getBoundingClientRect().right <= it.closest('article').getBoundingClientRect().right - 4)"
        same(f"whether what leaders know is within its card at {width}", reader.browser.value(wide), True)
        same(f"whether both are in view at {width}", all(0 <= top < room - 60 for top in reader.browser.value(tops)), True)
    reader.browser.size(1500, 900)


def heads_take_the_room_there_is(reader: Reader) -> None:
    """Between narrow and wide the columns are as far apart as labels need, and the first one is as far right as there is room."""
    reader.open(TOUR[2].read_bytes(), "heads", "#22")
    heads = []
    for width in (390, 800, 1280):
        reader.browser.size(width, 900)
        reader.browser.settle()
        reader.browser.settle()
        heads.append(reader.browser.value("document.querySelector('#drawing .head.chosen').firstChild.data"))
    same("the head", heads, ["stabil…", "stabilize 1 3", "stabilize 1 3"])
    reader.browser.size(1024, 768)
    reader.open(TOUR[2].read_bytes(), "heads", "#7")
    reader.browser.settle()
    lines = reader.browser.value("[...document.querySelector('#drawing .head.chosen').childNodes].filter((it) => it.nodeName !== 'title').map((it) => it.textContent)")
    same("the lines of a head on a projector", lines, ["process-ready 1", "log-level=none"])
    reader.open(TOUR[4].read_bytes(), "heads", "#1")
    reader.browser.size(800, TALL)
    reader.browser.settle()
    reader.browser.settle()
    labels = "[...document.querySelectorAll('#drawing .label')].map((it) => it.firstChild.data)"
    same("the labels that are cut", [label for label in reader.browser.value(labels) if label.endswith("…")], [])
    reader.browser.size(1500, 900)


def no_two_labels_meet(reader: Reader) -> None:
    """Of an election, a repair, a snapshot and changes of members, above the picture and in it."""
    for path in (TOUR[0], TOUR[2], TOUR[4], TOUR[5]):
        reader.browser.size(1500, TALL)
        reader.open(path.read_bytes(), path.stem, "#5")
        for width in WIDTHS:
            reader.browser.size(width, TALL)
            reader.browser.settle()
            reader.browser.settle()
            came = reader.browser.value(MEETING)
            same(f"whether {path.name} has labels at {width}", came["count"] > 40, True)
            same(f"the labels of {path.name} that overlap at {width}", came["meeting"], [])
    reader.browser.size(1500, 900)


TESTS = [
    all_of_it_is_printed, what_filters_leave_is_printed, header_stays, paper_is_light, drawing_is_the_same_after_printing,
    narrow_panes_are_below_one_another, cards_are_in_view, heads_take_the_room_there_is, no_two_labels_meet,
]
