"""From event to event: what a page shows after each ready and each delivery, beside a cluster of the plain bench that is printed there."""
import subprocess
from collections.abc import Iterator, Sequence
from typing import Any, NamedTuple

from tests.harness import PROGRAM
from tests.page import standing
from tests.page.beside import logs_as_printed
from plain.cluster import Cluster
from plain.script import joined_head, read_script
from plain.texts import log_texts, message_text, state_text, status_texts
from tests.page.plain_steps import DIRECTIVES
from tests.page.printed import LEVEL, Node, node_of
from tests.page.reader import Reader
from tests.page.scripts import LOST, RARE, RESTARTS, SELF, TOUR, page_of, same
from tests.page.seen import CODE
from tests.page.told import READY, gist

# The scripts of the tour that are gone through event by event: an election, a repair, a snapshot and changes of members.
TRIED = (0, 2, 4, 5)
# The most that the program takes for a page.
MOST_SECONDS = 120
# Chooses places by the address, one after another; answers what is shown at each, and what of it is marked.
SEEN = """async (code, places) => {
  const seen = [];
  for (const place of places) {
    if (location.hash !== place) {
      await new Promise((done) => { addEventListener('hashchange', done, { once: true }); location.hash = place; });
    }
    await new Promise((done) => requestAnimationFrame(() => requestAnimationFrame(done)));
    const texts = (selector) => [...document.querySelectorAll(selector)].map((it) => it.textContent);
    const items = [...document.querySelectorAll('#state details li')];
    const now = { item: items.findIndex((it) => it.matches('.now')), lines: texts('#script .row.now .text'),
      labels: texts('#drawing .label.now title'), marks: texts('#drawing .mark.now title') };
    seen.push({ ...code.state(), now, address: location.hash });
  }
  return seen;
}"""


# Goes through a script by the key →, from its first event to its last; answers what is shown at some of them. Browsers refuse a page that
# writes hundreds of addresses in a few seconds, so this one writes none.
GONE_THROUGH = """async (code, wanted) => {
  history.replaceState = () => undefined;
  const seen = {};
  const press = (key) => document.dispatchEvent(new KeyboardEvent('keydown', { key }));
  const where = () => document.getElementById('where').textContent;
  press('Home');
  press('ArrowRight');
  for (let last = ''; last !== where();) {
    last = where();
    const [, place, event] = /^step (\\d+) .*?(?:event (\\d+) .*)?$/.exec(last);
    const at = `${place}.${event ?? 0}`;
    if (wanted.includes(at)) {
      const items = [...document.querySelectorAll('#state details li')];
      seen[at] = { ...code.state(), now: { item: items.findIndex((it) => it.matches('.now')) } };
    }
    press('ArrowRight');
  }
  return wanted.map((at) => seen[at] ?? null);
}"""


class Moment(NamedTuple):
    """What is printed after a ready or a delivery: the place of its directive, how many events it had by then, nodes, messages."""
    place: int
    event: int
    nodes: dict[int, Node]
    pending: list[str]


class Recorder(Cluster):
    """A cluster that shows everything, and is printed after each ready and each delivery."""

    def __init__(self) -> None:
        super().__init__()
        self.place = 0
        self.moments: list[Moment] = []
        # A directive takes all that it delivers from the network at once: what isn't printed as delivered yet is on its way still.
        self.flying: list[str] = []

    def queue(self, message: Any, verb: str | None = None) -> None:
        super().queue(message, verb)
        if self.network.pending[-1:] == [message]:
            self.flying.append(message_text(message))

    def put_message(self, verb: str, message: Any) -> None:
        super().put_message(verb, message)
        if verb in ("deliver", "drop"):
            self.flying.remove(message_text(message))

    def record(self) -> None:
        event = sum(READY.fullmatch(line) is None for line in self.lines)
        nodes = dict(node_of(state_text(node), log_texts(node), status_texts(node)) for node in self.nodes.values())
        self.moments.append(Moment(self.place, event, nodes, list(self.flying)))

    def call(self, id: int, name: str, *parts: Any) -> None:
        super().call(id, name, *parts)
        if name == "step":
            self.record()

    def process(self, id: int) -> bool:
        is_done = bool(super().process(id))
        if is_done:
            self.record()
        return is_done


def moments_of(data: bytes) -> list[Moment]:
    cluster = Recorder()
    for place, block in enumerate(read_script(data).blocks, 1):
        cluster.place, cluster.level = place, "debug"
        cluster.run(block._replace(head=(LEVEL.sub(b"", joined_head(block.head)),)).directive())
    return cluster.moments


def seen_at(reader: Reader, places: Sequence[str]) -> list[dict[str, Any]]:
    return list(reader.browser.value(f"({SEEN})({CODE}, {list(places)!r})"))


def scripts_tried() -> dict[str, bytes]:
    return {**{TOUR[place].stem: TOUR[place].read_bytes() for place in TRIED}, "lost": LOST, "self": SELF, "rare": RARE, "restarts": RESTARTS}


def events_are_as_printed(reader: Reader) -> None:
    tried = 0
    for name, data in scripts_tried().items():
        reader.open(data, name)
        tried += goes_as_printed(reader, name, data)
    print(f"readies and deliveries after which all is as it is printed: {tried}")
    same("whether there are many", tried > 200, True)


def events_of_the_program_are_as_printed(reader: Reader) -> None:
    """The same of the pages that the program writes: a `stabilize` of 26 events is 26 steps, with the state after each."""
    if not PROGRAM.exists():
        return
    for name, data in scripts_tried().items():
        page = subprocess.run([PROGRAM, "page", "-"], input=data, stdout=subprocess.PIPE, timeout=MOST_SECONDS).stdout.decode()
        reader.open_page(page, f"{name}-written")
        goes_as_printed(reader, name, data)
    events = event_counts(TOUR[0].read_bytes())
    reader.open_page(subprocess.run([PROGRAM, "page", TOUR[0]], stdout=subprocess.PIPE, timeout=MOST_SECONDS).stdout.decode(), "written", "#1")
    for place, count in events.items():
        reader.browser.value(f"location.hash = '#{place}.{count + 9}'; 0")
        reader.browser.settle()
        same(f"the last event of {place}", reader.browser.value("location.hash"), f"#{place}.{count}")


def event_counts(data: bytes) -> dict[int, int]:
    """How many events each directive has that shows all that it does."""
    blocks = enumerate(read_script(data).blocks, 1)
    return {place: len(list(event_lines(block.expected))) for place, block in blocks if block.head[0].split()[0] == b"stabilize" and not LEVEL.search(block.head[0])}


def goes_as_printed(reader: Reader, name: str, data: bytes) -> int:
    """Goes through the page event by event; says after how many readies and deliveries all was as it is printed."""
    moments = moments_of(data)
    wanted = [f"{it.place}.{it.event}" for it in moments]
    for moment, seen in zip(moments, reader.browser.value(f"({GONE_THROUGH})({CODE}, {wanted!r})"), strict=True):
        moment_as_printed(f"in {name} at {moment.place}.{moment.event}", seen, moment)
    reader.quiet()
    return len(moments)


def moment_as_printed(where: str, seen: dict[str, Any], moment: Moment) -> None:
    same(f"which event is marked {where}", seen["now"]["item"], moment.event - 1)
    came = {int(article["id"].split()[1]): standing.told(article) for article in seen["nodes"]}
    for id, node in moment.nodes.items():
        same(f"what is so of node {id} {where}", came[id], standing.wanted(node))
    logs_as_printed(where, seen["logs"], moment.nodes)
    pending = [gist(text.replace(" term=0", "")) for text in moment.pending]
    same(f"what is on its way {where}", [gist(text) for text in seen["pending"]], standing.listed(pending))


def event_lines(output: Sequence[bytes]) -> Iterator[str]:
    """The lines of an output that show events; the others say that a node has something ready."""
    return (line.decode() for line in output if not READY.fullmatch(line.decode()))


def each_event_is_marked(reader: Reader) -> None:
    """Its row in what happened, its line of the output, and its arrow: of each event of the directives that show all they did."""
    tried = 0
    for path in TOUR[:3]:
        data = path.read_bytes()
        reader.browser.size(1500, 4000)
        reader.open(data, path.stem)
        for place, block in enumerate(read_script(data).blocks, 1):
            if block.head[0].split()[0] in (b"stabilize", b"process-ready", b"deliver-msgs") and not LEVEL.search(block.head[0]):
                lines = list(event_lines(block.expected))
                for event, (line, seen) in enumerate(zip(lines, seen_at(reader, [f"#{place}.{event}" for event in range(1, len(lines) + 1)]), strict=True), 1):
                    event_is_marked(f"in {path.name} at {place}.{event}", line, event, seen["now"])
                    tried += 1
    reader.browser.size(1500, 900)
    same("whether many were tried", tried > 150, True)


def event_is_marked(where: str, line: str, event: int, now: dict[str, Any]) -> None:
    same(f"the event that is marked {where}", now["item"], event - 1)
    same(f"the line that is marked {where}", "".join(now["lines"]).replace(" ", ""), line.replace(" ", ""))
    is_message = "->" in line
    same(f"how many arrows are marked {where}", len(now["labels"]), int(is_message))
    if is_message:
        told = gist(line.replace(" term=0", ""))
        same(f"the arrow that is marked {where}", gist(now["labels"][0])[:len(told)], told)


def entries_become_durable_one_by_one(reader: Reader) -> None:
    """Within one ready: node 3 saves 12 to 15 and applies them, in the repair of its log."""
    data = TOUR[2].read_bytes()
    reader.open(data, "repair")
    block = read_script(data).blocks[21]
    lines = list(event_lines(block.expected))
    first = lines.index('  save 1/12 "a"') + 1
    seen = seen_at(reader, [f"#22.{event}" for event in range(first, first + 8)])
    unsaved, applied = [], []
    for it in seen:
        cells = {it["logs"]["columns"][cell["at"]]: cell["looks"] for cell in it["logs"]["rows"][2]["cells"]}
        unsaved.append([index for index, looks in cells.items() if "unsaved" in looks])
        applied.append([index for index, looks in cells.items() if "applied" in looks])
    same("what isn't saved yet", unsaved, [[13, 14, 15], [14, 15], [15], [], [], [], [], []])
    same("what is applied", [it[-1] for it in applied], [11, 11, 11, 11, 12, 13, 14, 15])


def entries_that_give_way_are_struck_out(reader: Reader) -> None:
    """At the delivery that replaces them, and only there."""
    data = TOUR[2].read_bytes()
    reader.open(data, "repair")
    lines = list(event_lines(read_script(data).blocks[21].expected))
    event = lines.index("deliver 1->3 MsgApp term=3 prev=1/11 commit=15 entries=4") + 1
    seen = seen_at(reader, [f"#22.{event - 1}", f"#22.{event}", f"#22.{event + 1}"])
    struck = [[(it["logs"]["columns"][cell["at"]], cell["struck"]) for cell in it["logs"]["rows"][2]["cells"] if cell["struck"]] for it in seen]
    same("what is struck out", struck, [[], [(12, "2"), (13, "2"), (14, "2")], []])


def changes_of_members_are_told_in_few_letters(reader: Reader) -> None:
    reader.open(TOUR[5].read_bytes(), "changes", "#23.20")
    bodies = reader.browser.value("[...document.querySelectorAll('#logs tr.leader .bodies i, #logs .bodies tr.leader i')].map((it) => it.textContent)")
    same("the bodies of node 1", bodies, ['""', "◆ l4", "◆ v4", "◆ r1 r2…", '""', '"x"', "◆"])


def arrows_go_from_event_to_event(reader: Reader) -> None:
    reader.open(TOUR[0].read_bytes(), "arrows", "#9")
    places = []
    for key in ["ArrowRight", "ArrowRight", "ArrowLeft", "ArrowLeft", "ArrowRight", "ArrowDown", "ArrowUp", "ArrowRight", "Home", "ArrowLeft"]:
        reader.browser.press(key)
        places.append(reader.browser.value("location.hash"))
    same("the places", places, ["#9.1", "#9.2", "#9.1", "#8.3", "#9.1", "#10", "#9", "#9.1", "#1", "#1"])
    same("how many events one line has", reader.browser.value("document.querySelectorAll('#state details li').length"), 3)


def pages_without_events_step_by_directives(reader: Reader) -> None:
    reader.open_page(page_of(TOUR[0].read_bytes(), "old", DIRECTIVES), "old", "#9.4")
    places = [reader.browser.value("location.hash")]
    for key in ["ArrowRight", "ArrowRight", "ArrowLeft"]:
        reader.browser.press(key)
        places.append(reader.browser.value("location.hash"))
    same("the places", places, ["#9", "#10", "#11", "#10"])
    reader.quiet()


TESTS = [
    events_are_as_printed, events_of_the_program_are_as_printed, each_event_is_marked, entries_become_durable_one_by_one, entries_that_give_way_are_struck_out,
    changes_of_members_are_told_in_few_letters, arrows_go_from_event_to_event, pages_without_events_step_by_directives,
]
