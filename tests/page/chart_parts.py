"""Charts of a part of a script: nodes with their roles and messages that are on their way come in from above."""
import xml.etree.ElementTree

from tests.page.plain_chart import HEADING, svg_of
from tests.page.plain_steps import DIRECTIVES, rows_of
from tests.page.printed import steps_of
from tests.page.scripts import TOUR, same
from tests.page.told import messages_of_rows

SVG = "{http://www.w3.org/2000/svg}"


def arrows_of(picture: xml.etree.ElementTree.Element) -> tuple[int, int, int]:
    """How many messages were delivered, were lost, and are on their way."""
    looks = [(part.get("class") or "").split() for part in picture.iter()]
    delivered, lost, waiting = (sum(wanted in look for look in looks) for wanted in ("delivered", "cross", "waiting"))
    return delivered, lost, waiting


def parts_have_what_came_before() -> None:
    tried = 0
    for path in TOUR[:6]:
        data = path.read_bytes()
        messages, steps = messages_of_rows(rows_of(data, path.name, DIRECTIVES)), steps_of(data)
        for at in range(1, len(steps), 3):
            first, last = steps[at].line, steps[min(at + 4, len(steps) - 1)].line
            picture = xml.etree.ElementTree.fromstring(svg_of(data, path.name, last, first))
            known = [it for it in messages if it.sent <= last and (it.met is None or it.met >= first)]
            fates = [it.fate if it.met is not None and it.met <= last else "waiting" for it in known]
            wanted = fates.count("delivered"), fates.count("dropped") + fates.count("given up"), fates.count("waiting")
            same(f"the messages of {path.name} from {first} to {last}", arrows_of(picture), wanted)
            bands = [rect.get("class") for rect in picture.iter(f"{SVG}rect") if rect.get("y") == str(HEADING) and rect.get("x")]
            same(f"the roles of {path.name} at {first}", sorted(map(str, bands)), sorted(node.role for node in steps[at - 1].nodes.values()))
            names = [text.text for text in picture.iter(f"{SVG}text") if text.get("class") == "name"]
            same(f"the nodes of {path.name} at {first}", names[:len(bands)], [f"node {id}" for id in steps[at - 1].nodes])
            tried += 1
    same("whether many were tried", tried > 40, True)


def whole_parts_are_the_picture() -> None:
    for path in TOUR[:3]:
        data = path.read_bytes()
        first = steps_of(data)[0].line
        whole = svg_of(data, path.name).splitlines()
        part = [line for line in svg_of(data, path.name, None, first).splitlines() if not line.startswith("<title")]
        notes = {line for line in whole if line.startswith(("<desc", "<title"))}
        same(f"the picture of {path.name}", [line for line in whole if line not in notes][-20:], part[-20:])


ALONE = [parts_have_what_came_before, whole_parts_are_the_picture]
