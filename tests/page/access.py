"""What readers have of a page who can't see it, or who see little: the browser's own tree of what it tells them, and how much texts stand out."""
import pathlib
import re
import xml.etree.ElementTree
from collections.abc import Iterator
from typing import Any, NamedTuple

from tests.page.plain_chart import svg_of
from tests.page.reader import Reader
from tests.page.scripts import MANY, TOUR, Failed, mismatched, page_of, same

# What has to have a name: all that is worked with, and all that parts a page.
NAMED = {
    "button", "textbox", "searchbox", "combobox", "listbox", "option", "image", "img", "dialog", "article", "region", "table", "toolbar", "group",
    "rowheader", "columnheader", "DisclosureTriangle", "heading",
}
# The parts of a page and what each is.
PARTS = [("listbox", "Directives"), ("region", "Script"), ("region", "Picture"), ("toolbar", "Steps"), ("search", "")]
# Of texts the least contrast to their ground (WCAG 2.1, 1.4.3), and the texts whose contrast is less: in the page, as role and text.
LEAST_CONTRAST = 4.5
FAINT = """(() => {
  const parts = (color) => color.match(/[\\d.]+/g).map(Number);
  const light = (color) => {
    const [r, g, b] = parts(color).slice(0, 3).map((it) => it / 255).map((it) => (it <= 0.03928 ? it / 12.92 : ((it + 0.055) / 1.055) ** 2.4));
    return 0.2126 * r + 0.7152 * g + 0.0722 * b;
  };
  const ground = (it) => {
    for (let at = it; at; at = at.parentElement) {
      const color = getComputedStyle(at).backgroundColor;
      if ((parts(color)[3] ?? 1) > 0.9) return color;
    }
    return getComputedStyle(document.body).backgroundColor;
  };
  const contrast = (one, other) => (Math.max(light(one), light(other)) + 0.05) / (Math.min(light(one), light(other)) + 0.05);
  const isShown = (it) => it.checkVisibility?.() !== false && !it.closest('.unseen, .whole, [hidden], title, script, style, .later, .dim, dialog:not([open])');
  const texts = [...document.querySelectorAll('body *')].filter((it) => isShown(it) && [...it.childNodes].some((node) => node.nodeType === 3 && node.data.trim()));
  return texts.flatMap((it) => {
    const style = getComputedStyle(it);
    const isDrawn = it instanceof SVGElement;
    const [front, back] = isDrawn ? [style.fill, style.stroke === 'none' ? ground(it) : style.stroke] : [style.color, ground(it)];
    const found = contrast(front, back);
    return found < LEAST ? [`${it.tagName}.${it.getAttribute('class')} ${it.textContent.slice(0, 30)}: ${found.toFixed(2)}`] : [];
  });
})()""".replace("LEAST", str(LEAST_CONTRAST))


class Told(NamedTuple):
    """Something that the browser tells a reader of."""
    id: str
    role: str
    name: str
    description: str
    states: dict[str, Any]
    parent: str


def tree_of(reader: Reader) -> dict[str, Told]:
    """All that is told, by id; what is passed over is left out, and its children belong to what it belongs to."""
    nodes = {node["nodeId"]: node for node in reader.browser.call("Accessibility.getFullAXTree")["nodes"]}

    def value(node: dict[str, Any], name: str) -> Any:
        return node.get(name, {}).get("value", "")

    def parent(node: dict[str, Any]) -> str:
        above = nodes.get(node.get("parentId", ""))
        return "" if above is None else parent(above) if above.get("ignored") or value(above, "role") in ("generic", "none") else str(above["nodeId"])

    return {
        id: Told(id, value(node, "role"), value(node, "name"), value(node, "description"),
                 {it["name"]: it["value"].get("value", it["value"].get("relatedNodes")) for it in node.get("properties", [])}, parent(node))
        for id, node in nodes.items() if not node.get("ignored")
    }


def faults_of(tree: dict[str, Told]) -> Iterator[str]:
    """What is wrong with what is told."""
    for it in tree.values():
        if it.role in NAMED and not it.name.strip():
            yield f"a {it.role} has no name"
        if it.states.get("focusable") and not it.name.strip() and it.role != "RootWebArea":
            yield f"a {it.role} that can be worked with has no name"
        above = tree[it.parent].role if it.parent in tree else ""
        if it.role == "option" and above not in ("listbox", "combobox", "MenuListPopup"):
            yield f"an option belongs to a {above}"
        if it.role == "listbox":
            yield from list_faults(it, tree)
        if above == "listbox" and it.role != "option":
            yield f"a {it.role} is in the list of directives"
    roles = [(it.role, it.name) for it in tree.values()]
    for role, name in PARTS:
        if not any(role == has and (not name or name == named) for has, named in roles):
            yield f"there is no {role} {name}"
    if sum(it.role == "heading" and it.states.get("level") == 1 for it in tree.values()) != 1:
        yield "there isn't one first heading"
    if not any(it.role == "StaticText" and it.parent in tree and tree[it.parent].states.get("live") == "polite" for it in tree.values()):
        yield "nothing tells what was chosen"


def list_faults(found: Told, tree: dict[str, Told]) -> Iterator[str]:
    chosen = [it for it in tree.values() if it.parent == found.id and it.states.get("selected")]
    if len(chosen) != 1:
        yield f"{len(chosen)} directives are chosen"
    active = found.states.get("activedescendant") or []
    if len(active) != 1:
        yield "the list doesn't tell which directive is active"


def access_faults(reader: Reader) -> list[str]:
    return [*faults_of(tree_of(reader)), *reader.browser.value(FAINT)]


def nothing_is_wrong(reader: Reader) -> None:
    scripts = {"election": (TOUR[0].read_bytes(), "#9.4"), "members": (TOUR[5].read_bytes(), "#23.12"), "many": (MANY, "#5"), "differs": (mismatched()[0], "#6")}
    for scheme in ("light", "dark"):
        reader.browser.scheme(scheme)
        for name, (data, place) in scripts.items():
            reader.open(data, name, place)
            same(f"what is wrong with {name}, {scheme}", access_faults(reader), [])
    reader.browser.scheme("light")


# Pages that somebody has broken, and what is found.
BROKEN = {
    'aria-label="Directives"': ('aria-label=""', "listbox"),
    'role: "option"': ('role: "note"', "0 directives"),
    '"aria-selected": String(isChosen)': ('"aria-selected": "false"', "0 directives"),
    'aria-live="polite"': ('aria-live="off"', "nothing tells"),
    'aria-label="all keys"><kbd>?</kbd>': ("><kbd></kbd>", "button"),
    '"aria-label": `node ${node.id}, ${role}, term ${term}`': ('"data-x": "y"', "article"),
    "--faint: #5d6672": ("--faint: #b0b6be", "quiet"),
}


def faults_are_found(reader: Reader) -> None:
    """The check itself: each fault that is put into a page is found by it."""
    page = page_of(TOUR[0].read_bytes(), "broken")
    for right, (wrong, found) in BROKEN.items():
        same(f"how often {right} is there", page.count(right) >= 1, True)
        path = pathlib.Path(reader.room) / "broken.html"
        # The page's policy names its own code by its hash.
        path.write_text(re.sub(r"; script-src '[^']*'", "; script-src 'unsafe-inline'", re.sub(r"style-src '[^']*'", "style-src 'unsafe-inline'", page.replace(right, wrong))))
        reader.browser.open(path, "#9.2")
        faults = access_faults(reader)
        if not any(found in fault for fault in faults) and not (found == "quiet" and faults):
            raise Failed(f"nobody finds that {right} is {wrong}: {faults}")


def chosen_is_told(reader: Reader) -> None:
    """The live region says what was chosen: the head, how much happened and the first mark; of an event the event."""
    reader.open(TOUR[0].read_bytes(), "told", "#6")
    same("what is told of a directive", reader.text("said"), "deliver-msgs 1, 3 events: node 1 vote of 2: won")
    reader.browser.press("ArrowRight")
    same("what is told of an event", reader.text("said"), "deliver 2→1 MsgVoteResp term 1 granted")
    reader.open(mismatched()[0], "told", "#6")
    same("what is told of a mismatch", reader.text("said").endswith(", mismatch"), True)


def picture_is_described(reader: Reader) -> None:
    """By the sentences that `chart` gives its picture, in their order."""
    for path in TOUR:
        reader.browser.size(1500, 12000)
        reader.open(path.read_bytes(), path.stem)
        reader.comes_to("document.querySelectorAll('#description p').length > 5", True)
        came = reader.browser.value("[...document.querySelectorAll('#description p')].map((it) => it.textContent)")
        desc = list(xml.etree.ElementTree.fromstring(svg_of(path.read_bytes(), path.name)).iter("{http://www.w3.org/2000/svg}desc"))[0].text or ""
        lines = [line for line in desc.splitlines() if "is on its way" not in line]
        rest = iter(came)
        missing = [line for line in lines if line not in rest]
        same(f"what the description of {path.name} lacks of that of chart", missing[:3], [])
    reader.browser.size(1500, 900)


TESTS = [nothing_is_wrong, faults_are_found, chosen_is_told, picture_is_described]
