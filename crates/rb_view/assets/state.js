// What is so after the chosen event: what happened, a card a node, and the messages on their way. A long list is made as its end comes into
// view.

import { byId, element, withAttributes } from "./dom.js";
import { instantAt, isChanged, momentBefore, numbersOf, placesOf } from "./position.js";
import { counted, shownBody } from "./text.js";
import { eventText, messageText } from "./words.js";

/** @typedef {import("./types.js").Position} Position */
/** @typedef {import("./types.js").Event} Event */
/** @typedef {import("./types.js").View} View */
/** @typedef {import("./rows.js").Node} Node */
/** @typedef {import("./position.js").Instant} Instant */

const MORE_LISTED = 200;
// How many events before the chosen one are listed.
const LISTED_BEFORE = 100;

export class State {
  /**
   * @param {import("./rows.js").Model} model
   * @param {import("./search.js").Search} search
   * @param {(position: Position) => void} choose
   */
  constructor(model, search, choose) {
    this.model = model;
    this.search = search;
    this.take = choose;
    this.pane = byId("state");
    this.isOpen = false;
    /** @type {Map<Element, () => void>} by the last item of a list that isn't whole, what makes more of it */
    this.growing = new Map();
    this.watch = new IntersectionObserver((seen) => this.came(seen), { root: this.pane, rootMargin: "600px 0px" });
    this.pane.addEventListener("click", ({ target }) => {
      const item = /** @type {HTMLElement | null} */ (/** @type {Element} */ (target).closest("li[data-event]"));
      if (item) {
        this.take({ place: Number(item.dataset.place), event: Number(item.dataset.event) });
      }
    });
  }

  /**
   * @param {import("./rows.js").Model} model
   * @param {Position} position
   */
  replace(model, position) {
    this.model = model;
    this.choose(position);
  }

  /** @param {Position} position */
  choose(position) {
    this.watch.disconnect();
    this.growing.clear();
    const instant = instantAt(this.model, position);
    const before = momentBefore(this.model, position);
    const nodes = this.model.nodes.filter((node) => node.isThereAt(instant.moment));
    const pending = this.model.spans.pendingAfter(position.place, instant.serial);
    const when = position.event > 0 ? `After event ${position.event} of line ${instant.step.line}` : `After line ${instant.step.line}`;
    this.isOpen = this.isOpen || position.event > 0;
    const happened = this.happened(position);
    this.pane.replaceChildren(
      happened,
      element("h2", "", when),
      ...nodes.map((node) => this.card(node, instant, before)),
      element("h2", "", pending.length === 1 ? "1 message on its way" : `${pending.length || "No"} messages on their way`),
      this.list(pending, (message) => this.message(message)),
    );
    if (this.isOpen) {
      this.pane.scrollTop = 0;
      const now = happened.querySelector(".now");
      const list = happened.querySelector("ol");
      if (now instanceof HTMLElement && list) {
        list.scrollTop = now.offsetTop - list.clientHeight / 2;
      }
    }
  }

  /** @param {import("./types.js").Message} message one that is on its way */
  message(message) {
    return element("li", "", messageText(message));
  }

  /** @param {Position} position */
  happened({ place, event }) {
    const step = this.model.steps[place - 1];
    const { isKept } = this.search.tests();
    const events = placesOf(step).map((at, before) => ({ happened: step.events[at], number: before + 1 }));
    const kept = events.filter(({ happened }) => isKept(happened));
    const start = Math.max(0, kept.findIndex(({ number }) => number >= event) - LISTED_BEFORE);
    const first = event > 0 && kept.length > MORE_LISTED ? start : 0;
    const list = this.list(kept.slice(first), ({ happened, number }) => this.item(happened, place, number, event));
    list.prepend(...(first > 0 ? [element("li", "quiet", `${first} before`)] : []));
    const summary = kept.length === events.length ? `What happened (${events.length})` : `What happened (${kept.length} of ${events.length})`;
    const found = /** @type {HTMLDetailsElement} */ (element("details", "", element("summary", "", summary), list));
    found.setAttribute("aria-label", "What happened");
    found.open = this.isOpen;
    found.addEventListener("toggle", () => {
      this.isOpen = found.open;
    });
    return found;
  }

  /**
   * @param {Event} event
   * @param {number} place
   * @param {number} number
   * @param {number} chosen
   */
  item(event, place, number, chosen) {
    const reasons = (event.reasons ?? []).map((reason) => element("span", "reason", reason));
    const item = element("li", number === chosen ? "now" : "", eventText(event), ...reasons);
    if (this.model.hasEvents()) {
      item.dataset.place = String(place);
      item.dataset.event = String(number);
    }
    return number === chosen ? withAttributes(item, { "aria-current": "step" }) : item;
  }

  /**
   * @template T
   * @param {T[]} things
   * @param {(thing: T) => HTMLElement} make
   */
  list(things, make) {
    const list = element("ol", "list");
    this.addItems(list, things, make, 0);
    return list;
  }

  /**
   * @template T
   * @param {HTMLElement} list
   * @param {T[]} things
   * @param {(thing: T) => HTMLElement} make
   * @param {number} from
   */
  addItems(list, things, make, from) {
    const more = things.slice(from, from + MORE_LISTED).map(make);
    const rest = things.length - from - more.length;
    list.append(...more);
    if (rest > 0) {
      const last = element("li", "quiet", `and ${rest} more`);
      list.append(last);
      this.growing.set(last, () => this.addItems(list, things, make, from + more.length));
      this.watch.observe(last);
    }
  }

  /**
   * Lets lists grow whose ends came into view, or near to it.
   * @param {IntersectionObserverEntry[]} seen
   */
  came(seen) {
    for (const { isIntersecting, target } of seen) {
      const grow = isIntersecting && this.growing.get(target);
      if (grow) {
        this.watch.unobserve(target);
        this.growing.delete(target);
        target.remove();
        grow();
      }
    }
  }

  /**
   * @param {Node} node
   * @param {Instant} instant
   * @param {number} before
   */
  card(node, instant, before) {
    const { role, term, vote, lead, commit, applied, durable, length, end } = numbersOf(node, instant);
    const changed = isChanged(node, before, instant.moment) ? [element("span", "changed", "● changed")] : [];
    const facts = `term ${term}, ${vote ? `voted for ${vote}` : "no vote"}, ${lead ? `leader ${lead}` : "no leader"}`;
    const content = length ? `, content ${counted(length, "byte", "bytes")}: ${length > end.length ? "…" : ""}${shownBody(end)}` : "";
    const card = element(
      "article",
      `node ${role}`,
      element("header", "", element("b", "", `node ${node.id}`), element("span", "role", role), ...changed),
      element("div", "", facts),
      element("div", "facts", `commit ${commit}, applied ${applied}, durable ${durable}${content}`),
      element("div", "facts", shownBody(node.config.at(instant.moment) ?? "")),
      ...this.views(node, instant.moment),
    );
    return withAttributes(card, { "aria-label": `node ${node.id}, ${role}, term ${term}` });
  }

  /**
   * @param {Node} node
   * @param {number} moment
   */
  views(node, moment) {
    const found = [...node.views].flatMap(([member, history]) => {
      const view = history.at(moment);
      return view ? [{ member, view }] : [];
    });
    if (found.length === 0) {
      return [];
    }
    const heads = ["node", "state", "match", "next", "window"].map((text) => withAttributes(element("th", "", text), { scope: "col" }));
    const rows = found.sort((one, other) => one.member - other.member).map(({ member, view }) => this.view(member, view));
    return [withAttributes(element("table", "views", element("tr", "", ...heads), ...rows), { "aria-label": `Members by node ${node.id}` })];
  }

  /**
   * @param {number} member
   * @param {View} view
   */
  view(member, { state, match, next, inFlight, isWaiting, pending, isActive }) {
    const waits = state === "probe" && isWaiting ? ", waiting" : state === "snapshot" ? ` ${pending}` : "";
    const cells = [member, `${state}${waits}${isActive ? "" : ", inactive"}`, match, next, inFlight];
    return element("tr", "", ...cells.map((cell) => element("td", "", String(cell))));
  }
}
