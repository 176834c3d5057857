// The logs next to one another: a row a node, a column an index.

import { byId, element, withAttributes } from "./dom.js";
import { instantAt, momentBefore, numbersOf } from "./position.js";
import { beginning, counted, shownBody } from "./text.js";
import { hasRestarted } from "./words.js";

/** @typedef {import("./types.js").Position} Position */
/** @typedef {import("./types.js").Entry} Entry */
/** @typedef {import("./types.js").Numbers} Numbers */
/** @typedef {import("./types.js").View} View */
/** @typedef {import("./rows.js").Node} Node */
/** @typedef {import("./position.js").Instant} Instant */

const COLUMNS = 24;
const MORE_COLUMNS = 200;
// Where there are more columns than this, cells have no bodies.
const COLUMNS_WITH_BODIES = 10;
const BODY_LETTERS = 8;
const TERM_COLOURS = 8;

/**
 * A body in few letters: of a change of members what it changes.
 * @param {string} body
 */
function shortBody(body) {
  const short = body.replace(/^change \w+ ?/, "◆ ").trimEnd();
  return short.length > BODY_LETTERS ? beginning(short, BODY_LETTERS - 1) + "…" : short;
}

export class Logs {
  /** @param {import("./rows.js").Model} model */
  constructor(model) {
    this.model = model;
    /** @type {Position} */
    this.chosen = { place: 1, event: 0 };
    this.most = COLUMNS;
    this.step = /** @type {Pick<import("./types.js").Step, "events">} */ ({ events: [] });
    this.pane = byId("logs");
    this.detail = byId("log-detail");
    this.pane.addEventListener("pointerover", ({ target }) => this.tell(/** @type {Element} */ (target)));
  }

  /**
   * @param {import("./rows.js").Model} model
   * @param {Position} position
   */
  replace(model, position) {
    this.model = model;
    this.choose(position);
  }

  /** @param {Position} position */
  choose(position) {
    this.most = position.place === this.chosen.place ? this.most : COLUMNS;
    this.chosen = position;
    this.draw();
  }

  /**
   * Tells the whole of a cell that is pointed at.
   * @param {Element} target
   */
  tell(target) {
    this.detail.textContent = target.closest("td")?.querySelector(".whole")?.textContent ?? "";
  }

  draw() {
    const instant = instantAt(this.model, this.chosen);
    const before = momentBefore(this.model, this.chosen);
    this.step = instant.step;
    const nodes = this.model.nodes.filter((node) => node.isThereAt(instant.moment));
    const views = this.viewsOfLeader(nodes, instant);
    const lasts = nodes.map((node) => Math.max(node.logAt(instant.moment).last, this.lastBefore(node, before)));
    const last = Math.max(0, ...lasts, ...[...views.views.values()].map(({ next }) => next));
    const least = Math.max(1, Math.min(...nodes.map((node) => node.logAt(instant.moment).base)));
    const first = Math.max(least, last - this.most + 1);
    const columns = Array.from({ length: Math.max(0, last - first + 1) }, (_, at) => first + at);
    const table = element("table", columns.length <= COLUMNS_WITH_BODIES ? "bodies" : "");
    const caption = views.leader ? `Logs; match and next are those of leader ${views.leader}` : "Logs";
    table.append(element("caption", "unseen", caption), this.indexes(columns));
    for (const node of nodes) {
      table.append(this.row(node, instant, before, columns));
      const view = views.views.get(node.id);
      table.append(...(view ? [this.marks(view, columns)] : []));
    }
    const earlier = first - least;
    const scrolled = this.pane.scrollWidth - this.pane.scrollLeft - this.pane.clientWidth;
    this.pane.replaceChildren(...(earlier > 0 ? [this.moreButton(earlier)] : []), table);
    this.pane.scrollLeft = this.pane.scrollWidth - this.pane.clientWidth - (this.most > COLUMNS ? scrolled : 0);
    this.detail.textContent = "";
  }

  /** @param {number} earlier */
  moreButton(earlier) {
    const more = withAttributes(element("button", "more", `… ${counted(earlier, "entry", "entries")} …`), { type: "button" });
    more.addEventListener("click", () => {
      this.most += MORE_COLUMNS;
      this.draw();
    });
    return more;
  }

  /**
   * @param {Node} node
   * @param {number} before
   */
  lastBefore(node, before) {
    return node.isThereAt(before) ? node.logAt(before).last : 0;
  }

  /**
   * What the leader of the latest term knows of each node.
   * @param {Node[]} nodes
   * @param {Instant} instant
   */
  viewsOfLeader(nodes, instant) {
    /** @type {Map<number, View>} */
    const views = new Map();
    const leaders = nodes.filter((node) => node.numbersAt(instant.moment).role === "leader");
    const [leader] = leaders.sort((one, other) => other.numbersAt(instant.moment).term - one.numbersAt(instant.moment).term);
    for (const [member, history] of leader?.views ?? []) {
      const view = history.at(instant.moment);
      if (view) {
        views.set(member, view);
      }
    }
    return { leader: leader?.id ?? 0, views };
  }

  /** @param {number[]} columns */
  indexes(columns) {
    const cells = columns.map((index) => withAttributes(element("th", "", String(index)), { scope: "col" }));
    return element("tr", "indexes", withAttributes(element("th", "", "index"), { scope: "row" }), ...cells);
  }

  /**
   * @param {Node} node
   * @param {Instant} instant
   * @param {number} before
   * @param {number[]} columns
   */
  row(node, instant, before, columns) {
    const numbers = numbersOf(node, instant);
    const { role, term } = numbers;
    const head = element("th", "", element("b", "", `node ${node.id}`), " ", element("span", `role ${role}`, `${role} t${term}`));
    return element("tr", role, withAttributes(head, { scope: "row" }), ...columns.map((index) => this.cell(node, index, numbers, instant.moment, before)));
  }

  /**
   * @param {Node} node
   * @param {number} index
   * @param {Numbers} numbers
   * @param {number} moment
   * @param {number} before
   */
  cell(node, index, numbers, moment, before) {
    const { baseTerm, base, last } = node.logAt(moment);
    const edge = index === numbers.commit ? "edge" : "";
    const gone = index > base ? this.goneEntry(node, index, moment, before) : null;
    const struck = gone ? [this.struck(gone)] : [];
    if (index === base) {
      return this.box(["base", edge], baseTerm, "", `${baseTerm}/${base}: the base of the log of node ${node.id}`, struck);
    }
    if (index < base || index > last) {
      return element("td", gone ? "gone" : "", ...struck, ...(gone ? [element("span", "whole", this.goneText(gone, index, node.id))] : []));
    }
    const entry = node.entryAt(index, moment);
    const { commit, applied, durable } = numbers;
    const looks = [index <= commit ? "committed" : "", index <= applied ? "applied" : "", index > durable ? "unsaved" : ""].filter(Boolean);
    const isNew = node.isThereAt(before) && (index > this.lastBefore(node, before) || gone !== null);
    const said = [...(index > durable ? [] : ["durable"]), ...looks].join(", ");
    const body = shownBody(entry.body);
    const whole = `${entry.term}/${index} ${body}: ${said}${gone ? `; ${this.goneText(gone, index, node.id)}` : ""}`;
    return this.box([...looks, edge, isNew ? "new" : "", gone ? "gone" : ""], entry.term, body, whole, struck);
  }

  /**
   * The entry that was at this index before and gave way, or was lost by a restart.
   * @param {Node} node
   * @param {number} index
   * @param {number} moment
   * @param {number} before
   * @returns {Entry | null}
   */
  goneEntry(node, index, moment, before) {
    if (!node.isThereAt(before) || index > node.logAt(before).last || index <= node.logAt(before).base) {
      return null;
    }
    const old = node.entryAt(index, before);
    const now = index <= node.logAt(moment).last ? node.entryAt(index, moment) : null;
    return now && now.term === old.term && now.body === old.body ? null : old;
  }

  /**
   * @param {Entry} gone
   * @param {number} index
   * @param {number} id
   */
  goneText(gone, index, id) {
    return `${gone.term}/${index} ${shownBody(gone.body)} of node ${id} ${hasRestarted(this.step, id) ? "was lost" : "gave way"}`;
  }

  /** @param {Entry} gone */
  struck(gone) {
    return element("del", `t${gone.term % TERM_COLOURS}`, String(gone.term));
  }

  /**
   * @param {string[]} looks
   * @param {number} term
   * @param {string} body
   * @param {string} whole
   * @param {Element[]} struck
   */
  box(looks, term, body, whole, struck) {
    const short = shortBody(body);
    const sign = withAttributes(element("span", "sign", element("b", "", String(term)), ...(short ? [element("i", "", short)] : [])), { "aria-hidden": "true" });
    return element("td", [`t${term % TERM_COLOURS}`, ...looks].filter(Boolean).join(" "), ...struck, sign, element("span", "whole", whole));
  }

  /**
   * The row of marks below a node: up to where its log is known to match, and what it is sent next.
   * @param {View} view
   * @param {number[]} columns
   */
  marks({ match, next }, columns) {
    /** @type {(sign: string, name: string) => HTMLElement[]} */
    const mark = (sign, name) => [withAttributes(element("span", "", sign), { "aria-hidden": "true" }), element("span", "unseen", name)];
    const cells = columns.map((index) => {
      return element("td", "", ...(index === match ? mark("▲", "match") : []), ...(index === next ? mark("△", "next") : []));
    });
    const outside = match < (columns[0] ?? 0) ? `match ${match}` : "";
    return element("tr", "marks", element("td", "", outside), ...cells);
  }
}
