// Draws a part of the picture, for the screen and for print.

import { group, svg } from "./dom.js";
import { firstAbove } from "./history.js";
import { BESIDE, HALF_BAND, LINE_STEP, SLOT } from "./sizes.js";
import { fateText, KINDS, messageText } from "./words.js";

/** @typedef {import("./types.js").Message} Message */
/** @typedef {import("./types.js").Event} Event */
/** @typedef {import("./layout.js").PlacedRow} PlacedRow */

/**
 * What a reader has chosen, and what is to be drawn of it: the directive or 0, how far down its event is, the event's serial, and which
 * events and texts the filters and the search leave.
 * @typedef {object} Scene
 * @property {number} chosen
 * @property {number | null} now
 * @property {number} serial
 * @property {Event | null} event
 * @property {(event: Event) => boolean} isKept
 * @property {(text: string) => boolean} isFound
 */

/** @type {Scene} */
export const WHOLE = { chosen: 0, now: null, serial: Infinity, event: null, isKept: () => true, isFound: () => false };

/** @param {number} number */
const n = (number) => number.toFixed(1);

/** Path data by class; each class becomes one path. */
export class Paths {
  constructor() {
    /** @type {Map<string, string[]>} */
    this.parts = new Map();
  }

  /**
   * @param {string} look
   * @param {string} data
   */
  add(look, data) {
    const parts = this.parts.get(look);
    if (parts) {
      parts.push(data);
    } else {
      this.parts.set(look, [data]);
    }
  }

  /** @param {Element} parent */
  draw(parent) {
    for (const [look, parts] of this.parts) {
      svg(parent, "path", { class: look, d: parts.join("") });
    }
  }
}

/**
 * @param {number} x
 * @param {number} y
 */
export function crossAt(x, y) {
  return `M${n(x - 4)} ${n(y - 4)}l8 8m0 -8l-8 8`;
}

/**
 * @param {number} x
 * @param {number} y
 * @param {number} dx
 * @param {number} dy
 */
export function tipAt(x, y, dx, dy) {
  const length = Math.hypot(dx, dy) || 1;
  const [ux, uy] = [dx / length, dy / length];
  return `M${n(x)} ${n(y)}L${n(x - 9 * ux - 3.6 * uy)} ${n(y - 9 * uy + 3.6 * ux)}L${n(x - 9 * ux + 3.6 * uy)} ${n(y - 9 * uy - 3.6 * ux)}Z`;
}

/**
 * Classes without the empty ones.
 * @param {...(string | false)} looks
 */
const joined = (...looks) => looks.filter(Boolean).join(" ");

export class Painter {
  /**
   * @param {import("./layout.js").Layout} layout
   * @param {Scene} scene
   */
  constructor(layout, scene) {
    this.layout = layout;
    this.scene = scene;
    /** @type {Map<Element, Message>} by their labels */
    this.labels = new Map();
    /** @type {SVGElement} */
    this.arrows = group();
  }

  /**
   * Draws what is between two heights; heads begin at `left`.
   * @param {number} top
   * @param {number} bottom
   * @param {number} left
   */
  part(top, bottom, left) {
    const { layout } = this;
    const first = layout.rowAt(top);
    const last = layout.rowAt(bottom);
    const rows = layout.rows.slice(first, last + 1);
    const all = group();
    all.setAttribute("transform", `translate(${-left} ${-top})`);
    this.drawRows(all, rows);
    this.drawBands(all, first, last);
    this.drawMessages(all, layout.model.spans.between(first + 1, last + 1), top, bottom);
    rows.forEach((row) => this.drawMarks(all, row));
    const gutter = svg(all, "g", { transform: `translate(${left} 0)` });
    rows.forEach((row) => this.drawHead(gutter, row));
    return all;
  }

  /** @param {number} y */
  isLater(y) {
    return this.scene.now !== null && y > this.scene.now + 3;
  }

  /**
   * @param {Element} all
   * @param {PlacedRow[]} rows
   */
  drawRows(all, rows) {
    const { width } = this.layout;
    const chosen = this.layout.rows[this.scene.chosen - 1];
    if (chosen && rows.includes(chosen)) {
      svg(all, "rect", { class: "row chosen", x: 0, y: chosen.top, width, height: chosen.height });
    }
    svg(all, "path", { class: "edge", d: rows.map((row) => `M0 ${row.top + 0.5}H${width}`).join("") });
    if (this.scene.now !== null) {
      svg(all, "path", { class: "now", d: `M${this.layout.left - 2 * BESIDE} ${n(this.scene.now)}H${width}` });
    }
  }

  /**
   * @param {Element} all
   * @param {number} first
   * @param {number} last
   */
  drawBands(all, first, last) {
    const from = this.layout.tops[first];
    const to = this.layout.tops[last + 1];
    this.layout.bands.forEach(({ tops, roles }, at) => {
      for (let part = Math.max(0, firstAbove(tops, from) - 1); part < tops.length && tops[part] < to; part += 1) {
        const top = Math.max(from, tops[part]);
        const bottom = Math.min(to, tops[part + 1] ?? to);
        if (roles[part] === "none" || bottom <= top) {
          continue;
        }
        const half = roles[part] === "leader" ? HALF_BAND : roles[part] === "follower" ? 2.5 : 4;
        svg(all, "rect", { class: `band ${roles[part]}`, x: this.layout.x(at + 1) - half, y: top, width: 2 * half, height: bottom - top });
      }
    });
  }

  /**
   * @param {Element} all
   * @param {Iterable<Message>} messages
   * @param {number} top
   * @param {number} bottom
   */
  drawMessages(all, messages, top, bottom) {
    const lines = new Paths();
    const labels = [];
    for (const message of messages) {
      const start = message.start ?? 0;
      if ((message.end ?? start) >= top - SLOT && start <= bottom + SLOT) {
        this.drawArrow(lines, message);
        labels.push(message);
      }
    }
    this.arrows = svg(all, "g", {});
    lines.draw(this.arrows);
    labels.forEach((message) => this.drawLabel(all, message));
  }

  /**
   * How a message looks at this point: chosen, not there yet, under way, or filtered out.
   * @param {Message} message
   */
  lookOf(message) {
    const { scene } = this;
    const isNow = scene.event?.message === message;
    const isUnderWay = scene.event !== null && message.sentAt <= scene.serial && message.metAt > scene.serial;
    const isKept = scene.isKept({ name: "send", id: message.from, cells: [], message });
    return joined(isNow && "now", this.isLater(message.start ?? 0) && "later", isUnderWay && "under-way", !isKept && "dim");
  }

  /**
   * @param {Paths} lines
   * @param {Message} message
   */
  drawArrow(lines, message) {
    const { chosen } = this.scene;
    const kind = KINDS[message.type];
    const { points } = this.layout.drawnOf(message);
    const isHere = message.sent.place === chosen || message.met?.place === chosen;
    const look = this.lookOf(message);
    lines.add(
      joined("arrow", kind, message.fate === "waiting" && "waiting", isHere && "here", look),
      `M${points.map(([x, y]) => `${n(x)} ${n(y)}`).join("L")}`,
    );
    const [[fromX, fromY], [x, y]] = points.slice(-2);
    if (message.fate === "delivered") {
      lines.add(joined("tip", kind, look), tipAt(x, y, x - fromX, y - fromY));
    } else if (message.fate !== "waiting") {
      lines.add(joined("cross", look), crossAt(x, y));
    }
  }

  /**
   * @param {Element} all
   * @param {Message} message
   */
  drawLabel(all, message) {
    const isLeft = message.to < message.from;
    const x = this.layout.x(message.from) + (isLeft ? -BESIDE : BESIDE);
    const { label } = this.layout.drawnOf(message);
    const text = messageText(message);
    const look = joined("label", KINDS[message.type], this.lookOf(message), [text, label].some(this.scene.isFound) && "found");
    const drawn = this.words(all, look, x, (message.start ?? 0) - 5, isLeft, [label], message.sent.place, `${text}, ${fateText(message)}`);
    this.labels.set(drawn, message);
  }

  /**
   * Draws lines of text with a rim of the ground's colour, so that an arrow that crosses them doesn't strike them out; and their whole text.
   * @param {Element} all
   * @param {string} look
   * @param {number} x
   * @param {number} y
   * @param {boolean} isLeft
   * @param {string[]} lines
   * @param {number} place the directive that they belong to
   * @param {string} whole
   */
  words(all, look, x, y, isLeft, lines, place, whole) {
    const isChosen = place === this.scene.chosen;
    const drawn = svg(all, "text", { class: joined(look, isChosen && "chosen"), x: n(x), y: n(y), "text-anchor": isLeft ? "end" : "start" }, lines[0]);
    lines.slice(1).forEach((line) => svg(drawn, "tspan", { x: n(x), dy: LINE_STEP }, line));
    svg(drawn, "title", {}, whole);
    return drawn;
  }

  /**
   * @param {Element} all
   * @param {PlacedRow} row
   */
  drawMarks(all, row) {
    const { scene } = this;
    for (const { node, y, side, look, lines, text, of } of row.marks) {
      const isLeft = side === "left";
      const isNow = scene.event !== null && of.includes(scene.event);
      const isFound = scene.isFound(`${node} ${text}`);
      const looks = joined("mark", look, isNow && "now", this.isLater(y - 1) && "later", !scene.isKept(of[0]) && "dim", isFound && "found");
      const whole = [text, ...of.flatMap((event) => event.reasons ?? [])].join("\n");
      this.words(all, looks, this.layout.x(node) + (isLeft ? -BESIDE : BESIDE), y, isLeft, lines, row.step.place, whole);
    }
  }

  /**
   * @param {Element} gutter
   * @param {PlacedRow} row
   */
  drawHead(gutter, row) {
    const { place, line, pieces } = row.step;
    const { headLeft } = this.layout;
    const y = row.top + 17;
    svg(gutter, "text", { class: joined("place", place === this.scene.chosen && "chosen"), x: headLeft - 8, y, "text-anchor": "end" }, String(line));
    const head = row.step.head.join(" ");
    const look = joined("head", pieces !== null && "bad", this.scene.isFound(head) && "found");
    this.words(gutter, look, headLeft, y, false, row.head, place, head);
    row.notes.forEach((note) => this.words(gutter, note.look, headLeft, note.y, false, note.lines, place, note.text));
  }
}
