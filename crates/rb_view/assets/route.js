// The line of a message: level under its own label, then straight to its end. Where this would strike other texts, it bends at other places,
// and is level again before its end. No text is as far down as its start or its end, so only texts between them can be struck. Places are
// told by how far they are from the sender's band, to the side where the message goes.

import { widthOf } from "./measure.js";
import { ARROW, BESIDE, HALF_BAND } from "./sizes.js";

/** @typedef {{ start: number, end: number, top: number, bottom: number }} Obstacle */

// How many rows a line looks at for texts that it would strike, how many texts it takes of them, spread evenly, and how many places it tries
// for a bend.
const MOST_ROWS = 200;
const MOST_TEXTS = 200;
const MOST_BENDS = 24;

export class Route {
  /**
   * @param {import("./layout.js").Layout} layout
   * @param {import("./types.js").Message} message
   * @param {string} label
   */
  constructor(layout, message, label) {
    this.layout = layout;
    this.message = message;
    this.side = message.to < message.from ? -1 : 1;
    this.lead = BESIDE + widthOf(label) + 4;
    this.top = message.start ?? 0;
    this.bottom = message.end ?? this.top;
    /** @type {Obstacle[]} */
    this.texts = [];
  }

  /** @returns {number[][]} */
  points() {
    const { message, layout, side } = this;
    /** @param {number[][]} places */
    const at = (places) => places.map(([place, y]) => [layout.x(message.from) + side * place, y]);
    if (message.fate === "waiting" || message.fate === "given up") {
      return at([[HALF_BAND, this.top], [this.lead + 4, this.top]]);
    }
    this.texts = this.textsOnTheWay();
    if (message.to === message.from) {
      const far = Math.max(this.lead, ...this.texts.filter((text) => text.start < layout.gap / 2).map((text) => text.end + 5));
      return at([[HALF_BAND, this.top], [far, this.top], [far, this.bottom], [HALF_BAND + 1, this.bottom]]);
    }
    const end = this.end();
    const [first, second] = this.bends(end);
    const after = second < end ? [[second, this.bottom], [end, this.bottom]] : [[end, this.bottom]];
    return at([[HALF_BAND, this.top], [first, this.top], ...after]);
  }

  /** Where it ends: at its receiver's band, or where it is lost before it; where nobody has that id, after its label. */
  end() {
    const { message, layout } = this;
    if (message.to > layout.model.nodes.length) {
      return this.lead + ARROW;
    }
    return Math.abs(message.to - message.from) * layout.gap - HALF_BAND - (message.fate === "delivered" ? 1 : 14);
  }

  /** The texts between its start and its end. */
  textsOnTheWay() {
    const { message, layout, side } = this;
    const first = layout.rowAt(this.top);
    const last = Math.min(layout.rowAt(this.bottom), first + MOST_ROWS);
    const texts = layout.rows.slice(first, last + 1).flatMap((row) => layout.textsOf(row));
    const found = texts.filter((text) => this.isOnTheWay(text));
    const every = Math.ceil(found.length / MOST_TEXTS);
    return found.filter((_, at) => at % every === 0).map((text) => {
      const band = (text.node - message.from) * side * layout.gap;
      const isFarther = text.isLeft === side < 0;
      const near = isFarther ? band + BESIDE - 2 : band - BESIDE - text.width - 2;
      return { start: near, end: near + text.width + 4, top: text.top, bottom: text.bottom };
    });
  }

  /** @param {import("./layout.js").PlacedText} text */
  isOnTheWay({ node, isLeft, top, bottom }) {
    const { from, to } = this.message;
    const place = node + (isLeft ? -0.5 : 0.5);
    const isInside = to === from ? node === from && !isLeft : (place - from) * (place - to) < 0;
    return isInside && bottom > this.top && top < this.bottom;
  }

  /**
   * The two bends that cost the least.
   * @param {number} end
   */
  bends(end) {
    if (this.struck(this.lead, end) === 0) {
      return [this.lead, end];
    }
    const places = this.places(end);
    let best = [this.lead, end];
    let least = this.cost(this.lead, end, end);
    for (const first of places) {
      for (const second of places) {
        const cost = first < second ? this.cost(first, second, end) : Infinity;
        if (cost < least) {
          least = cost;
          best = [first, second];
        }
      }
    }
    return best;
  }

  /**
   * Where it could bend: before and after the texts in its way.
   * @param {number} end
   */
  places(end) {
    const near = this.texts.flatMap((text) => [text.start - 1, text.end + 1]).map((place) => 2 * Math.round(place / 2));
    const inside = near.filter((place) => place > this.lead && place < end - 12);
    return [this.lead, ...[...new Set(inside)].slice(0, MOST_BENDS), end].sort((one, other) => one - other);
  }

  /**
   * Struck texts are worst; then being steep, and being level for longer than the label is.
   * @param {number} first
   * @param {number} second
   * @param {number} end
   */
  cost(first, second, end) {
    const steep = Math.max(0, 24 - (second - first)) * 2;
    return 1000 * this.struck(first, second) + steep + 0.3 * (first - this.lead) + 0.5 * (end - second);
  }

  /**
   * How many texts the line strikes between its bends.
   * @param {number} first
   * @param {number} second
   */
  struck(first, second) {
    const slope = (second - first) / Math.max(1, this.bottom - this.top);
    /** @param {number} y */
    const placeAt = (y) => first + slope * (Math.min(Math.max(y, this.top), this.bottom) - this.top);
    return this.texts.filter(({ start, end, top, bottom }) => placeAt(bottom) > start && placeAt(top) < end).length;
  }
}
