// The picture on the screen: as much of it as is in view is drawn, again whenever that changes.

import { byId, element, svg } from "./dom.js";
import { Layout } from "./layout.js";
import { Painter, Paths } from "./paint.js";
import { BESIDE, FREE, LEAST_LEFT } from "./sizes.js";
import { descriptionOf } from "./describe.js";
import { instantAt, numbersOf } from "./position.js";
import { MARKS } from "./words.js";

/** @typedef {import("./types.js").Position} Position */
/** @typedef {import("./types.js").Message} Message */

// Browsers give up on boxes that are taller than this, in pixels; a taller picture is scrolled by parts of its height.
const TALLEST = 8_000_000;

export class Picture {
  /**
   * @param {import("./rows.js").Model} model
   * @param {import("./search.js").Search} search
   * @param {(place: number) => void} choose
   */
  constructor(model, search, choose) {
    this.layout = new Layout(model);
    this.model = model;
    this.search = search;
    search.marksOf = ({ place }) => this.layout.rows[place - 1].marks;
    /** @type {Position} */
    this.chosen = { place: 1, event: 0 };
    this.top = this.placed = this.viewWidth = this.viewHeight = 0;
    this.isDrawn = false;
    this.described = "";
    /** @type {Painter | null} */
    this.painter = null;
    /** @type {Element | null} */
    this.traced = null;
    this.scroll = byId("scroll");
    this.drawing = byId("drawing");
    this.heads = byId("heads");
    this.description = byId("description");
    this.scroll.addEventListener("scroll", () => this.scrolled());
    this.scroll.addEventListener("wheel", (event) => this.wheeled(event), { passive: false });
    this.drawing.addEventListener("click", (event) => choose(this.layout.rowAt(this.top + event.offsetY) + 1));
    this.drawing.addEventListener("pointerover", ({ target }) => this.trace(target instanceof Element ? target.closest("text") : null));
    new ResizeObserver(() => this.resized()).observe(this.scroll);
    this.gutter = element("span", "gutter", "line, directive");
    this.columns = this.makeHeads();
    this.resized();
  }

  makeHeads() {
    this.heads.replaceChildren(this.gutter);
    return this.model.nodes.map((node) => {
      const role = element("span", "");
      const column = element("div", "column", element("b", "", `node ${node.id}`), role);
      this.heads.append(column);
      return { column, role };
    });
  }

  /**
   * Draws another run.
   * @param {import("./rows.js").Model} model
   * @param {Position} position
   */
  replace(model, position) {
    this.model = model;
    this.layout = new Layout(model);
    this.chosen = position;
    this.painter = this.traced = null;
    this.described = "";
    this.columns = this.makeHeads();
    this.resized();
  }

  // ---- where it is scrolled to

  resized() {
    this.viewWidth = this.scroll.clientWidth;
    this.viewHeight = this.scroll.clientHeight;
    this.layout.spread(this.viewWidth);
    this.gutter.hidden = this.layout.isNarrow;
    const extent = byId("extent");
    extent.style.width = `${this.layout.width}px`;
    extent.style.height = `${Math.min(this.layout.height, TALLEST)}px`;
    this.drawing.setAttribute("width", String(this.viewWidth));
    this.drawing.setAttribute("height", String(this.viewHeight));
    this.scrollTo(this.top);
    this.show();
  }

  /** Places all again, after another layout has placed the same messages. */
  placeAgain() {
    this.layout.placeAll();
    this.drawSoon();
  }

  /** How many pixels of the picture a pixel of the scroll bar is. */
  ratio() {
    const over = this.layout.height - this.viewHeight;
    return Math.max(1, over / Math.max(1, Math.min(this.layout.height, TALLEST) - this.viewHeight));
  }

  /** @param {number} top */
  scrollTo(top) {
    this.top = Math.min(Math.max(0, top), Math.max(0, this.layout.height - this.viewHeight));
    this.placed = Math.round(this.top / this.ratio());
    this.scroll.scrollTop = this.placed;
    this.drawSoon();
  }

  scrolled() {
    if (Math.abs(this.scroll.scrollTop - this.placed) > 1) {
      this.placed = this.scroll.scrollTop;
      this.top = this.placed * this.ratio();
    }
    this.drawSoon();
  }

  /**
   * Where a pixel of the scroll bar is many of the picture, a wheel still moves the picture by its own pixels.
   * @param {WheelEvent} event
   */
  wheeled(event) {
    if (this.ratio() > 1 && event.deltaY) {
      event.preventDefault();
      this.scrollTo(this.top + event.deltaY);
    }
  }

  /** @param {Position} position */
  choose(position) {
    this.chosen = position;
    this.show();
    this.drawSoon();
  }

  /** Brings what is chosen into view: its row, and its event where there is one; from far away also what is around it. */
  show() {
    const { step, at } = instantAt(this.model, this.chosen);
    const row = this.layout.rows[this.chosen.place - 1];
    const y = at < 0 ? 0 : this.layout.yOf(step, at);
    const top = at < 0 ? row.top : y - 40;
    const bottom = at < 0 ? row.top + row.height : y + 30;
    const spare = Math.max(0, this.viewHeight - (bottom - top));
    const lowest = Math.min(bottom + 40 - this.viewHeight, top - Math.min(40, spare));
    if (bottom < this.top || top > this.top + this.viewHeight) {
      this.scrollTo(Math.max(lowest, top - this.viewHeight / 3));
    } else if (top < this.top) {
      this.scrollTo(top - 40);
    } else if (bottom > this.top + this.viewHeight) {
      this.scrollTo(lowest);
    }
    this.showNodes(at < 0 ? step.events : [step.events[at]]);
  }

  /**
   * Where none of the nodes that did something is in view, the first of them comes into view.
   * @param {import("./types.js").Event[]} events
   */
  showNodes(events) {
    const ids = events.filter((event) => event.message || MARKS[event.name]).map((event) => event.id);
    const places = ids.map((id) => this.layout.x(id) - this.scroll.scrollLeft);
    if (ids.length > 0 && !places.some((place) => place > this.layout.headLeft && place < this.viewWidth - 2 * FREE)) {
      this.scroll.scrollLeft += places[0] - Math.min(LEAST_LEFT, this.viewWidth / 2);
    }
  }

  // ---- drawing

  drawSoon() {
    if (!this.isDrawn) {
      this.isDrawn = true;
      requestAnimationFrame(() => {
        this.isDrawn = false;
        this.draw();
      });
    }
  }

  /**
   * Draws the line of a label that is pointed at once more, so that it can be followed.
   * @param {Element | null} label
   */
  trace(label) {
    this.traced?.remove();
    const message = label && this.painter?.labels.get(label);
    if (message && this.painter) {
      const lines = new Paths();
      this.traced = svg(this.painter.arrows, "g", { class: "traced" });
      this.painter.drawArrow(lines, message);
      lines.draw(this.traced);
    }
  }

  draw() {
    const left = this.scroll.scrollLeft;
    const instant = instantAt(this.model, this.chosen);
    const now = instant.event ? this.layout.yOf(instant.step, instant.at) : null;
    const { isKept, isFound } = this.search.tests();
    this.painter = new Painter(this.layout, { chosen: this.chosen.place, now, serial: instant.serial, event: instant.event, isKept, isFound });
    const bottom = this.top + this.viewHeight;
    this.drawing.replaceChildren(this.painter.part(this.top, bottom, left));
    this.drawHeads(left, instant);
    this.describe();
  }

  /** Describes the rows that are drawn, for readers who can't see them. */
  describe() {
    const [first, last] = [this.layout.rowAt(this.top), this.layout.rowAt(this.top + this.viewHeight)];
    if (this.described !== `${first} ${last}`) {
      this.described = `${first} ${last}`;
      const lines = descriptionOf(this.model, this.layout.rows.slice(first, last + 1));
      this.description.replaceChildren(...lines.map((line) => element("p", "", line)));
    }
  }

  /**
   * @param {number} left
   * @param {import("./position.js").Instant} instant
   */
  drawHeads(left, instant) {
    this.columns.forEach(({ column, role }, at) => {
      const node = this.model.nodes[at];
      const x = this.layout.x(at + 1) - left;
      column.style.left = `${x}px`;
      column.hidden = left > 0 && x < this.layout.left - BESIDE;
      if (node.isThereAt(instant.moment)) {
        const { role: name, term } = numbersOf(node, instant);
        role.textContent = `${name} t${term}`;
      } else {
        role.textContent = "";
      }
    });
  }
}
