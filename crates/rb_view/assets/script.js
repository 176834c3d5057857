// The script: comments, directives, and below the chosen one its output. Lines are wrapped here, at a number of letters, so that the height
// of each block is known before it is drawn, and only the rows in view are drawn.

import { linesBelow } from "./difference.js";
import { byId, element, withAttributes } from "./dom.js";
import { firstAbove } from "./history.js";
import { instantAt, placesOf } from "./position.js";
import { paragraphs, wrapped } from "./wrap.js";

/** @typedef {import("./types.js").Position} Position */
/** @typedef {import("./types.js").Step} Step */
/** @typedef {import("./difference.js").Line} Line */
/** @typedef {{ look: string, text: string, from: number, line: Line | null }} ScriptRow a piece of a line, from this letter on */

export const LINE = 18;
export const BLOCK_EDGE = 6;
const NUMBER_WIDTH = 54;

export class Script {
  /**
   * @param {import("./rows.js").Model} model
   * @param {import("./search.js").Search} search
   * @param {(position: Position) => void} choose
   */
  constructor(model, search, choose) {
    this.model = model;
    this.search = search;
    this.take = choose;
    /** @type {Position} */
    this.chosen = { place: 1, event: 0 };
    this.isFolded = true;
    this.letters = 0;
    this.more = 0;
    /** @type {number[]} */
    this.tops = [0];
    /** @type {ScriptRow[]} */
    this.chosenRows = [];
    this.pane = byId("script");
    this.list = byId("directives");
    this.texts = byId("texts");
    this.pane.addEventListener("scroll", () => this.draw());
    this.pane.addEventListener("click", ({ target }) => this.clicked(/** @type {Element} */ (target)));
    new ResizeObserver(() => this.resized()).observe(this.pane);
    this.resized();
  }

  /**
   * Shows the script of another run.
   * @param {import("./rows.js").Model} model
   * @param {Position} position
   */
  replace(model, position) {
    this.isFolded = this.isFolded || position.place !== this.chosen.place;
    this.model = model;
    this.chosen = position;
    this.measure();
    this.show();
    this.draw();
  }

  /** @param {Element} target */
  clicked(target) {
    const row = /** @type {HTMLElement | null} */ (target.closest("[data-event]"));
    const block = /** @type {HTMLElement | null} */ (target.closest(".block"));
    if (target.closest(".fold")) {
      this.toggleFolds();
    } else if (block?.dataset.place) {
      this.take({ place: Number(block.dataset.place), event: Number(row?.dataset.event ?? 0) });
    }
  }

  /** Shows the equal lines of a mismatch, or folds them again. */
  toggleFolds() {
    this.isFolded = !this.isFolded;
    this.refresh();
  }

  letterWidth() {
    const measure = element("span", "measure", "0".repeat(100));
    this.pane.append(measure);
    const width = measure.getBoundingClientRect().width / 100;
    measure.remove();
    return width;
  }

  resized() {
    const room = this.pane.clientWidth - NUMBER_WIDTH - 14;
    const letters = Math.max(16, Math.floor(room / this.letterWidth()));
    if (letters !== this.letters) {
      this.letters = letters;
      this.measure();
    }
    this.show();
    this.draw();
  }

  // ---- rows and heights

  /**
   * @param {string[]} lines
   * @returns {ScriptRow[]}
   */
  rowsOfComment(lines) {
    const rows = paragraphs(lines).flatMap((text) => [...wrapped(text, this.letters), { text: "", from: 0 }]);
    return rows.slice(0, -1).map(({ text, from }) => ({ look: "comment", text, from, line: null }));
  }

  /**
   * The rows of a directive without its output.
   * @param {Step} step
   */
  rowsOf(step) {
    const isWrong = step.pieces !== null;
    const heads = step.head.map((line, at) => (isWrong && at === 0 ? "✗ " : "") + line);
    const head = isWrong ? "head wrong" : "head";
    return [
      ...heads.flatMap((text) => this.rowsOfLine(head, text, null)),
      ...step.warnings.flatMap((text) => this.rowsOfLine("warning", `⚠ ${text}`, null)),
      ...step.input.flatMap((text) => this.rowsOfLine("input", text, null)),
    ];
  }

  /**
   * @param {string} look
   * @param {string} text
   * @param {Line | null} line
   * @returns {ScriptRow[]}
   */
  rowsOfLine(look, text, line) {
    return wrapped(text, this.letters).map((piece) => ({ look, line, ...piece }));
  }

  /** Finds where each block begins: of step k its comment at place 2k, and itself at 2k + 1; the tail is last. */
  measure() {
    this.tops = [0];
    /** @param {number} rows */
    const add = (rows) => this.tops.push(this.tops[this.tops.length - 1] + (rows ? rows * LINE + BLOCK_EDGE : 0));
    for (const step of this.model.steps) {
      add(this.rowsOfComment(step.lead).length);
      add(this.rowsOf(step).length);
    }
    add(this.rowsOfComment(this.model.tail).length);
    this.fit();
  }

  /** Makes the rows of the chosen directive, with its output: it is higher than it would be if it weren't chosen. */
  fit() {
    const at = 2 * this.chosen.place - 1;
    const { step, at: event } = instantAt(this.model, this.chosen);
    const below = linesBelow(step, this.isFolded, event).flatMap((line) => this.rowsOfLine(line.look, line.text, line));
    this.chosenRows = [...this.rowsOf(step), ...below];
    this.more = this.chosenRows.length * LINE + BLOCK_EDGE - (this.tops[at + 1] - this.tops[at]);
    this.list.style.height = `${this.tops[this.tops.length - 1] + this.more + 40}px`;
  }

  /** @param {number} at */
  topOf(at) {
    return this.tops[at] + (at > 2 * this.chosen.place - 1 ? this.more : 0);
  }

  // ---- what is in view

  /** @param {Position} position */
  choose(position) {
    this.isFolded = this.isFolded || position.place !== this.chosen.place;
    this.chosen = position;
    this.refresh();
  }

  refresh() {
    this.fit();
    this.show();
    this.draw();
  }

  /** Brings what is chosen into view: the directive, or the line of its event; from far away also what is around it. */
  show() {
    const own = this.topOf(2 * this.chosen.place - 1);
    const [first, last] = this.rowsOfEvent();
    const above = first < 0 ? this.topOf(2 * this.chosen.place - 2) : own + first * LINE;
    const start = first < 0 ? own : own + first * LINE;
    const below = first < 0 ? this.topOf(2 * this.chosen.place) : own + (last + 1) * LINE;
    const top = this.pane.scrollTop;
    const height = this.pane.clientHeight;
    const spare = Math.max(0, height - (below - start));
    const lowest = Math.min(below - height + 60, start - Math.min(20, spare));
    if (below < top || above > top + height) {
      this.pane.scrollTop = Math.max(lowest, above - height / 3);
    } else if (above < top) {
      this.pane.scrollTop = above - 20;
    } else if (below > top + height) {
      this.pane.scrollTop = lowest;
    }
  }

  /** The first and the last row of the chosen event's line, or -1 where it has none. */
  rowsOfEvent() {
    const { at } = instantAt(this.model, this.chosen);
    /** @param {ScriptRow} row */
    const isOwn = ({ line }) => at >= 0 && line !== null && line.event === at;
    const first = this.chosenRows.findIndex(isOwn);
    return first < 0 ? [-1, -1] : [first, this.chosenRows.length - 1 - [...this.chosenRows].reverse().findIndex(isOwn)];
  }

  /**
   * Scrolls by a page within the chosen directive where it goes on out of view; answers whether it did.
   * @param {number} direction
   */
  scrollWithin(direction) {
    const { scrollTop, clientHeight } = this.pane;
    const own = this.topOf(2 * this.chosen.place - 1);
    const over = direction > 0 ? this.topOf(2 * this.chosen.place) - (scrollTop + clientHeight) : scrollTop - own;
    if (over > 0) {
      this.pane.scrollTop += direction * Math.min(over + LINE, clientHeight - 2 * LINE);
    }
    return over > 0;
  }

  // ---- drawing

  draw() {
    const top = this.pane.scrollTop;
    const bottom = top + this.pane.clientHeight;
    const places = new Set([2 * this.chosen.place - 1]);
    let at = Math.max(0, firstAbove(this.tops, top - Math.max(0, this.more)) - 1);
    for (; at < this.tops.length - 1 && this.topOf(at) <= bottom; at += 1) {
      if (this.topOf(at + 1) >= top && this.topOf(at + 1) > this.topOf(at)) {
        places.add(at);
      }
    }
    /** @type {Element[]} */
    const options = [];
    /** @type {Element[]} */
    const texts = [];
    for (const place of [...places].sort((one, other) => one - other)) {
      this.drawBlock(place, top, bottom, options, texts);
    }
    this.list.replaceChildren(...options);
    this.texts.replaceChildren(...texts);
    this.list.setAttribute("aria-activedescendant", `directive-${this.chosen.place}`);
  }

  /**
   * Draws those rows of a block that are between two heights: a directive is an option, comments and output are texts.
   * @param {number} at
   * @param {number} top
   * @param {number} bottom
   * @param {Element[]} options
   * @param {Element[]} texts
   */
  drawBlock(at, top, bottom, options, texts) {
    const step = this.model.steps[at >> 1];
    const isDirective = at % 2 === 1;
    const isChosen = isDirective && step.place === this.chosen.place;
    const rows = isChosen ? this.chosenRows : isDirective ? this.rowsOf(step) : this.rowsOfComment(step ? step.lead : this.model.tail);
    const own = isChosen ? rows.filter(({ line }) => line === null).length : rows.length;
    const first = Math.max(0, Math.floor((top - this.topOf(at)) / LINE) - 1);
    const last = Math.max(0, Math.ceil((bottom - this.topOf(at)) / LINE));
    const block = this.box(at, this.topOf(at), rows.length, isChosen ? "block chosen" : "block");
    block.append(...this.rowElements(rows, isDirective ? 0 : first, Math.min(own - 1, isDirective ? own : last), isDirective ? step : null));
    (isDirective ? options : texts).push(block);
    if (isDirective) {
      withAttributes(block, {
        id: `directive-${step.place}`, role: "option", "aria-selected": String(isChosen), "aria-setsize": this.model.steps.length, "aria-posinset": step.place,
      });
      block.append(...(step.pieces ? [element("span", "unseen", ", mismatch")] : []));
    } else if (step) {
      block.id = `comment-${step.place}`;
    }
    if (isChosen && rows.length > own) {
      const below = this.box(at, this.topOf(at) + own * LINE, rows.length - own, "block below");
      withAttributes(below, { role: "group", "aria-label": `Output of line ${step.line}` });
      below.append(...this.rowElements(rows, Math.max(own, first), Math.max(own, last), null, own));
      texts.push(below);
    }
  }

  /**
   * @param {number} at
   * @param {number} top
   * @param {number} rows
   * @param {string} look
   */
  box(at, top, rows, look) {
    const block = element("div", look);
    block.style.top = `${top}px`;
    block.style.height = `${rows * LINE + BLOCK_EDGE}px`;
    const step = this.model.steps[at >> 1];
    if (step) {
      block.dataset.place = String(step.place);
    }
    return block;
  }

  /**
   * @param {ScriptRow[]} rows
   * @param {number} first
   * @param {number} last
   * @param {Step | null} step whose number the first row has
   * @param {number} [start] the row at the top of the box
   */
  rowElements(rows, first, last, step, start = 0) {
    const { at, step: chosen } = instantAt(this.model, this.chosen);
    const places = this.model.hasEvents() ? placesOf(chosen) : [];
    const drawn = rows.slice(first, last + 1).map((row, more) => {
      const isNow = at >= 0 && row.line !== null && row.line.event === at;
      const number = step && first + more === 0 ? String(step.line) : "";
      const made = element("div", isNow ? "row now" : "row", element("span", "number", number), this.text(row));
      const event = row.line ? places.indexOf(row.line.event) : -1;
      if (event >= 0) {
        made.dataset.event = String(event + 1);
      }
      if (isNow) {
        made.setAttribute("aria-current", "step");
      }
      return made;
    });
    if (drawn.length > 0 && first > start) {
      drawn[0].style.marginTop = `${(first - start) * LINE}px`;
    }
    return drawn;
  }

  /**
   * A row's text, in which what differs and what was searched for is marked.
   * @param {ScriptRow} row
   */
  text({ look, text, from, line }) {
    const made = element("span", `text ${look}`);
    const ranges = [...this.search.rangesIn(text)];
    if (line?.range) {
      ranges.push({ start: line.range[0] - from, end: line.range[1] - from, look: "differs" });
    }
    let at = 0;
    for (const { start, end, look: marked } of ranges.sort((one, other) => one.start - other.start)) {
      const first = Math.max(at, Math.min(start, text.length));
      const last = Math.max(first, Math.min(end, text.length));
      made.append(text.slice(at, first), ...(last > first ? [element("mark", marked, text.slice(first, last))] : []));
      at = last;
    }
    made.append(text.slice(at));
    return made;
  }
}
