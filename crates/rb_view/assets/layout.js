// Where everything is in the picture. Time goes downwards in slots of one height. An arrow's start, an arrow's end, a line of a mark and a
// line of a note have a slot each, so that no two texts meet. Only these share one: an arrow's end with the first mark that it leads to,
// which is on the band's other side, and marks of nodes further and further to the right, one after another.

import { firstAbove } from "./history.js";
import { brokenAt, fitted, folded, widthOf } from "./measure.js";
import { Route } from "./route.js";
import { ARROW, BESIDE, FREE, HEAD_LEFT, LEAST_LEFT, LINE_STEP, NARROW_HEAD_LEFT, SLOT } from "./sizes.js";
import { hasRestarted, labelsOf, MARKS, NOTES } from "./words.js";

/** @typedef {import("./types.js").Message} Message */
/** @typedef {import("./types.js").Event} Event */
/** @typedef {import("./types.js").Step} Step */
/** @typedef {import("./rows.js").Model} Model */
/** @typedef {{ node: number, y: number, side: string, text: string, look: string, lines: string[], width: number, of: Event[] }} PlacedMark */
/** @typedef {{ text: string, look: string, lines: string[], y: number, of: Event }} PlacedNote */
/** @typedef {{ node: number, isLeft: boolean, width: number, top: number, bottom: number }} PlacedText */
/** @typedef {{ step: Step, head: string[], top: number, height: number, marks: PlacedMark[], sent: Message[], notes: PlacedNote[], slots: number, texts?: PlacedText[] }} PlacedRow */
/** @typedef {{ name: string, id: number, cells: any[], message?: Message, of?: Event[] }} Happening */

const ROW_TOP = 26;
const ROW_BOTTOM = 8;
// How far the columns are from the edges and from one another.
const MORE_LEFT = 72;
const LEAST_RIGHT = 120;
const GREATEST_RIGHT = 260;
const LEAST_GAP = 128;
const GOOD_GAP = 190;
const GREATEST_GAP = 260;
// The same where the picture has less room than this.
const NARROW = 560;
const NARROW_LEFT = 94;
const NARROW_RIGHT = 80;
const NARROW_GAP = 108;
const MORE_GAP = 24;
// How many lines a mark or a note may take.
const MOST_LINES = 4;
// How many a head may take, and how wide its letters are.
const MOST_HEAD_LINES = 2;
const HEAD_LETTER = 6.7;
// Half of the gap in the band of a node that restarts.
const HALF_GAP = 4;

/**
 * How far below a row's top its slots begin.
 * @param {PlacedRow} row
 */
const topOf = ({ head }) => ROW_TOP + LINE_STEP * (head.length - 1);

/** @param {number} size */
const fours = (size) => 4 * Math.floor(size / 4);

// The commit of a node after an event of it.
/** @type {Record<string, (cells: any[]) => number>} */
const COMMITS = { restored: ([, , index]) => index, restarted: ([, , , , , commit]) => commit };

/**
 * The events of a step as marks show them: of a ready, which entries it saves, whether others gave way to them, and its commit.
 * @param {Step} step
 * @param {number[]} commits by node
 * @param {Map<number, number>} gone by node, from which index on entries gave way
 */
function gathered(step, commits, gone) {
  /** @type {Happening[]} */
  const found = [];
  for (const event of step.events) {
    if (event.name === "save") {
      addSaved(found, event, gone);
    } else if (event.name === "hard" && event.cells[2] > commits[event.id]) {
      commits[event.id] = event.cells[2];
      found.push({ name: "committed", id: event.id, cells: [event.id, event.cells[2]], of: [event] });
    } else {
      commits[event.id] = COMMITS[event.name]?.(event.cells) ?? commits[event.id]; // its mark says so
      found.push(event);
    }
  }
  return found;
}

/**
 * @param {Happening[]} found
 * @param {Event} event
 * @param {Map<number, number>} gone
 */
function addSaved(found, event, gone) {
  const [index] = event.cells;
  if (gone.get(event.id) === index) {
    gone.delete(event.id);
    found.push({ name: "replaced", id: event.id, cells: [event.id, index], of: [event] });
  }
  const last = found[found.length - 1];
  if (last && last.name === "saved" && last.id === event.id) {
    last.cells[2] = index;
    last.of?.push(event);
  } else {
    found.push({ name: "saved", id: event.id, cells: [event.id, index, index], of: [event] });
  }
}

export class Layout {
  /** @param {Model} model */
  constructor(model) {
    this.model = model;
    // What was drawn is of this placing, by identity: another placing, of another layout too, has another.
    this.version = {};
    this.left = this.gap = this.right = this.width = this.height = 0;
    this.headLeft = HEAD_LEFT;
    this.isNarrow = false;
    /** @type {number[]} */
    this.tops = [];
    /** @type {PlacedRow[]} */
    this.rows = [];
    /** @type {{ tops: number[], roles: string[] }[]} */
    this.bands = [];
    /** @type {number[]} */
    this.commits = [];
    /** @type {number[]} */
    this.bases = [];
    /** @type {number[]} */
    this.lasts = [];
    /** @type {{ y: number, node: number } | null} */
    this.shared = null;
    /** @type {{ node: number, y: number, side: string } | null} */
    this.arrival = null;
    this.isReady = false;
  }

  /**
   * Gives the columns the room that there is: first as far apart as labels need, then more around them, then more between them.
   * @param {number} room
   */
  spread(room) {
    const gaps = Math.max(this.model.nodes.length - 1, 0);
    this.isNarrow = room < NARROW;
    const { left, gap, right } = this.isNarrow ? this.narrow(room, gaps) : this.wide(room, gaps);
    this.width = Math.max(room, left + gap * gaps + right);
    if (left !== this.left || gap !== this.gap || right !== this.right) {
      Object.assign(this, { left, gap, right, headLeft: this.isNarrow ? NARROW_HEAD_LEFT : HEAD_LEFT });
      this.placeAll();
    }
  }

  /**
   * What is left of the room goes between the columns first, so that fewer labels are cut, and then before them.
   * @param {number} room
   * @param {number} gaps
   */
  narrow(room, gaps) {
    const spare = Math.max(0, room - NARROW_LEFT - NARROW_GAP * gaps - NARROW_RIGHT);
    const more = fours(Math.min(spare / Math.max(gaps, 1), MORE_GAP));
    return { left: NARROW_LEFT + fours(Math.min(spare - more * gaps, MORE_LEFT)), gap: NARROW_GAP + more, right: NARROW_RIGHT };
  }

  /**
   * @param {number} room
   * @param {number} gaps
   */
  wide(room, gaps) {
    const free = room - LEAST_LEFT - LEAST_RIGHT;
    const good = Math.min(Math.max(free / Math.max(gaps, 1), LEAST_GAP), GOOD_GAP);
    const left = LEAST_LEFT + fours(Math.min(Math.max(free - good * gaps, 0) / 2, MORE_LEFT));
    const more = (free - 2 * (left - LEAST_LEFT)) / Math.max(gaps, 1);
    const gap = fours(Math.min(Math.max(good, more), GREATEST_GAP));
    return { left, gap, right: fours(Math.min(Math.max(room - left - gap * gaps, LEAST_RIGHT), GREATEST_RIGHT)) };
  }

  /** @param {number} id */
  x(id) {
    return this.left + this.gap * (id - 1);
  }

  /**
   * How wide a text next to a node can be.
   * @param {number} id
   * @param {boolean} isLeft
   */
  roomAt(id, isLeft) {
    if (isLeft) {
      return (id === 1 ? this.left : this.gap) - BESIDE - FREE;
    }
    return (id < this.model.nodes.length ? this.gap : this.right) - BESIDE - FREE;
  }

  placeAll() {
    this.version = {};
    this.tops = [];
    this.rows = [];
    this.bands = this.model.nodes.map(() => ({ tops: [], roles: [] }));
    this.commits = [];
    this.bases = [];
    this.lasts = [];
    this.height = 0;
    this.model.steps.forEach((step) => this.addRow(step));
    this.tops.push(this.height);
  }

  /** @param {Step} step */
  addRow(step) {
    /** @type {PlacedRow} */
    const row = { step, head: this.headOf(step), top: this.height, height: 0, marks: [], sent: [], notes: [], slots: 0 };
    this.tops.push(this.height);
    this.rows.push(row);
    const gone = this.goneIn(step);
    this.place(row, gathered(step, this.commits, gone));
    this.placeChanges(row, gone);
    row.height = topOf(row) + SLOT * row.slots + ROW_BOTTOM;
    this.height += row.height;
  }

  /**
   * The lines of a step's head before the first column, with the signs that it has.
   * @param {Step} step
   */
  headOf(step) {
    const sign = (step.pieces === null ? "" : "✗ ") + (step.warnings.length > 0 ? "⚠ " : "");
    return brokenAt(sign + step.head.join(" "), Math.floor((this.left - this.headLeft - FREE) / HEAD_LETTER), MOST_HEAD_LINES);
  }

  /**
   * By node, from which index on its entries gave way to others.
   * @param {Step} step
   */
  goneIn(step) {
    /** @type {Map<number, number>} */
    const gone = new Map();
    for (const [id, stays] of step.stays) {
      if (stays < this.lasts[id] && stays >= this.bases[id]) {
        gone.set(id, stays + 1);
      }
    }
    return gone;
  }

  /** @param {PlacedRow} row */
  nextSlot(row) {
    row.slots += 1;
    this.shared = null;
    this.arrival = null;
    return row.top + topOf(row) + SLOT * (row.slots - 0.5);
  }

  /**
   * @param {PlacedRow} row
   * @param {Happening[]} events
   */
  place(row, events) {
    this.shared = null;
    this.arrival = null;
    this.isReady = false;
    for (const event of events) {
      if (event.name === "ready") {
        this.isReady = true;
      } else if (event.message) {
        this.placeMessage(row, event, event.message);
      } else if (NOTES[event.name]) {
        this.placeNote(row, event);
      } else if (MARKS[event.name]) {
        this.placeMark(row, event);
      }
    }
  }

  /**
   * @param {PlacedRow} row
   * @param {Happening} event
   * @param {Message} message
   */
  placeMessage(row, event, message) {
    if (event.name === "no-room" && row.sent.includes(message)) {
      return; // its arrow says so
    }
    const y = this.nextSlot(row);
    this.isReady = false;
    if (event.name === "deliver") {
      message.end = y;
      this.arrival = { node: message.to, y: y + 4, side: message.from < message.to ? "right" : "left" };
    } else if (event.name === "drop") {
      message.end = y;
    } else {
      message.start = y;
      row.sent.push(message);
    }
  }

  /**
   * @param {PlacedRow} row
   * @param {Happening} event
   */
  placeNote(row, event) {
    const [text, look] = NOTES[event.name](event.cells);
    const lines = folded(text, this.left - this.headLeft - BESIDE - FREE, MOST_LINES);
    const ys = lines.map(() => this.nextSlot(row));
    row.notes.push({ text, look, lines, y: ys[0], of: event });
  }

  /**
   * @param {PlacedRow} row
   * @param {Happening} event
   */
  placeMark(row, event) {
    const { y, side } = this.markPlace(row, event);
    const [text, look] = MARKS[event.name](event.cells);
    const weight = look === "quiet" ? "plain" : "bold";
    const lines = folded(text, this.roomAt(event.id, side === "left"), event.name === "appended" ? 1 : MOST_LINES, weight);
    lines.slice(1).forEach(() => this.nextSlot(row));
    const width = Math.max(...lines.map((line) => widthOf(line, weight)));
    row.marks.push({ node: event.id, y, side, text, look, lines, width, of: event.of ?? [event] });
    if (event.name === "started") {
      this.setRole(event.id, y, "follower");
    } else if (event.name === "became") {
      this.setRole(event.id, y, event.cells[1]);
    } else if (event.name === "restored") {
      this.bases[event.id] = event.cells[2];
    } else if (event.name === "restarted") {
      this.setRole(event.id, y - HALF_GAP, "none");
      this.setRole(event.id, y + HALF_GAP, "follower");
      this.bases[event.id] = event.cells[3];
    }
  }

  /**
   * What a node has ready isn't of the message that arrived last; but a commit may be.
   * @param {PlacedRow} row
   * @param {Happening} event
   */
  markPlace(row, { id, name }) {
    if (this.arrival && this.arrival.node === id && (!this.isReady || name === "committed")) {
      const place = this.arrival;
      this.arrival = null;
      return place;
    }
    if (!this.shared || this.shared.node >= id) {
      this.shared = { y: this.nextSlot(row), node: id };
    }
    this.shared = { y: this.shared.y, node: id };
    this.arrival = null;
    return { y: this.shared.y + 1, side: "right" };
  }

  /**
   * @param {number} id
   * @param {number} y
   * @param {string} role
   */
  setRole(id, y, role) {
    this.bands[id - 1].tops.push(y);
    this.bands[id - 1].roles.push(role);
  }

  /**
   * Marks what no event shows: a commit that no ready has shown yet, and a log that was compacted.
   * @param {PlacedRow} row
   * @param {Map<number, number>} gone
   */
  placeChanges(row, gone) {
    const { moment, before, changed } = row.step;
    for (const id of changed.length > 1 ? [...changed].sort((one, other) => one - other) : changed) {
      const node = this.model.nodes[id - 1];
      const { commit } = node.numbersAt(moment);
      const { base, last } = node.logAt(moment);
      const isNew = !node.isThereAt(before);
      if (!isNew && commit > this.commits[id] && base <= this.commits[id]) {
        this.placeMark(row, { name: "committed", id, cells: [id, commit] });
      } else if (!isNew && base > this.bases[id] && base <= this.commits[id]) {
        this.placeMark(row, { name: "compacted", id, cells: [id, base] });
      }
      const stays = row.step.stays.get(id);
      if (!isNew && stays !== undefined) {
        this.placeEntries(row, node, gone, stays, last);
      }
      this.commits[id] = commit;
      this.bases[id] = base;
      this.lasts[id] = last;
    }
  }

  /**
   * Marks entries that gave way to others or were lost by a restart, and new ones that aren't durable yet: no ready has shown those.
   * @param {PlacedRow} row
   * @param {import("./rows.js").Node} node
   * @param {Map<number, number>} gone
   * @param {number} stays
   * @param {number} last
   */
  placeEntries(row, node, gone, stays, last) {
    const { id } = node;
    const { durable } = node.numbersAt(row.step.moment);
    const from = gone.get(id);
    if (from !== undefined && last < from && hasRestarted(row.step, id)) {
      this.placeMark(row, { name: "lost", id, cells: [id, from, this.lasts[id]] });
    } else if (from !== undefined) {
      this.placeMark(row, { name: "replaced", id, cells: [id, from] });
    }
    if (last > durable && last > stays) {
      this.placeMark(row, { name: "appended", id, cells: [id, last, node.entryAt(last, row.step.moment).body] });
    }
  }

  /** @param {number} y */
  rowAt(y) {
    return Math.min(Math.max(firstAbove(this.tops, y) - 1, 0), this.rows.length - 1);
  }

  /**
   * How far down an event of a step is: at its arrow's end, at its mark, or where the event before it is.
   * @param {Step} step
   * @param {number} at
   */
  yOf(step, at) {
    const row = this.rows[step.place - 1];
    for (let place = at; place >= 0; place -= 1) {
      const event = step.events[place];
      const mark = row.marks.find(({ of }) => of.includes(event)) ?? row.notes.find(({ of }) => of === event);
      const message = event.message && (event.name === "deliver" || event.name === "drop" ? event.message.end : event.message.start);
      if (mark || message !== undefined) {
        return mark ? mark.y - 1 : /** @type {number} */ (message);
      }
    }
    return row.top + topOf(row) - 4;
  }

  // ---- labels and arrows

  /**
   * A message's label and the points of its line, which stay until the columns move.
   * @param {Message} message
   */
  drawnOf(message) {
    if (message.drawn?.version !== this.version) {
      const label = this.labelOf(message);
      message.drawn = { version: this.version, label, points: new Route(this, message, label).points() };
    }
    return message.drawn;
  }

  /** @param {Message} message */
  labelOf(message) {
    const isLeft = message.to < message.from;
    const least = Math.min(this.gap - BESIDE - ARROW, 110);
    const room = !isLeft && message.from >= this.model.nodes.length ? this.roomAt(message.from, false) : Math.max(least, 0.62 * this.gap);
    const labels = labelsOf(message);
    return fitted(labels.find((label) => widthOf(label) <= room) ?? labels[labels.length - 1], room);
  }

  /**
   * The texts of a row: how far from its node's band each reaches, and between which heights.
   * @param {PlacedRow} row
   */
  textsOf(row) {
    if (!row.texts) {
      const labels = row.sent.map((message) => {
        const isLeft = message.to < message.from;
        const y = message.start ?? 0;
        return { node: message.from, isLeft, width: widthOf(this.labelOf(message)), top: y - 14, bottom: y - 2 };
      });
      const marks = row.marks.map(({ node, side, width, y, lines }) => {
        return { node, isLeft: side === "left", width, top: y - 10, bottom: y + 3 + LINE_STEP * (lines.length - 1) };
      });
      row.texts = [...labels, ...marks];
    }
    return row.texts;
  }
}
