// A run that changes: its rows are kept by directive. An edit cuts off what was read from there on, and reading goes on with the rows that are
// new, and then with those that stayed. What comes of it is what reading all rows of the new script gives.

import { firstAbove } from "./history.js";
import { Reader } from "./rows.js";
import { mailOf, pendingIn, skippedBy } from "./skipping.js";
import { GrowingSpans } from "./spans.js";
import { shown, spellFor } from "./text.js";

/** @typedef {import("./types.js").Row} Row */
/** @typedef {import("./types.js").Message} Message */
/** @typedef {import("./history.js").History<any>} AnyHistory */

/**
 * What of a script isn't as it was: between the first directives, `front`, and the last ones, `back`, are others, and these are the first rows of them.
 * Between the first lines and the last ones is this text. The end is only there if these rows are of all of the script.
 * @typedef {{ front: number, back: number, linesBefore: number, linesAfter: number, text: string, rows: Row[], end: Row[] }} Stretch
 */

/** Whether texts are shown by numbers now. */
const isByNumber = () => shown("\\") !== "\\";

/**
 * The lines of a text, as a source has them.
 * @param {string} text
 */
function linesOf(text) {
  const lines = text.split("\n").map((line) => line.replace(/\r+$/, ""));
  return lines[lines.length - 1] === "" ? lines.slice(0, -1) : lines;
}

/**
 * Rows by directive.
 * @param {Row[]} rows
 */
function stepsOf(rows) {
  /** @type {Row[][]} */
  const steps = [];
  for (const row of rows) {
    if (row[0] === "step") {
      steps.push([]);
    }
    steps[steps.length - 1].push(row);
  }
  return steps;
}

/** Reads rows by directive, and remembers of each message which term its receiver had when it was sent. */
class Remembering extends Reader {
  constructor() {
    super();
    /** @type {(number | undefined)[]} by the message's number */
    this.sentTerms = [];
    this.spans = new GrowingSpans();
    /** @type {Message[]} the messages that were met since the spans took over what was read */
    this.met = [];
  }

  /**
   * @param {string} name
   * @param {any[]} cells
   */
  sends(name, cells) {
    const message = super.sends(name, cells);
    this.sentTerms[message.number] = message.metTerm;
    return message;
  }

  /**
   * @param {string} name
   * @param {number} id
   * @param {any[]} cells
   * @param {Message} [message]
   */
  event(name, id, cells, message) {
    super.event(name, id, cells, message);
    if (message && message.met !== null) {
      this.met.push(message);
    }
  }

  /** @param {Row[]} rows those of a directive */
  readStep([first, ...rows]) {
    this.read(first);
    const skipped = skippedBy(this.step.head, this.mail);
    this.mail = skipped.size > 0 ? mailOf(pendingIn(this.mail).filter((message) => !skipped.has(message))) : this.mail;
    rows.forEach((row) => this.read(row));
    this.mail = skipped.size > 0 ? mailOf([...skipped, ...pendingIn(this.mail)]) : this.mail;
    this.step.moment = this.moment;
  }

  /** @param {Row[][]} steps the rows of some directives */
  readSteps(steps) {
    const { model } = this;
    const sent = model.messages.length;
    steps.forEach((rows) => this.readStep(rows));
    this.spans.goOn(model.messages.slice(sent), this.met.filter(({ number }) => number < sent));
    this.met = [];
    model.spans = this.spans;
  }
}

export class Run {
  /** @param {Row[]} rows all rows of a script */
  constructor(rows) {
    this.reader = new Remembering();
    const first = rows.findIndex(([name]) => name === "step");
    const last = rows.findIndex(([name]) => name === "warning" || name === "end");
    const end = last < 0 ? rows.length : last;
    const begin = first < 0 ? end : first;
    /** @type {Row[][]} those of the first directives */
    this.steps = stepsOf(rows.slice(begin, end));
    /** @type {Row[][]} those of the last ones, where some between aren't here yet */
    this.rest = [];
    /** How many directives there are. */
    this.of = this.steps.length;
    /** @type {Row[]} warnings, and the end */
    this.end = rows.slice(end);
    /** How many directives were read. */
    this.count = 0;
    /** How often it has changed. */
    this.version = 0;
    /** How many directives come before the first one whose warnings have become others since that was asked last. */
    this.unwarned = Infinity;
    this.name = rows.find(([name]) => name === "raftbench")?.[2] ?? "";
    rows.slice(0, begin).forEach((row) => this.reader.read(row));
  }

  get model() {
    return this.reader.model;
  }

  get isWhole() {
    return this.reader.isWhole;
  }

  /** How many directives there are whose rows aren't here. */
  get missing() {
    return this.of - this.steps.length - this.rest.length;
  }

  /**
   * Reads on. Gives how many directives are as they were when it read on last, or when it was changed since then.
   * @param {number} most how many directives are read
   */
  goOn(most) {
    const { reader, steps, count } = this;
    const until = Math.min(steps.length, Math.max(count, count + most));
    reader.readSteps(steps.slice(count, until));
    this.count = until;
    if (until === this.of && !reader.isWhole) {
      this.end.forEach((row) => reader.read(row));
      this.seeWarnings();
    }
    this.version += 1;
    const front = Math.min(count, this.unwarned);
    this.unwarned = Infinity;
    return front;
  }

  /** Looks which directives have warnings. */
  seeWarnings() {
    if (this.end.some(([name]) => name === "warning")) {
      const first = this.model.steps.findIndex(({ warnings }) => warnings.length > 0);
      this.unwarned = Math.min(this.unwarned, first < 0 ? Infinity : first);
    }
  }

  /**
   * Takes the rows of more directives, if they are those after the first ones.
   * @param {{ from: number, rows: Row[], end: Row[] }} more
   */
  add({ from, rows, end }) {
    if (from === this.steps.length) {
      this.steps = this.steps.concat(stepsOf(rows).slice(0, this.missing));
      this.end = end.length > 0 ? end : this.end;
      this.join();
    }
  }

  /** Where no rows are missing any more, the last ones follow the first ones. */
  join() {
    if (this.missing <= 0) {
      this.steps = this.steps.concat(this.rest);
      this.rest = [];
    }
  }

  /**
   * Puts a stretch in. Answers whether it could: if texts have to be shown in another way, all rows are needed.
   * @param {Stretch} stretch
   * @param {number} of how many directives there are then
   */
  change({ front, back, linesBefore, linesAfter, text, rows, end }, of) {
    const { source } = this.model;
    const more = linesOf(text);
    const lines = source.lines.slice(0, linesBefore).concat(more, source.lines.slice(source.lines.length - linesAfter));
    const was = isByNumber();
    spellFor((was ? lines : more).join("\n"), this.name);
    if (isByNumber() !== was) {
      return false;
    }
    const known = this.missing > 0 ? this.rest : this.steps;
    this.rest = known.slice(Math.max(0, known.length - back));
    const moved = lines.length - source.lines.length;
    this.rest.forEach(([step]) => (step[1] += moved));
    this.cut(Math.min(front, this.steps.length));
    source.lines = lines;
    // Rows after others that aren't here yet will come with these.
    this.steps = this.steps.slice(0, front).concat(front <= this.steps.length ? stepsOf(rows) : []);
    this.of = of;
    this.end = end;
    this.join();
    this.version += 1;
    return true;
  }

  /**
   * Forgets what was read of all directives but the first ones.
   * @param {number} front how many are left
   */
  cut(front) {
    const { reader, model } = this;
    const first = model.steps[front];
    const last = model.steps[Math.min(front, this.count) - 1];
    this.seeWarnings();
    if (this.unwarned < Infinity) {
      model.steps.forEach((step) => (step.warnings = step.warnings.length > 0 ? [] : step.warnings));
    }
    Object.assign(model, { tail: [], tailLine: 1 });
    reader.isWhole = false;
    if (first) {
      const gone = this.steps.slice(front, this.count);
      this.count = front;
      model.steps.length = front;
      model.mismatches.length = firstAbove(model.mismatches, front);
      model.source.next = first.first - 1;
      this.cutMessages(first.serial, front);
      cutNodes(model.nodes, last ? last.moment : 0, changedIn(gone));
      model.nodes = model.nodes.filter(({ numbers }) => numbers.moments.length > 0);
      Object.assign(reader, { moment: last ? last.moment : 0, serial: first.serial, hasChanged: false, step: last ?? null, terms: [] });
      model.nodes.forEach(({ id, numbers }) => (reader.terms[id] = numbers.values[numbers.values.length - 1].term));
    }
  }

  /**
   * Forgets messages that were sent later, and the arrivals of earlier ones, which are then in flight again.
   * @param {number} serial
   * @param {number} front
   */
  cutMessages(serial, front) {
    const { reader, model } = this;
    const { messages } = model;
    while (messages.length > 0 && messages[messages.length - 1].sentAt >= serial) {
      messages.length -= 1;
    }
    reader.sentTerms.length = messages.length;
    for (const message of reader.spans.cut(front, serial)) {
      Object.assign(message, { met: null, metAt: 0, fate: "waiting", metTerm: reader.sentTerms[message.number], end: undefined });
    }
    reader.mail = mailOf(reader.spans.waiting);
  }
}

/**
 * Of each node of whose log or views rows say something, which entries and which members these are.
 * @param {Row[][]} steps
 */
function changedIn(steps) {
  /** @type {Map<number, { entries: Set<number>, views: Set<number> }>} */
  const changed = new Map();
  /** @param {number} id */
  const of = (id) => {
    const found = changed.get(id) ?? { entries: new Set(), views: new Set() };
    changed.set(id, found);
    return found;
  };
  let log = of(0);
  for (const rows of steps) {
    for (const [name, id, member] of rows) {
      if (name === "log") {
        log = of(id);
      } else if (name === "entry") {
        log.entries.add(id);
      } else if (name === "view" || name === "no-view") {
        of(id).views.add(member);
      }
    }
  }
  return changed;
}

/**
 * Forgets what became of nodes after a moment.
 * @param {import("./rows.js").Node[]} nodes
 * @param {number} moment
 * @param {ReturnType<typeof changedIn>} changed which entries and views became others since then
 */
function cutNodes(nodes, moment, changed) {
  for (const { id, numbers, config, log, entries, views } of nodes) {
    [numbers, config, log].forEach((history) => cutHistory(history, moment));
    const own = changed.get(id);
    cutHistories(entries, own?.entries ?? [], moment);
    cutHistories(views, own?.views ?? [], moment);
  }
}

/**
 * @param {Map<number, AnyHistory>} histories
 * @param {Iterable<number>} keys
 * @param {number} moment
 */
function cutHistories(histories, keys, moment) {
  for (const key of keys) {
    const history = histories.get(key);
    if (history && cutHistory(history, moment) === 0) {
      histories.delete(key);
    }
  }
}

/**
 * @param {AnyHistory} history
 * @param {number} moment
 */
function cutHistory(history, moment) {
  const count = firstAbove(history.moments, moment);
  history.moments.length = history.values.length = count;
  return count;
}
