// From rows to what the page shows. docs/FORMATS.md says what each row is; this is the one place that reads them.

import { History } from "./history.js";
import { Mail, Spans } from "./mail.js";
import { Source } from "./source.js";
import { shown, spellFor } from "./text.js";

/** @typedef {import("./types.js").Row} Row */
/** @typedef {import("./types.js").Step} Step */
/** @typedef {import("./types.js").Message} Message */

const DIRECTIVES = 1;
const EVENTS = 2;

/** A node and all that it ever was. */
export class Node {
  /** @param {number} id */
  constructor(id) {
    this.id = id;
    /** @type {History<import("./types.js").Numbers>} */
    this.numbers = new History();
    /** @type {History<string>} */
    this.config = new History();
    /** @type {History<import("./types.js").Log>} */
    this.log = new History();
    /** @type {Map<number, History<import("./types.js").Entry>>} by index */
    this.entries = new Map();
    /** @type {Map<number, History<import("./types.js").View | null>>} by member */
    this.views = new Map();
  }

  /**
   * Whether the node had started by this moment.
   * @param {number} moment
   */
  isThereAt(moment) {
    return this.numbers.moments[0] <= moment;
  }

  /**
   * @param {number} moment
   * @returns {import("./types.js").Numbers}
   */
  numbersAt(moment) {
    return /** @type {import("./types.js").Numbers} */ (this.numbers.at(moment));
  }

  /**
   * @param {number} moment
   * @returns {import("./types.js").Log}
   */
  logAt(moment) {
    return /** @type {import("./types.js").Log} */ (this.log.at(moment));
  }

  /**
   * @param {number} index
   * @param {number} moment
   * @returns {import("./types.js").Entry}
   */
  entryAt(index, moment) {
    return /** @type {import("./types.js").Entry} */ (this.entries.get(index)?.at(moment));
  }
}

/**
 * The history at a key, made where there is none yet.
 * @template T
 * @param {Map<number, History<T>>} histories
 * @param {number} key
 */
function historyAt(histories, key) {
  let history = histories.get(key);
  if (!history) {
    history = new History();
    histories.set(key, history);
  }
  return history;
}

/** What the rows say of a script: the page's model. */
export class Model {
  constructor() {
    this.format = DIRECTIVES;
    this.name = "";
    this.source = new Source("");
    /** @type {Step[]} */
    this.steps = [];
    /** @type {Message[]} */
    this.messages = [];
    /** @type {Node[]} */
    this.nodes = [];
    /** @type {number[]} */
    this.mismatches = [];
    /** @type {string[]} */
    this.tail = [];
    this.tailLine = 1;
    this.spans = new Spans([]);
  }

  /** Whether the rows say what changed after each ready and each delivery. */
  hasEvents() {
    return this.format === EVENTS;
  }
}

export class Reader {
  constructor() {
    this.model = new Model();
    this.isWhole = false;
    this.mail = new Mail();
    /** @type {number[]} by id, each node's term so far */
    this.terms = [];
    /** @type {Step} */
    this.step = /** @type {any} */ (null);
    this.readyNode = 0;
    this.logNode = new Node(0);
    this.sentByReady = 0;
    this.moment = 0;
    this.serial = 0;
    // Whether rows of changes came after the last event.
    this.hasChanged = false;
  }

  /** @param {Row} row */
  read(row) {
    const name = row[0];
    const cells = row.slice(1);
    const read = READERS[name];
    if (read) {
      read(this, cells, name);
    } else {
      this.event(name, cells[0], cells);
    }
    if (name === "became") {
      this.terms[cells[0]] = cells[2];
    }
  }

  /** @param {number} id */
  node(id) {
    const { nodes } = this.model;
    this.hasChanged = true;
    if (!nodes[id - 1]) {
      nodes[id - 1] = new Node(id);
    }
    if (!this.step.changed.includes(id)) {
      this.step.changed.push(id);
    }
    return nodes[id - 1];
  }

  /**
   * @param {string} name
   * @param {number} id
   * @param {any[]} cells
   * @param {Message} [message]
   */
  event(name, id, cells, message) {
    if (name === "ready" || name === "deliver" || this.hasChanged) {
      this.hasChanged = false;
      this.moment += 1;
      this.step.groups.push({ start: this.step.events.length, moment: this.moment });
    }
    this.step.events.push({ name, id, cells, message });
    this.serial += 1;
  }

  /**
   * @param {string} name
   * @param {any[]} cells
   */
  sends(name, cells) {
    const [from, to, type, term, ...said] = cells;
    const number = this.model.messages.length;
    /** @type {Message} */
    const message = { number, from, to, type, term, said, sent: this.step, sentAt: this.serial, met: null, metAt: 0, fate: "waiting", metTerm: this.terms[to] };
    this.model.messages.push(message);
    this.event(name, from, [], message);
    return message;
  }

  /**
   * @param {string} name
   * @param {any[]} cells
   */
  meets(name, cells) {
    const [from, to, type, term, ...said] = cells;
    const message = this.mail.take({ from, to, type, term, said });
    message.met = this.step;
    message.metAt = this.serial;
    message.metTerm = this.terms[message.to];
    message.fate = name === "deliver" ? "delivered" : "dropped";
    this.event(name, message.to, [], message);
  }

  /**
   * Reads of a message that found no room. One that a ready sent has an arrow already; one that was queued gets an arrow that ends at once.
   * @param {any[]} cells
   */
  givesUp(cells) {
    const isSent = this.sentByReady > 0;
    const message = isSent ? this.mail.takeBack({ to: cells[1], type: cells[2] }) : this.sends("no-room", cells);
    this.sentByReady -= isSent ? 1 : 0;
    message.met = this.step;
    message.metAt = isSent ? this.serial : message.sentAt;
    message.fate = "given up";
    if (isSent) {
      this.event("no-room", message.from, [1], message);
    }
  }

  last() {
    return this.step.events[this.step.events.length - 1];
  }
}

/** @type {(reader: Reader, cells: any[], name: string) => void} */
const ofReady = (reader, cells, name) => reader.event(name, reader.readyNode, cells);

/** @type {(reader: Reader, cells: any[], name: string) => void} */
const meeting = (reader, cells, name) => reader.meets(name, cells);

/** @type {Record<string, (reader: Reader, cells: any[], name: string) => void>} */
const READERS = {
  raftbench({ model }, [format, name]) {
    if (format !== DIRECTIVES && format !== EVENTS) {
      throw new Error("the rows are of another format");
    }
    model.format = format;
    model.name = name;
  },
  text({ model }, [bytes]) {
    spellFor(bytes, model.name);
    model.name = shown(model.name);
    model.source = new Source(bytes);
  },
  step(reader, [line]) {
    const { steps, source } = reader.model;
    const before = reader.moment;
    reader.moment += 1;
    reader.hasChanged = false;
    reader.step = {
      place: steps.length + 1, line, ...source.block(line), output: [], pieces: null, events: [], changed: [], stays: new Map(), warnings: [],
      groups: [{ start: 0, moment: reader.moment }], serial: reader.serial, before, moment: reader.moment,
    };
    steps.push(reader.step);
    reader.readyNode = 0;
    reader.sentByReady = 0;
  },
  output({ step }, [text]) {
    step.output.push(shown(text));
  },
  mismatch({ step, model }) {
    step.pieces = [];
    model.mismatches.push(step.place);
  },
  same({ step }, [count]) {
    step.pieces?.push({ kind: "same", count });
  },
  expected({ step }, [text]) {
    step.pieces?.push({ kind: "expected", text: shown(text) });
  },
  actual({ step }, [count]) {
    step.pieces?.push({ kind: "actual", count });
  },
  warning({ model }, [line, text]) {
    const step = model.steps.filter((it) => it.line <= line).at(-1);
    step?.warnings.push(`line ${line}: ${shown(text)}`);
  },
  hint(reader, [text]) {
    (reader.last().hints ||= []).push(shown(text));
  },
  reason(reader, [text]) {
    (reader.last().reasons ||= []).push(shown(text));
  },
  ready(reader, [id]) {
    reader.readyNode = id;
    reader.sentByReady = 0;
    reader.event("ready", id, []);
  },
  hard: ofReady,
  snapshot: ofReady,
  save: ofReady,
  apply: ofReady,
  send(reader, cells, name) {
    reader.mail.push(reader.sends(name, cells));
    reader.sentByReady += 1;
  },
  queue(reader, cells, name) {
    reader.mail.push(reader.sends(name, cells));
  },
  deliver: meeting,
  drop: meeting,
  "no-room"(reader, cells) {
    reader.givesUp(cells);
  },
  "no-messages"(reader, cells, name) {
    reader.event(name, 0, cells);
  },
  stopped(reader, cells, name) {
    reader.event(name, 0, cells);
  },
  error(reader, cells, name) {
    reader.event(name, 0, cells);
  },
  node(reader, [id, ...numbers]) {
    const [role, term, vote, lead, commit, applied, durable, length, end] = numbers;
    reader.terms[id] = term;
    reader.node(id).numbers.set(reader.moment, { role, term, vote, lead, commit, applied, durable, length, end });
  },
  config(reader, [id, text]) {
    reader.node(id).config.set(reader.moment, text);
  },
  log(reader, [id, baseTerm, base, stays]) {
    const { step, moment } = reader;
    reader.logNode = reader.node(id);
    reader.logNode.log.set(moment, { baseTerm, base, last: stays });
    step.stays.set(id, Math.max(Math.min(step.stays.get(id) ?? stays, stays), base));
  },
  entry({ logNode, moment }, [index, term, body]) {
    historyAt(logNode.entries, index).set(moment, { term, body });
    logNode.logAt(moment).last = index;
  },
  view(reader, [id, member, ...cells]) {
    const [state, match, next, inFlight, isWaiting, pending, isActive] = cells;
    historyAt(reader.node(id).views, member).set(reader.moment, { state, match, next, inFlight, isWaiting, pending, isActive });
  },
  "no-view"(reader, [id, member]) {
    historyAt(reader.node(id).views, member).set(reader.moment, null);
  },
  end(reader) {
    const { model } = reader;
    model.tailLine = model.source.next + 1;
    model.tail = model.source.rest();
    reader.isWhole = true;
  },
};

/**
 * Reads the rows of a page.
 * @param {Row[]} rows
 */
export function readRows(rows) {
  const reader = new Reader();
  for (const row of rows) {
    reader.read(row);
    if (reader.step) {
      reader.step.moment = reader.moment;
    }
  }
  if (!reader.isWhole) {
    throw new Error("the rows have no end");
  }
  reader.model.spans = new Spans(reader.model.messages);
  return reader.model;
}
