// Finding: a text in all that a page can show, also in what isn't drawn; and filters, by node, by type of message and by term.

import { byId, element, withAttributes } from "./dom.js";
import { eventsOfLines } from "./lines.js";
import { placesOf } from "./position.js";
import { paragraphs } from "./wrap.js";
import { eventText, labelsOf, MARKS, subjectOf } from "./words.js";

/** @typedef {import("./types.js").Position} Position */
/** @typedef {import("./types.js").Step} Step */
/** @typedef {import("./types.js").Event} Event */
/** @typedef {{ start: number, end: number, look: string }} Range */
/** @typedef {{ text: string, of: Event[] }} Mark a text of the picture, and the events that it is of */

/** What readers look for, and which events they want to see. */
export class Search {
  /**
   * @param {import("./rows.js").Model} model
   * @param {() => void} refresh
   */
  constructor(model, refresh) {
    this.model = model;
    this.needle = "";
    this.filters = { node: 0, type: "", term: 0 };
    /** @type {(step: Step) => Mark[]} */
    this.marksOf = () => [];
    this.field = /** @type {HTMLInputElement} */ (byId("find"));
    this.told = byId("found");
    this.field.addEventListener("input", () => {
      this.needle = this.field.value.toLowerCase();
      this.told.textContent = "";
      refresh();
    });
    this.choices = ["node", "type", "term"].map((name) => /** @type {HTMLSelectElement} */ (byId(`filter-${name}`)));
    for (const field of this.choices) {
      field.addEventListener("change", () => {
        this.readFilters();
        refresh();
      });
    }
    this.replace(model);
  }

  /**
   * Looks through another run. A filter stays, unless the run has nothing of it.
   * @param {import("./rows.js").Model} model
   */
  replace(model) {
    this.model = model;
    this.told.textContent = "";
    const terms = new Set(model.nodes.flatMap((node) => node.numbers.values.map(({ term }) => term)).filter(Boolean));
    const types = new Set(model.messages.map(({ type }) => type));
    const values = [model.nodes.map(({ id }) => String(id)), [...types].sort(), [...terms].sort((one, other) => one - other).map(String)];
    this.choices.forEach((field, at) => offerChoices(field, values[at]));
    this.readFilters();
  }

  readFilters() {
    const [node, type, term] = this.choices.map(({ value }) => value);
    this.filters = { node: Number(node), type, term: Number(term) };
  }

  /** Has the reader write a text, in place of the last one. */
  ask() {
    this.field.focus();
    this.field.select();
  }

  isFiltered() {
    const { node, type, term } = this.filters;
    return node > 0 || type !== "" || term > 0;
  }

  /** Tests of an event and of a text, for what is drawn. */
  tests() {
    const { needle } = this;
    const isFiltered = this.isFiltered();
    return {
      /** @param {Event} event */
      isKept: (event) => !isFiltered || this.isKept(event),
      /** @param {string} text */
      isFound: (text) => needle !== "" && text.toLowerCase().includes(needle),
    };
  }

  /**
   * Whether the filters leave something of a directive.
   * @param {Step} step
   */
  leaves(step) {
    return !this.isFiltered() || placesOf(step).some((at) => this.isKept(step.events[at]));
  }

  /** @param {Event} event */
  isKept(event) {
    const { node, type, term } = this.filters;
    const subject = subjectOf(event);
    return (!node || subject.nodes.includes(node)) && (!type || subject.type === type) && (!term || subject.term === term);
  }

  /**
   * Where a text has what is looked for.
   * @param {string} text
   * @returns {Range[]}
   */
  rangesIn(text) {
    /** @type {Range[]} */
    const found = [];
    const whole = text.toLowerCase();
    for (let at = this.needle ? whole.indexOf(this.needle) : -1; at >= 0; at = whole.indexOf(this.needle, at + this.needle.length)) {
      found.push({ start: at, end: at + this.needle.length, look: "found" });
    }
    return found;
  }

  /**
   * The events of a directive that are found, in order; 0 is the directive itself: its comment, head, input or output.
   * @param {Step} step
   */
  foundIn(step) {
    const { isKept, isFound } = this.tests();
    const places = placesOf(step);
    const lines = this.needle ? eventsOfLines(step) : new Map();
    const kept = places.flatMap((at, before) => (isKept(step.events[at]) ? [{ at, number: before + 1 }] : []));
    if (!this.needle) {
      return kept.map(({ number }) => number);
    }
    const textsOf = new Map(kept.map(({ at }) => [at, textsOfEvent(step.events[at])]));
    /** @type {string[]} */
    const others = [...paragraphs(step.lead), ...step.head, ...step.input, ...step.warnings];
    others.push(...(step.place === this.model.steps.length ? paragraphs(this.model.tail) : []));
    others.push(...(step.pieces ?? []).flatMap((piece) => (piece.kind === "expected" ? [piece.text] : [])));
    for (const { text, of } of this.marksOf(step)) {
      (textsOf.get(step.events.indexOf(of[0])) ?? others).push(text);
    }
    step.output.forEach((line, at) => (textsOf.get(lines.get(at)) ?? others).push(line));
    const found = kept.filter(({ at }) => textsOf.get(at)?.some(isFound)).map(({ number }) => number);
    return !this.isFiltered() && others.some(isFound) ? [0, ...found] : found;
  }

  /**
   * Finds the next position, or the one before; after the last one comes the first.
   * @param {Position} position
   * @param {number} direction
   * @returns {Position}
   */
  next(position, direction) {
    if (!this.needle && !this.isFiltered()) {
      return position;
    }
    const { steps } = this.model;
    for (let count = 0; count <= steps.length; count += 1) {
      const at = (((position.place - 1 + direction * count) % steps.length) + steps.length) % steps.length;
      const all = this.foundIn(steps[at]);
      const events = this.model.hasEvents() ? all : all.length > 0 ? [0] : [];
      const left = count > 0 ? events : events.filter((event) => direction * (event - position.event) > 0);
      if (left.length > 0) {
        const found = { place: at + 1, event: direction > 0 ? left[0] : left[left.length - 1] };
        const isSame = found.place === position.place && found.event === position.event;
        this.told.textContent = isSame ? "no other" : "";
        return found;
      }
    }
    this.told.textContent = "not found";
    return position;
  }
}

/** @param {Event} event */
function textsOfEvent(event) {
  const mark = MARKS[event.name] ? [MARKS[event.name](event.cells)[0]] : [];
  const labels = event.message ? labelsOf(event.message) : [];
  return [eventText(event), ...mark, ...labels, ...(event.reasons ?? []), ...(event.hints ?? [])];
}

/**
 * Offers these values below the first choice, which is no filter. What is chosen stays, if it is among them.
 * @param {HTMLSelectElement} field
 * @param {string[]} values
 */
function offerChoices(field, values) {
  const chosen = field.value;
  const none = field.options[0];
  field.replaceChildren(none, ...values.map((value) => withAttributes(element("option", "", value.replace(/^Msg/, "")), { value })));
  field.value = values.includes(chosen) ? chosen : none.value;
}
