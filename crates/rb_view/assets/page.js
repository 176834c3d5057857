// The page: goes through a run by keys, buttons, clicks and the address.

import { byId } from "./dom.js";
import { Keys } from "./keys.js";
import { Logs } from "./logs.js";
import { Picture } from "./picture.js";
import { Player } from "./play.js";
import { after, before, eventsAt, instantAt, placesOf } from "./position.js";
import { printWhole } from "./print.js";
import { Script } from "./script.js";
import { Search } from "./search.js";
import { State } from "./state.js";
import { counted } from "./text.js";
import { eventText, MARKS } from "./words.js";

/** @typedef {import("./types.js").Position} Position */
/** @typedef {import("./rows.js").Model} Model */

/**
 * Writes into the address what is chosen. A frame that was given its document as a text has no address, and some browsers refuse a page that
 * writes one at each key that is held down: the page goes on without.
 * @param {string} place
 */
function writeAddress(place) {
  try {
    history.replaceState(null, "", place);
  } catch (error) {
    if (!(error instanceof DOMException)) {
      throw error;
    }
  }
}

export class Page {
  /** @param {Model} model */
  constructor(model) {
    this.model = model;
    /** @type {Position} */
    this.chosen = { place: 0, event: 0 };
    /** @param {Position} position */
    const take = (position) => this.take(position);
    this.search = new Search(model, () => this.refresh());
    const picture = new Picture(model, this.search, (place) => take({ place, event: 0 }));
    const script = new Script(model, this.search, take);
    this.script = script;
    /** @type {import("./types.js").Part[]} */
    this.parts = [picture, script, new Logs(model), this.makeState(take)];
    this.player = new Player(() => this.goOn());
    this.keys = new Keys(this.commands());
    this.keepFocus();
    printWhole(() => this.shown(), () => picture.placeAgain());
    window.addEventListener("hashchange", () => this.chooseByAddress());
  }

  /** What is printed: the run, the directives that the filters leave, and the chosen one. */
  shown() {
    const { model, search } = this;
    return { model, steps: model.steps.filter((step) => search.leaves(step)), chosen: this.chosen.place };
  }

  /** @param {(position: Position) => void} take */
  makeState(take) {
    return new State(this.model, this.search, take);
  }

  /** @returns {import("./keys.js").Command[]} */
  commands() {
    return [
      { keys: ["ArrowDown", "j"], button: "next-step", says: "the next directive", does: () => this.step(1) },
      { keys: ["ArrowUp", "k"], button: "last-step", says: "the directive before", does: () => this.step(-1) },
      { keys: ["ArrowRight", "l"], button: "next-event", says: "the next event", does: () => this.take(after(this.model, this.chosen)) },
      { keys: ["ArrowLeft", "h"], button: "last-event", says: "the event before", does: () => this.take(before(this.model, this.chosen)) },
      { keys: [" "], button: "play", says: "play, and stop", does: () => this.player.toggle() },
      { keys: ["+", "="], says: "play faster", does: () => this.player.change(1) },
      { keys: ["-"], says: "play slower", does: () => this.player.change(-1) },
      { keys: ["PageDown"], says: "ten directives on, or a page of a long output", does: () => this.script.scrollWithin(1) || this.step(10) },
      { keys: ["PageUp"], says: "ten directives back, or a page of a long output", does: () => this.script.scrollWithin(-1) || this.step(-10) },
      { keys: ["Home"], says: "the first directive", does: () => this.take({ place: 1, event: 0 }) },
      { keys: ["End"], says: "the last directive", does: () => this.take({ place: this.model.steps.length, event: 0 }) },
      { keys: ["m"], button: "next-mismatch", says: "the next mismatch", does: () => this.takePlace(this.nextMismatch()) },
      { keys: ["M"], says: "the mismatch before", does: () => this.takePlace(this.lastMismatch()) },
      { keys: ["o"], says: "unfold the equal lines of a mismatch, or fold them", does: () => this.script.toggleFolds() },
      { keys: ["/"], says: "find a text: Enter finds it, and n and N go on", does: () => this.search.ask() },
      { keys: ["n"], button: "next-found", says: "the next place that was found, or that the filters leave", does: () => this.find(1) },
      { keys: ["N"], button: "last-found", says: "the place before", does: () => this.find(-1) },
      { keys: ["?"], button: "show-help", says: "this list", does: () => this.keys.showHelp() },
    ];
  }

  /** Keeps keys for steps after a click into the picture, and after Enter, which finds, or Escape in the field of the search. */
  keepFocus() {
    const directives = byId("directives");
    byId("drawing").addEventListener("click", () => directives.focus({ preventScroll: true }));
    byId("script").addEventListener("click", () => directives.focus({ preventScroll: true }));
    byId("find").addEventListener("keydown", ({ key, shiftKey }) => {
      if (key === "Enter") {
        this.find(shiftKey ? -1 : 1);
      }
      if (key === "Enter" || key === "Escape") {
        directives.focus({ preventScroll: true });
      }
    });
    byId("search").addEventListener("submit", (event) => event.preventDefault());
  }

  // ---- what is chosen

  /**
   * Chooses what a reader asks for; what is being played stops.
   * @param {Position} position
   */
  take(position) {
    if (this.player.isPlaying()) {
      this.player.stop();
    }
    this.choose(position);
  }

  /** @param {number} place */
  takePlace(place) {
    this.take({ place, event: 0 });
  }

  /** @param {number} count */
  step(count) {
    this.takePlace(this.chosen.place + count);
  }

  goOn() {
    const { place, event } = this.chosen;
    this.choose(after(this.model, this.chosen));
    return this.chosen.place !== place || this.chosen.event !== event;
  }

  /** @param {number} direction */
  find(direction) {
    this.take(this.search.next(this.chosen, direction));
  }

  /**
   * The position that is nearest to this one.
   * @param {Position} position
   * @returns {Position}
   */
  within({ place, event }) {
    const chosen = Math.min(Math.max(1, place), this.model.steps.length);
    return { place: chosen, event: Math.min(Math.max(0, event), eventsAt(this.model, chosen)) };
  }

  /** @param {Position} wanted */
  choose(wanted) {
    const position = this.within(wanted);
    if (position.place !== this.chosen.place || position.event !== this.chosen.event) {
      this.chosen = position;
      this.refresh();
      this.tell();
    }
  }

  /**
   * Shows another run in place of this one. Filters, and what is looked for, stay.
   * @param {Model} model a run with at least one directive
   * @param {Position} position what is chosen then
   */
  replace(model, position) {
    this.player.stop();
    this.model = model;
    this.search.replace(model);
    this.chosen = this.within(position);
    this.parts.forEach((part) => part.replace(model, this.chosen));
    this.tell();
  }

  refresh() {
    this.parts.forEach((part) => part.choose(this.chosen));
  }

  tell() {
    const { place, event } = this.chosen;
    const { step, event: happened } = instantAt(this.model, this.chosen);
    const events = placesOf(step).map((at) => step.events[at]);
    byId("where").textContent = whereText(this.model, step.line, this.chosen, events.length);
    byId("said").textContent = happened ? eventText(happened) : this.summary(step.head.join(" "), events);
    writeAddress(event > 0 ? `#${place}.${event}` : `#${place}`);
  }

  /**
   * A directive in a sentence: its head, how much happened, and the first mark.
   * @param {string} head
   * @param {import("./types.js").Event[]} events
   */
  summary(head, events) {
    const first = events.find(({ name }) => MARKS[name]);
    const mark = first ? `: node ${first.id} ${MARKS[first.name](first.cells)[0]}` : "";
    const isWrong = this.model.steps[this.chosen.place - 1].pieces !== null;
    return `${head}, ${counted(events.length, "event", "events")}${mark}${isWrong ? ", mismatch" : ""}`;
  }

  // ---- places

  /** Takes `#5`, `#5.3` (the third event) and `#L20` (the directive of line 20). */
  chooseByAddress() {
    const found = /^#(L?)(\d+)(?:\.(\d+))?$/.exec(location.hash);
    const number = Number(found?.[2]);
    const place = found?.[1] ? this.placeOfLine(number) : number;
    this.choose(found ? { place, event: Number(found[3] ?? 0) } : { place: this.chosen.place || 1, event: this.chosen.event });
  }

  /** @param {number} line */
  placeOfLine(line) {
    return this.model.steps.filter(({ first }) => first <= line).length;
  }

  nextMismatch() {
    const { mismatches } = this.model;
    return mismatches.find((place) => place > this.chosen.place) ?? mismatches[0] ?? this.chosen.place;
  }

  lastMismatch() {
    const { mismatches } = this.model;
    const earlier = mismatches.filter((place) => place < this.chosen.place);
    return earlier[earlier.length - 1] ?? mismatches[mismatches.length - 1] ?? this.chosen.place;
  }
}

/**
 * What stands in the header of a position.
 * @param {Model} model
 * @param {number} line
 * @param {Position} position
 * @param {number} events how many the directive has
 */
function whereText(model, line, { place, event }, events) {
  return `step ${place} of ${model.steps.length}, line ${line}${event > 0 ? `, event ${event} of ${events}` : ""}`;
}

/**
 * Keeps as much room for the position as the longest one takes, so that the header stays as it is from step to step.
 * @param {Model} model
 */
function reserveWhere(model) {
  const where = byId("where");
  const told = where.textContent;
  const place = model.steps.length;
  const events = model.hasEvents() ? model.steps.reduce((most, { events: all }) => Math.max(most, all.length), 0) : 0;
  where.style.minWidth = "";
  where.textContent = whereText(model, model.steps[place - 1]?.line ?? 0, { place, event: events }, events);
  where.style.minWidth = `${Math.ceil(where.getBoundingClientRect().width)}px`;
  where.textContent = told;
}

/** @param {Model} model */
export function tellCounts(model) {
  const counts = byId("counts");
  const wrong = counted(model.mismatches.length, "mismatch", "mismatches");
  counts.textContent = `${counted(model.steps.length, "directive", "directives")}, ${wrong}, ${counted(model.nodes.length, "node", "nodes")}`;
  counts.classList.toggle("bad", model.mismatches.length > 0);
  reserveWhere(model);
  byId("next-mismatch").hidden = model.mismatches.length === 0;
}
