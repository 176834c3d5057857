// Plays with a script: shows what the server says of it, and asks the server for what one does.

import { Bar } from "./bar.js";
import { Beside } from "./beside.js";
import { byId } from "./dom.js";
import { follow } from "./following.js";
import { begin, editChosen } from "./forms.js";
import { afterFrame, now, writeAddressLater } from "./frames.js";
import { makeLegend } from "./legend.js";
import { LivePage, LONG } from "./livepage.js";
import { directiveOf } from "./meant.js";
import { Motion } from "./motion.js";
import { Offers } from "./offers.js";
import { tellCounts } from "./page.js";
import { countPresses } from "./presses.js";
import { Run } from "./run.js";
import { Gone, Refusal, Talk } from "./talk.js";
import { Theirs } from "./theirs.js";
import { Turns } from "./turns.js";
import { Ways } from "./ways.js";

/** @typedef {import("./types.js").Message} Message */
/** @typedef {import("./ways.js").Way} Way */
/** @typedef {import("./types.js").Row} Row */
/** @typedef {import("./run.js").Stretch} Stretch */
/** @typedef {{ number: number, directives: number, isSaved: boolean }} Branch */

/**
 * What the server says of a script beside its rows.
 * @typedef {object} About
 * @property {number} version
 * @property {number} branch
 * @property {number} home the branch that the file follows
 * @property {Branch[]} branches
 * @property {number} chosen
 * @property {string} name
 * @property {number} undo
 * @property {number} redo
 * @property {boolean} isSaved
 * @property {boolean} isTheirs whether somebody else changed the file
 * @property {boolean} maySave
 * @property {string} fault
 * @property {string[]} notes
 * @property {number} ran how many directives the last change ran
 * @property {number} of how many there are
 * @property {Record<string, string>} directives by name, the words and options
 */

/** @typedef {About & { rows?: Row[], since?: number, stretch?: Stretch }} Told all rows of a script, or what of it has changed since a version */

// So many directives after an edit show at once; the rest follows when there is time, some at a time.
const AT_ONCE = 200;
const AT_A_TIME = 500;

export class Live {
  /** @param {Talk} talk */
  constructor(talk) {
    this.talk = talk;
    /** @type {About | null} */
    this.state = null;
    /** @type {LivePage | null} */
    this.page = null;
    /** @type {LivePage | null} the page that was made, also while there is no directive to show */
    this.made = null;
    /** @type {Run | null} what the page shows, as it was read so far */
    this.run = null;
    /** @type {{ text: string, yes: string, does: () => void } | null} */
    this.question = null;
    this.hasGone = false;
    this.placed = 0;
    this.isAsking = false;
    /** Which directive was chosen when that was asked for. */
    this.askedAt = 0;
    this.turns = new Turns();
    /** The newest version that was heard of. */
    this.heard = 0;
    this.ways = new Ways("");
    this.motion = new Motion();
    this.offers = new Offers(this);
    this.beside = new Beside();
    this.theirs = new Theirs(this);
    this.bar = new Bar(this);
    countPresses();
    writeAddressLater();
    document.addEventListener("keydown", (event) => this.pressed(event));
    window.addEventListener("beforeunload", (event) => this.leaves(event));
  }

  /**
   * Has the browser ask before it leaves a page whose script isn't saved.
   * @param {Event} event
   */
  leaves(event) {
    const home = this.state?.branches.find(({ number }) => number === this.state?.home);
    if (home && !home.isSaved) {
      event.preventDefault();
    }
  }

  /** @param {KeyboardEvent} event */
  pressed(event) {
    if ((event.ctrlKey || event.metaKey) && event.key === "s") {
      event.preventDefault();
      this.save();
    }
  }

  // ---- what the server says

  /**
   * Shows a script. What is chosen stays where somebody else changed it.
   * @param {Told} told
   * @param {boolean} isOwn
   * @returns {Promise<void>}
   */
  async take(told, isOwn) {
    const { rows, since, stretch, ...state } = told;
    const isBased = since === this.state?.version && state.branch === this.state?.branch;
    if (!rows && !(isBased && this.run && (!stretch || this.run.change(stretch, state.of)))) {
      return this.take(await this.talk.post("state", { branch: state.branch }), isOwn);
    }
    this.run = rows ? new Run(rows) : this.run;
    const place = isOwn || !this.page ? state.chosen : Math.min(this.page.chosen.place, state.of);
    const isOther = this.state?.branch !== state.branch;
    this.state = state;
    await this.readUpTo(place);
    this.keepingFocus(() => this.draw(state, rows ? -1 : stretch ? stretch.front : state.of, place, isOther));
    afterFrame(() => {
      this.offers.ask();
      this.theirs.renew();
    });
  }

  /**
   * Has the rows come up to those of a directive: after an edit only some come at once.
   * @param {number} place
   */
  async readUpTo(place) {
    const { run, state } = this;
    try {
      while (run && run === this.run && state === this.state && run.missing > 0 && run.steps.length < place) {
        await this.askRows(run);
      }
    } catch (fault) {
      // Where the script has changed meanwhile, another one is shown soon.
      if (!(fault instanceof Refusal)) {
        throw fault;
      }
    }
  }

  /**
   * Asks for more rows. Where another script is shown by then, nothing is done.
   * @param {Run} run
   */
  async askRows(run) {
    const { state, talk } = this;
    const { version } = run;
    const more = await talk.post("rows", { branch: state?.branch, version: state?.version, from: run.steps.length });
    if (run === this.run && state === this.state && version === run.version) {
      run.add(more);
    }
  }

  /**
   * @param {About} state
   * @param {number} front how many directives are shown as they are already, or -1
   * @param {number} place what is chosen
   * @param {boolean} isOther whether another branch was shown before
   */
  draw(state, front, place, isOther) {
    this.motion.stop();
    this.ways = new Ways(state.directives["deliver-msgs"] ?? "");
    this.offers.forget();
    for (const id of ["panes", "keys", "search"]) {
      byId(id).hidden = state.of === 0;
    }
    byId("notice").hidden = state.of > 0;
    if (this.run && state.of > 0) {
      this.showRun(this.run, front, place);
    } else {
      this.page = null;
      begin(this, isOther);
    }
    this.bar.title(this.page?.model);
    this.bar.draw();
    this.beside.renew();
  }

  /**
   * @param {Run} run
   * @param {number} front how many directives are shown as they are already, or -1
   * @param {number} place what is chosen
   */
  showRun(run, front, place) {
    const { model } = run;
    this.placed = place;
    const position = { place, event: 0 };
    const isFresh = !this.page || front < 0;
    const shown = run.goOn(isFresh ? run.of : Math.max(front, place) + AT_ONCE - run.count);
    if (this.page && !isFresh) {
      this.page.showFrom(Math.min(front, shown), position);
    } else if (this.made) {
      this.page = this.made;
      this.page.replace(model, position);
    } else {
      makeLegend();
      this.made = this.page = new LivePage(model, this);
      this.page.choose(position);
    }
    this.readOn();
  }

  /** Reads what is left of a long run, some at a time, once what is read so far is drawn. */
  readOn() {
    const { run, page } = this;
    if (run?.isWhole) {
      // What is told at once of a short run takes long for one of thousands.
      (run.of > LONG && byId("counts").textContent ? afterFrame : now)(() => tellCounts(run.model));
    } else if (run && page) {
      const { version } = run;
      afterFrame(() => {
        if (run === this.run && version === run.version) {
          this.readSome(run, page).catch((fault) => this.lost(fault));
        }
      });
    }
  }

  /**
   * @param {Run} run
   * @param {LivePage} page
   */
  async readSome(run, page) {
    const { version } = run;
    if (run.count === run.steps.length && run.missing > 0) {
      await this.askRows(run);
    }
    if (run === this.run && page === this.page && version === run.version) {
      page.goFurther(run.goOn(AT_A_TIME));
      if (run.isWhole) {
        page.finish();
        this.bar.draw();
      }
      this.readOn();
    }
  }

  /**
   * Does what is pressed in its turn, and answers whether it was done. It is left out where another directive was chosen while what was pressed before
   * went on, as that moves what is chosen.
   * @param {() => Promise<boolean>} does
   */
  inTurn(does) {
    const hasMoved = this.isAsking && this.page !== null && this.page.chosen.place !== this.askedAt;
    return this.turns.take(hasMoved ? () => this.refuse("another directive was chosen meanwhile") : does);
  }

  /**
   * Asks for something in its turn. Answers whether it was done; what was refused is said, and may be asked for again.
   * @param {Record<string, unknown>} what
   * @param {string} [doubt] what is asked if it is refused
   * @param {string} [yes]
   */
  ask(what, doubt = "", yes = "") {
    return this.inTurn(() => this.askNow(what, doubt, yes));
  }

  /**
   * @param {Record<string, unknown>} what
   * @param {string} [doubt]
   * @param {string} [yes]
   */
  async askNow(what, doubt = "", yes = "") {
    if (!this.state) {
      return false;
    }
    const place = this.page?.chosen.place ?? 0;
    const asked = { place, ...what };
    this.isAsking = true;
    this.askedAt = place;
    this.question = null;
    try {
      const { branch, version } = this.state;
      await this.take(await this.talk.post("do", { branch, at: place, version, ...asked, has: version }), true);
      return true;
    } catch (fault) {
      this.failed(fault, asked, doubt, yes);
      return false;
    } finally {
      this.isAsking = false;
      this.hear(this.heard);
    }
  }

  /**
   * Looks again if there is a version that isn't shown, unless an answer is on its way.
   * @param {number} version
   */
  hear(version) {
    this.heard = Math.max(this.heard, version);
    if (this.state && this.heard > this.state.version && !this.isAsking && !this.hasGone) {
      this.refresh().catch((fault) => this.lost(fault));
    }
  }

  /**
   * @param {unknown} fault
   * @param {Record<string, unknown>} what
   * @param {string} doubt
   * @param {string} yes
   */
  failed(fault, what, doubt, yes) {
    if (fault instanceof Gone) {
      this.hasGone = true;
    } else if (fault instanceof Refusal) {
      const asks = fault.asks ? "insert it all the same" : doubt && yes;
      const does = () => this.ask({ ...what, version: this.state?.version, isSure: true });
      this.question = { text: this.withLeftOut(doubt && !fault.asks ? doubt : fault.message), yes: asks, does };
      this.bar.say(fault.message);
      this.refresh().catch((it) => this.lost(it));
    } else {
      throw fault;
    }
    this.bar.draw();
  }

  /** @param {unknown} fault what came of looking again, or on: once more wouldn't help */
  lost(fault) {
    if (!(fault instanceof Gone || fault instanceof Refusal)) {
      throw fault;
    }
    this.hasGone = this.hasGone || fault instanceof Gone;
    this.bar.draw();
  }

  /** Looks again, as another window or another program has changed something. */
  async refresh() {
    if (this.state) {
      const told = await this.talk.post("state", { branch: this.state.branch, has: this.state.version });
      if (told.version !== this.state.version || told.branch !== this.state.branch) {
        await this.take(told, false);
      }
    }
  }

  answer() {
    this.question = null;
    this.bar.draw();
  }

  /** What follows where another directive or event is chosen. */
  hasChosen() {
    const place = this.page ? this.page.chosen.place : 0;
    if (this.page && this.placed !== place) {
      this.placed = place;
      this.offers.ask();
      this.bar.draw();
    }
    if (this.page) {
      this.beside.follow(this.page.chosen);
    }
  }

  // ---- what one does

  /** @param {string} text a directive */
  insert(text) {
    return this.inTurn(() => this.insertNow(text));
  }

  /** @param {string} text a directive */
  async insertNow(text) {
    const isDone = await this.askNow({ do: "insert", text });
    if (isDone && this.page) {
      this.bar.say(`${text}: ${this.page.model.steps[this.page.chosen.place - 1].output.join(", ")}`);
      this.motion.start(this.page, this.page.chosen.place);
    }
    return isDone;
  }

  /**
   * @param {string} kind
   * @param {Record<string, unknown>} [more]
   */
  ofChosen(kind, more = {}) {
    return this.ask({ do: kind, ...more });
  }

  /** @param {() => Way} find finds a way among the messages that are on their way then */
  takeWay(find) {
    return this.takeAll(() => [find()]);
  }

  /** @param {() => Way[]} find */
  takeAll(find) {
    return this.inTurn(async () => {
      let isDone = true;
      for (const { text, why } of find()) {
        isDone = isDone && (await (why ? this.refuse(why) : this.insertNow(text)));
      }
      return isDone;
    });
  }

  /** @param {string} why */
  async refuse(why) {
    this.question = { text: this.withLeftOut(`That can't be done: ${why}.`), yes: "", does: () => {} };
    this.bar.draw();
    return false;
  }

  /**
   * What is said of something that isn't done. What was pressed after it was meant for another page, so it is left out.
   * @param {string} text
   */
  withLeftOut(text) {
    return this.turns.leaveOut() > 0 ? `${text.replace(/\.?$/, ".")} What was pressed after that isn't done.` : text;
  }

  /**
   * @param {string} name
   * @param {number} id
   */
  ofNode(name, id) {
    return this.inTurn(async () => {
      const why = this.offers.may[id]?.[name];
      const { page } = this;
      if (why || !page) {
        return this.refuse(`${name} ${id}: ${why}`);
      }
      return name === "propose" || name === "propose-conf-change" ? this.bar.writeOf(name, id) : this.insertNow(directiveOf(page, name, id));
    });
  }

  edit() {
    if (this.page) {
      editChosen(this, this.page);
    }
  }

  fork() {
    return this.ask({ do: "fork" });
  }

  save() {
    return this.ask({ do: "save" });
  }

  /** @param {number} number */
  show(number) {
    return this.inTurn(() => this.showNow(number));
  }

  /** @param {number} number */
  async showNow(number) {
    try {
      const told = await this.talk.post("state", { branch: number });
      if (this.beside.number === number) {
        this.beside.toggle(number);
      }
      await this.take(told, true);
      return true;
    } catch (fault) {
      this.failed(fault, {}, "", "");
      return false;
    }
  }

  /**
   * What may be written in a directive that stands after the chosen one, or in its place.
   * @param {string} text
   * @param {number} line
   * @param {number} character
   * @param {boolean} isNew
   * @returns {Promise<import("./writing.js").Offer>}
   */
  async completions(text, line, character, isNew) {
    try {
      return await this.talk.post("ask", { branch: this.state?.branch, place: this.page?.chosen.place ?? 0, text, line, character, isNew });
    } catch {
      return { items: [], hints: [] };
    }
  }

  // ---- what is so

  /** The messages that are on their way after the chosen directive. */
  pending() {
    return this.page ? this.page.pendingNow() : [];
  }

  /** @param {string} selector */
  focus(selector) {
    /** @type {HTMLElement | null} */ (document.querySelector(selector))?.focus({ preventScroll: false });
  }

  /**
   * Goes to the first button of the first of some elements or, from one of them, of the next one.
   * @param {string} selector
   */
  focusNext(selector) {
    if (this.page) {
      this.motion.finish(this.page);
    }
    const all = [...document.querySelectorAll(selector)];
    const own = document.activeElement?.closest(selector);
    const next = all[((own ? all.indexOf(own) : -1) + 1) % all.length];
    /** @type {HTMLElement | null | undefined} */ (next?.querySelector("button"))?.focus();
  }

  /**
   * Draws something again, and has the focus stay on the same button, if that is there still.
   * @param {() => void} draws
   */
  keepingFocus(draws) {
    const key = document.activeElement instanceof HTMLElement ? document.activeElement.dataset.key : undefined;
    draws();
    if (key && !document.activeElement?.matches("button, input, select, textarea")) {
      const same = /** @type {HTMLElement | null} */ (document.querySelector(`[data-key="${CSS.escape(key)}"]`));
      (same ?? byId("directives")).focus({ preventScroll: true });
    }
  }
}

async function start() {
  const talk = new Talk();
  const beside = /^#branch=(\d+)$/.exec(location.hash)?.[1];
  try {
    await talk.enter();
    if (beside) {
      await follow(talk, Number(beside));
      return;
    }
    const told = await talk.post("state", {});
    const live = new Live(talk);
    await live.take(told, true);
    talk.hear((version) => live.hear(version)).catch((fault) => live.failed(fault, {}, "", ""));
  } catch (fault) {
    byId("notice").hidden = false;
    byId("notice").textContent = fault instanceof Refusal ? fault.message : fault instanceof Gone ? "raftbench-live doesn't answer." : String(fault);
    if (!(fault instanceof Refusal || fault instanceof Gone)) {
      throw fault;
    }
  }
}

await start();
