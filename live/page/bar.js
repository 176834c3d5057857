// The bar above the panes: branches, what is done with the chosen directive, sides of a cut, saving, and what there is to say.

import { become, keepText } from "./become.js";
import { byId, element, withAttributes } from "./dom.js";
import { button } from "./livepage.js";
import { counted } from "./text.js";
import { Writing } from "./writing.js";

/** @typedef {import("./live.js").Live} Live */

export class Bar {
  /** @param {Live} live */
  constructor(live) {
    this.live = live;
    this.room = byId("live");
    this.said = byId("live-said");
    /** @type {Set<number>} the nodes of one side */
    this.side = new Set();
    this.field = /** @type {HTMLInputElement} */ (withAttributes(element("input", ""), { id: "live-write", placeholder: "write a directive: i", "aria-label": "Directive after the chosen one", size: 26 }));
    this.writing = new Writing(this.field, (line, character, text) => live.completions(text, line, character, true), {
      take: (text) => this.taken(text),
      leave: () => live.focus("#directives"),
    });
    this.lines = Array.from({ length: 5 }, () => element("div", "live-row"));
    this.field.addEventListener("blur", () => this.writing.close());
    this.written = element("span", "live-writing", this.field, this.writing.list, this.writing.hint);
    const put = button("insert", "insert", "", "insert the directive that is written (Enter)", () => this.field.value.trim() && this.taken(this.field.value));
    this.lines[1].append(this.written, put);
    this.buttons = element("span", "live-buttons");
    this.lines[1].append(this.buttons);
    this.room.replaceChildren(...this.lines);
    keepText(this.said);
  }

  write() {
    this.field.focus();
    this.field.select();
  }

  /**
   * Begins a directive that needs a word of the user's.
   * @param {string} name
   * @param {number} id
   */
  writeOf(name, id) {
    const bodies = (this.live.page?.model.steps ?? []).flatMap(({ head }) => /^propose \d+ x(\d+)/.exec(head[0])?.[1] ?? []);
    const word = name === "propose" ? `x${Math.max(0, ...bodies.map(Number)) + 1}` : "v4";
    this.field.value = `${name} ${id} ${word}`;
    this.field.focus();
    this.field.setSelectionRange(this.field.value.length - word.length, this.field.value.length);
    return Promise.resolve(false);
  }

  /** @param {string} written */
  async taken(written) {
    // The words of a change of members are the input, in a line of their own.
    const text = written.replace(/^(propose-conf-change \d+(?: \w+=\w+)*) ((?:[vlru]\d+ ?)+)$/, "$1\n$2");
    return this.takenAs(text);
  }

  /** @param {string} text */
  async takenAs(text) {
    const { value } = this.field;
    // Another directive may be written before this one is done.
    this.field.value = "";
    if (!(await this.live.insert(text)) && !this.field.value) {
      this.field.value = value;
    }
  }

  draw() {
    const { live } = this;
    this.room.hidden = live.state === null;
    if (live.state) {
      become(this.lines[0], [...this.tabs(), ...this.file()]);
      become(this.buttons, this.ofChosen());
      become(this.lines[2], this.sides());
      become(this.lines[3], this.alerts());
      become(this.lines[4], live.theirs.rows());
      this.lines.forEach((line, at) => (line.hidden = at !== 1 && line.childNodes.length === 0));
    }
  }

  tabs() {
    const { live } = this;
    const { branches, branch, home } = /** @type {import("./live.js").About} */ (live.state);
    const tabs = branches.map(({ number, directives, isSaved }) => {
      const name = `${number === home ? "file" : `branch ${number}`} · ${directives}${isSaved ? "" : " ●"}`;
      const tab = button(name, `tab ${number}`, "", `${name}${isSaved ? "" : ", not saved"}`, () => live.show(number));
      return withAttributes(tab, { "aria-pressed": String(number === branch) });
    });
    const others = branches.filter(({ number }) => number !== branch);
    const beside = others.map(({ number }) => button(live.beside.number === number ? "alone" : `beside ${number === home ? "file" : number}`, `beside ${number}`, "", "", () => live.beside.toggle(number)));
    const close = () => live.ask({ do: "close" }, `Branch ${live.state?.branch} isn't saved.`, "close it all the same");
    return [
      ...tabs, button("what if?", "fork", live.page ? "" : "there is no directive", "go on from here in another branch (w)", () => live.fork()), ...beside,
      ...(branch === home ? [] : [button("close", "close", "", `close branch ${branch}`, close)]),
    ];
  }

  file() {
    const { live } = this;
    const { isSaved, maySave, undo, redo, ran, of, isTheirs } = /** @type {import("./live.js").About} */ (live.state);
    const unproved = maySave ? "" : "the program isn't proved: RAFTBENCH_UNPROVED=1 allows it";
    const cost = element("span", "live-cost", of > 0 ? `ran ${ran} of ${of}` : "");
    return [
      element("span", "live-gap"), cost,
      button("undo", "undo", undo > 0 ? "" : "there is nothing to undo", "undo (u)", () => live.ask({ do: "undo" })),
      button("redo", "redo", redo > 0 ? "" : "there is nothing to redo", "redo (r)", () => live.ask({ do: "redo" })),
      button(isSaved ? "saved" : "save", "save", isSaved && !isTheirs ? "there is nothing to save" : unproved, "save (Control s)", () => live.save()),
    ];
  }

  ofChosen() {
    const { live } = this;
    const { page } = live;
    const none = page ? "" : "there is no directive";
    const { place = 0 } = page?.chosen ?? {};
    const count = page?.model.steps.length ?? 0;
    const isWrong = Boolean(page && page.model.steps[place - 1]?.pieces);
    const wrong = page?.model.mismatches.length ?? 0;
    return [
      button("edit", "edit", none, "edit the directive (e)", () => live.edit()),
      button("remove", "remove", none, "remove the directive (x)", () => live.ofChosen("remove")),
      button("duplicate", "duplicate", none, "duplicate the directive (D)", () => live.ofChosen("duplicate")),
      button("↑", "up", place > 1 ? "" : "it is the first", "move the directive up ([)", () => live.ofChosen("move", { by: -1 })),
      button("↓", "down", place < count ? "" : "it is the last", "move the directive down (])", () => live.ofChosen("move", { by: 1 })),
      button("accept", "accept", isWrong ? "" : "the output is the expected one", "accept the output (a)", () => live.ofChosen("accept")),
      button(`accept all (${wrong})`, "accept-all", wrong ? "" : "all outputs are the expected ones", "accept all outputs (A)", () => live.ask({ do: "accept", all: true })),
    ];
  }

  /** The nodes that are there, and those of the side that is chosen. */
  chosenSide() {
    const { page } = this.live;
    const ids = page ? page.model.nodes.filter(({ id }) => page.isThere(id)).map(({ id }) => id) : [];
    return { ids, side: ids.filter((id) => this.side.has(id)) };
  }

  /** How what is on its way between the two sides is dropped. */
  cuts() {
    const { live } = this;
    const { ids, side } = this.chosenSide();
    const isPart = side.length > 0 && side.length < ids.length;
    return isPart ? live.ways.cut(side, live.pending()) : [{ text: "", takes: [], why: "choose the nodes of one side, and not all" }];
  }

  sides() {
    const { live } = this;
    if (!live.page) {
      return [];
    }
    const { ids, side } = this.chosenSide();
    const cut = this.cuts();
    const crossing = cut.reduce((sum, { takes, why }) => sum + (why ? 0 : takes.length), 0);
    const none = "choose the nodes of a side";
    const stabilize = () => {
      const now = this.chosenSide().side.join(" ");
      return now ? live.insert(`stabilize ${now}`) : live.refuse(none);
    };
    return [
      button("stabilize", "stabilize", "", "stabilize all (s)", () => live.insert("stabilize")),
      element("span", "", "or a side:"), ...ids.map((id) => this.box(id)),
      button(`stabilize ${side.join(" ")}`.trim(), "stabilize-side", side.length ? "" : none, "", stabilize),
      button(`cut it off (${crossing})`, "cut", cut[0].why, "drop what is on its way between the sides", () => live.takeAll(() => this.cuts())),
    ];
  }

  /** @param {number} id */
  box(id) {
    const box = /** @type {HTMLInputElement} */ (withAttributes(element("input", ""), { type: "checkbox", "aria-label": `node ${id} on this side`, "data-key": `side ${id}` }));
    box.checked = this.side.has(id);
    box.addEventListener("change", () => {
      this.side[box.checked ? "add" : "delete"](id);
      this.live.keepingFocus(() => this.draw());
    });
    return element("label", "", box, String(id));
  }

  /** What is to be said: what somebody else did, what failed, and what is asked. */
  alerts() {
    const { live } = this;
    const { isTheirs, fault, notes } = /** @type {import("./live.js").About} */ (live.state);
    /** @type {(text: string, ...more: Node[]) => HTMLElement} */
    const alert = (text, ...more) => withAttributes(element("div", "live-alert", `! ${text} `, ...more), { role: "alert" });
    const { question } = live;
    const theirs = fault ? "The file has another text, which isn't shown here." : "The file was changed by somebody else.";
    const load = button("load theirs", "load", fault, "", () => (live.state?.fault ? live.refuse(live.state.fault) : live.ask({ do: "load" })));
    const over = button("save mine over it", "over", "", "", () => live.ask({ do: "save", isSure: true }));
    return [
      ...(isTheirs ? [alert(theirs, load, over)] : []),
      ...(fault ? [alert(fault)] : []),
      ...notes.map((note) => alert(note)),
      ...(question ? [alert(question.text, ...(question.yes ? [button(question.yes, "yes", "", "", () => live.question?.does()), button("no", "no", "", "", () => live.answer())] : []))] : []),
      ...(live.hasGone ? [alert("raftbench-live has ended. What isn't saved is only here: copy it before you close this page.", this.copied())] : []),
    ];
  }

  /** The script as it is here, to be copied. */
  copied() {
    const text = this.live.page?.model.source.lines.join("\n") ?? "";
    const field = /** @type {HTMLTextAreaElement} */ (withAttributes(element("textarea", "live-copy"), { readonly: "", "aria-label": "The script" }));
    field.value = new TextDecoder().decode(Uint8Array.from(text, (byte) => byte.charCodeAt(0)));
    field.addEventListener("focus", () => field.select());
    return field;
  }

  /**
   * Says something to readers, also those who can't see it, until the next change.
   * @param {string} text
   */
  say(text) {
    this.said.textContent = text;
  }

  /** @param {import("./rows.js").Model | undefined} model */
  title(model) {
    const { name, isSaved } = /** @type {import("./live.js").About} */ (this.live.state);
    const title = `${isSaved ? "" : "● "}${name}: raftbench live`;
    if (document.title !== title) {
      document.title = title;
    }
    byId("name").textContent = name;
    if (!model) {
      byId("counts").textContent = counted(0, "directive", "directives");
    }
  }
}
