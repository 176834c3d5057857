// A field in which a directive is written, with the completion and the hints of the language server.

import { element, withAttributes } from "./dom.js";

/** @typedef {{ label: string, text: string, from: number, says: string }} Item */
/** @typedef {{ items: Item[], hints: string[] }} Offer */

const MOST_ITEMS = 8;
let made = 0;

export class Writing {
  /**
   * @param {HTMLInputElement | HTMLTextAreaElement} field
   * @param {(line: number, character: number, text: string) => Promise<Offer>} ask
   * @param {{ take: (text: string) => void, leave: () => void }} ends
   */
  constructor(field, ask, ends) {
    made += 1;
    this.field = field;
    this.ask = ask;
    this.ends = ends;
    /** @type {Item[]} */
    this.items = [];
    this.at = -1;
    this.asked = 0;
    this.list = withAttributes(element("ul", "live-offers"), { role: "listbox", id: `live-offers-${made}`, "aria-label": "What may be written here" });
    this.hint = withAttributes(element("div", "live-hint"), { role: "status" });
    withAttributes(field, { autocomplete: "off", spellcheck: "false", role: "combobox", "aria-controls": this.list.id, "aria-expanded": "false", "aria-autocomplete": "list" });
    field.addEventListener("input", () => this.offer());
    field.addEventListener("keydown", (event) => this.pressed(/** @type {KeyboardEvent} */ (event)));
    this.list.addEventListener("pointerdown", (event) => {
      event.preventDefault();
      const row = /** @type {Element} */ (event.target).closest("li");
      if (row) {
        this.put(Number(row.dataset.at));
      }
    });
    this.show({ items: [], hints: [] });
  }

  /** Asks what may be written where the cursor is. */
  async offer() {
    this.asked += 1;
    const own = this.asked;
    const { value } = this.field;
    const before = value.slice(0, this.field.selectionStart ?? value.length).split("\n");
    const found = await this.ask(before.length - 1, before[before.length - 1].length, value);
    if (own === this.asked) {
      this.show(found);
    }
  }

  /** @param {Offer} offer */
  show({ items, hints }) {
    const chosen = this.items[this.at]?.label;
    this.items = items.slice(0, MOST_ITEMS);
    this.list.hidden = this.items.length === 0;
    this.list.replaceChildren(...this.items.map(({ label, says }, at) => {
      const row = element("li", "", element("b", "", label), " ", element("span", "", says.split("\n")[0]));
      row.dataset.at = String(at);
      return withAttributes(row, { role: "option", id: `${this.list.id}-${at}`, "aria-selected": "false" });
    }));
    this.hint.textContent = hints[0] ?? "";
    this.field.setAttribute("aria-expanded", String(this.items.length > 0));
    // What was chosen before this answer came stays chosen.
    this.choose(this.items.findIndex(({ label }) => label === chosen));
  }

  /** @param {number} at the item that Enter takes, or -1 */
  choose(at) {
    this.at = at;
    [...this.list.children].forEach((row, own) => row.setAttribute("aria-selected", String(own === at)));
    if (at < 0) {
      this.field.removeAttribute("aria-activedescendant");
    } else {
      this.field.setAttribute("aria-activedescendant", `${this.list.id}-${at}`);
    }
  }

  /** @param {number} by */
  step(by) {
    const count = this.items.length;
    this.choose(this.at < 0 ? (by > 0 ? 0 : count - 1) : (this.at + by + count) % count);
  }

  /** @param {number} at the item that is put in place of what is there of it */
  put(at) {
    const { text, from } = this.items[at];
    const { value } = this.field;
    const cursor = this.field.selectionStart ?? value.length;
    const line = value.lastIndexOf("\n", cursor - 1) + 1;
    this.field.value = value.slice(0, line + from) + text + value.slice(cursor);
    const end = line + from + text.length;
    this.field.setSelectionRange(end, end);
    // What was offered stands no more: Enter takes the directive now, also before the next answer.
    this.show({ items: [], hints: [] });
    this.offer();
  }

  close() {
    this.asked += 1;
    this.show({ items: [], hints: [] });
  }

  /** @param {KeyboardEvent} event */
  pressed(event) {
    event.stopPropagation();
    const { key } = event;
    const isOffered = this.items.length > 0;
    if (isOffered && (key === "ArrowDown" || key === "ArrowUp")) {
      this.step(key === "ArrowDown" ? 1 : -1);
    } else if (isOffered && this.at >= 0 && (key === "Enter" || key === "Tab")) {
      this.put(this.at);
    } else if (key === "Enter" && !event.shiftKey && this.field.value.trim()) {
      const { value } = this.field;
      this.close();
      this.ends.take(value);
    } else if (key === "Escape") {
      this.close();
      this.ends.leave();
    } else {
      return;
    }
    event.preventDefault();
  }
}
