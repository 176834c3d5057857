// What is written over the page: the first directive of an empty script, and a directive that is edited where it stands.

import { byId, element, withAttributes } from "./dom.js";
import { linesOf } from "./meant.js";
import { Writing } from "./writing.js";

/** @typedef {import("./live.js").Live} Live */

const MOST_NODES = 32;

/**
 * Asks how many nodes an empty cluster has.
 * @param {Live} live
 * @param {boolean} takesFocus
 */
export function begin(live, takesFocus) {
  const count = /** @type {HTMLInputElement} */ (withAttributes(element("input", ""), { type: "number", min: 1, max: MOST_NODES, value: 3, id: "live-count", "aria-label": "How many nodes" }));
  /** @type {[string, HTMLInputElement][]} */
  const options = ["prevote", "checkquorum"].map((name) => [name, /** @type {HTMLInputElement} */ (withAttributes(element("input", ""), { type: "checkbox", "aria-label": name }))]);
  const form = element(
    "form", "live-begin", "The script has no directives. How many nodes? ", count, " ",
    ...options.flatMap(([name, box]) => [element("label", "", box, ` ${name}`), " "]), withAttributes(element("button", "", "begin"), { type: "submit" }),
  );
  form.addEventListener("submit", (event) => {
    event.preventDefault();
    const nodes = Math.min(Math.max(1, Math.round(Number(count.value)) || 1), MOST_NODES);
    const ids = Array.from({ length: nodes }, (_, at) => at + 1).join(",");
    const chosen = options.filter(([, box]) => box.checked).map(([name]) => ` ${name}=true`).join("");
    // What is pressed twice begins once.
    live.inTurn(async () => !live.page && live.insertNow(`add-nodes ${nodes} voters=(${ids}) index=10${chosen}`));
  });
  byId("notice").replaceChildren(form);
  if (takesFocus) {
    count.focus();
  }
}

/**
 * The text of bytes, a letter for each: as UTF-8 or, where it isn't that, as it is, which goes back the same way.
 * @param {string} bytes
 */
function textOf(bytes) {
  try {
    return { text: new TextDecoder("utf-8", { fatal: true }).decode(Uint8Array.from(bytes, (byte) => byte.charCodeAt(0))), isLatin: false };
  } catch {
    return { text: bytes, isLatin: true };
  }
}

/**
 * Edits the chosen directive where it stands: its comment, its head and its input.
 * @param {Live} live
 * @param {import("./livepage.js").LivePage} page
 */
export function editChosen(live, page) {
  const { script, chosen: { place } } = page;
  const lines = linesOf(page, place);
  const { text, isLatin } = textOf(lines.replace(/^(?:[ \t]*\n)+/, ""));
  const field = /** @type {HTMLTextAreaElement} */ (withAttributes(element("textarea", ""), { "aria-label": "Directive: Enter takes it, Shift Enter begins a line, Escape leaves it" }));
  field.value = text;
  field.rows = Math.min(12, text.split("\n").length + 1);
  // What was written for this directive isn't put in the place of another.
  const isThere = () => live.page && linesOf(live.page, place) === lines;
  const writing = new Writing(field, (line, character, now) => live.completions(now, line, character, false), {
    take: async (now) => {
      if (await live.inTurn(() => (isThere() ? live.askNow({ do: "replace", place, text: now, isLatin }) : live.refuse("the directive has changed meanwhile")))) {
        close();
      }
    },
    leave: () => close(),
  });
  const box = element("div", "live-edit", field, writing.list, writing.hint);
  box.style.top = `${script.topOf(2 * place - 2)}px`;
  box.addEventListener("click", (event) => event.stopPropagation());
  box.addEventListener("dblclick", (event) => event.stopPropagation());
  const close = () => {
    box.remove();
    byId("directives").focus({ preventScroll: true });
  };
  script.pane.append(box);
  field.focus();
  field.setSelectionRange(text.length, text.length);
}
