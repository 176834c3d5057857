// What a button of a node or of a message means once its turn has come: the directive that it writes then.

import { instantAt } from "./position.js";
import { messageText } from "./words.js";

/** @typedef {import("./types.js").Message} Message */
/** @typedef {import("./live.js").Live} Live */
/** @typedef {import("./livepage.js").LivePage} LivePage */
/** @typedef {import("./ways.js").Way} Way */

/**
 * The directive of a node's button after the chosen one.
 * @param {LivePage} page
 * @param {string} name
 * @param {number} id
 */
export function directiveOf({ model, chosen }, name, id) {
  const { moment } = instantAt(model, { place: chosen.place, event: 0 });
  if (name === "compact") {
    return `compact ${id} ${model.nodes[id - 1].numbersAt(moment).applied}`;
  }
  if (name === "transfer-leadership") {
    const leaders = model.nodes.filter((it) => it.isThereAt(moment) && it.numbersAt(moment).role === "leader");
    const [leader] = leaders.sort((one, other) => other.numbersAt(moment).term - one.numbersAt(moment).term);
    return `transfer-leadership from=${leader?.id ?? id} to=${id}`;
  }
  return `${name} ${id}`;
}

/**
 * The way that takes a message, if it is on its way after the chosen directive. After an edit that left it alone it may be another object.
 * @param {Live} live
 * @param {Message | undefined} message
 * @param {boolean} isDropped
 * @returns {Way}
 */
export function wayOf(live, message, isDropped) {
  const pending = live.pending();
  const own = message && pending.find((it) => it.number === message.number && it.sentAt === message.sentAt && messageText(it) === messageText(message));
  if (!own) {
    return { text: "", takes: [], why: "the message isn't on its way any more" };
  }
  const isThere = isDropped || live.page?.model.nodes[own.to - 1] !== undefined;
  return { ...live.ways.one(own, pending, isDropped), why: isThere ? "" : `there is no node ${own.to}` };
}

/**
 * The lines of a directive: its comment, its head and its input.
 * @param {LivePage} page
 * @param {number} place
 */
export function linesOf({ model }, place) {
  const step = model.steps[place - 1];
  return step ? model.source.lines.slice(step.first - 1, step.line - 1 + step.head.length + step.input.length).join("\n") : "";
}
