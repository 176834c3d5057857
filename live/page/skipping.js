// Which messages a directive skips. Rows don't tell messages apart that say the same, so the earliest of them counts as taken; but one that is skipped
// stays on its way.

import { Mail } from "./mail.js";

/** @typedef {import("./types.js").Message} Message */

/**
 * The values of an option of a head, if it has the option.
 * @param {string} head
 * @param {string} name
 */
function valuesOf(head, name) {
  const found = new RegExp(`[ \\t]${name}=(\\([^)]*\\)|[^ \\t]*)`).exec(head);
  return found && found[1].split(/[(), \t]+/).filter(Boolean);
}

/**
 * The messages that a directive skips: for each node the first ones of its types and its sender.
 * @param {string[]} head
 * @param {Mail} mail
 * @returns {Set<Message>}
 */
export function skippedBy(head, mail) {
  const words = head.map((line) => line.replace(/\\[ \t]*$/, " ")).join("");
  if (!words.includes("skip=")) {
    return new Set();
  }
  const [types, senders, [most]] = [valuesOf(words, "type"), valuesOf(words, "from")?.map(Number), valuesOf(words, "skip") ?? []];
  /** @type {Map<number, number>} by receiver */
  const counts = new Map();
  return new Set(pendingIn(mail).filter(({ from, to, type }) => {
    const count = counts.get(to) ?? 0;
    const isChosen = (!types || types.includes(type)) && (!senders || senders.includes(from));
    counts.set(to, count + Number(isChosen));
    return isChosen && count < Number(most);
  }));
}

/**
 * The messages that are on their way, in the order in which they were sent.
 * @param {Mail} mail
 */
export function pendingIn(mail) {
  const all = [...mail.queues.values()].flatMap(({ first, messages }) => messages.slice(first));
  return all.sort((one, other) => one.number - other.number);
}

/**
 * A mail with these messages.
 * @param {Message[]} messages
 */
export function mailOf(messages) {
  const mail = new Mail();
  [...messages].sort((one, other) => one.number - other.number).forEach((message) => mail.push(message));
  return mail;
}
