// What happens in words, for readers who can't see the picture: the sentences that `raftbench chart` gives its picture, of some directives.

import { MARKS, messageWords, NOTES } from "./words.js";

/** @typedef {import("./types.js").Step} Step */
/** @typedef {import("./types.js").Event} Event */

// A picture has at most this many sentences: what follows them is told in their last.
const MOST_SENTENCES = 2000;
/** @type {Record<string, string>} */
const ENDS = { deliver: "delivered", drop: "dropped", "no-room": "given up" };

/** @param {Event} event */
function sentences({ name, id, cells, message, reasons }) {
  const why = (reasons ?? []).map((reason) => ` (${reason})`).join("");
  if (message) {
    const { from, to } = message;
    const words = messageWords(message);
    const sends = `node ${from} sends ${words} to node ${to}`;
    const ends = `${words} from node ${from} to node ${to} is ${ENDS[name]}${why}`;
    return ENDS[name] ? [...(name === "no-room" && !cells[0] ? [sends] : []), ends] : [sends];
  }
  if (NOTES[name]) {
    return [NOTES[name](cells)[0]];
  }
  return MARKS[name] ? [`node ${id}: ${MARKS[name](cells)[0]}${why}`] : [];
}

/**
 * The comments before a directive; lines that follow one another are one note.
 * @param {string[]} lines
 * @param {number} first
 */
export function notesOf(lines, first) {
  /** @type {string[]} */
  const found = [];
  let isInNote = false;
  lines.forEach((line, at) => {
    const text = line.trim().replace(/^#+ ?/, "");
    if (text) {
      found.push(isInNote ? text : `Line ${first + at}: note: ${text}`);
    }
    isInNote = text !== "";
  });
  return found;
}

/**
 * @param {import("./layout.js").PlacedRow} row
 */
function toldOf({ step, marks }) {
  const told = step.events.flatMap((event) => {
    const of = marks.filter((mark) => mark.of[mark.of.length - 1] === event && mark.text !== MARKS[event.name]?.(event.cells)[0]);
    return [...sentences(event), ...of.map(({ node, text }) => `node ${node}: ${text}`)];
  });
  const others = marks.filter(({ of }) => !step.events.includes(of[of.length - 1]));
  return [step.head[0], ...told, ...others.map(({ node, text }) => `node ${node}: ${text}`)];
}

/**
 * The sentences of some rows of a picture, and at the end of a script those of what is still on its way.
 * @param {import("./rows.js").Model} model
 * @param {import("./layout.js").PlacedRow[]} rows
 */
export function descriptionOf(model, rows) {
  /** @type {string[]} */
  const found = [];
  for (const row of rows) {
    const { line, lead, first, place } = row.step;
    found.push(...notesOf(lead, first), ...toldOf(row).map((told) => `Line ${line}: ${told}.`));
    if (place === model.steps.length) {
      const waiting = model.spans.waiting.map((message) => `${messageWords(message)} from node ${message.from} to node ${message.to} is on its way`);
      found.push(...waiting.map((told) => `Line ${line}: ${told}.`), ...notesOf(model.tail, model.tailLine));
    }
    if (found.length > MOST_SENTENCES) {
      return [...found.slice(0, MOST_SENTENCES), `Line ${line}: and more.`];
    }
  }
  return found;
}
