// The lines below a directive: its output, or how the output differs from what was expected, as `raftbench check` shows it (docs/USING.md).

import { eventsOfLines } from "./lines.js";

/** @typedef {import("./types.js").Step} Step */
/** @typedef {import("./types.js").Piece} Piece */

/**
 * A line: its look, its text, the place of its event among all events of the step or -1, and which part of its text differs.
 * @typedef {{ look: string, text: string, event: number, range: [number, number] | null }} Line
 */

// Of more than six equal lines in a row the first three and the last three are shown.
const SHOWN = 3;

/**
 * The pieces of a comparison; an output that is as expected is one.
 * @param {Step} step
 * @returns {Piece[]}
 */
const piecesOf = ({ pieces, output }) => pieces ?? [{ kind: "same", count: output.length }];

/**
 * A line of a comparison, with a `$` where its end or its beginning could be taken for something else.
 * @param {string} sign
 * @param {string} text
 */
const signed = (sign, text) => sign + text + (text === "" || /[ \t$]$/.test(text) || text.startsWith(".. ") ? "$" : "");

/** @type {(one: string, other: string) => number} */
function commonLength(one, other) {
  let length = 0;
  while (length < Math.min(one.length, other.length) && one[length] === other[length]) {
    length += 1;
  }
  return length;
}

/**
 * Marks what differs in two lines: all but a common beginning and a common end, where they have one.
 * @param {Line} one
 * @param {Line} other
 */
function markPair(one, other) {
  const [a, b] = [one.text.slice(2), other.text.slice(2)];
  const front = commonLength(a, b);
  const back = commonLength([...a.slice(front)].reverse().join(""), [...b.slice(front)].reverse().join(""));
  if (front + back > 0) {
    one.range = [2 + front, one.text.length - back];
    other.range = [2 + front, other.text.length - back];
  }
}

/**
 * Where as many lines were expected in one place as were printed there, each is compared with its own.
 * @param {Line[]} lines
 */
function markPairs(lines) {
  let at = 0;
  while (at < lines.length) {
    const start = at;
    while (lines[at]?.look === "removed") {
      at += 1;
    }
    const removed = lines.slice(start, at);
    const middle = at;
    while (lines[at]?.look === "added") {
      at += 1;
    }
    const added = lines.slice(middle, at);
    if (removed.length === added.length) {
      removed.forEach((line, pair) => markPair(line, added[pair]));
    }
    at += at === start ? 1 : 0;
  }
}

/**
 * @param {Step} step
 * @returns {{ line: Line, output: number }[]} each with the place of its line of the output, or -1
 */
function compared(step) {
  const isWrong = step.pieces !== null;
  let at = 0;
  return piecesOf(step).flatMap((piece) => {
    if (piece.kind === "expected") {
      return [{ line: { look: "removed", text: signed("- ", piece.text), event: -1, range: null }, output: -1 }];
    }
    const lines = step.output.slice(at, at + piece.count).map((text, more) => {
      const isAdded = piece.kind === "actual";
      const whole = isWrong ? signed(isAdded ? "+ " : "  ", text) : text;
      return { line: { look: isAdded ? "added" : "output", text: whole, event: -1, range: /** @type {null} */ (null) }, output: at + more };
    });
    at += piece.count;
    return lines;
  });
}

/**
 * What is said of the events of a step, by the line of the output that it is shown below.
 * @param {Step} step
 * @param {Map<number, number>} events by line of the output
 */
function remarksOf(step, events) {
  /** @type {Map<number, Line[]>} */
  const remarks = new Map();
  const lines = [...events].sort((one, other) => one[1] - other[1]);
  let below = 0;
  step.events.forEach((event, at) => {
    while (below < lines.length && lines[below][1] <= at) {
      below += 1;
    }
    const texts = [...(event.reasons ?? []).map((text) => `^   ${text}`), ...(event.hints ?? [])];
    if (texts.length > 0) {
      const line = below > 0 ? lines[below - 1][0] : step.output.length - 1;
      const more = texts.map((text) => ({ look: "reason", text, event: at, range: /** @type {null} */ (null) }));
      remarks.set(line, [...(remarks.get(line) ?? []), ...more]);
    }
  });
  return remarks;
}

/**
 * Folds equal lines in a row, but for one of this event.
 * @param {Line[]} lines
 * @param {number} event
 */
function withFolds(lines, event) {
  /** @type {Line[]} */
  const found = [];
  let at = 0;
  while (at < lines.length) {
    const start = at;
    while (lines[at]?.look === "output") {
      at += 1;
    }
    const run = lines.slice(start, at);
    const hidden = run.slice(SHOWN, run.length - SHOWN);
    if (run.length > 2 * SHOWN && !hidden.some((line) => event >= 0 && line.event === event)) {
      const fold = { look: "fold", text: `  .. ${hidden.length} line${hidden.length === 1 ? "" : "s"}`, event: -1, range: /** @type {null} */ (null) };
      found.push(...run.slice(0, SHOWN), fold, ...run.slice(run.length - SHOWN));
    } else {
      found.push(...run);
    }
    found.push(...lines.slice(at, at + 1));
    at += 1;
  }
  return found;
}

/**
 * The lines below a directive that is chosen.
 * @param {Step} step
 * @param {boolean} isFolded whether equal lines of a mismatch are folded
 * @param {number} event the place of the chosen event among all events of the step, or -1
 */
export function linesBelow(step, isFolded, event) {
  const events = eventsOfLines(step);
  const lines = compared(step);
  lines.forEach(({ line, output }) => {
    line.event = events.get(output) ?? -1;
  });
  markPairs(lines.map(({ line }) => line));
  const remarks = remarksOf(step, events);
  const all = lines.flatMap(({ line, output }) => [line, ...(remarks.get(output) ?? [])]);
  return isFolded && step.pieces ? withFolds(all, event) : all;
}
