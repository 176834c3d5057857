// Has the parts of a page go on from a directive: what they made of those before it stays.

import { LINE, BLOCK_EDGE } from "./script.js";

/** @typedef {import("./layout.js").Layout} Layout */

/**
 * Places the directives of a layout anew from one on. Answers whether it could: where nodes have come or gone, columns move, and all are
 * placed anew.
 * @param {Layout} layout
 * @param {number} front how many directives stay where they are
 */
export function placeFrom(layout, front) {
  const { model, rows, bands } = layout;
  if (bands.length !== model.nodes.length || rows.length < front) {
    return false;
  }
  const height = rows[front]?.top ?? layout.height;
  rows.length = layout.tops.length = front;
  Object.assign(layout, { version: {}, height, commits: [], bases: [], lasts: [] });
  bands.forEach((band) => {
    band.tops = band.tops.filter((top) => top < height);
    band.roles.length = band.tops.length;
  });
  // Labels may have become others.
  rows.forEach((row) => (row.texts = undefined));
  const moment = model.steps[front - 1]?.moment ?? 0;
  for (const node of model.nodes.filter((it) => it.isThereAt(moment))) {
    layout.commits[node.id] = node.numbersAt(moment).commit;
    layout.bases[node.id] = node.logAt(moment).base;
    layout.lasts[node.id] = node.logAt(moment).last;
  }
  model.steps.slice(front).forEach((step) => layout.addRow(step));
  layout.tops.push(layout.height);
  return true;
}

/**
 * Finds where each block of a script begins, from a directive on.
 * @param {import("./script.js").Script} script
 * @param {number} front
 */
export function measureFrom(script, front) {
  const { tops, model } = script;
  tops.length = 2 * front + 1;
  /** @param {import("./script.js").ScriptRow[]} rows */
  const add = ({ length }) => tops.push(tops[tops.length - 1] + (length ? length * LINE + BLOCK_EDGE : 0));
  for (const step of model.steps.slice(front)) {
    add(script.rowsOfComment(step.lead));
    add(script.rowsOf(step));
  }
  add(script.rowsOfComment(model.tail));
  script.fit();
}
