// Which line of a directive's output shows which event. A level hides events, so not each event has a line; both are in one order.

import { shown } from "./text.js";

/** @typedef {import("./types.js").Event} Event */
/** @typedef {import("./types.js").Step} Step */

/** @type {Record<string, string>} */
const VERBS = { send: "  send", queue: "queue", deliver: "deliver", drop: "drop", "no-room": "no room for" };

// What follows the level in the line of an event; docs/SCRIPTS.md has the lines.
/** @type {Record<string, (cells: any[]) => string>} */
const REPORTED = {
  started: ([id]) => `${id} started at `,
  restarted: ([id, term, vote, base, last, commit]) => `${id} restarted at term=${term} vote=${vote} log=${base}..${last} commit=${commit}`,
  became: ([id, role, term]) => `${id} became ${role} at term ${term}`,
  "cannot-campaign": ([id]) => `${id} can't campaign: `,
  vote: ([id, type, granted, from, result]) => `${id} has ${type} ${granted ? "granted" : "refused"} from ${from}: ${result}`,
  ignored: ([id, type, from]) => `${id} ignored ${type} from ${from}`,
  "dropped-proposal": ([id]) => `${id} dropped a proposal`,
  conflict: ([id, index, commit]) => `${id} conflict at ${index}, commit ${commit}`,
  "appends-nothing": ([id]) => `${id} appends nothing: index limit`,
  "replaced-change": ([id, index]) => `${id} replaced change at ${index} by an empty entry: `,
  switched: ([id, config]) => `${id} switched to ${shown(config)}`,
  "refused-change": ([id, index, fault]) => `${id} refused change at ${index}: ${fault}`,
  restored: ([id, term, index]) => `${id} restored snapshot ${term}/${index}`,
  "transfer-starts": ([id, to]) => `${id} starts transfer to ${to}`,
  "transfer-ends": ([id, to]) => `${id} ends transfer to ${to}`,
  "lost-quorum": ([id]) => `${id} lost its quorum`,
};

/** @type {Record<string, (event: Event) => string>} */
const PLAIN = {
  ready: ({ id }) => `${id} ready`,
  "nothing-ready": ({ id }) => `${id} has nothing ready`,
  hard: ({ cells }) => `  hard term=${cells[0]} vote=${cells[1]} commit=${cells[2]}`,
  snapshot: ({ cells }) => `  snapshot ${cells[0]}/${cells[1]}`,
  save: ({ cells }) => `  save ${cells[1]}/${cells[0]} `,
  apply: ({ cells }) => `  apply ${cells[1]}/${cells[0]} `,
  "no-messages": () => "no messages",
  stopped: ({ cells }) => `stopped after ${cells[0]} rounds`,
  error: ({ cells }) => `error: ${shown(cells[0])}`,
};

/**
 * Whether a line shows an event.
 * @param {string} line
 * @param {Event} event
 */
function shows(line, event) {
  const { name, message, cells } = event;
  if (message) {
    return `${line} `.startsWith(`${VERBS[name]} ${message.from}->${message.to} ${message.type} `);
  }
  if (REPORTED[name]) {
    return /^[A-Z]+ /.test(line) && line.slice(line.indexOf(" ") + 1).startsWith(REPORTED[name](cells));
  }
  return Boolean(PLAIN[name]) && line.startsWith(PLAIN[name](event));
}

/**
 * By line of the output, from 0 on, the place of its event among all events of the step.
 * @param {Step} step
 * @returns {Map<number, number>}
 */
export function eventsOfLines(step) {
  /** @type {Map<number, number>} */
  const found = new Map();
  let line = 0;
  step.events.forEach((event, at) => {
    if (line < step.output.length && shows(step.output[line], event)) {
      found.set(line, at);
      line += 1;
    }
  });
  return found;
}
