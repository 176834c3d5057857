// Positions in a script, and what was so at each of them.

/** @typedef {import("./types.js").Position} Position */
/** @typedef {import("./types.js").Step} Step */
/** @typedef {import("./types.js").Event} Event */
/** @typedef {import("./rows.js").Model} Model */

/**
 * The events of a step that can be chosen, as places among all of its events. That a node has something ready is none.
 * @param {Step} step
 */
export function placesOf(step) {
  return step.events.flatMap(({ name }, at) => (name === "ready" ? [] : [at]));
}

/**
 * How many events of a directive can be chosen.
 * @param {Model} model
 * @param {number} place
 */
export function eventsAt(model, place) {
  const step = model.steps[place - 1];
  return model.hasEvents() && step ? step.events.reduce((count, { name }) => count + (name === "ready" ? 0 : 1), 0) : 0;
}

/**
 * The next event, in the next directive where this one has no more.
 * @param {Model} model
 * @param {Position} position
 * @returns {Position}
 */
export function after(model, { place, event }) {
  if (event < eventsAt(model, place)) {
    return { place, event: event + 1 };
  }
  return place < model.steps.length ? { place: place + 1, event: Math.min(1, eventsAt(model, place + 1)) } : { place, event };
}

/**
 * The event before, in the directive before where this one has none.
 * @param {Model} model
 * @param {Position} position
 * @returns {Position}
 */
export function before(model, { place, event }) {
  if (event > 1) {
    return { place, event: event - 1 };
  }
  return place > 1 ? { place: place - 1, event: eventsAt(model, place - 1) } : { place, event: Math.min(event, 1) };
}

/**
 * What was so after an event: a moment, and of the node that has a ready under way which entries are durable and applied by then.
 * @typedef {object} Instant
 * @property {Step} step
 * @property {number} at the event's place among all events of the step, or -1 for the whole step
 * @property {Event | null} event
 * @property {number} moment
 * @property {number} serial
 * @property {number} underway the node's id, or 0
 * @property {number | null} durable
 * @property {number | null} applied
 */

/**
 * @param {Model} model
 * @param {Position} position
 * @returns {Instant}
 */
export function instantAt(model, { place, event }) {
  const step = model.steps[place - 1];
  const at = event > 0 ? placesOf(step)[event - 1] : -1;
  if (at === undefined || at < 0) {
    const serial = step.serial + step.events.length - 1;
    return { step, at: -1, event: null, moment: step.moment, serial, underway: 0, durable: null, applied: null };
  }
  const chosen = step.events[at];
  /** @type {Instant} */
  const instant = { step, at, event: chosen, moment: 0, serial: step.serial + at, underway: 0, durable: null, applied: null };
  const own = step.groups.filter((group) => group.start <= at).length - 1;
  const { start, moment } = step.groups[own];
  const events = step.events.slice(start, step.groups[own + 1]?.start);
  if (at - start === events.length - 1) {
    return { ...instant, moment };
  }
  if (events[0].name !== "ready") {
    return { ...instant, moment: moment - 1 };
  }
  // Entries of a ready become durable and applied one by one; all else changes with its last event.
  for (const { name, cells } of events.slice(0, at - start + 1)) {
    instant.durable = name === "save" ? cells[0] : instant.durable;
    instant.applied = name === "apply" ? cells[0] : instant.applied;
  }
  return { ...instant, moment: moment - 1, underway: events[0].id };
}

/**
 * What was so before a position: after the event before it, or before the whole directive.
 * @param {Model} model
 * @param {Position} position
 * @returns {number} a moment
 */
export function momentBefore(model, { place, event }) {
  return event > 1 ? instantAt(model, { place, event: event - 1 }).moment : model.steps[place - 1].before;
}

/**
 * A node's numbers at an instant.
 * @param {import("./rows.js").Node} node
 * @param {Instant} instant
 */
export function numbersOf(node, { moment, underway, durable, applied }) {
  const numbers = node.numbersAt(moment);
  return node.id === underway ? { ...numbers, durable: durable ?? numbers.durable, applied: applied ?? numbers.applied } : numbers;
}

/**
 * Whether something of a node changed between two moments.
 * @param {import("./rows.js").Node} node
 * @param {number} from
 * @param {number} until
 */
export function isChanged(node, from, until) {
  const all = [node.numbers, node.config, node.log, ...node.views.values()];
  return all.some((history) => history.changedWithin(from, until));
}
