// Messages on their way.

/** @typedef {import("./types.js").Message} Message */
/** @typedef {{ to: number, type: string }} Key */

export class Mail {
  constructor() {
    /** @type {Map<string, { first: number, messages: Message[] }>} */
    this.queues = new Map();
  }

  /** @param {Key} key */
  queue({ to, type }) {
    const key = to + " " + type;
    let queue = this.queues.get(key);
    if (!queue) {
      queue = { first: 0, messages: [] };
      this.queues.set(key, queue);
    }
    return queue;
  }

  /** @param {Message} message */
  push(message) {
    this.queue(message).messages.push(message);
  }

  /**
   * Takes the earliest message to this node and of this type that says the same: another may be delivered or dropped before it.
   * @param {Key & { from: number, term: number, said: any[] }} met
   */
  take({ to, type, from, term, said }) {
    const queue = this.queue({ to, type });
    let at = queue.first;
    while (at < queue.messages.length - 1 && !isSame(queue.messages[at], from, term, said)) {
      at += 1;
    }
    const message = queue.messages[at];
    queue.messages.copyWithin(queue.first + 1, queue.first, at);
    queue.first += 1;
    return message;
  }

  /**
   * Takes the message that was pushed last: there was no room for it.
   * @param {Key} key
   */
  takeBack(key) {
    return /** @type {Message} */ (this.queue(key).messages.pop());
  }
}

/**
 * @param {Message} message
 * @param {number} from
 * @param {number} term
 * @param {any[]} said
 */
function isSame(message, from, term, said) {
  return message.from === from && message.term === term && message.said.every((cell, at) => cell === said[at]);
}

const STEPS_A_BLOCK = 32;

/** Finds the messages of some steps without going over all of them. */
export class Spans {
  /** @param {Message[]} messages */
  constructor(messages) {
    /** @type {Message[][]} */
    this.blocks = [];
    this.waiting = messages.filter((message) => message.met === null);
    for (const message of messages) {
      const last = this.block((message.met || message.sent).place);
      for (let block = this.block(message.sent.place); block <= last; block += 1) {
        (this.blocks[block] ||= []).push(message);
      }
    }
  }

  /** @param {number} place */
  block(place) {
    return Math.floor(place / STEPS_A_BLOCK);
  }

  /**
   * Messages that were on their way at these steps or near them. A message that is never met counts where it was sent.
   * @param {number} first
   * @param {number} last
   */
  between(first, last) {
    return new Set(this.blocks.slice(this.block(first), this.block(last) + 1).flat());
  }

  /**
   * Messages that are on their way after an event of a step, in the order in which they were sent.
   * @param {number} place
   * @param {number} serial
   */
  pendingAfter(place, serial) {
    const near = this.blocks[this.block(place)] || [];
    const met = near.filter((message) => message.met !== null && message.sentAt <= serial && message.metAt > serial);
    const waiting = this.waiting.filter((message) => message.sentAt <= serial);
    return [...met, ...waiting].sort((one, other) => one.number - other.number);
  }
}
