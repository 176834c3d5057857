// The messages of a run that goes on and is cut: those of some steps are found as in one that was read at once, and nothing is made again for it.

import { Spans } from "./mail.js";

/** @typedef {import("./types.js").Message} Message */

/**
 * Puts a message into a list by its number.
 * @param {Message[]} messages
 * @param {Message} message
 */
function insert(messages, message) {
  let at = messages.length;
  while (at > 0 && messages[at - 1].number > message.number) {
    at -= 1;
  }
  messages.splice(at, 0, message);
}

/**
 * @param {Spans} spans
 * @param {number} block
 * @param {(message: Message) => boolean} isKept
 */
function keep(spans, block, isKept) {
  const { blocks } = spans;
  const kept = (blocks[block] ?? []).filter(isKept);
  if (kept.length > 0) {
    blocks[block] = kept;
  } else {
    delete blocks[block];
  }
}

export class GrowingSpans extends Spans {
  constructor() {
    super([]);
  }

  /**
   * Takes over what was read last.
   * @param {Message[]} sent the messages that were sent, in their order
   * @param {Message[]} met those that were on their way before, and aren't any more
   */
  goOn(sent, met) {
    const gone = new Set(met);
    this.waiting = this.waiting.filter((message) => !gone.has(message));
    for (const message of met) {
      this.reach(message, this.block(message.sent.place) + 1);
    }
    for (const message of sent) {
      this.reach(message, this.block(message.sent.place));
    }
    this.waiting.push(...sent.filter((message) => message.met === null));
  }

  /**
   * Puts a message into the blocks from one on, up to the one in which it was met.
   * @param {Message} message
   * @param {number} first
   */
  reach(message, first) {
    const last = this.block((message.met ?? message.sent).place);
    for (let block = first; block <= last; block += 1) {
      insert((this.blocks[block] ||= []), message);
    }
  }

  /**
   * Forgets messages that were sent later than with these directives, and that others were met later. Gives those.
   * @param {number} front how many directives are left
   * @param {number} serial that of the first event that is forgotten
   */
  cut(front, serial) {
    const last = this.block(front);
    const again = (this.blocks[last] ?? []).filter(({ sentAt, met }) => sentAt < serial && met !== null && met.place > front);
    this.blocks.length = Math.min(this.blocks.length, last + 1);
    keep(this, last, ({ sentAt }) => sentAt < serial);
    for (const message of again) {
      for (let block = this.block(message.sent.place) + 1; block <= last; block += 1) {
        keep(this, block, (other) => other !== message);
      }
    }
    while (this.blocks.length > 0 && !this.blocks[this.blocks.length - 1]) {
      this.blocks.length -= 1;
    }
    this.waiting = this.waiting.filter(({ sentAt }) => sentAt < serial);
    again.forEach((message) => insert(this.waiting, message));
    return again;
  }
}
