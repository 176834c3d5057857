// The script itself, cut into the parts of its directives. docs/SCRIPTS.md has the rules; this script is known to keep them.

import { shown } from "./text.js";

export class Source {
  /** @param {string} text */
  constructor(text) {
    this.lines = text.split("\n").map((line) => line.replace(/\r+$/, ""));
    if (this.lines[this.lines.length - 1] === "") {
      this.lines.pop();
    }
    // How many lines were read.
    this.next = 0;
  }

  /**
   * Reads the block whose head begins on this line, from 1 on. `first` is the line of its first comment.
   * @param {number} line
   */
  block(line) {
    const first = this.next + 1;
    const lead = this.lines.slice(this.next, line - 1);
    let at = line;
    while (/\\[ \t]*$/.test(this.lines[at - 1]) && at < this.lines.length) {
      at += 1;
    }
    const head = this.lines.slice(line - 1, at);
    const from = at;
    while (at < this.lines.length && !/^[ \t]*----[ \t]*$/.test(this.lines[at])) {
      at += 1;
    }
    this.next = this.afterExpectation(at + 1);
    return { first, lead: lead.map(shown), head: head.map(shown), input: this.lines.slice(from, at).map(shown) };
  }

  /**
   * Finds the end of the expectation that begins here, and of one blank line after it.
   * @param {number} start
   */
  afterExpectation(start) {
    /** @param {number} at */
    const isRule = (at) => this.lines[at] === "----";
    /** @param {number} at */
    const isBlank = (at) => /^[ \t]*$/.test(this.lines[at]);
    let at = start;
    if (isRule(at)) {
      at += 1;
      while (at < this.lines.length && !(isRule(at) && isRule(at + 1))) {
        at += 1;
      }
      at += 2;
    } else {
      while (at < this.lines.length && !isBlank(at)) {
        at += 1;
      }
    }
    return at < this.lines.length && isBlank(at) ? at + 1 : at;
  }

  /** The lines after the last directive. */
  rest() {
    return this.lines.slice(this.next).map(shown);
  }
}
