// What nodes may do after the chosen directive, and what they would lose by a restart. The server is asked when another directive is chosen.

import { Refusal } from "./talk.js";

/** @typedef {import("./live.js").Live} Live */

export class Offers {
  /** @param {Live} live */
  constructor(live) {
    this.live = live;
    /** @type {Record<string, Record<string, string>>} by node, why it can't do what */
    this.may = {};
    /** @type {Record<string, Record<string, string>>} the same as the buttons look: until it is known, as it was known last */
    this.looks = {};
    /** @type {Record<string, string>} by node, what it would lose */
    this.losses = {};
    /** Whether the server has answered. */
    this.areKnown = false;
  }

  forget() {
    Object.assign(this, { may: {}, losses: {}, areKnown: false });
  }

  /** Asks what nodes may do and then, as that takes longer, what they would lose. */
  async ask() {
    this.forget();
    const may = await this.asked("may");
    if (may) {
      this.take({ may, looks: may });
      const losses = await this.asked("losses");
      if (losses) {
        this.take({ losses, areKnown: true });
      }
    }
  }

  /** @param {Partial<Offers>} found */
  take(found) {
    Object.assign(this, found);
    this.live.keepingFocus(() => this.live.page?.state.renewButtons());
  }

  /**
   * What the server says of each node after the chosen directive, or null if another one is shown or chosen by then. What it refuses isn't known, so
   * that all may be tried.
   * @param {string} what
   * @returns {Promise<Record<string, any> | null>}
   */
  async asked(what) {
    const { state, page, talk } = this.live;
    if (!state || !page) {
      return null;
    }
    const { place } = page.chosen;
    let told = { version: state.version, nodes: {} };
    try {
      told = await talk.post(what, { branch: state.branch, place });
    } catch (fault) {
      if (!(fault instanceof Refusal)) {
        this.live.failed(fault, {}, "", "");
      }
    }
    return told.version === state.version && state === this.live.state && place === this.live.page?.chosen.place ? told.nodes : null;
  }
}
