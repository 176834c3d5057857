// The page of a branch that stands beside another one: it follows what is chosen there, and is renewed with it.

import { byId } from "./dom.js";
import { makeLegend } from "./legend.js";
import { Page } from "./page.js";
import { Run } from "./run.js";

/** @typedef {import("./live.js").Told} Told */

class Follower {
  /**
   * @param {import("./talk.js").Talk} talk
   * @param {number} branch
   */
  constructor(talk, branch) {
    this.talk = talk;
    this.branch = branch;
    this.version = -1;
    /** @type {Run | null} */
    this.run = null;
    /** @type {Page | null} */
    this.page = null;
    /** What is chosen in the other branch; nothing is until it says so. */
    this.position = { place: Infinity, event: 0 };
    /** @type {Promise<void>} what is asked for, one after another: each answer says what has changed since the one before */
    this.asked = Promise.resolve();
  }

  renew() {
    this.asked = this.asked.catch(() => {}).then(() => this.ask());
    return this.asked;
  }

  async ask() {
    const { talk, branch, version } = this;
    /** @type {Told} */
    let told = await talk.post("state", { branch, has: version });
    if (!told.rows && !(told.since === version && this.run && (!told.stretch || this.run.change(told.stretch, told.of)))) {
      told = await talk.post("state", { branch });
    }
    this.version = told.version;
    this.run = told.rows ? new Run(told.rows) : this.run;
    while (this.run && this.run.missing > 0) {
      this.run.add(await talk.post("rows", { branch, version: told.version, from: this.run.steps.length }));
    }
    this.run?.goOn(this.run.of);
    byId("name").textContent = told.branch === told.home ? `${told.name}, the file` : `${told.name}, branch ${told.branch}`;
    this.show();
  }

  show() {
    const { run, page, position } = this;
    const isThere = run !== null && run.model.steps.length > 0;
    byId("panes").hidden = !isThere;
    byId("notice").hidden = isThere;
    if (isThere && page) {
      page.replace(run.model, position);
    } else if (isThere) {
      makeLegend();
      this.page = new Page(run.model);
      this.page.choose(position);
    }
  }

  /** @param {import("./types.js").Position} position */
  choose(position) {
    this.position = position;
    if (this.run && this.run.model.steps.length > 0) {
      this.page?.choose(position);
    }
  }
}

/**
 * A branch beside another, which follows it.
 * @param {import("./talk.js").Talk} talk
 * @param {number} branch
 */
export async function follow(talk, branch) {
  document.body.classList.add("follows");
  const follower = new Follower(talk, branch);
  window.addEventListener("message", ({ origin, data }) => {
    if (origin === location.origin && data === "renew") {
      follower.renew().catch(() => {});
    } else if (origin === location.origin) {
      follower.choose(data);
    }
  });
  await follower.renew();
}
