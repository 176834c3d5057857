// Draws what a directive did in motion: event after event, and each message along its arrow. Readers who want less motion see the end at once.

import { svg } from "./dom.js";
import { eventsAt, instantAt } from "./position.js";

/** @typedef {import("./livepage.js").LivePage} Page */

const WHOLE = 1200;
const SHORTEST = 60;
const LONGEST = 240;

export class Motion {
  constructor() {
    /** @type {ReturnType<typeof setTimeout> | undefined} */
    this.timer = undefined;
    /** Whether what is chosen now is an event that is drawn in motion. */
    this.isMoving = false;
    /** @type {import("./types.js").Position} what was drawn last */
    this.at = { place: 0, event: 0 };
  }

  stop() {
    clearTimeout(this.timer);
    this.timer = undefined;
  }

  /**
   * Shows at once what is still to come, as for one who goes on before it has ended.
   * @param {Page} page
   */
  finish(page) {
    if (this.timer !== undefined && this.isAt(page)) {
      this.stop();
      this.go(page, { place: this.at.place, event: 0 });
    }
  }

  /**
   * Whether nobody has chosen something else meanwhile.
   * @param {Page} page
   */
  isAt({ chosen }) {
    return chosen.place === this.at.place && chosen.event === this.at.event;
  }

  /**
   * @param {Page} page
   * @param {import("./types.js").Position} position
   */
  go(page, position) {
    this.at = position;
    this.isMoving = true;
    page.choose(position);
    this.isMoving = false;
  }

  /**
   * Goes over the events of a directive, and then chooses all of it.
   * @param {Page} page
   * @param {number} place
   */
  start(page, place) {
    this.stop();
    const count = eventsAt(page.model, place);
    const { model } = page;
    const each = Math.min(LONGEST, WHOLE / Math.max(1, count));
    if (each < SHORTEST || count < 2 || matchMedia("(prefers-reduced-motion: reduce)").matches) {
      return;
    }
    this.at = { place, event: 0 };
    const next = () => {
      this.timer = undefined;
      if (page.model !== model || !this.isAt(page)) {
        return;
      }
      const event = this.at.event < count ? this.at.event + 1 : 0;
      this.go(page, { place, event });
      if (event > 0) {
        requestAnimationFrame(() => this.travel(page, each));
        this.timer = setTimeout(next, each);
      }
    };
    this.timer = setTimeout(next, SHORTEST);
  }

  /**
   * Has a dot go along the arrow of the message that the chosen event delivered.
   * @param {Page} page
   * @param {number} time
   */
  travel(page, time) {
    const { event } = instantAt(page.model, page.chosen);
    const points = event?.name === "deliver" ? event.message?.drawn?.points : undefined;
    if (points && points.length > 1) {
      const { drawing, scroll, top } = page.picture;
      const dot = svg(drawing, "circle", { r: 5, class: "travelling" });
      const frames = points.map(([x, y]) => ({ transform: `translate(${x - scroll.scrollLeft}px, ${y - top}px)` }));
      dot.animate(frames, { duration: time, fill: "forwards" }).finished.then(() => dot.remove(), () => dot.remove());
    }
  }
}
