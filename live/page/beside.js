// Two branches beside each other: another one in a frame, whose page follows this one event by event.

import { byId, element, withAttributes } from "./dom.js";

export class Beside {
  constructor() {
    this.number = 0;
    /** @type {HTMLIFrameElement | null} */
    this.frame = null;
    /** @type {import("./types.js").Position} what is chosen here */
    this.position = { place: 1, event: 0 };
  }

  /** @param {number} number the branch that is shown beside, or is no longer */
  toggle(number) {
    const isOff = this.number === number;
    this.frame?.remove();
    this.number = isOff ? 0 : number;
    this.frame = null;
    document.body.classList.toggle("beside", !isOff);
    if (!isOff) {
      this.frame = /** @type {HTMLIFrameElement} */ (withAttributes(element("iframe", "", ""), { src: `?beside#branch=${number}`, title: `branch ${number}` }));
      this.frame.addEventListener("load", () => this.follow(this.position));
      byId("panes").append(this.frame);
    }
    dispatchEvent(new Event("resize"));
  }

  /** @param {import("./types.js").Position} position */
  follow(position) {
    this.position = position;
    this.frame?.contentWindow?.postMessage(position, location.origin);
  }

  renew() {
    this.frame?.contentWindow?.postMessage("renew", location.origin);
  }
}
