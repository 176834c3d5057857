// Playing: goes on from event to event at a speed that the reader chooses.

import { byId } from "./dom.js";

const SPEEDS = [0.5, 1, 2, 4, 8];

export class Player {
  /** @param {() => boolean} goOn goes to the next event; answers whether there was one */
  constructor(goOn) {
    this.goOn = goOn;
    /** @type {ReturnType<typeof setTimeout> | undefined} */
    this.timer = undefined;
    this.speed = /** @type {HTMLSelectElement} */ (byId("speed"));
    this.button = byId("play");
  }

  isPlaying() {
    return this.timer !== undefined;
  }

  toggle() {
    if (this.isPlaying()) {
      this.stop();
    } else {
      this.wait();
      this.tell();
    }
  }

  wait() {
    this.timer = setTimeout(() => {
      if (this.goOn()) {
        this.wait();
      } else {
        this.stop();
      }
    }, 1000 / Number(this.speed.value));
  }

  stop() {
    clearTimeout(this.timer);
    this.timer = undefined;
    this.tell();
  }

  tell() {
    this.button.textContent = this.isPlaying() ? "❚❚ stop" : "▶ play";
  }

  /**
   * Chooses the next speed, or the one before.
   * @param {number} direction
   */
  change(direction) {
    const at = SPEEDS.indexOf(Number(this.speed.value)) + direction;
    this.speed.value = String(SPEEDS[Math.min(Math.max(at, 0), SPEEDS.length - 1)]);
  }
}
