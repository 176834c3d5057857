// What is pressed waits for what was pressed before it, until that is done and shown.

export class Turns {
  constructor() {
    /** @type {Promise<unknown>} what was pressed last */
    this.last = Promise.resolve();
    /** How many presses aren't done yet. */
    this.count = 0;
    /** How often those that waited were left out. */
    this.left = 0;
    /** Whether what comes now comes of a key that is held down. */
    this.isHeld = false;
    for (const kind of /** @type {const} */ (["keydown", "keyup", "pointerdown"])) {
      document.addEventListener(kind, (event) => (this.isHeld = event instanceof KeyboardEvent && event.repeat), { capture: true });
    }
  }

  /**
   * Does something in its turn, and answers whether it was done. A key that is held down goes no faster than what it does.
   * @param {() => Promise<boolean>} does
   * @returns {Promise<boolean>}
   */
  take(does) {
    if (this.isHeld && this.count > 0) {
      return Promise.resolve(false);
    }
    const { left } = this;
    this.count += 1;
    const done = this.last.then(() => left === this.left && does()).finally(() => (this.count -= 1));
    this.last = done.catch(() => {});
    return done;
  }

  /** Leaves out what waits behind what is being done. Answers how many presses that are. */
  leaveOut() {
    this.left += 1;
    return this.count - 1;
  }
}
