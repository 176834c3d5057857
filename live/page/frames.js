// What is done once what has changed is drawn.

/**
 * Does something when the next frame is drawn, and there is time. A page that isn't in view draws none, so nothing waits for it long.
 * @param {() => void} does
 */
export function afterFrame(does) {
  let isDone = false;
  const once = () => {
    if (!isDone) {
      isDone = true;
      does();
    }
  };
  // Not each browser says when it has time.
  const soon = window.requestIdleCallback ?? ((/** @type {() => void} */ then) => setTimeout(then));
  requestAnimationFrame(() => soon(once, { timeout: 100 }));
  setTimeout(once, 250);
}

/** @param {() => void} does */
export function now(does) {
  does();
}

/** Has the address say what is chosen once that is drawn. Where the reader goes to another address before, that stays. */
export function writeAddressLater() {
  const { replaceState } = history;
  /** @type {Parameters<History["replaceState"]> | null} */
  let last = null;
  history.replaceState = (...given) => {
    if (last === null) {
      const { hash } = location;
      afterFrame(() => {
        if (last !== null && location.hash === hash) {
          replaceState.apply(history, last);
        }
        last = null;
      });
    }
    last = given;
  };
}
