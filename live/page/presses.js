// A button, or a box, that is pressed while the page is drawn again, as what happened is drawn in motion, may be another one when it is let go, or in
// another place: no browser calls that a click. They are told apart by their keys here, so the press counts.

// A pointer that has moved fewer pixels between press and release has stayed where it was.
const STILL = 5;

/** @param {EventTarget | null} target */
function pressable(target) {
  const own = target instanceof Element ? target.closest("button[data-key], label") : null;
  return /** @type {HTMLElement | null} */ (own instanceof HTMLLabelElement ? own.querySelector("input[data-key]") : own);
}

/** @param {string | undefined} key */
function withKey(key) {
  return /** @type {HTMLElement | null} */ (document.querySelector(`[data-key="${CSS.escape(key ?? "")}"]`));
}

export function countPresses() {
  /** @type {HTMLElement | null} */
  let pressed = null;
  let [x, y] = [0, 0];
  document.addEventListener("pointerdown", ({ target, clientX, clientY }) => ([pressed, x, y] = [pressable(target), clientX, clientY]), { capture: true });
  document.addEventListener("pointercancel", () => (pressed = null), { capture: true });
  document.addEventListener("pointerup", ({ clientX, clientY }) => {
    const was = pressed;
    const now = pressable(document.elementFromPoint(clientX, clientY));
    pressed = null;
    if (was && was !== now) {
      const isStill = Math.hypot(clientX - x, clientY - y) < STILL;
      (isStill || now?.dataset.key === was.dataset.key ? withKey(was.dataset.key) : null)?.click();
    }
  }, { capture: true });
}
