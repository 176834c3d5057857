// A pane that scrolls. A browser that is asked how large a pane is, or where it is scrolled to, first lays out all that has changed. So that is known here;
// and where all of a page is drawn again, its panes are scrolled together, in the next frame.

/** @type {Set<Pane>} those that are to be scrolled */
const moving = new Set();
let isLater = false;

function scrollAll() {
  const all = [...moving];
  moving.clear();
  all.forEach((pane) => pane.scroll());
  all.forEach((pane) => pane.look());
}

/**
 * Has panes be scrolled in the next frame to where something has them go.
 * @param {() => void} does
 */
export function scrolledTogether(does) {
  isLater = true;
  try {
    does();
  } finally {
    isLater = false;
  }
  if (moving.size > 0) {
    requestAnimationFrame(scrollAll);
  }
}

/** What a part of the page uses in place of its element. */
export class Pane {
  /**
   * @param {HTMLElement} element
   * @param {() => number} highest where it can be scrolled to, at most
   * @param {() => void} moved is called where it wasn't scrolled to where it should be
   */
  constructor(element, highest = () => Infinity, moved = () => {}) {
    this.element = element;
    this.highest = highest;
    this.moved = moved;
    this.top = this.left = this.clientWidth = this.clientHeight = 0;
    element.addEventListener("scroll", (event) => this.scrolled(event), { capture: true });
    this.measure();
  }

  /** Asks the browser, which has laid the page out just now. */
  measure() {
    const { scrollTop, scrollLeft, clientWidth, clientHeight } = this.element;
    Object.assign(this, { top: scrollTop, left: scrollLeft, clientWidth, clientHeight });
  }

  get scrollTop() {
    return this.top;
  }

  set scrollTop(top) {
    this.goTo(this.left, top);
  }

  get scrollLeft() {
    return this.left;
  }

  set scrollLeft(left) {
    this.goTo(left, this.top);
  }

  /**
   * @param {number} left
   * @param {number} top
   */
  goTo(left, top) {
    const goal = Math.round(Math.max(0, Math.min(top, this.highest())));
    if (left !== this.left || goal !== this.top) {
      Object.assign(this, { left: Math.max(0, left), top: goal });
      if (isLater) {
        moving.add(this);
      } else {
        this.scroll();
        this.measure();
      }
    }
  }

  scroll() {
    this.element.scrollTop = this.top;
    this.element.scrollLeft = this.left;
  }

  /** Looks whether it is where it should be. */
  look() {
    const { top, left } = this;
    this.measure();
    if (Math.abs(top - this.top) >= 1 || Math.abs(left - this.left) >= 1) {
      this.moved();
    }
  }

  /**
   * That it was scrolled to where it was to be is no news for the part of the page that it is of.
   * @param {Event} event
   */
  scrolled(event) {
    const { scrollTop, scrollLeft } = this.element;
    if (event.target === this.element && !moving.has(this)) {
      const isThere = Math.abs(scrollTop - this.top) < 1 && Math.abs(scrollLeft - this.left) < 1;
      Object.assign(this, { top: scrollTop, left: scrollLeft });
      if (isThere) {
        event.stopImmediatePropagation();
      }
    }
  }

  /** @param {...(Node | string)} children */
  replaceChildren(...children) {
    this.element.replaceChildren(...children);
  }

  /** @param {...(Node | string)} children */
  append(...children) {
    this.element.append(...children);
  }

  /** @param {string} selector */
  querySelector(selector) {
    return this.element.querySelector(selector);
  }

  /** @param {string} selector */
  querySelectorAll(selector) {
    return this.element.querySelectorAll(selector);
  }

  /**
   * @param {string} kind
   * @param {(event: Event) => void} does
   */
  addEventListener(kind, does) {
    this.element.addEventListener(kind, does);
  }
}

/** The pane of the logs, which shows the last entries, unless its reader has asked for more. */
export class LogsPane extends Pane {
  /**
   * @param {HTMLElement} element
   * @param {() => boolean} hasMore
   */
  constructor(element, hasMore) {
    super(element);
    this.hasMore = hasMore;
  }

  /** How wide it is inside: where the last entries are shown it doesn't matter, but that it is wide. */
  get scrollWidth() {
    return this.hasMore() ? this.element.scrollWidth : this.clientWidth + 1_000_000;
  }
}
