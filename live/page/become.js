// Has an element become another one: what of it is as it is to be stays, so that the browser neither lays that out nor paints it again, the focus stays in
// it, and so does a press. What a button does is found by its key when it is pressed, so a button only becomes one with the same key.

/** @typedef {Map<Node, Node>} Kept what stayed, by what it is in the place of */

/**
 * Makes these the children of an element.
 * @param {Element} parent
 * @param {(Node | string)[]} children
 * @param {Kept} [kept]
 */
export function become(parent, children, kept) {
  const news = children.map((child) => (typeof child === "string" ? document.createTextNode(child) : child));
  const olds = [...parent.childNodes];
  const front = sameIn(olds, news, kept);
  const back = sameIn(olds.slice(front).reverse(), news.slice(front).reverse(), kept);
  const rest = olds.slice(front, olds.length - back);
  const end = olds[olds.length - back] ?? null;
  const own = news.slice(front, news.length - back);
  const keys = new Set(own.map(keyOf));
  let at = 0;
  for (const child of own) {
    while (at < rest.length && keyOf(rest[at]) !== undefined && !keys.has(keyOf(rest[at]))) {
      parent.removeChild(rest[at]);
      at += 1;
    }
    const found = rest.findIndex((old, place) => place >= at && canBecome(old, child));
    const isSkipping = found > at && keyOf(child) === undefined && rest.slice(at, found).some((old) => keyOf(old) !== undefined);
    if (found < 0 || isSkipping) {
      parent.insertBefore(child, rest[at] ?? end);
    } else {
      rest.slice(at, found).forEach((old) => parent.removeChild(old));
      renew(rest[found], child, kept);
      at = found + 1;
    }
  }
  rest.slice(at).forEach((old) => parent.removeChild(old));
}

/**
 * How many nodes at the beginning of two lists are the same.
 * @param {Node[]} olds
 * @param {Node[]} news
 * @param {Kept} [kept]
 */
function sameIn(olds, news, kept) {
  let same = 0;
  while (same < Math.min(olds.length, news.length) && (olds[same] === news[same] || olds[same].isEqualNode(news[same]))) {
    pair(olds[same], news[same], kept);
    same += 1;
  }
  return same;
}

/**
 * @param {Node} old
 * @param {Node} child
 * @param {Kept} [kept]
 */
function pair(old, child, kept) {
  if (kept) {
    kept.set(child, old);
    child.childNodes.forEach((own, at) => pair(old.childNodes[at], own, kept));
  }
}

/** @param {Node} node */
function keyOf(node) {
  return node instanceof HTMLElement ? node.dataset.key : undefined;
}

/**
 * Whether a node can become another: one of the same key, or of the same attributes. What a reader has opened and scrolled in one list isn't that of
 * another.
 * @param {Node} old
 * @param {Node} child
 */
function canBecome(old, child) {
  if (old === child || old.nodeName !== child.nodeName) {
    return old === child;
  }
  const key = keyOf(old);
  return old.nodeName !== "DETAILS" && key === keyOf(child) && (key !== undefined || namesOf(old) === namesOf(child));
}

/** @param {Node} node */
function namesOf(node) {
  return node instanceof Element ? node.getAttributeNames().join() : "";
}

/**
 * @param {Node} old
 * @param {Node} child
 * @param {Kept} [kept]
 */
function renew(old, child, kept) {
  kept?.set(child, old);
  if (old === child) {
    return;
  }
  if (old instanceof Element && child instanceof Element) {
    renewAttributes(old, child);
    become(old, [...child.childNodes], kept);
  } else if (old instanceof CharacterData && child instanceof CharacterData && old.data !== child.data) {
    old.data = child.data;
  }
}

/**
 * @param {Element} old
 * @param {Element} child
 */
function renewAttributes(old, child) {
  const names = child.getAttributeNames();
  for (const name of names) {
    const value = /** @type {string} */ (child.getAttribute(name));
    if (old.getAttribute(name) !== value) {
      if (name === "style" && old instanceof HTMLElement && child instanceof HTMLElement) {
        // The page's policy allows no style in a text, but one that is set so.
        old.style.cssText = child.style.cssText;
      } else {
        old.setAttribute(name, value);
      }
    }
  }
  const gone = old.getAttributeNames();
  if (gone.length > names.length) {
    gone.filter((name) => !child.hasAttribute(name)).forEach((name) => old.removeAttribute(name));
  }
}

/**
 * Has all children that an element is given become those that it has.
 * @param {Element} element
 * @param {() => boolean} [canStay] whether they may, now
 */
export function keepChildren(element, canStay = () => true) {
  const { replaceChildren } = element;
  element.replaceChildren = (...children) => (canStay() ? become(element, children) : replaceChildren.apply(element, children));
}

/**
 * Has an element that is given the text that it has stay as it is.
 * @param {Element} element
 */
export function keepText(element) {
  const { get, set } = /** @type {PropertyDescriptor} */ (Object.getOwnPropertyDescriptor(Node.prototype, "textContent"));
  Object.defineProperty(element, "textContent", {
    configurable: true,
    get,
    set(text) {
      if (get?.call(this) !== text) {
        set?.call(this, text);
      }
    },
  });
}
