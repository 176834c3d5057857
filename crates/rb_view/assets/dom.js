// Elements, made without marks: each text becomes a text node.

const SVG = "http://www.w3.org/2000/svg";

/**
 * The page's own element of this id.
 * @param {string} id
 */
export function byId(id) {
  const found = document.getElementById(id);
  if (!found) {
    throw new Error(`there is no element ${id}`);
  }
  return found;
}

/**
 * Makes an element of HTML.
 * @param {string} name
 * @param {string} look its class
 * @param {...(Node | string)} children
 */
export function element(name, look, ...children) {
  const made = document.createElement(name);
  if (look) {
    made.className = look;
  }
  made.append(...children);
  return made;
}

/**
 * Sets attributes, each to a number or to words that are the page's own.
 * @template {Element} T
 * @param {T} made
 * @param {Record<string, string | number>} attributes
 * @returns {T}
 */
export function withAttributes(made, attributes) {
  for (const [name, value] of Object.entries(attributes)) {
    made.setAttribute(name, String(value));
  }
  return made;
}

/**
 * Makes an element of SVG at the end of another.
 * @param {Element} parent
 * @param {string} name
 * @param {Record<string, string | number>} attributes
 * @param {string} [text]
 */
export function svg(parent, name, attributes, text) {
  const made = withAttributes(document.createElementNS(SVG, name), attributes);
  if (text !== undefined) {
    made.textContent = text;
  }
  parent.append(made);
  return made;
}

/** A group of SVG that belongs to no other element yet. */
export function group() {
  return document.createElementNS(SVG, "g");
}
