// How wide texts are, in the letters of the picture, and how they fit into a room.

import { beginning } from "./text.js";

/** @typedef {"plain" | "bold"} Weight */

const pen = /** @type {CanvasRenderingContext2D} */ (document.createElement("canvas").getContext("2d"));
const family = getComputedStyle(document.body).fontFamily;
/** @type {Record<Weight, Map<string, number>>} */
const widths = { plain: new Map(), bold: new Map() };

/**
 * Measures a text, in pixels. Digits count as zeros, which are as wide in the fonts of screens: so a long script has few texts to measure.
 * @param {string} text
 * @param {Weight} [weight]
 */
export function widthOf(text, weight = "plain") {
  const known = widths[weight];
  const like = text.replace(/[1-9]/g, "0");
  let width = known.get(like);
  if (width === undefined) {
    pen.font = `${weight === "bold" ? 700 : 400} 11px ${family}`;
    width = pen.measureText(like).width;
    known.set(like, width);
  }
  return width;
}

/**
 * Cuts a text to a room, with an ellipsis where that is not all.
 * @param {string} text
 * @param {number} room
 * @param {Weight} [weight]
 */
export function fitted(text, room, weight) {
  if (widthOf(text, weight) <= room) {
    return text;
  }
  let cut = text.length;
  while (cut > 1 && widthOf(beginning(text, cut) + "…", weight) > room) {
    cut -= Math.max(1, Math.floor(cut / 8));
  }
  return beginning(text, cut) + "…";
}

/**
 * Breaks a text into at most `most` lines of so many letters, at blanks where there are some. What there is no room for is cut.
 * @param {string} text
 * @param {number} letters
 * @param {number} most
 */
export function brokenAt(text, letters, most) {
  const lines = [];
  let rest = text;
  while (rest.length > letters && lines.length < most - 1) {
    const blank = rest.lastIndexOf(" ", letters);
    if (blank <= 0) {
      break;
    }
    lines.push(rest.slice(0, blank));
    rest = rest.slice(blank + 1);
  }
  return [...lines, rest.length > letters ? beginning(rest, letters - 1) + "…" : rest];
}

/**
 * Breaks a text into at most `most` lines that fit, at blanks and commas where there are some. The end of a longer text is cut.
 * @param {string} text
 * @param {number} room
 * @param {number} most
 * @param {Weight} [weight]
 */
export function folded(text, room, most, weight) {
  if (most === 1 || text.length * 7 < room) {
    return [fitted(text, room, weight)];
  }
  const lines = [];
  let line = "";
  const pieces = text.match(/[^ ,]+[ ,]*|[ ,]+/g) ?? [];
  for (const [at, piece] of pieces.entries()) {
    if (line !== "" && widthOf((line + piece).trimEnd(), weight) > room) {
      if (lines.length === most - 1) {
        return [...lines, fitted(line + pieces.slice(at).join(""), room, weight)];
      }
      lines.push(fitted(line.trimEnd(), room, weight));
      line = "";
    }
    line += piece;
  }
  return [...lines, fitted(line.trimEnd(), room, weight)];
}
