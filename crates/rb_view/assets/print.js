// Printing: the script with all outputs, and the whole picture in pieces of at most a page.

import { linesBelow } from "./difference.js";
import { byId, element, svg, withAttributes } from "./dom.js";
import { Layout } from "./layout.js";
import { Painter, WHOLE } from "./paint.js";
import { counted } from "./text.js";
import { paragraphs } from "./wrap.js";

/** @typedef {import("./types.js").Step} Step */

// Of a longer script this many directives are printed, from the chosen one on.
const MOST_PRINTED = 2000;
const PAGE_WIDTH = 700;
const PIECE_HEIGHT = 900;

/** @param {Step} step */
function printedStep(step) {
  const comments = paragraphs(step.lead).map((text) => element("p", "comment", text));
  const heads = step.head.map((line, at) => element("div", step.pieces ? "head wrong" : "head", at === 0 ? `${step.line}  ${step.pieces ? "✗ " : ""}${line}` : line));
  const rest = [...step.warnings.map((text) => element("div", "warning", text)), ...step.input.map((line) => element("div", "input", line))];
  const below = linesBelow(step, false, -1).map(({ look, text }) => element("div", look, text));
  return element("section", "", ...comments, ...heads, ...rest, ...below);
}

/**
 * Cuts a picture into pieces, between rows where that is possible.
 * @param {Layout} layout
 * @param {number} from
 * @param {number} to
 */
function cutsOf(layout, from, to) {
  const ends = [from];
  let end = from;
  for (const { top, height } of layout.rows) {
    const bottom = top + height;
    if (top >= from && bottom <= to) {
      if (bottom - ends[ends.length - 1] > PIECE_HEIGHT && end > ends[ends.length - 1]) {
        ends.push(end);
      }
      while (bottom - ends[ends.length - 1] > PIECE_HEIGHT) {
        ends.push(ends[ends.length - 1] + PIECE_HEIGHT);
      }
      end = bottom;
    }
  }
  return end > ends[ends.length - 1] ? [...ends, end] : ends;
}

/**
 * A piece of the picture, with its nodes' names above it.
 * @param {Layout} layout
 * @param {number} top
 * @param {number} bottom
 */
function printedPiece(layout, top, bottom) {
  const piece = element("figure", "");
  const picture = svg(piece, "svg", { viewBox: `0 -24 ${layout.width} ${bottom - top + 24}`, width: "100%", class: "drawing" });
  for (const { id } of layout.model.nodes) {
    svg(picture, "text", { class: "name", x: layout.x(id), y: -8, "text-anchor": "middle" }, `node ${id}`);
  }
  const clip = svg(picture, "svg", { y: 0, width: layout.width, height: bottom - top, overflow: "hidden" });
  clip.append(new Painter(layout, WHOLE).part(top, bottom - 1, 0));
  return piece;
}

/**
 * The rows of these directives, as stretches of the picture from one height to another.
 * @param {Layout} layout
 * @param {Step[]} steps
 */
function stretchesOf(layout, steps) {
  /** @type {{ from: number, to: number }[]} */
  const found = [];
  for (const { place } of steps) {
    const { top, height } = layout.rows[place - 1];
    const last = found[found.length - 1];
    if (last && last.to === top) {
      last.to = top + height;
    } else {
      found.push({ from: top, to: top + height });
    }
  }
  return found;
}

/**
 * The pieces of the picture of these directives.
 * @param {import("./rows.js").Model} model
 * @param {Step[]} steps
 */
function printedPicture(model, steps) {
  const layout = new Layout(model);
  layout.spread(PAGE_WIDTH);
  return stretchesOf(layout, steps).flatMap(({ from, to }) => {
    const ends = cutsOf(layout, from, to);
    return ends.slice(1).map((end, at) => printedPiece(layout, ends[at], end));
  });
}

/**
 * Says what isn't printed, where that is so.
 * @param {number} count how many directives are printed
 * @param {number} left how many the filters leave
 * @param {number} all
 * @param {Step[]} steps
 */
function noteOf(count, left, all, steps) {
  const from = count < left ? ` from line ${steps[0].line} on` : "";
  const of = left < all ? ` of ${all}, those that the filters leave` : "";
  return from || of ? [element("p", "", `${counted(count, "directive", "directives")}${of}${from}.`)] : [];
}

/**
 * Lets the page be printed whole, or what its filters leave.
 * @param {() => { model: import("./rows.js").Model, steps: Step[], chosen: number }} shown the run, the directives that are printed, and the chosen one
 * @param {() => void} after puts the screen's own picture back
 */
export function printWhole(shown, after) {
  const room = byId("print");
  window.addEventListener("beforeprint", () => {
    const { model, steps: left, chosen } = shown();
    const rest = left.filter(({ place }) => place >= chosen);
    const steps = (left.length > MOST_PRINTED ? rest : left).slice(0, MOST_PRINTED);
    const hasEnd = steps.length > 0 && steps[steps.length - 1].place === model.steps.length;
    const tail = hasEnd ? paragraphs(model.tail).map((text) => element("p", "comment", text)) : [];
    const script = element("div", "script", ...steps.map(printedStep), ...tail);
    const pieces = withAttributes(element("div", "pieces", ...printedPicture(model, steps)), { "aria-label": "Picture" });
    room.replaceChildren(element("h1", "", model.name), ...noteOf(steps.length, left.length, model.steps.length, steps), script, pieces);
  });
  window.addEventListener("afterprint", () => {
    room.replaceChildren();
    after();
  });
}
