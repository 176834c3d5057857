// How arrows and bands look.

import { byId, element, svg } from "./dom.js";
import { crossAt, tipAt } from "./paint.js";

const ARROWS = [
  ["vote", "votes"],
  ["append", "appends"],
  ["heartbeat", "heartbeats"],
  ["snapshot", "snapshots"],
  ["proposal", "handed on"],
];
/** @type {[string, number][]} */
const ROLES = [["leader", 5], ["candidate", 4], ["precandidate", 4], ["follower", 2.5]];
const LOG_SIGNS = [
  ["base", "base"],
  ["unsaved", "unsaved"],
  ["", "durable"],
  ["applied", "applied"],
  ["edge", "commit"],
];

/**
 * @param {string} text
 * @param {(picture: Element) => void} draw
 */
function item(text, draw) {
  const made = element("li", "");
  draw(svg(made, "svg", { width: 30, height: 10, "aria-hidden": "true" }));
  made.append(text);
  return made;
}

/** Fills the legend; it is folded where there is little room. */
export function makeLegend() {
  const arrows = ARROWS.map(([kind, text]) => {
    return item(text, (picture) => {
      svg(picture, "path", { class: `arrow ${kind}`, d: "M0 5H26" });
      svg(picture, "path", { class: `tip ${kind}`, d: tipAt(30, 5, 1, 0) });
    });
  });
  const lost = item("dropped, or given up", (picture) => {
    svg(picture, "path", { class: "arrow append", d: "M0 5H22" });
    svg(picture, "path", { class: "cross", d: crossAt(24, 5) });
  });
  const waiting = item("still on its way", (picture) => svg(picture, "path", { class: "arrow append waiting", d: "M0 5H30" }));
  const roles = ROLES.map(([role, half]) => {
    return item(role, (picture) => svg(picture, "rect", { class: `band ${role}`, x: 0, y: 5 - half, width: 30, height: 2 * half }));
  });
  const restart = item("restart", (picture) => {
    svg(picture, "rect", { class: "band leader", x: 0, y: 0, width: 11, height: 10 });
    svg(picture, "rect", { class: "band follower", x: 19, y: 2.5, width: 11, height: 5 });
  });
  const logs = LOG_SIGNS.map(([look, text]) => element("li", "", element("span", `sample ${look}`, "1"), text));
  byId("legend-items").append(...arrows, lost, waiting, ...roles, restart);
  byId("log-signs").append(...logs, element("li", "", element("del", "", "1"), "gave way, or was lost"), element("li", "", "◆ change"), element("li", "", "▲ match, △ next: what the leader knows"));
  /** @type {HTMLDetailsElement} */ (byId("legend")).open = window.matchMedia("(min-width: 1100px) and (min-height: 700px)").matches;
}
