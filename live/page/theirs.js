// One's own nodes in two halves with the reference: what each printed, where they differ, and which promises they broke.

import { element, withAttributes } from "./dom.js";
import { button } from "./livepage.js";
import { counted } from "./text.js";

/** @typedef {{ version: number, outputs: Record<string, string[]>, differences: Record<string, string[]>, broken: Record<string, string[]>, faults: string[] }} Told */

export class Theirs {
  /** @param {import("./live.js").Live} live */
  constructor(live) {
    this.live = live;
    /** @type {Told | null} */
    this.told = null;
    this.isAsked = false;
  }

  /** Has the script run on them, and again if another one is shown by then; while that goes on, what they did with the last one stays. */
  async renew() {
    if (this.isAsked) {
      return;
    }
    this.isAsked = true;
    const { state, talk } = this.live;
    try {
      this.told = await talk.post("theirs", { branch: state?.branch });
    } catch (fault) {
      this.told = { version: 0, outputs: {}, differences: {}, broken: {}, faults: [String(fault instanceof Error ? fault.message : fault)] };
    } finally {
      this.isAsked = false;
    }
    this.live.bar.draw();
    if (state !== this.live.state) {
      this.renew();
    }
  }

  /** @returns {HTMLElement[]} */
  rows() {
    const { told, live } = this;
    const { page } = live;
    if (!told || !page) {
      return [];
    }
    const { place } = page.chosen;
    const found = [...new Set([...Object.keys(told.differences), ...Object.keys(told.broken)])].map(Number).sort((one, other) => one - other);
    const marks = found.map((at) => {
      const sign = told.broken[at] ? "promise broken" : "differs";
      return button(`✗ ${sign} at step ${at}`, `theirs ${at}`, "", `${sign}: go to step ${at}`, () => page.takePlace(at));
    });
    const agreed = found.length || told.faults.length ? [] : [`✓ your nodes agree in ${counted(Object.keys(told.outputs).length, "directive", "directives")}`];
    const said = [...(told.differences[place] ?? []), ...(told.broken[place] ?? [])];
    return [
      element("div", "live-theirs-marks", ...agreed, ...marks, ...told.faults.map((text) => withAttributes(element("span", "live-alert", `! ${text}`), { role: "alert" }))),
      ...(said.length > 0 ? [element("pre", "live-difference", said.join("\n"))] : []),
      element("div", "live-halves", this.half("your nodes", told.outputs[place]), this.half("reference", page.model.steps[place - 1].output)),
    ];
  }

  /**
   * @param {string} who
   * @param {string[] | undefined} lines
   */
  half(who, lines) {
    return withAttributes(element("div", "", element("b", "", who), element("pre", "", lines ? lines.join("\n") : "not run any more: this is after the first difference")), { role: "group", "aria-label": who });
  }
}
