// Keys and buttons. A key never keeps a reader from scrolling: where the focus is in something that goes on out of view, keys that scroll do so.

import { byId, element, withAttributes } from "./dom.js";

/** @typedef {{ keys: string[], says: string, button?: string, does: () => void }} Command */

/** @type {Record<string, string>} */
const NAMES = { ArrowDown: "↓", ArrowUp: "↑", ArrowRight: "→", ArrowLeft: "←", PageDown: "Page Down", PageUp: "Page Up", " ": "Space" };
const VERTICAL = ["ArrowDown", "ArrowUp", "PageDown", "PageUp", "Home", "End", " "];
const HORIZONTAL = ["ArrowLeft", "ArrowRight"];

/**
 * Whether the key would scroll something that the focus is in, other than the list of directives, which follows what is chosen.
 * @param {Element} target
 * @param {string} key
 */
function scrolls(target, key) {
  /** @type {Element | null} */
  let at = target;
  while (at && at !== document.body && at.id !== "script") {
    const { overflowX, overflowY } = getComputedStyle(at);
    const isTall = VERTICAL.includes(key) && at.scrollHeight > at.clientHeight + 1 && /auto|scroll/.test(overflowY);
    const isWide = HORIZONTAL.includes(key) && at.scrollWidth > at.clientWidth + 1 && /auto|scroll/.test(overflowX);
    if (isTall || isWide) {
      return true;
    }
    at = at.parentElement;
  }
  return false;
}

export class Keys {
  /** @param {Command[]} commands */
  constructor(commands) {
    this.commands = commands;
    this.help = /** @type {HTMLDialogElement} */ (byId("help"));
    for (const command of commands) {
      if (command.button) {
        const button = byId(command.button);
        button.addEventListener("click", () => command.does());
        button.setAttribute("aria-keyshortcuts", command.keys.map((key) => (key === " " ? "Space" : key)).join(" "));
      }
    }
    byId("help-keys").append(...commands.map((command) => this.row(command)));
    byId("help-close").addEventListener("click", () => this.help.close());
    document.addEventListener("keydown", (event) => this.pressed(event));
  }

  /** @param {Command} command */
  row({ keys, says }) {
    const shown = keys.flatMap((key) => [element("kbd", "", NAMES[key] ?? key), " "]);
    return element("tr", "", withAttributes(element("th", "", ...shown), { scope: "row" }), element("td", "", says));
  }

  showHelp() {
    this.help.showModal();
  }

  /** @param {KeyboardEvent} event */
  pressed(event) {
    const target = event.target instanceof Element ? event.target : document.body;
    if (event.ctrlKey || event.metaKey || event.altKey || this.help.open || byId("panes").hidden || target.closest("input, select, textarea, [contenteditable]")) {
      return;
    }
    const command = this.commands.find(({ keys }) => keys.includes(event.key));
    const isButton = event.key === " " && target.closest("button, summary");
    if (command && !isButton && !scrolls(target, event.key)) {
      event.preventDefault();
      command.does();
    }
  }
}
