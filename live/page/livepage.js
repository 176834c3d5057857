// The page of a run, in which each node's card says what the node may do, and each message on its way can be delivered or dropped.

import { become, keepChildren, keepText } from "./become.js";
import { byId, element, withAttributes } from "./dom.js";
import { afterFrame, now } from "./frames.js";
import { measureFrom, placeFrom } from "./further.js";
import { wayOf } from "./meant.js";
import { Page } from "./page.js";
import { LogsPane, Pane, scrolledTogether } from "./pane.js";
import { instantAt } from "./position.js";
import { State } from "./state.js";
import { messageText } from "./words.js";

/** @typedef {import("./types.js").Message} Message */
/** @typedef {import("./types.js").Position} Position */
/** @typedef {import("./live.js").Live} Live */
/** @typedef {import("./picture.js").Picture} Picture */

/** @type {[string, string][]} what a node may do: the directive, and the button's words */
const OF_NODE = [
  ["campaign", "campaign"], ["tick-election", "time out"], ["tick-heartbeat", "tick"], ["process-ready", "ready"], ["propose", "propose…"],
  ["propose-conf-change", "change…"], ["transfer-leadership", "lead"], ["compact", "compact"], ["forget-leader", "forget leader"], ["restart", "restart"],
];
// How near to a line of the picture a click counts as one on it, in pixels.
const NEAR = 7;
// What goes over all of a run with more directives is done once the page is drawn.
export const LONG = 200;
// How much room a script has below its last line.
const BELOW = 40;
// A taller picture is scrolled by parts of its height (picture.js).
const TALLEST = 8_000_000;

/**
 * A button that says why if it can't be used: it can be reached and read all the same.
 * @param {string} text
 * @param {string} key by which it is found again in another page
 * @param {string} why
 * @param {string} says
 * @param {() => void} does
 */
export function button(text, key, why, says, does) {
  const made = withAttributes(element("button", "", text), { type: "button", "data-key": key, title: why || says, "aria-label": why ? `${says || text}: can't, ${why}` : says || text });
  if (why) {
    made.setAttribute("aria-disabled", "true");
  }
  made.addEventListener("click", (event) => {
    event.stopPropagation();
    does();
  });
  return made;
}

class LiveState extends State {
  /**
   * @param {import("./rows.js").Model} model
   * @param {import("./search.js").Search} search
   * @param {(position: Position) => void} choose
   * @param {Live} live
   */
  constructor(model, search, choose, live) {
    super(model, search, choose);
    this.live = live;
    // What is being listed as it comes into view, or open, is made anew.
    keepChildren(this.pane, () => this.growing.size === 0 && !this.isOpen);
    this.pane = /** @type {any} */ (new Pane(this.pane));
  }

  /**
   * Also in motion buttons stay where they are, and the focus on them.
   * @param {Position} position
   */
  choose(position) {
    const { pane, isOpen, live } = this;
    const top = pane.scrollTop;
    if (position.place !== live.placed) {
      live.offers.forget();
    }
    live.keepingFocus(() => super.choose(position));
    if (live.motion.isMoving && !isOpen) {
      this.isOpen = false;
      /** @type {HTMLDetailsElement} */ (pane.querySelector("details")).open = false;
    }
    if (live.motion.isMoving || position.event === 0) {
      pane.scrollTop = top;
    }
  }

  /**
   * @param {import("./rows.js").Node} node
   * @param {import("./position.js").Instant} instant
   * @param {number} before
   */
  card(node, instant, before) {
    const card = super.card(node, instant, before);
    const group = withAttributes(element("div", "live-does"), { "data-node": node.id, role: "group", "aria-label": `What node ${node.id} may do` });
    card.append(group);
    this.fill(group);
    return card;
  }

  /**
   * Puts the buttons of a node into their group, which is busy as long as it isn't known what the node may do.
   * @param {HTMLElement} group
   */
  fill(group) {
    group.replaceChildren(...this.buttonsOf(Number(group.dataset.node)));
    group.setAttribute("aria-busy", String(!this.live.offers.areKnown));
  }

  /** @param {number} id */
  buttonsOf(id) {
    const { live } = this;
    const why = live.offers.looks[id] ?? {};
    const there = live.state?.directives ?? {};
    const lost = live.offers.losses[id] ?? "";
    const own = OF_NODE.filter(([name]) => name in there).map(([name, text]) => {
      const says = `${name} ${id}${name === "restart" && lost ? `, which loses ${lost}` : ""}`;
      return button(text, `${name} ${id}`, why[name] ?? "", says, () => live.ofNode(name, id));
    });
    const allTo = () => live.ways.allTo(id, live.pending());
    const allFrom = () => live.ways.allFrom(id, live.pending(), this.model.nodes.map((node) => node.id));
    const [to, from] = [allTo(), allFrom()];
    return [
      ...own,
      button(`all to it (${to.takes.length})`, `all-to ${id}`, to.why, to.text, () => live.takeWay(allTo)),
      button(`all from it (${from.takes.length})`, `all-from ${id}`, from.why, from.text, () => live.takeWay(allFrom)),
      withAttributes(element("span", "live-lost", lost ? `restart loses ${lost}` : ""), { title: lost }),
    ];
  }

  /** Makes the buttons anew, once more is known of what the nodes may do. */
  renewButtons() {
    for (const group of /** @type {NodeListOf<HTMLElement>} */ (this.pane.querySelectorAll("[data-node]"))) {
      this.fill(group);
    }
  }

  /** @param {Message} message */
  message(message) {
    const { live } = this;
    const { from, to, type } = message;
    // A button stays where another message of the same node and type is in its place.
    const all = () => live.pending().filter((it) => it.from === from && it.to === to && it.type === type);
    const at = all().indexOf(message);
    /** @type {(isDropped: boolean) => Promise<boolean>} */
    const take = (isDropped) => {
      const own = all()[at];
      return live.takeWay(() => wayOf(live, own, isDropped));
    };
    const [deliver, drop] = [wayOf(live, message, false), wayOf(live, message, true)];
    /** @type {(word: string, count: number) => string} */
    const words = (word, count) => (count > 1 ? `${word} ${count}` : word);
    const key = `${from} ${to} ${type} ${at}`;
    return element(
      "li", "live-message", element("span", "", messageText(message)),
      button(words("deliver", deliver.takes.length), `deliver ${key}`, deliver.why, deliver.text, () => take(false)),
      button(words("drop", drop.takes.length), `drop ${key}`, "", drop.text, () => take(true)),
    );
  }
}

export class LivePage extends Page {
  /**
   * @param {import("./rows.js").Model} model
   * @param {Live} live
   */
  constructor(model, live) {
    LivePage.made = live;
    super(model);
    this.live = live;
    /** @type {{ run: import("./run.js").Run | null, version: number, place: number, messages: Message[] }} */
    this.found = { run: null, version: 0, place: 0, messages: [] };
    const { drawing } = this.picture;
    drawing.addEventListener("click", (event) => this.clicked(event), { capture: true });
    drawing.addEventListener("pointermove", (event) => drawing.classList.toggle("can-deliver", this.messageAt(event) !== null));
    this.script.pane.addEventListener("dblclick", () => live.edit());
    this.keepWhatStays();
    this.usePanes();
  }

  /** Has what is drawn again stay where it is as it was. */
  keepWhatStays() {
    const { picture, script } = this;
    [script.list, script.texts, picture.description, this.logs.pane, ...this.search.choices].forEach((element) => keepChildren(element));
    picture.drawing.replaceChildren = (...children) => {
      /** @type {import("./become.js").Kept} */
      const kept = new Map();
      become(picture.drawing, children, kept);
      const { painter } = picture;
      if (painter) {
        painter.labels = new Map([...painter.labels].map(([label, message]) => [/** @type {Element} */ (kept.get(label) ?? label), message]));
        painter.arrows = /** @type {SVGElement} */ (kept.get(painter.arrows) ?? painter.arrows);
      }
    };
    for (const id of ["name", "counts", "where", "said", "found", "play"]) {
      keepText(byId(id));
    }
    knowWidths(byId("where"));
    this.keepHeads();
  }

  /** Has the heads of the picture's columns stay, where the nodes are as they were. */
  keepHeads() {
    const { picture } = this;
    const { makeHeads } = picture;
    picture.makeHeads = () => {
      const made = makeHeads.call(picture);
      made.forEach(({ role }) => keepText(role));
      return made;
    };
    picture.columns.forEach(({ role }) => keepText(role));
  }

  /** Has the parts know where their panes are scrolled to, and how large these are, without asking the browser. */
  usePanes() {
    const { picture, script, logs } = this;
    const { most } = logs;
    const highest = () => script.tops[script.tops.length - 1] + script.more + BELOW - script.pane.clientHeight;
    const panes = [new Pane(picture.scroll), new Pane(script.pane, highest, () => script.draw()), new LogsPane(logs.pane, () => logs.most > most)];
    [picture.scroll, script.pane, logs.pane] = /** @type {any[]} */ (panes);
    for (const part of [picture, script]) {
      const { resized } = part;
      let width = "";
      part.resized = () => {
        panes.forEach((pane) => pane.measure());
        // Letters are as wide as they were, unless the reader makes them larger.
        const now = `${script.pane.clientWidth} ${devicePixelRatio}`;
        if (part === script && now === width) {
          script.show();
          script.draw();
        } else {
          resized.call(part);
        }
        width = now;
      };
    }
  }

  get picture() {
    return /** @type {Picture} */ (this.parts[0]);
  }

  get logs() {
    return /** @type {import("./logs.js").Logs} */ (this.parts[2]);
  }

  get state() {
    return /** @type {LiveState} */ (this.parts[3]);
  }

  /** @param {(position: Position) => void} take */
  makeState(take) {
    return new LiveState(this.model, this.search, take, LivePage.made);
  }

  commands() {
    const live = LivePage.made;
    /** @type {[string[], string, () => void][]} */
    const own = [
      [["i"], "write a directive", () => live.bar.write()],
      [["c"], "go to what the next node may do", () => live.focusNext("#state [data-node]")],
      [["d"], "go to the next message on its way", () => live.focusNext(".live-message")],
      [["s"], "stabilize", () => live.insert("stabilize")],
      [["e"], "edit the directive", () => live.edit()],
      [["u"], "undo", () => live.ask({ do: "undo" })],
      [["r"], "redo", () => live.ask({ do: "redo" })],
      [["a"], "accept the output", () => live.ofChosen("accept")],
      [["A"], "accept all outputs", () => live.ask({ do: "accept", all: true })],
      [["x", "Delete"], "remove the directive", () => live.ofChosen("remove")],
      [["D"], "duplicate the directive", () => live.ofChosen("duplicate")],
      [["["], "move the directive up", () => live.ofChosen("move", { by: -1 })],
      [["]"], "move the directive down", () => live.ofChosen("move", { by: 1 })],
      [["w"], "what if? go on from here in another branch", () => live.fork()],
    ];
    return [...super.commands(), ...own.map(([keys, says, does]) => ({ keys, says, does }))];
  }

  tell() {
    super.tell();
    this.live?.hasChosen();
  }

  /**
   * Shows the same run, of which only the first directives are as they were.
   * @param {number} front
   * @param {Position} position
   */
  showFrom(front, position) {
    if (this.player.isPlaying()) {
      this.player.stop();
    }
    this.chosen = this.within(position);
    scrolledTogether(() => {
      this.goFurther(front);
      const { picture, script, chosen } = this;
      Object.assign(picture, { chosen, painter: null, traced: null, described: "" });
      this.drawPicture();
      script.show();
      script.draw();
      this.parts.slice(2).forEach((part) => part.replace(this.model, chosen));
    });
    this.tell();
  }

  /** Draws the picture as high as it is now, with what is chosen in view. */
  drawPicture() {
    const { picture } = this;
    // It is drawn here, and not once more in the next frame.
    picture.isDrawn = true;
    this.fitPicture();
    picture.show();
    picture.draw();
    picture.isDrawn = false;
  }

  /** Has the picture's pane be as high as the picture. */
  fitPicture() {
    const { picture } = this;
    byId("extent").style.height = `${Math.min(picture.layout.height, TALLEST)}px`;
    picture.scrollTo(picture.top);
  }

  /**
   * Gives the directives from one on their places in the picture and in the script.
   * @param {number} front
   */
  goFurther(front) {
    const { picture, script, model, chosen, search, live: { run } } = this;
    // A filter's type may be in what isn't read yet. While none is chosen, which ones there are may be told later.
    if (run?.isWhole) {
      (run.of > LONG && !search.isFiltered() ? afterFrame : now)(() => search.replace(model));
    }
    if (!placeFrom(picture.layout, front)) {
      picture.replace(model, chosen);
    }
    Object.assign(script, { isFolded: script.isFolded || chosen.place !== script.chosen.place, chosen });
    measureFrom(script, front);
  }

  /** What is only right once all directives have their places. */
  finish() {
    this.fitPicture();
    this.script.draw();
    this.tell();
  }

  /**
   * Whether a node has started by the chosen directive.
   * @param {number} id
   */
  isThere(id) {
    return this.model.nodes[id - 1].isThereAt(instantAt(this.model, { place: this.chosen.place, event: 0 }).moment);
  }

  // ---- clicks on messages in the picture

  /**
   * The message on its way whose label or line is at a point of the picture.
   * @param {MouseEvent} event
   * @returns {Message | null}
   */
  messageAt({ offsetX, offsetY, target }) {
    const { picture } = this;
    const pending = this.live.pending();
    const label = target instanceof Element ? target.closest("text") : null;
    const own = label && picture.painter?.labels.get(label);
    if (own) {
      return pending.includes(own) ? own : null;
    }
    // What isn't in view may have been drawn when it had another place.
    const placed = pending.filter(({ drawn }) => drawn?.version === picture.layout.version);
    return nearest(placed, [offsetX + picture.scroll.scrollLeft, offsetY + picture.top]);
  }

  /** @param {MouseEvent} event */
  clicked(event) {
    const message = this.messageAt(event);
    if (message) {
      event.stopPropagation();
      const { shiftKey } = event;
      this.live.takeWay(() => wayOf(this.live, message, shiftKey));
    }
  }

  /** The messages that are on their way after the chosen directive. They are found once, and asked for at each button. */
  pendingNow() {
    const { model: { spans }, chosen: { place }, live: { run } } = this;
    const version = run?.version ?? 0;
    if (this.found.run !== run || this.found.version !== version || this.found.place !== place) {
      this.found = { run, version, place, messages: spans.pendingAfter(place, instantAt(this.model, { place, event: 0 }).serial) };
    }
    return this.found.messages;
  }
}
/** @type {Live} whose page is being made: a class that is extended calls what it is made of before it has fields of its own */
LivePage.made = /** @type {any} */ (null);

/**
 * The message whose line is nearest to a point, if it is near enough.
 * @param {Message[]} messages
 * @param {number[]} at
 */
function nearest(messages, at) {
  /** @type {Message | null} */
  let best = null;
  let least = NEAR;
  for (const message of messages) {
    const points = message.drawn?.points ?? [];
    for (let end = 1; end < points.length; end += 1) {
      const far = distance(at, points[end - 1], points[end]);
      [best, least] = far < least ? [message, far] : [best, least];
    }
  }
  return best;
}

/**
 * How far a point is from a line between two others.
 * @param {number[]} point
 * @param {number[]} start
 * @param {number[]} end
 */
function distance([x, y], [ax, ay], [bx, by]) {
  const [dx, dy] = [bx - ax, by - ay];
  const part = Math.max(0, Math.min(1, ((x - ax) * dx + (y - ay) * dy) / (dx * dx + dy * dy || 1)));
  return Math.hypot(x - ax - part * dx, y - ay - part * dy);
}

/**
 * Has it be known how wide an element is with a text: digits are all as wide as zeros. A browser that is asked lays all out that has changed.
 * @param {HTMLElement} element
 */
function knowWidths(element) {
  /** @type {Map<string, DOMRect>} */
  const known = new Map();
  const { getBoundingClientRect } = element;
  element.getBoundingClientRect = () => {
    const like = `${(element.textContent ?? "").replace(/[1-9]/g, "0")} ${innerWidth} ${devicePixelRatio}`;
    const found = known.get(like) ?? getBoundingClientRect.call(element);
    known.set(like, found);
    return found;
  };
}
