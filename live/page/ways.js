// Which directive takes which messages. What `deliver-msgs` can pick out is read off the program's own help, so a program that can do more is
// asked for more.

/** @typedef {import("./types.js").Message} Message */
/** @typedef {{ text: string, takes: Message[], why: string }} Way a directive, the messages that it takes, and why it can't be used, if so */

const GONE = "no message is on its way";

/**
 * The ids of a list, as an option's value.
 * @param {number[]} ids
 */
function listed(ids) {
  return ids.length === 1 ? String(ids[0]) : `(${ids.join(",")})`;
}

/** @param {number[]} ids */
function ascending(ids) {
  return [...new Set(ids)].sort((one, other) => one - other);
}

export class Ways {
  /** @param {string} usage the words and options of `deliver-msgs` */
  constructor(usage) {
    this.canFrom = usage.includes("[from=");
    this.canSkip = usage.includes("[skip=");
    this.canCount = usage.includes("[count=");
  }

  /**
   * Takes one message or, if the program can't pick it out, as few as it can.
   * @param {Message} message
   * @param {Message[]} pending all that are on their way, in their order
   * @param {boolean} isDropped
   * @returns {Way}
   */
  one(message, pending, isDropped) {
    const { from, to, type } = message;
    let takes = pending.filter((it) => it.to === to && it.type === type);
    const words = ["deliver-msgs", isDropped ? `drop=${to}` : String(to), `type=${type}`];
    if (this.canFrom && takes.some((it) => it.from !== from)) {
      takes = takes.filter((it) => it.from === from);
      words.push(`from=${from}`);
    }
    const [place, isOneOfSeveral] = [takes.indexOf(message), takes.length > 1];
    if (this.canSkip && place > 0) {
      words.push(`skip=${place}`);
      takes = takes.slice(place);
    }
    // Of several one is meant, also where it is the last one: by its place alone it would be taken with what an edit before it puts behind it.
    if (this.canCount && isOneOfSeveral && takes[0] === message) {
      takes = [message];
      words.push("count=1");
    }
    return { text: words.join(" "), takes, why: "" };
  }

  /**
   * All messages to a node.
   * @param {number} id
   * @param {Message[]} pending
   * @returns {Way}
   */
  allTo(id, pending) {
    const takes = pending.filter(({ to }) => to === id);
    return { text: `deliver-msgs ${id}`, takes, why: takes.length > 0 ? "" : GONE };
  }

  /**
   * All messages of a node to others that are there.
   * @param {number} id
   * @param {Message[]} pending
   * @param {number[]} there the nodes' ids
   * @returns {Way}
   */
  allFrom(id, pending, there) {
    const takes = pending.filter(({ from, to }) => from === id && there.includes(to));
    const to = ascending(takes.map((it) => it.to));
    const types = [...new Set(takes.map(({ type }) => type))];
    const others = pending.filter((it) => it.from !== id && to.includes(it.to));
    const isMixed = others.some(({ type }) => types.includes(type));
    const text = `deliver-msgs ${to.join(" ")}${others.length === 0 ? "" : this.canFrom ? ` from=${id}` : ` type=${types.length === 1 ? types[0] : `(${types.join(",")})`}`}`;
    const why = takes.length === 0 ? GONE : isMixed && !this.canFrom ? "messages of others would be delivered too: this program's deliver-msgs has no from=" : "";
    return { text, takes, why };
  }

  /**
   * Drops what is on its way between two sides: a directive a sender where senders can be told apart, or one that takes all for these nodes.
   * @param {number[]} side
   * @param {Message[]} pending
   * @returns {Way[]}
   */
  cut(side, pending) {
    const crossing = pending.filter(({ from, to }) => side.includes(from) !== side.includes(to));
    const to = ascending(crossing.map((it) => it.to));
    const all = pending.filter((it) => to.includes(it.to));
    if (crossing.length === 0) {
      return [{ text: "", takes: [], why: "nothing is on its way between the two sides" }];
    }
    if (all.length === crossing.length) {
      return [{ text: `deliver-msgs drop=${listed(to)}`, takes: all, why: "" }];
    }
    if (!this.canFrom) {
      return [{ text: "", takes: all, why: `${all.length - crossing.length} more would be dropped, which don't cross: let them arrive first` }];
    }
    return ascending(crossing.map(({ from }) => from)).map((from) => {
      const takes = crossing.filter((it) => it.from === from);
      return { text: `deliver-msgs drop=${listed(ascending(takes.map((it) => it.to)))} from=${from}`, takes, why: "" };
    });
  }
}
