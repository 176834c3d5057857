// What is written at arrows and bands, in few words; and in full.

import { counted, shownBody } from "./text.js";

/** @typedef {import("./types.js").Message} Message */
/** @typedef {import("./types.js").Event} Event */
/** @typedef {(cells: any[]) => [string, string]} Mark a text and its look */

/** @type {Record<string, string>} */
export const KINDS = {
  MsgVote: "vote",
  MsgPreVote: "vote",
  MsgVoteResp: "vote",
  MsgPreVoteResp: "vote",
  MsgTimeoutNow: "vote",
  MsgApp: "append",
  MsgAppResp: "append",
  MsgHeartbeat: "heartbeat",
  MsgHeartbeatResp: "heartbeat",
  MsgSnap: "snapshot",
  MsgProp: "proposal",
  MsgTransferLeader: "proposal",
};

/** @type {Record<string, (said: any[]) => string>} */
const SAID = {
  MsgVote: ([term, index, transfer]) => `last ${term}/${index}${transfer ? " transfer" : ""}`,
  MsgPreVote: ([term, index]) => `last ${term}/${index}`,
  MsgVoteResp: ([granted]) => (granted ? "granted" : "refused"),
  MsgPreVoteResp: ([granted]) => (granted ? "granted" : "refused"),
  MsgApp: ([term, index, commit, count]) => `after ${term}/${index}, commit ${commit}, ${counted(count, "entry", "entries")}`,
  MsgAppResp: ([refused, index, hint]) => (refused ? `refused ${index}, hint ${hint}` : `match ${index}`),
  MsgHeartbeat: ([commit]) => `commit ${commit}`,
  MsgHeartbeatResp: () => "",
  MsgSnap: ([term, index]) => `${term}/${index}`,
  MsgProp: ([body]) => shownBody(body),
  MsgTransferLeader: ([target]) => `to ${target}`,
  MsgTimeoutNow: () => "",
};

// The same in fewer and fewer words. A commit is ✓, as it is at marks.
/** @type {Record<string, (said: any[]) => string[]>} */
const IN_FEWER = {
  MsgVote: ([term, index, transfer]) => (transfer ? [`${term}/${index} transfer`, "transfer"] : [`${term}/${index}`]),
  MsgPreVote: ([term, index]) => [`${term}/${index}`],
  MsgVoteResp: ([granted]) => [granted ? "yes" : "no"],
  MsgPreVoteResp: ([granted]) => [granted ? "yes" : "no"],
  MsgApp: ([term, index, commit, count]) => (count ? [`+${count} after ${term}/${index}`, `${term}/${index} +${count}`] : [`commit ${commit}`, `✓${commit}`]),
  MsgAppResp: ([refused, index, hint]) => (refused ? [`✗${index} hint ${hint}`, `✗${index}`] : [`${index}`]),
  MsgHeartbeat: ([commit]) => [`✓${commit}`],
};

/**
 * The labels of a message, from the longest. A receiver comes first where no arrow leads to it; then the type, without Msg; and the term
 * where the receiver's is another.
 * @param {Message} message
 */
export function labelsOf(message) {
  const { type, term, metTerm } = message;
  const isAimless = message.fate === "waiting" || message.fate === "given up" || metTerm === undefined;
  const aim = isAimless ? `→${message.to} ` : "";
  const start = aim + type.slice(3);
  const isOther = term && metTerm !== undefined && metTerm !== term;
  const startWithTerm = isOther ? `${start} t${term}` : start;
  const said = [SAID[type](message.said), ...(IN_FEWER[type]?.(message.said) ?? [])];
  const labels = said.map((text) => `${startWithTerm} ${text}`.trim());
  // The answer to a question before the vote has the question's term. A heartbeat of another term says little by its commit.
  /** @type {Record<string, string>} */
  const least = { MsgPreVoteResp: `${start} ${said[1]}`, MsgHeartbeat: startWithTerm };
  return isOther && least[type] ? [...labels, least[type]] : labels;
}

/** @param {Message} message */
export function messageText(message) {
  const term = message.term ? ` term ${message.term}` : "";
  return `${message.from}→${message.to} ${message.type}${term} ${SAID[message.type](message.said)}`.trim();
}

/** @type {Record<string, (said: any[]) => string>} */
const IN_SENTENCES = {
  MsgApp: ([term, index, commit, count]) => (count ? `+${count} after ${term}/${index}` : `commit ${commit}`),
  MsgAppResp: ([refused, index, hint]) => (refused ? `refused ${index}, hint ${hint}` : `match ${index}`),
};

/**
 * A message in a sentence of the description: its type, its term, and what matters of it.
 * @param {Message} message
 */
export function messageWords({ type, term, said }) {
  const words = (IN_SENTENCES[type] ?? SAID[type])(said);
  return [type.slice(3), term ? `t${term}` : "", words].filter(Boolean).join(" ");
}

/** @type {Record<string, string>} */
const LOST = { dropped: "dropped", "given up": "given up: no room", waiting: "on its way" };

/** @param {Message} message */
export function fateText(message) {
  return message.fate === "delivered" ? `delivered at line ${message.met?.line}` : LOST[message.fate];
}

// What a node reports: a sentence, and the look of its mark.
/** @type {Record<string, Mark>} */
export const MARKS = {
  started: () => ["started", "quiet"],
  restarted: ([, term]) => [`↻ restarted, t${term}`, "turn"],
  became: ([, role, term]) => (role === "leader" ? [`★ leader, t${term}`, "won"] : [`${role}, t${term}`, "turn"]),
  "cannot-campaign": ([, why]) => [`! can't campaign: ${why}`, "bad"],
  vote: ([id, , granted, from, result]) => [`${from === id ? "own vote" : granted ? `vote of ${from}` : `no vote of ${from}`}: ${result}`, "quiet"],
  ignored: ([, type]) => [`ignores ${type.slice(3)}`, "quiet"],
  "dropped-proposal": () => ["! proposal dropped", "bad"],
  conflict: ([, index, commit]) => [`! conflict at ${index}, commit ${commit}`, "bad"],
  "appends-nothing": () => ["! appends nothing: index limit", "bad"],
  "replaced-change": ([, index, why]) => [`! change ${index} made empty: ${why}`, "bad"],
  switched: ([, config]) => [`◆ ${config}`, "change"],
  "refused-change": ([, index, fault]) => [`! change ${index} refused: ${fault}`, "bad"],
  restored: ([, term, index]) => [`▣ snapshot ${term}/${index}`, "installed"],
  "transfer-starts": ([, to]) => [`hands over to ${to}`, "change"],
  "transfer-ends": ([, to]) => [`hand-over to ${to} ends`, "quiet"],
  "lost-quorum": () => ["! lost its quorum", "bad"],
  "nothing-ready": () => ["nothing ready", "quiet"],
  committed: ([, index]) => [`✓ commit ${index}`, "moved"],
  saved: ([, first, last]) => [`saves ${first === last ? first : `${first}–${last}`}`, "quiet"],
  appended: ([, index, body]) => [`+ ${index} ${shownBody(body)}`, "quiet"],
  replaced: ([, index]) => [`↺ ${index}+ replaced`, "change"],
  lost: ([, first, last]) => [`✗ ${first === last ? first : `${first}–${last}`} lost`, "bad"],
  compacted: ([, index]) => [`▣ compacted to ${index}`, "installed"],
};

// What is said of a whole directive.
/** @type {Record<string, Mark>} */
export const NOTES = {
  "no-messages": () => ["no messages", "note"],
  stopped: ([rounds]) => [`stopped after ${rounds} rounds`, "note"],
  error: ([text]) => [`error: ${shownBody(text)}`, "bad"],
};

/**
 * An event in a sentence, without its reasons.
 * @param {Event} event
 */
export function eventText({ name, id, cells, message }) {
  if (message) {
    const verb = name === "no-room" ? "no room for" : name;
    return `${verb} ${messageText(message)}`;
  }
  if (MARKS[name]) {
    return `${id} ${MARKS[name](cells)[0]}`;
  }
  if (NOTES[name]) {
    return NOTES[name](cells)[0];
  }
  const entry = name === "save" || name === "apply" ? `${cells[1]}/${cells[0]} ${shownBody(cells[2])}` : "";
  const hard = name === "hard" ? `term ${cells[0]}, vote ${cells[1]}, commit ${cells[2]}` : "";
  const snapshot = name === "snapshot" ? `${cells[0]}/${cells[1]}` : "";
  return `${id} ${name} ${entry}${hard}${snapshot}`.trim();
}

/**
 * Whether a node restarts in a step.
 * @param {Pick<import("./types.js").Step, "events">} step
 * @param {number} id
 */
export function hasRestarted({ events }, id) {
  return events.some((event) => event.name === "restarted" && event.id === id);
}

/**
 * The nodes, the types of messages and the terms that an event is about: what filters look at.
 * @param {Event} event
 */
export function subjectOf({ name, id, cells, message }) {
  if (message) {
    return { nodes: [message.from, message.to], type: message.type, term: message.term };
  }
  const type = name === "vote" || name === "ignored" ? cells[1] : "";
  const term = { became: cells[2], restarted: cells[1], hard: cells[0], save: cells[1], apply: cells[1], snapshot: cells[0], restored: cells[1] }[name] ?? 0;
  return { nodes: id ? [id] : [], type, term };
}
