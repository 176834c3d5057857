"use strict";
// Scripts of raftbench are *.txt, which are plain text to the editor: their lines tell them apart. A text is a script if a line ---- is below
// a head, which begins with a directive's name. A slip of one letter in the name doesn't count, so that a mistake doesn't turn the server off.

const NAMES = [
  "add-nodes", "campaign", "propose", "propose-conf-change", "process-ready",
  "deliver-msgs", "stabilize", "tick-election", "tick-heartbeat", "set-randomized-election-timeout",
  "transfer-leadership", "forget-leader", "report-unreachable", "send-snapshot", "compact",
  "restart", "log-level", "raft-log", "status", "raft-state",
];
// How many lines are read.
const MOST = 500;

/**
 * Whether a word is a name, or becomes one if one letter is added, removed, replaced or swapped with the next.
 * @param {string} word
 * @param {string} name
 */
function isNearly(word, name) {
  let same = 0;
  while (same < word.length && word[same] === name[same]) same++;
  const [left, due] = [word.slice(same), name.slice(same)];
  const isSwapped = left[0] === due[1] && left[1] === due[0] && left.slice(2) === due.slice(2);
  return isSwapped || left.slice(1) === due.slice(1) || left === due.slice(1) || left.slice(1) === due;
}

/**
 * Whether a line begins with a directive's name.
 * @param {string} line
 */
function isHead(line) {
  const word = line.trim().split(/[ \t\\]/)[0];
  return /^[a-z-]+$/.test(word) && NAMES.some((name) => isNearly(word, name));
}

/**
 * Whether a text is a script. The head of a `----` is the first line of its paragraph, without comments; the first head may have empty lines below.
 * @param {string} text
 */
function isScript(text) {
  let head = "";
  let hasSeparator = false;
  for (const line of text.split(/\r*\n/, MOST)) {
    if (/^[ \t]*----[ \t]*$/.test(line)) {
      if (isHead(head)) return true;
      hasSeparator = true;
    } else if (/^[ \t]*$/.test(line)) {
      if (hasSeparator) head = "";
    } else if (!head && !/^[ \t]*#/.test(line)) head = line;
  }
  return false;
}

module.exports = { MOST, isScript };
