// Texts of the script in lines of a number of columns.

import { beginning } from "./text.js";

const narrow = /^[\u0000-\u10ff\u2000-\u2bff]*$/;

/**
 * Cuts a line into pieces of at most so many columns, at blanks where there are some; `from` is where a piece begins in the line. Letters of
 * some scripts take two columns.
 * @param {string} text
 * @param {number} columns
 * @returns {{ text: string, from: number }[]}
 */
export function wrapped(text, columns) {
  const most = narrow.test(text) ? columns : Math.floor(columns / 2);
  const pieces = [];
  let from = 0;
  while (text.length - from > most) {
    const rest = text.slice(from, from + most + 1);
    const blank = rest.lastIndexOf(" ");
    const cut = blank > most / 2 ? blank : beginning(rest, most).length;
    pieces.push({ text: rest.slice(0, cut), from });
    from += text[from + cut] === " " ? cut + 1 : cut;
  }
  return [...pieces, { text: text.slice(from), from }];
}

/**
 * Joins comment lines to paragraphs: lines that follow one another are one.
 * @param {string[]} lines
 */
export function paragraphs(lines) {
  const found = [];
  let isOpen = false;
  for (const line of lines) {
    const text = line.trim().replace(/^#+ ?/, "");
    if (text && isOpen) {
      found[found.length - 1] += " " + text;
    } else if (text) {
      found.push(text);
    }
    isOpen = text !== "";
  }
  return found;
}
