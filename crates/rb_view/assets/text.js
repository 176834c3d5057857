// Bytes as text that people can read, spelled as `raftbench check` spells them (docs/USING.md).

const utf8 = new TextDecoder("utf-8", { fatal: true, ignoreBOM: true });
const printable = /^[\t\n -~]*$/;
// Control characters but tabs, ends of lines, and marks that turn the direction of text: a script that has one is shown by numbers.
const acting = /[\u0000-\u0008\u000a-\u001f\u007f-\u009f\u061c\u200e\u200f\u2028-\u202e\u2066-\u2069\ufeff]/;
// Other characters that nobody would see.
const unseen = /[\u00ad\u200b-\u200d\u2060-\u2065\u206a-\u206f]/g;

let isByNumber = false;

/**
 * The text that bytes are in UTF-8, one character a byte; or null.
 * @param {string} bytes
 */
function decoded(bytes) {
  try {
    return utf8.decode(Uint8Array.from(bytes, (letter) => letter.charCodeAt(0)));
  } catch {
    return null;
  }
}

/**
 * Whether a text acts, or isn't UTF-8.
 * @param {string} bytes
 */
function isHarmful(bytes) {
  const text = printable.test(bytes) ? bytes : decoded(bytes);
  return text === null || acting.test(text);
}

/**
 * Writes all bytes but printable ASCII and tabs as `\xNN`, backslashes too.
 * @param {string} bytes
 */
const byNumber = (bytes) => bytes.replace(/[^\t -\[\]-~]/g, (byte) => "\\x" + byte.charCodeAt(0).toString(16).padStart(2, "0"));

/**
 * Decides how all texts of a page are shown: by numbers if its script or its name has something that acts.
 * @param {string} script
 * @param {string} name
 */
export function spellFor(script, name) {
  isByNumber = isHarmful(name) || (!printable.test(script) && script.split("\n").some((line) => isHarmful(line.replace(/\r+$/, ""))));
}

/**
 * A line of the script or of an output, which has a character a byte.
 * @param {string} cell
 */
export function shown(cell) {
  const text = isByNumber ? null : printable.test(cell) ? cell : decoded(cell);
  return text === null ? byNumber(cell) : text.replace(unseen, (letter) => byNumber(String.fromCharCode(...new TextEncoder().encode(letter))));
}

/**
 * A body, a configuration or a content: as it is if it is printable, since outputs have it so.
 * @param {string} cell
 */
export const shownBody = (cell) => (printable.test(cell) ? cell : shown(cell));

/**
 * Cuts a text to at most `most` UTF-16 units, without cutting a surrogate pair in half.
 * @param {string} text
 * @param {number} most
 */
export function beginning(text, most) {
  const isCut = /[\ud800-\udbff]/.test(text.charAt(most - 1));
  return text.slice(0, isCut ? most - 1 : most);
}

/**
 * Joins a count with its noun.
 * @param {number} count
 * @param {string} one
 * @param {string} many
 */
export function counted(count, one, many) {
  return `${count} ${count === 1 ? one : many}`;
}
