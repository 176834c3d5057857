// Sizes of the picture that several of its parts use, in pixels.

export const SLOT = 19;
// Where the words of a directive begin, after the line's number; and how far the first column is from the edge at least.
export const HEAD_LEFT = 50;
export const NARROW_HEAD_LEFT = 34;
export const LEAST_LEFT = 168;
export const HALF_BAND = 5;
// From the middle of a band to its texts, and how much of the gap stays free after a text.
export const BESIDE = HALF_BAND + 5;
export const FREE = 10;
// What an arrow needs from the end of its label to the next band.
export const ARROW = 22;
// How far the lines of a mark are apart.
export const LINE_STEP = 14;
