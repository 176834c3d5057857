// Values that change over time.

/**
 * Counts the numbers of an ascending list that are at most `number`.
 * @param {number[]} numbers
 * @param {number} number
 */
export function firstAbove(numbers, number) {
  let low = 0;
  let high = numbers.length;
  while (low < high) {
    const middle = (low + high) >> 1;
    if (numbers[middle] <= number) {
      low = middle + 1;
    } else {
      high = middle;
    }
  }
  return low;
}

/**
 * A value and the moments at which it changed. A moment is a number that grows with each ready, each delivery and each directive.
 * @template T
 */
export class History {
  constructor() {
    /** @type {number[]} */
    this.moments = [];
    /** @type {T[]} */
    this.values = [];
  }

  /**
   * @param {number} moment
   * @param {T} value
   */
  set(moment, value) {
    const last = this.moments.length - 1;
    if (this.moments[last] === moment) {
      this.values[last] = value;
    } else {
      this.moments.push(moment);
      this.values.push(value);
    }
  }

  /**
   * @param {number} moment
   * @returns {T | undefined}
   */
  at(moment) {
    const past = firstAbove(this.moments, moment);
    return past ? this.values[past - 1] : undefined;
  }

  /**
   * Tells whether the value changed after one moment, and not after another.
   * @param {number} after
   * @param {number} until
   */
  changedWithin(after, until) {
    const past = firstAbove(this.moments, until);
    return past > 0 && this.moments[past - 1] > after;
  }

  /** @returns {T | undefined} */
  last() {
    return this.values[this.values.length - 1];
  }
}
