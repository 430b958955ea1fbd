/** Items and bounds: byte strings in the order of their bytes. An upper bound is null for the end. */

import { Refused } from "./refused.js";

/** The most bytes of an item or a bound. */
export const LONGEST = 64;

/** The empty lower bound, which is before every item. */
export const START = new Uint8Array(0);

/** @typedef {{ lower: Uint8Array, upper: Uint8Array | null }} Range */

/** @type {Range} The range of all items. */
export const ALL = { lower: START, upper: null };

/**
 * Whether a value is a Uint8Array, of another window too; a Buffer of Node is one.
 * @param {unknown} value
 * @returns {value is Uint8Array}
 */
export function isBytes(value) {
    return ArrayBuffer.isView(value) && /** @type {any} */ (value)[Symbol.toStringTag] === "Uint8Array";
}

/**
 * The bytes as they were given. Throws TypeError for anything else.
 * @param {unknown} value
 * @returns {Uint8Array}
 */
export function bytesOf(value) {
    if (isBytes(value)) return value;
    throw new TypeError("bytes are to be a Uint8Array; new TextEncoder().encode(text) makes them of a text");
}

/**
 * An item as it was given. Throws TypeError where it is no Uint8Array, Refused 71 where it has no byte, and 72 where it
 * has more than 64.
 * @param {unknown} value
 * @returns {Uint8Array}
 */
export function itemOf(value) {
    const item = bytesOf(value);
    if (item.length === 0) throw new Refused(71);
    if (item.length > LONGEST) throw new Refused(72, { length: item.length });
    return item;
}

/** @param {unknown} value */
function boundOf(value) {
    const bound = bytesOf(value);
    if (bound.length > LONGEST) throw new Refused(72, { length: bound.length });
    return bound;
}

/**
 * The range of two bounds that were given, of which either may be missing. Throws TypeError where one is no Uint8Array,
 * Refused 72 where it has more than 64 bytes, and 73 if the lower one is not below the upper.
 * @param {unknown} [lower]
 * @param {unknown} [upper]
 * @returns {Range}
 */
export function rangeOf(lower = START, upper = undefined) {
    const range = { lower: boundOf(lower), upper: upper === undefined ? null : boundOf(upper) };
    if (range.upper !== null && compare(range.lower, range.upper) >= 0) throw new Refused(73);
    return range;
}

/**
 * Whether a range is that of all items.
 * @param {Range} range
 */
export function isAll({ lower, upper }) {
    return lower.length === 0 && upper === null;
}

/**
 * Below 0, 0 or above 0, as the first string is before, equal to or after the second. Each lies in an array, from a
 * place on.
 * @param {Uint8Array} one
 * @param {number} oneAt
 * @param {number} oneLength
 * @param {Uint8Array} other
 * @param {number} otherAt
 * @param {number} otherLength
 */
export function compareAt(one, oneAt, oneLength, other, otherAt, otherLength) {
    const shorter = oneLength < otherLength ? oneLength : otherLength;
    for (let place = 0; place < shorter; place++) {
        const difference = one[oneAt + place] - other[otherAt + place];
        if (difference !== 0) return difference;
    }
    return oneLength - otherLength;
}

/**
 * Below 0, 0 or above 0, as the first string is before, equal to or after the second.
 * @param {Uint8Array} one
 * @param {Uint8Array} other
 */
export function compare(one, other) {
    return compareAt(one, 0, one.length, other, 0, other.length);
}

/**
 * Whether two upper bounds are the same.
 * @param {Uint8Array | null} one
 * @param {Uint8Array | null} other
 */
export function isSameUpper(one, other) {
    return one === null || other === null ? one === other : compare(one, other) === 0;
}

/**
 * Whether an upper bound is at or after another one.
 * @param {Uint8Array | null} one
 * @param {Uint8Array | null} other
 */
export function isUpperAtLeast(one, other) {
    return one === null || (other !== null && compare(one, other) >= 0);
}

/**
 * The shortest beginning of an item that is above the item before it.
 * @param {Uint8Array} before
 * @param {Uint8Array} item
 */
export function shortBound(before, item) {
    let alike = 0;
    while (alike < before.length && before[alike] === item[alike]) alike++;
    return item.subarray(0, alike + 1);
}

/**
 * The items rising, each once. It sorts the array that it is given.
 * @param {Uint8Array[]} items
 */
export function rising(items) {
    items.sort(compare);
    return items.filter((item, place) => place === 0 || compare(items[place - 1], item) !== 0);
}
