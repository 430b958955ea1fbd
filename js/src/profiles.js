/**
 * The wire profiles: what differs between them is the hello, and how a fingerprint is written. Another profile of this
 * kind is one more entry.
 */

import { Refused } from "./refused.js";
import { LANE_WORDS } from "./lanes.js";

/** How many bytes a hello has. */
export const HELLO = 4;

/** @param {string} text of ASCII */
const ascii = (text) => new TextEncoder().encode(text);

/**
 * @typedef {object} Profile
 * @property {number} number
 * @property {Uint8Array} hello
 * @property {number} size how many bytes a fingerprint has
 * @property {boolean} counts whether a count of 4 bytes stands before the lanes
 */

/** @type {Profile[]} */
export const PROFILES = [
    { number: 1, hello: ascii("RRS1"), size: 32, counts: false },
    { number: 2, hello: ascii("RRS2"), size: 36, counts: true },
];

/**
 * The profile of a number. Throws Refused 98 where there is none.
 * @param {number} number
 * @returns {Profile}
 */
export function profileOf(number) {
    const found = PROFILES.find((profile) => profile.number === number);
    if (found === undefined) throw new Refused(98, { profile: number });
    return found;
}

/**
 * The profile whose hello these four bytes are, of those that are spoken.
 * @param {Profile[]} spoken
 * @param {Uint8Array} bytes
 */
export function profileOfHello(spoken, bytes) {
    return spoken.find((profile) => isSame(profile.hello, bytes));
}

/**
 * Whether two byte strings are equal.
 * @param {Uint8Array} one
 * @param {Uint8Array} other
 */
export function isSame(one, other) {
    let place = 0;
    while (place < one.length && one[place] === other[place]) place++;
    return place === one.length && place === other.length;
}

/**
 * A fingerprint as it is written.
 * @param {Profile} profile
 * @param {number} count
 * @param {Uint32Array} lanes
 */
export function fingerprintText(profile, count, lanes) {
    const text = new DataView(new ArrayBuffer(profile.size));
    const lanesAt = profile.size - 4 * LANE_WORDS;
    // A number of four bytes is written modulo 2^32.
    if (profile.counts) text.setUint32(0, count);
    for (let place = 0; place < LANE_WORDS; place++) text.setUint32(lanesAt + 4 * place, lanes[place]);
    return new Uint8Array(text.buffer);
}
