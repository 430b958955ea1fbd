/** The directory of a set in shards: the entries of its shards, and what a peer may send as its own. */

import { Text, numberAt } from "./bytes.js";
import { LANE_WORDS } from "./lanes.js";
import { Refused } from "./refused.js";
import { digestInto } from "./sha256.js";

const ENTRY = 38;
const MOST_COUNT = 65_536;
const digest = new Uint32Array(LANE_WORDS);

/**
 * The number of the shard that an item is in, of 2 ** bits: the first bits of its digest.
 * @param {Uint8Array} item
 * @param {number} bits 0 to 12
 */
export function shardOf(item, bits) {
    digestInto(item, digest);
    // A shift by 32 bits is none in JavaScript.
    return bits === 0 ? 0 : digest[0] >>> (32 - bits);
}

/**
 * The entry of a shard.
 * @param {number} number
 * @param {import("./tree.js").View} view
 */
export function entryOf(number, view) {
    const text = new Text();
    text.byte(number >> 8);
    text.byte(number & 0xff);
    text.number(view.count);
    for (const word of view.sumOfFirst(view.count)) text.number(word);
    return text.written().slice();
}

/** Why an item is no entry beside those of these numbers; empty where it is one.
 * @param {Uint8Array} entry @param {number} number @param {number} bits @param {Set<number>} numbers */
function flawOf(entry, number, bits, numbers) {
    if (entry.length !== ENTRY) return `it has ${entry.length} bytes and not ${ENTRY}`;
    if (number >= 2 ** bits) return `it is of shard ${number} and there are ${2 ** bits}`;
    if (numberAt(entry, 2) > MOST_COUNT) return `its shard has more than ${MOST_COUNT} items`;
    return numbers.has(number) ? `shard ${number} has another one` : "";
}

/**
 * The numbers of the shards that entries are of. Throws Refused 57 where one is no entry.
 * @param {Uint8Array[]} entries
 * @param {number} bits
 */
export function numbersOf(entries, bits) {
    /** @type {Set<number>} */
    const numbers = new Set();
    for (const entry of entries) {
        const number = entry[0] * 256 + entry[1];
        const flaw = flawOf(entry, number, bits, numbers);
        if (flaw !== "") throw new Refused(57, { flaw });
        numbers.add(number);
    }
    return numbers;
}
