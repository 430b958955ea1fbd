/**
 * The two lanes of a fingerprint: eight words of 32 bits, the highest of each lane first, at some place of an array. No
 * carry passes from one lane to the other.
 */

/** How many words both lanes have. */
export const LANE_WORDS = 8;
const LANE = 4;

/** Adds the words of a lane to another, modulo 2^128. An element of the array keeps the lowest 32 bits.
 * @param {Uint32Array} sum @param {number} at @param {Uint32Array} other @param {number} from */
function addLane(sum, at, other, from) {
    let word = sum[at + 3] + other[from + 3];
    sum[at + 3] = word;
    word = sum[at + 2] + other[from + 2] + carryOf(word);
    sum[at + 2] = word;
    word = sum[at + 1] + other[from + 1] + carryOf(word);
    sum[at + 1] = word;
    sum[at] += other[from] + carryOf(word);
}

/** @param {number} word below 2^33 */
function carryOf(word) {
    return word > 0xffffffff ? 1 : 0;
}

/** Takes the words of a lane off another, modulo 2^128.
 * @param {Uint32Array} sum @param {number} at @param {Uint32Array} other @param {number} from */
function subtractLane(sum, at, other, from) {
    let borrow = 0;
    for (let place = LANE - 1; place >= 0; place--) {
        const word = sum[at + place] - other[from + place] - borrow;
        sum[at + place] = word;
        borrow = word < 0 ? 1 : 0;
    }
}

/**
 * Adds lanes to those at a place.
 * @param {Uint32Array} sum
 * @param {number} at
 * @param {Uint32Array} other
 * @param {number} from
 */
export function addAt(sum, at, other, from) {
    addLane(sum, at, other, from);
    addLane(sum, at + LANE, other, from + LANE);
}

/**
 * Takes lanes off those at a place.
 * @param {Uint32Array} sum
 * @param {number} at
 * @param {Uint32Array} other
 * @param {number} from
 */
export function subtractAt(sum, at, other, from) {
    subtractLane(sum, at, other, from);
    subtractLane(sum, at + LANE, other, from + LANE);
}
