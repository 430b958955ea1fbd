/** Selectors: the bytes before an initiator's hello that say which set it speaks of, and which part of it. */

import { Gathered, Text } from "./bytes.js";
import { ALL, LONGEST, START, bytesOf, compare, isAll } from "./items.js";
import { HELLO, isSame } from "./profiles.js";
import { Refused, require } from "./refused.js";

/** The number that stands for the directory. */
export const DIRECTORY = 0xffff;
/** The most bits by which a set is cut into shards. */
export const MOST_BITS = 12;
const MOST_NAME = 64;
/** How many bytes a mark has. */
const MARK = 4;

/** @typedef {import("./items.js").Range} Range */

/**
 * A kind of selector: the four bytes that it begins with, and how many bytes stand behind the bytes of each length.
 * @typedef {{ mark: Uint8Array, behind: number[] }} Kind
 */

/** @type {Kind} One that says all items. */
const WHOLE = { mark: new TextEncoder().encode("RRSN"), behind: [3] };
/** @type {Kind} One that says the items of a range. */
const PART = { mark: new TextEncoder().encode("RRSP"), behind: [3, 0, 0] };

/** @param {Uint8Array} came @param {Kind} kind */
function isOfKind(came, { mark }) {
    return isSame(came.subarray(0, MARK), mark);
}

/**
 * Whether what came begins with a selector of a part.
 * @param {Uint8Array} came
 */
export function asksForPart(came) {
    return isOfKind(came, PART);
}

/** Reads what came, field by field. */
class Fields {
    #came;
    #at = 0;

    /** @param {Uint8Array} came */
    constructor(came) {
        this.#came = came;
    }

    /** Throws Refused 3.
     * @param {number} count */
    take(count) {
        require(this.#came.length - this.#at >= count, 3);
        this.#at += count;
        return this.#came.subarray(this.#at - count, this.#at);
    }

    /** A bound. Throws Refused 3, 55. */
    bound() {
        const [length] = this.take(1);
        require(length <= LONGEST, 55);
        return this.take(length);
    }

    /** The bounds of a part. Throws Refused 3, 55.
     * @returns {Range} */
    range() {
        const lower = this.bound();
        const upper = this.bound();
        require(upper.length === 0 ? lower.length > 0 : compare(lower, upper) < 0, 55);
        return { lower, upper: upper.length === 0 ? null : upper };
    }
}

/** The name of a set, and by how many bits it is cut. */
export class SetName {
    /**
     * Throws RangeError for bits that are not 0 to 12, or a name of more than 64 bytes.
     * @param {string | Uint8Array} [name] a text is taken in UTF-8
     * @param {number} [bits]
     */
    constructor(name = "", bits = 0) {
        const bytes = typeof name === "string" ? new TextEncoder().encode(name) : bytesOf(name).slice();
        if (!Number.isInteger(bits) || bits < 0 || bits > MOST_BITS) {
            throw new RangeError(`bits is to be 0 to ${MOST_BITS}`);
        }
        if (bytes.length > MOST_NAME) throw new RangeError(`a name is to have at most ${MOST_NAME} bytes`);
        this.name = bytes;
        this.bits = bits;
    }

    /** A selector up to its number.
     * @param {Kind} kind */
    #front({ mark }) {
        const text = new Text();
        text.bytes(mark);
        text.short(this.name);
        text.byte(this.bits);
        return text;
    }

    /** The selector of a shard, or of the directory, in a range.
     * @param {number} number @param {Range} range */
    selector(number, range) {
        const text = this.#front(isAll(range) ? WHOLE : PART);
        text.byte(number >> 8);
        text.byte(number & 0xff);
        if (!isAll(range)) {
            text.short(range.lower);
            text.short(range.upper ?? START);
        }
        return text.written();
    }

    /**
     * The number and the range that what came up to the hello, or to the end, selects. Throws Refused 1, 3, 55.
     * @param {Uint8Array} came
     * @param {(number: number) => boolean} keeps whether a shard of this number is kept
     * @returns {{ number: number, range: Range }}
     */
    selected(came, keeps = (number) => number < 2 ** this.bits) {
        const isPart = asksForPart(came);
        const fields = new Fields(came);
        for (const [place, byte] of this.#front(isPart ? PART : WHOLE).written().entries()) {
            require(fields.take(1)[0] === byte, place < MARK ? 1 : 55);
        }
        const [high, low] = fields.take(2);
        const number = high * 256 + low;
        require(keeps(number) || (number === DIRECTORY && this.bits > 0), 55);
        return { number, range: isPart ? fields.range() : ALL };
    }
}

/**
 * Takes a selector off the front of a peer's bytes, whatever set it names, and the hello after it. Of a set that has
 * neither a name nor shards it is to be one of a part: all else is a hello there.
 */
export class Front {
    #kinds;
    #bytes = new Gathered(HELLO);

    /** @param {boolean} isPlain whether the set has neither a name nor shards */
    constructor(isPlain) {
        this.#kinds = isPlain ? [PART] : [WHOLE, PART];
    }

    /** How many bytes are still to come, as far as is known. */
    get missing() {
        return this.#bytes.missing;
    }

    /** Takes bytes, at most as many as are missing.
     * @param {Uint8Array} bytes */
    take(bytes) {
        this.#bytes.take(bytes);
        if (this.missing === 0) this.#bytes.want(this.length + HELLO);
    }

    /** How many bytes are taken off: of a selector of which a length has not come, those up to that one. */
    get length() {
        const came = this.came;
        const kind = this.#kinds.find((each) => isOfKind(came, each));
        if (kind === undefined) return 0;
        let at = MARK;
        for (const behind of kind.behind) {
            const length = came[at++];
            // No name and no bound is longer: nothing more is taken off.
            if (length === undefined || length > LONGEST) return at;
            at += length + behind;
        }
        return at;
    }

    /** All that has come. */
    get came() {
        return this.#bytes.came;
    }

    /** The hello, or a beginning of it. */
    get hello() {
        return this.came.subarray(this.length);
    }
}
