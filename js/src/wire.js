/** Reads frames: the kinds, the fields of a body, and their tests in order. */

import { numberAt } from "./bytes.js";
import { LONGEST, compare, compareAt } from "./items.js";
import { require } from "./refused.js";

/** The most bytes of a frame's body. */
export const LONGEST_BODY = 8_388_608;
/** The most parts of a message. */
export const MOST_PARTS = 131_072;
export const SUM = 1;
export const LIST = 2;
export const ANSWER = 3;
export const END = 4;
export const FAULT = 5;
/** The length byte of an upper bound that is the end. */
export const NO_UPPER = 0xff;

/**
 * A part that was read. Its bytes are those of the body: what is kept of it is to be copied. The upper bound null is
 * the end. What its kind does not have is empty.
 * @typedef {object} Part
 * @property {number} kind
 * @property {Uint8Array} lower
 * @property {Uint8Array | null} upper
 * @property {Uint8Array} fingerprint as it is written
 * @property {Marks} marks
 * @property {Listed} items
 */

/** @typedef {{ kind: number, number: number }} Other the end of a message, or a fault and its number */

/** The marks of an Answer. */
export class Marks {
    /** @param {number} count @param {Uint8Array} bits */
    constructor(count, bits) {
        this.count = count;
        this.bits = bits;
    }

    /** Whether a mark is set.
     * @param {number} place from 0 */
    isSet(place) {
        return ((this.bits[place >> 3] >> (place & 7)) & 1) === 1;
    }
}

/** The items of a part, as they lie in its body: no object is made for each. */
export class Listed {
    /** @param {Uint8Array} body @param {number} from @param {number} count */
    constructor(body, from, count) {
        this.body = body;
        this.from = from;
        this.count = count;
    }

    cursor() {
        return new Cursor(this);
    }
}

/** A walk over listed items. */
export class Cursor {
    /** @param {Listed} listed */
    constructor({ body, from, count }) {
        this.body = body;
        this.left = count;
        /** Where the item that is looked at begins, and how many bytes it has. */
        this.at = from;
        this.length = 0;
        this.step();
    }

    /** Goes on to the next item; `left` counts the one that is looked at. */
    step() {
        this.at += this.length;
        if (this.left > 0) this.length = this.body[this.at++];
    }

    next() {
        this.left -= 1;
        this.step();
    }

    /** Below 0, 0 or above 0, as the item is before, equal to or after another one.
     * @param {Uint8Array} item */
    compare(item) {
        return compareAt(this.body, this.at, this.length, item, 0, item.length);
    }

    /** The item, in the memory of the body. */
    item() {
        return this.body.subarray(this.at, this.at + this.length);
    }
}

const NOTHING = new Uint8Array(0);
const NO_MARKS = new Marks(0, NOTHING);
const NO_ITEMS = new Listed(NOTHING, 0, 0);

/** What is left of a frame's body. */
class Body {
    /** @param {Uint8Array} bytes */
    constructor(bytes) {
        this.bytes = bytes;
        this.at = 0;
    }

    /** @param {number} count */
    take(count) {
        require(this.bytes.length - this.at >= count, 2);
        this.at += count;
        return this.bytes.subarray(this.at - count, this.at);
    }

    byte() {
        require(this.at < this.bytes.length, 2);
        return this.bytes[this.at++];
    }

    number() {
        return numberAt(this.take(4), 0);
    }

    lower() {
        const length = this.byte();
        require(length <= LONGEST, 5);
        return this.take(length);
    }

    upper() {
        const length = this.byte();
        if (length === NO_UPPER) return null;
        require(length >= 1 && length <= LONGEST, 5);
        return this.take(length);
    }

    marks() {
        const count = this.number();
        const marks = new Marks(count, this.take(Math.ceil(count / 8)));
        for (let place = count; place < 8 * marks.bits.length; place++) require(!marks.isSet(place), 10);
        return marks;
    }

    /** @param {Uint8Array} lower @param {Uint8Array | null} upper */
    items(lower, upper) {
        const count = this.number();
        const listed = new Listed(this.bytes, this.at, count);
        let before = 0;
        let beforeLength = 0;
        for (let place = 0; place < count; place++) {
            const length = this.byte();
            require(length >= 1 && length <= LONGEST, 7);
            const at = this.at;
            this.take(length);
            require(place === 0 || compareAt(this.bytes, before, beforeLength, this.bytes, at, length) < 0, 8);
            require(compareAt(this.bytes, at, length, lower, 0, lower.length) >= 0, 9);
            require(upper === null || compareAt(this.bytes, at, length, upper, 0, upper.length) < 0, 9);
            before = at;
            beforeLength = length;
        }
        return listed;
    }
}

/**
 * The part of a body. Throws Refused 2 and 5 to 11.
 * @param {Body} body
 * @param {number} kind
 * @param {number} size how many bytes a fingerprint has
 * @returns {Part}
 */
function readPart(body, kind, size) {
    const lower = body.lower();
    const upper = body.upper();
    require(upper === null || compare(lower, upper) < 0, 6);
    const fingerprint = kind === SUM ? body.take(size) : NOTHING;
    const marks = kind === ANSWER ? body.marks() : NO_MARKS;
    const items = kind === SUM ? NO_ITEMS : body.items(lower, upper);
    return { kind, lower, upper, fingerprint, marks, items };
}

/**
 * What a frame's body says: a part, the end of a message, or a fault. Throws Refused 2 and 4 to 11, as the first field
 * that is wrong says.
 * @param {Uint8Array} bytes 1 or more
 * @param {number} size how many bytes a fingerprint has
 * @param {boolean} inSession whether a fault may come
 * @returns {Part | Other}
 */
export function readBody(bytes, size, inSession = true) {
    const body = new Body(bytes);
    const kind = body.byte();
    require(kind >= SUM && kind <= (inSession ? FAULT : END), 4);
    let read;
    if (kind === FAULT) read = { kind, number: body.byte() };
    else if (kind === END) read = { kind, number: 0 };
    else read = readPart(body, kind, size);
    require(body.at === bytes.length, 11);
    return read;
}

/**
 * Whether what was read is a part.
 * @param {Part | Other} read
 * @returns {read is Part}
 */
export function isPart(read) {
    return read.kind < END;
}

/**
 * The length of a body. Throws Refused 2 for one that no body has.
 * @param {Uint8Array} bytes the four bytes in front of it
 */
export function bodyLength(bytes) {
    const length = numberAt(bytes, 0);
    require(length >= 1 && length <= LONGEST_BODY, 2);
    return length;
}
