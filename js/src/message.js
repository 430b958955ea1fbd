/** Writes a message, part by part. */

import { Text } from "./bytes.js";
import { ANSWER, END, FAULT, LIST, LONGEST_BODY, MOST_PARTS, NO_UPPER, SUM } from "./wire.js";
import { require } from "./refused.js";

/**
 * An open part of a message that was written. Of a List `from` and `to` are the places of its items in the set.
 * @typedef {{ kind: number, lower: Uint8Array, upper: Uint8Array | null, from: number, to: number }} Open
 */

/** A message that is being made. */
export class Message {
    #text = new Text();
    #parts = 0;
    #begun = 0;
    /** @type {Open[]} Its open parts. */
    open = [];

    /** Whether it has more parts than a message can have. Then it is not written any more. */
    get isTooLong() {
        return this.#parts > MOST_PARTS;
    }

    /** @param {number} kind @param {Uint8Array} lower @param {Uint8Array | null} upper */
    #begin(kind, lower, upper) {
        this.#begun = this.#text.length;
        this.#text.number(0);
        this.#text.byte(kind);
        this.#text.short(lower);
        if (upper === null) this.#text.byte(NO_UPPER);
        else this.#text.short(upper);
    }

    #finish() {
        const length = this.#text.length - this.#begun - 4;
        require(length <= LONGEST_BODY, 2);
        this.#text.setNumber(this.#begun, length);
    }

    /** Counts a part; whether it is still to be written. */
    #counts() {
        this.#parts += 1;
        return !this.isTooLong;
    }

    /** @param {Uint8Array} lower @param {Uint8Array | null} upper @param {Uint8Array} fingerprint */
    sum(lower, upper, fingerprint) {
        if (!this.#counts()) return;
        this.#begin(SUM, lower, upper);
        this.#text.bytes(fingerprint);
        this.#finish();
        this.open.push({ kind: SUM, lower, upper, from: 0, to: 0 });
    }

    /** @param {Uint8Array} lower @param {Uint8Array | null} upper
     * @param {number} from @param {number} to @param {Iterable<Uint8Array>} items those between the two places */
    list(lower, upper, from, to, items) {
        if (!this.#counts()) return;
        this.#begin(LIST, lower, upper);
        this.#text.number(to - from);
        for (const item of items) this.#text.short(item);
        this.#finish();
        this.open.push({ kind: LIST, lower, upper, from, to });
    }

    /** @param {Uint8Array} lower @param {Uint8Array | null} upper
     * @param {number} count of marks @param {Uint8Array} bits @param {Uint8Array[]} items */
    answer(lower, upper, count, bits, items) {
        if (!this.#counts()) return;
        this.#begin(ANSWER, lower, upper);
        this.#text.number(count);
        this.#text.bytes(bits);
        this.#text.number(items.length);
        for (const item of items) this.#text.short(item);
        this.#finish();
    }

    /** All of its bytes, with its end. Nothing is added to it afterwards. */
    written() {
        this.#text.number(1);
        this.#text.byte(END);
        return this.#text.written();
    }
}

/**
 * A fault frame.
 * @param {number} number 0 to 255
 */
export function faultText(number) {
    return new Uint8Array([0, 0, 0, 2, FAULT, number]);
}
