/** Which parts may follow a message, part by part (docs/PROTOCOL.md, *Placing*). */

import { compare, isSameUpper, isUpperAtLeast } from "./items.js";
import { Refused, require } from "./refused.js";
import { ANSWER, LIST, SUM } from "./wire.js";

/** @typedef {import("./wire.js").Part} Part */
/** @typedef {import("./message.js").Open} Open */

/** @param {Part} part @param {Open} open */
function isSameRange(part, open) {
    return compare(part.lower, open.lower) === 0 && isSameUpper(part.upper, open.upper);
}

/** The place of the parts of a first message. */
export class Opening {
    #hasCome = false;

    /** Takes the next part. Throws Refused 20.
     * @param {Part} part @returns {null} no part of ours is answered */
    next(part) {
        require(!this.#hasCome && part.kind === SUM && part.lower.length === 0 && part.upper === null, 20);
        this.#hasCome = true;
        return null;
    }

    /** Takes the end of the message. Throws Refused 20. */
    finish() {
        require(this.#hasCome, 20);
    }
}

/** The place of the parts of a message that answers one of ours. */
export class Place {
    #open;
    #cursor = 0;
    /**
     * Inside a partition: where it has come to, and where it ends.
     * @type {{ come: Uint8Array, end: Uint8Array | null } | null}
     */
    #inside = null;

    /** @param {Open[]} open the open parts of our message */
    constructor(open) {
        this.#open = open;
    }

    /** Takes the next part; the List of ours that it answers, if it does. Throws Refused 20 to 24.
     * @param {Part} part @returns {Open | null} */
    next(part) {
        if (this.#inside !== null) return this.#goesOn(part, this.#inside);
        for (; this.#cursor < this.#open.length; this.#cursor++) {
            const open = this.#open[this.#cursor];
            if (open.kind === LIST) return this.#answers(part, open);
            if (part.kind === LIST && isSameRange(part, open)) return this.#placed();
            if (part.kind === SUM && compare(part.lower, open.lower) === 0) return this.#begins(part, open);
        }
        throw new Refused(20);
    }

    /** Takes the end of the message. Throws Refused 22, 23. */
    finish() {
        require(this.#inside === null, 22);
        for (; this.#cursor < this.#open.length; this.#cursor++) require(this.#open[this.#cursor].kind !== LIST, 23);
    }

    #placed() {
        this.#cursor += 1;
        return null;
    }

    /** @param {Part} part @param {{ come: Uint8Array, end: Uint8Array | null }} inside */
    #goesOn(part, { come, end }) {
        require(part.kind === SUM && compare(part.lower, come) === 0 && isUpperAtLeast(end, part.upper), 22);
        const isWhole = isSameUpper(part.upper, end);
        this.#inside = isWhole || part.upper === null ? null : { come: part.upper.slice(), end };
        return null;
    }

    /** @param {Part} part @param {Open} open */
    #answers(part, open) {
        require(part.kind === ANSWER, 23);
        require(isSameRange(part, open), 20);
        require(part.marks.count === open.to - open.from, 24);
        this.#cursor += 1;
        return open;
    }

    /** @param {Part} part @param {Open} open */
    #begins(part, { upper }) {
        require(!isSameUpper(part.upper, upper), 21);
        if (part.upper === null || !isUpperAtLeast(upper, part.upper)) throw new Refused(20);
        this.#inside = { come: part.upper.slice(), end: upper };
        return this.#placed();
    }
}
