/** Numbers, items, tables and cuts by chance. The variable SEED gives the same ones again. */

import { Refused, Strategy } from "../index.js";

/** Those of the items that are in a part. */
export function within(items, { from, to }) {
    const isIn = (item) => !(from && Buffer.compare(item, from) < 0) && !(to && Buffer.compare(item, to) >= 0);
    return items.filter(isIn);
}

/** The seed of a file of tests, which it prints. */
export function seedOf(name) {
    const seed = Number(process.env.SEED ?? Date.now() % 2 ** 31);
    console.log(`# ${name}: SEED=${seed}`);
    return seed;
}

/** A source of chance (mulberry32). */
export class Chance {
    constructor(seed) {
        this.state = seed >>> 0;
    }

    /** A whole number from 0 on and below `most`. */
    below(most) {
        this.state = (this.state + 0x6d2b79f5) >>> 0;
        let mixed = Math.imul(this.state ^ (this.state >>> 15), this.state | 1);
        mixed ^= mixed + Math.imul(mixed ^ (mixed >>> 7), mixed | 61);
        return Math.floor((((mixed ^ (mixed >>> 14)) >>> 0) / 2 ** 32) * most);
    }

    between(least, most) {
        return least + this.below(most - least + 1);
    }

    of(list) {
        return list[this.below(list.length)];
    }

    bytes(length, kinds = 256) {
        return Uint8Array.from({ length }, () => this.below(kinds));
    }

    /** An item: of a few short ones that are alike, or any. */
    item() {
        const isShort = this.below(2) === 0;
        return isShort ? this.bytes(this.between(1, 4), 3) : this.bytes(this.between(1, 64));
    }

    /** Up to so many items. */
    items(most) {
        return Array.from({ length: this.below(most + 1) }, () => this.item());
    }

    /** The bounds of a part, of which either may be missing: items of these, or others. */
    part(items) {
        const bound = () => (items.length > 0 && this.below(2) === 0 ? this.of(items) : this.item());
        const [from, to] = [bound(), bound()].sort(Buffer.compare);
        const kind = this.below(3);
        if (kind === 0) return { from };
        return kind === 1 || Buffer.compare(from, to) === 0 ? { to } : { from, to };
    }

    /** An accepted strategy for sets of this cap. */
    strategy(cap) {
        for (;;) {
            try {
                return { given: this.table(cap), strategy: Strategy.from(this.last) };
            } catch (fault) {
                if (!(fault instanceof Refused)) throw fault;
            }
        }
    }

    /** A table that may not be accepted. */
    table(cap) {
        const limit = this.between(1, Math.min(cap, 40));
        const row = [];
        for (let upto = this.between(0, limit); upto < cap; upto += this.between(1, cap)) {
            row.push(this.row(upto, row.length));
        }
        row.push(this.row(cap, row.length));
        this.last = { cap, limit, rounds: 255, bounds: this.of(["items", "short"]), row };
        return this.last;
    }

    row(upto, place) {
        if (place === 0 || this.below(8) === 0) return { upto, list: true };
        if (this.below(8) === 0) return { upto, peel: this.between(1, 5) };
        return { upto, split: Array.from({ length: this.between(2, 9) }, () => this.between(1, 4)) };
    }

    /** Bytes in pieces of lengths by chance. */
    *pieces(bytes) {
        const most = this.of([1, 7, 100, 5000]);
        for (let at = 0; at < bytes.length; ) {
            const length = this.between(1, most);
            yield bytes.subarray(at, at + length);
            at += length;
        }
    }
}
