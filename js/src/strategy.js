/** Strategies: which ranges are listed, how the others are cut, and whether sessions under it end. */

import { Refused } from "./refused.js";
import { SHIPPED } from "./shipped.js";
import { NotToml, readToml } from "./toml.js";
import { readTable } from "./strategy_text.js";

/** @typedef {import("./strategy_text.js").Table} Table */
/** @typedef {import("./strategy_text.js").Row} Row */

/**
 * The places at which the parts of a range begin, but that of the first one, as a row splits so many items.
 * @param {Row} row one that does not list
 * @param {number} count
 */
export function cutsOf(row, count) {
    if ("peel" in row) return count > row.peel ? [row.peel] : [];
    /** @type {number[]} */
    const cuts = [];
    if ("list" in row) return cuts;
    const { fronts } = row;
    const whole = fronts[fronts.length - 1];
    for (const front of fronts) {
        // The product is 2^32 at most, which a number holds.
        const cut = Math.floor((count * front) / whole);
        if (cut > (cuts.at(-1) ?? 0) && cut < count) cuts.push(cut);
    }
    return cuts;
}

/** The greatest share of so many items: all of them where a row does not split them into two.
 * @param {Row} row one that does not list @param {number} count */
function greatestShare(row, count) {
    if ("peel" in row) return count > row.peel ? Math.max(row.peel, count - row.peel) : count;
    if ("list" in row) return count;
    const { fronts } = row;
    const whole = fronts[fronts.length - 1];
    let greatest = 0;
    let last = 0;
    for (let place = 0; place < fronts.length; place++) {
        const cut = Math.floor((count * fronts[place]) / whole);
        if (cut - last > greatest) greatest = cut - last;
        last = cut;
    }
    return greatest;
}

/**
 * The staircase of the least ranks: entry j is the greatest number of items of a rank of at most j. Throws Refused 36
 * for the least number that is split into fewer than two shares, 38 for the least one whose rank exceeds the rounds.
 * @param {Table} table
 */
function staircaseOf(table) {
    const ranks = new Uint32Array(table.cap + 1);
    /** @type {number[]} */
    const stairs = [];
    let deep = -1;
    let place = 0;
    for (let count = 0; count <= table.cap; count++) {
        if (count > table.rows[place].upto) place++;
        const row = table.rows[place];
        const before = count > 0 ? ranks[count - 1] : 0;
        ranks[count] = before;
        if (!("list" in row)) {
            const share = greatestShare(row, count);
            if (share === count) throw new Refused(36, { count });
            // Ranks do not fall as numbers rise, so no other share has a higher one.
            ranks[count] = Math.max(before, ranks[share] + 1);
        }
        if (deep < 0 && ranks[count] > table.rounds) deep = count;
        stairs[ranks[count]] = count;
    }
    if (deep >= 0) throw new Refused(38, { count: deep, rank: ranks[deep] });
    return stairs;
}

/** An accepted strategy. */
export class Strategy {
    /** @type {Table} */
    #table;
    /** @type {number[]} */
    #stairs;

    /** @param {Table} table */
    constructor(table) {
        const long = table.rows.find((row) => "list" in row && row.upto > table.limit);
        if (long !== undefined) throw new Refused(37, { upto: long.upto });
        this.#table = table;
        this.#stairs = staircaseOf(table);
    }

    /**
     * The strategy of a text in TOML, as a file of examples has it. Throws Refused 28 to 38.
     * @param {string | Uint8Array} text
     */
    static parse(text) {
        let read;
        try {
            read = readToml(text);
        } catch (fault) {
            if (fault instanceof NotToml) throw new Refused(30);
            throw fault;
        }
        return new Strategy(readTable(read));
    }

    /**
     * The strategy of an object with the same keys: `JSON.parse(text)` gives one. Throws Refused 28, 29 and 31 to 38, and
     * TypeError where it is no object.
     * @param {unknown} value
     */
    static from(value) {
        return new Strategy(readTable(value));
    }

    /**
     * A shipped strategy: `all-round`, `few-bytes`, `few-rounds`, `newest-last`, `whole-list` or `small`. Throws
     * RangeError for another name.
     * @param {string} [name]
     */
    static named(name = "all-round") {
        if (!Object.hasOwn(SHIPPED, name)) {
            throw new RangeError(`no strategy ${name}; there are ${Object.keys(SHIPPED).join(", ")}`);
        }
        return Strategy.from(SHIPPED[name]);
    }

    /** The most items of a set under it. */
    get cap() {
        return this.#table.cap;
    }

    /** The most items of a List under it. */
    get limit() {
        return this.#table.limit;
    }

    /** Whether the bounds between parts are short. */
    get hasShortBounds() {
        return this.#table.bounds === "short";
    }

    /** Entry j is the greatest number of items that is cut at most j times before it is listed. */
    get steps() {
        return this.#stairs.slice();
    }

    /** How often a range of so many items is cut at most.
     * @param {number} count 0 to the cap */
    rank(count) {
        return this.#stairs.findIndex((most) => count <= most);
    }

    /** Where so many items are cut: null if they are listed.
     * @param {number} count 0 to the cap */
    cuts(count) {
        const row = /** @type {Row} */ (this.#table.rows.find(({ upto }) => count <= upto));
        return "list" in row ? null : cutsOf(row, count);
    }
}
