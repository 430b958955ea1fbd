/** Sets of items under a strategy, and sets as they were. */

import { ALL, isAll, itemOf, rangeOf, rising } from "./items.js";
import { PROFILES, profileOf } from "./profiles.js";
import { Refused } from "./refused.js";
import { Front, SetName, asksForPart } from "./selector.js";
import { MOST_BYTES, Session } from "./session.js";
import { Strategy } from "./strategy.js";
import { Tree } from "./tree.js";

/** @typedef {import("./tree.js").View} View */

/**
 * Options of a session. `profile` is 1 or 2: that of an initiator (1 if it is left out), or the only one of a responder
 * (both if it is left out). `set` is the name of the set, which both sides have to give. Of more than `mostBytes` bytes
 * of the peer the session is refused 3 (33,554,432 if it is left out).
 * @typedef {{ profile?: number, set?: string | Uint8Array, mostBytes?: number }} SessionOptions
 */

/**
 * The part of a set of which a session speaks, which the side that speaks first says: the items at or after `from` and
 * before `to`, each of which may be left out.
 * @typedef {{ from?: Uint8Array, to?: Uint8Array }} PartOptions
 */

/**
 * A session that speaks first.
 * @param {Strategy} strategy
 * @param {import("./session.js").Opened} opened
 * @param {Uint8Array} selector the bytes before its hello
 * @param {SessionOptions} options
 */
export function initiated(strategy, opened, selector, { profile = 1, mostBytes = MOST_BYTES }) {
    return new Session({ strategy, opened, selector, mostBytes, profiles: [profileOf(profile)] });
}

/** The profiles that a responder speaks.
 * @param {number} [profile] */
export function spoken(profile) {
    return profile === undefined ? PROFILES : [profileOf(profile)];
}

/** A set as it was when the version was taken. */
export class Version {
    #strategy;
    #view;

    /** @param {Strategy} strategy @param {View} view */
    constructor(strategy, view) {
        this.#strategy = strategy;
        this.#view = view;
    }

    /** How many items it has. */
    get size() {
        return this.#view.count;
    }

    /**
     * Whether it has an item. Throws Refused 71, 72, and TypeError where it is no Uint8Array.
     * @param {Uint8Array} item
     */
    has(item) {
        return this.#view.has(itemOf(item));
    }

    /**
     * Its items from `lower` on and before `upper`, rising; all of them without bounds. Each is a copy. Throws Refused
     * 72 for a bound of more than 64 bytes, and 73 if the lower one is not below the upper.
     * @param {Uint8Array} [lower]
     * @param {Uint8Array} [upper]
     * @returns {Generator<Uint8Array, void, undefined>}
     */
    *items(lower, upper) {
        const part = this.#view.part(rangeOf(lower, upper));
        for (const item of part.items(0, part.count)) yield item.slice();
    }

    [Symbol.iterator]() {
        return this.items();
    }

    /**
     * A session that speaks first, of a part if it has bounds. Throws Refused 98 where there is no such profile, 72, 73
     * and TypeError for bounds as `items`, RangeError for a name of more than 64 bytes.
     * @param {SessionOptions & PartOptions} [options]
     */
    initiate(options = {}) {
        const { set, from, to } = options;
        const range = rangeOf(from, to);
        const name = new SetName(set);
        const selector = set === undefined && isAll(range) ? new Uint8Array(0) : name.selector(0, range);
        return initiated(this.#strategy, { view: this.#view.part(range), shard: 0 }, selector, options);
    }

    /**
     * A session that is spoken to first, of a part if the peer asks for one. With `set` the peer has to name it. Throws
     * Refused 98 where there is no such profile, RangeError for a name of more than 64 bytes.
     * @param {SessionOptions} [options]
     */
    respond(options = {}) {
        const { profile, set, mostBytes = MOST_BYTES } = options;
        const name = new SetName(set);
        const isPlain = set === undefined;
        const select = (/** @type {Uint8Array} */ came) => {
            const { range } = isPlain && !asksForPart(came) ? { range: ALL } : name.selected(came);
            return { view: this.#view.part(range), shard: 0 };
        };
        const opened = isPlain ? { view: this.#view, shard: 0 } : undefined;
        const asked = { opened, select, front: new Front(isPlain) };
        return new Session({ strategy: this.#strategy, mostBytes, profiles: spoken(profile), ...asked });
    }
}

/** A set of items of 1 to 64 bytes each, at most as many as the strategy's cap. */
export class RangeSet {
    #tree;
    #strategy;

    /**
     * The set of these items, which are copied. Throws Refused 71, 72, and 82 where there are more than the cap;
     * TypeError for an item that is no Uint8Array.
     * @param {Strategy} strategy
     * @param {Iterable<Uint8Array>} [items]
     */
    constructor(strategy, items = []) {
        if (!(strategy instanceof Strategy)) throw new TypeError("the first argument is to be a Strategy");
        this.#strategy = strategy;
        const different = rising(Array.from(items, itemOf));
        if (different.length > strategy.cap) throw new Refused(82, { cap: strategy.cap });
        this.#tree = new Tree(different);
    }

    /**
     * Puts an item in, which is copied, and says whether it is new. Throws Refused 40 if a new one has no room, 71, 72,
     * and TypeError where it is no Uint8Array.
     * @param {Uint8Array} item
     */
    insert(item) {
        if (this.#tree.has(itemOf(item))) return false;
        const { cap } = this.#strategy;
        if (this.#tree.count >= cap) throw new Refused(40, { cap });
        this.#tree.insert(item);
        return true;
    }

    /**
     * Puts items in, one after the other, and says how many of them are new. Throws as `insert`: the items before that
     * one are then in the set, and none after it.
     * @param {Iterable<Uint8Array>} items
     */
    update(items) {
        let count = 0;
        for (const item of items) count += Number(this.insert(item));
        return count;
    }

    /** How many items it has. */
    get size() {
        return this.#tree.count;
    }

    /** The strategy that it was made with. */
    get strategy() {
        return this.#strategy;
    }

    /** The set as it is now. It costs nothing. */
    version() {
        return new Version(this.#strategy, this.#tree.view());
    }

    /** As `Version.has`, of the set as it is now.
     * @param {Uint8Array} item */
    has(item) {
        return this.#tree.has(itemOf(item));
    }

    /** As `Version.items`, of the set as it is at the call.
     * @param {Uint8Array} [lower] @param {Uint8Array} [upper] */
    items(lower, upper) {
        return this.version().items(lower, upper);
    }

    [Symbol.iterator]() {
        return this.items();
    }

    /** As `Version.initiate`, over the set as it is now.
     * @param {SessionOptions & PartOptions} [options] */
    initiate(options) {
        return this.version().initiate(options);
    }

    /** As `Version.respond`, over the set as it is now.
     * @param {SessionOptions} [options] */
    respond(options) {
        return this.version().respond(options);
    }
}
