/** A set of any size, as shards with a session for each that differs. */

import { entryOf, numbersOf, shardOf } from "./directory.js";
import { isAll, itemOf, rangeOf, rising } from "./items.js";
import { Refused } from "./refused.js";
import { DIRECTORY, Front, SetName } from "./selector.js";
import { MOST_BYTES, Session } from "./session.js";
import { initiated, spoken } from "./sets.js";
import { Strategy } from "./strategy.js";
import { run } from "./sync.js";
import { Tree } from "./tree.js";

/** @typedef {import("./tree.js").View} View */
/** @typedef {{ ours: Uint8Array[], theirs: Uint8Array[] }} Learned */
/** @typedef {Learned & { differ: number }} Reconciled */
/** @typedef {import("./items.js").Range} Range */
/** @typedef {import("./sets.js").PartOptions} PartOptions */
/** @typedef {{ profile?: number, mostBytes?: number, atOnce?: number, signal?: AbortSignal }} TalkOptions */
/** @typedef {TalkOptions & PartOptions} ReconcileOptions */

/**
 * Some of the shards that differ were not reconciled: `faults` has what stopped each, by their numbers. `found` is what
 * was found in the others, which holds; its `differ` counts all that differ.
 */
export class Incomplete extends Error {
    /** @param {Reconciled} found @param {Map<number, unknown>} faults */
    constructor(found, faults) {
        const number = Math.min(...faults.keys());
        const first = /** @type {any} */ (faults.get(number));
        const count = `${faults.size} of ${found.differ} shards that differ are not reconciled`;
        super(`${count}; shard ${number}: ${first?.message ?? first}`, { cause: first });
        this.name = "Incomplete";
        this.found = found;
        this.faults = faults;
    }
}

/** Does some work for each of some numbers, so many at once.
 * @param {number[]} numbers @param {number} atOnce @param {(number: number) => Promise<void>} work */
async function forEach(numbers, atOnce, work) {
    const left = numbers.values();
    const worker = async () => {
        for (const number of left) await work(number);
    };
    await Promise.all(Array.from({ length: Math.min(atOnce, numbers.length) }, worker));
}

/** The same call; once it threw it is not made again, and the same is thrown.
 * @param {() => unknown} connect */
function connectUntilItThrows(connect) {
    /** @type {{ fault: unknown } | null} */
    let gone = null;
    return async () => {
        if (gone !== null) throw gone.fault;
        try {
            return await connect();
        } catch (fault) {
            gone = { fault };
            throw fault;
        }
    };
}

/** A set of any size: 2 ** bits shards, of which each has at most as many items as the strategy's cap. */
export class Shards {
    #strategy;
    #name;
    /** @type {Map<number, Tree>} */
    #trees = new Map();
    /** @type {Map<number, Uint8Array>} The entries of the shards that did not change since. */
    #entries = new Map();
    /** @type {View | null} The directory, if no shard changed since. */
    #directory = null;

    /**
     * The set of these items, which are copied. An item is in the shard that the first bits of its SHA-256 digest
     * number. The other side needs the same bits and the same name, of 0 to 64 bytes. With `only` it keeps the shards
     * of these numbers alone.
     *
     * Throws Refused 71, 72, and 82 for a shard that has more items than the cap, with its number in `values.shard`;
     * without one where the cap is below the number of shards that are kept. Throws RangeError for bits that are not 0
     * to 12, a longer name, a number that is none, or an item of a shard that is not kept; TypeError for an item that
     * is no Uint8Array.
     * @param {Strategy} strategy
     * @param {number} bits 0 to 12
     * @param {Iterable<Uint8Array>} [items]
     * @param {{ name?: string | Uint8Array, only?: Iterable<number> }} [options]
     */
    constructor(strategy, bits, items = [], options = {}) {
        const { name = "", only } = options;
        if (!(strategy instanceof Strategy)) throw new TypeError("the first argument is to be a Strategy");
        this.#strategy = strategy;
        this.#name = new SetName(name, bits);
        for (const number of only ?? Array(2 ** bits).keys()) this.#keep(number);
        if (this.#trees.size === 0) throw new RangeError("one shard or more is to be kept");
        if (bits > 0 && this.#trees.size > strategy.cap) throw new Refused(82, { cap: strategy.cap });
        this.#deal(items);
    }

    /** @param {number} number */
    #keep(number) {
        if (Number.isInteger(number) && number >= 0 && number < 2 ** this.bits) this.#trees.set(number, new Tree());
        else throw new RangeError(`a shard is to be 0 to ${2 ** this.bits - 1}`);
    }

    /** Makes the shards of these items.
     * @param {Iterable<Uint8Array>} items */
    #deal(items) {
        const { cap } = this.#strategy;
        /** @type {Map<number, Uint8Array[]>} */
        const lists = new Map([...this.#trees.keys()].map((number) => [number, []]));
        for (const item of items) {
            const number = shardOf(itemOf(item), this.bits);
            this.#tree(number);
            lists.get(number)?.push(item);
        }
        for (const [shard, list] of lists) {
            const different = rising(list);
            if (different.length > cap) throw new Refused(82, { shard, cap });
            this.#trees.set(shard, new Tree(different));
        }
    }

    /** The shard of a number that is kept. Throws RangeError for another one.
     * @param {number} number */
    #tree(number) {
        const tree = this.#trees.get(number);
        if (tree === undefined) throw new RangeError(`shard ${number} is not kept here`);
        return tree;
    }

    /** There are 2 to the power of this many shards. */
    get bits() {
        return this.#name.bits;
    }

    /** The name that the other side needs too. */
    get name() {
        return this.#name.name.slice();
    }

    /** How many items all shards have. */
    get size() {
        let size = 0;
        for (const tree of this.#trees.values()) size += tree.count;
        return size;
    }

    /**
     * Puts an item in, which is copied, and says whether it is new. Throws Refused 40 where it is new and its shard is
     * full, 71, 72; RangeError where its shard is not kept, and TypeError where it is no Uint8Array.
     * @param {Uint8Array} item
     */
    insert(item) {
        const shard = shardOf(itemOf(item), this.bits);
        const tree = this.#tree(shard);
        if (tree.has(item)) return false;
        const { cap } = this.#strategy;
        if (tree.count >= cap) throw new Refused(40, { shard, cap });
        tree.insert(item);
        this.#entries.delete(shard);
        this.#directory = null;
        return true;
    }

    /**
     * Puts items in, one after the other, and says how many of them are new. Throws as `insert`.
     * @param {Iterable<Uint8Array>} items
     */
    update(items) {
        let count = 0;
        for (const item of items) count += Number(this.insert(item));
        return count;
    }

    /**
     * Whether it has an item. Throws Refused 71, 72, and TypeError where it is no Uint8Array.
     * @param {Uint8Array} item
     */
    has(item) {
        return this.#trees.get(shardOf(itemOf(item), this.bits))?.has(item) ?? false;
    }

    /** Its items, each a copy: shard by shard, and rising in each. */
    *[Symbol.iterator]() {
        for (const view of [...this.#trees.values()].map((tree) => tree.view())) {
            for (const item of view.items(0, view.count)) yield item.slice();
        }
    }

    /** The directory as it is now, of the items in a range. That of all items is kept; one of a part is made anew, of
     * the sums that the trees have.
     * @param {Range} range */
    #listed(range) {
        if (!isAll(range)) {
            const shards = [...this.#trees].map(([number, shard]) => entryOf(number, shard.view().part(range)));
            return new Tree(rising(shards)).view();
        }
        if (this.#directory === null) {
            for (const [number, shard] of this.#trees) {
                if (!this.#entries.has(number)) this.#entries.set(number, entryOf(number, shard.view()));
            }
            this.#directory = new Tree(rising([...this.#entries.values()])).view();
        }
        return this.#directory;
    }

    /**
     * A session that is spoken to first, of whatever shard the other side asks for, or of the directory, or of a part
     * of these: its `shard` says which, and is 65,535 for the directory. What that one learns are entries, and no
     * items. Throws Refused 98 where there is no such profile.
     * @param {{ profile?: number, mostBytes?: number }} [options]
     */
    respond(options = {}) {
        const { profile, mostBytes = MOST_BYTES } = options;
        const select = (/** @type {Uint8Array} */ came) => {
            const { number: shard, range } = this.#name.selected(came, (number) => this.#trees.has(number));
            const view = shard === DIRECTORY ? this.#listed(range) : this.#tree(shard).view().part(range);
            return { view, shard };
        };
        const front = new Front(false);
        return new Session({ strategy: this.#strategy, mostBytes, profiles: spoken(profile), select, front });
    }

    /**
     * Answers one connection, and closes it: what its session found, and the number of the shard, or null for the
     * directory, of which nothing is found. Throws Refused 1 where the other side does not say which set it asks for,
     * 55 where this is another one, and throws as `run`.
     * @param {unknown} stream a WebSocket, a pair of web streams, or a socket of Node
     * @param {{ profile?: number, mostBytes?: number, signal?: AbortSignal }} [options]
     */
    async answer(stream, options = {}) {
        const session = this.respond(options);
        const { ours, theirs } = await run(session, stream, options);
        if (session.shard === DIRECTORY) return { shard: null, ours: [], theirs: [] };
        return { shard: session.shard, ours, theirs };
    }

    /**
     * Finds how this set, as it is now, and that of the other side differ, in the items at or after `from` and before
     * `to` if these are given. This side speaks first. `connect` opens a connection, which is closed: it is called once
     * for the directory, and once for each shard that differs, `atOnce` of them at a time (1 if it is left out); with
     * bits 0 it is called once in all. Once it threw it is not called again, and the shards that are left have the same
     * fault. Nothing is put in.
     *
     * Throws Incomplete where shards that differ were not reconciled. Before that, of the session over the directory,
     * throws as `run`, and what `connect` throws. Throws Refused 57 where the directory of the other side is none, 56
     * for the first shard that is kept here and not there, with its number in `values.shard`.
     * @param {() => unknown} connect
     * @param {ReconcileOptions} [options]
     * @returns {Promise<Reconciled>}
     */
    async reconcile(connect, options = {}) {
        const { atOnce = 1, from, to } = options;
        if (!(atOnce >= 1)) throw new RangeError("atOnce is to be 1 or more");
        const range = rangeOf(from, to);
        const views = new Map([...this.#trees].map(([number, tree]) => [number, tree.view().part(range)]));
        const connected = connectUntilItThrows(connect);
        const talk = async (/** @type {number} */ shard, /** @type {View} */ view) => {
            const selector = this.#name.selector(shard, range);
            const session = initiated(this.#strategy, { view, shard }, selector, options);
            options.signal?.throwIfAborted();
            return run(session, await connected(), options);
        };
        if (this.bits === 0) {
            const { ours, theirs } = await talk(0, /** @type {View} */ (views.get(0)));
            return { ours, theirs, differ: ours.length + theirs.length > 0 ? 1 : 0 };
        }
        const numbers = this.#differing(await talk(DIRECTORY, this.#listed(range)));
        return this.#each(numbers, atOnce, (number) => talk(number, /** @type {View} */ (views.get(number))));
    }

    /** The shards that are kept here and whose entries differ, rising. Throws Refused 57, 56.
     * @param {Learned} learned */
    #differing(learned) {
        const ours = numbersOf(learned.ours, this.bits);
        const theirs = numbersOf(learned.theirs, this.bits);
        const lacking = [...ours].filter((number) => !theirs.has(number));
        if (lacking.length > 0) throw new Refused(56, { shard: Math.min(...lacking) });
        // A peer may have sent our entry of a shard, and another one of it: then theirs alone was learned.
        return [...theirs].filter((number) => this.#trees.has(number)).sort((one, other) => one - other);
    }

    /** What the sessions over these shards find together. Throws Incomplete.
     * @param {number[]} numbers @param {number} atOnce @param {(number: number) => Promise<Learned>} talk
     * @returns {Promise<Reconciled>} */
    async #each(numbers, atOnce, talk) {
        const found = { ours: [], theirs: [], differ: numbers.length };
        /** @type {Learned[]} */
        const parts = [];
        /** @type {Map<number, unknown>} */
        const faults = new Map();
        await forEach(numbers, atOnce, async (number) => {
            try {
                parts.push(await talk(number));
            } catch (fault) {
                faults.set(number, fault);
            }
        });
        const all = {
            ours: rising(parts.flatMap((part) => part.ours)),
            theirs: rising(parts.flatMap((part) => part.theirs)),
        };
        if (faults.size > 0) throw new Incomplete({ ...found, ...all }, faults);
        return { ...found, ...all };
    }
}
