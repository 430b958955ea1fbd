/**
 * A set of items as a balanced tree with running sums: the count of the items and the sum of their digests, up to each
 * entry of a node. So the sum of any range costs two walks from the root to a leaf.
 *
 * A version of the set costs nothing: it keeps the root. A node is changed in place while no version has it, which its
 * `owner` says, and is copied otherwise. A part of a version is no copy: it keeps the root too, and the places between
 * which its items are. What is asked of it costs what it costs of the whole.
 */

import { LONGEST, compareAt } from "./items.js";
import { LANE_WORDS, addAt, subtractAt } from "./lanes.js";
import { digestInto } from "./sha256.js";

/** A node that has so many entries is split. */
const MOST = 32;
const HALF = MOST / 2;
/** How many entries a node gets where a tree is made of a list. */
const FILL = (3 * MOST) / 4;
const LANES_AT = 4 * MOST;
const ITEMS_AT = LANES_AT + 4 * MOST * LANE_WORDS;
const LENGTHS_AT = ITEMS_AT + MOST * LONGEST;

/**
 * Entries, rising. That of a leaf is an item; that of a branch is a child, under the first item of it. The items lie in
 * one array, each at a multiple of 64 bytes: an object for each would take more memory, and more time.
 */
class Node {
    /** @param {object} owner @param {Node[] | null} children */
    constructor(owner, children) {
        this.owner = owner;
        /** The children of a branch; null of a leaf. */
        this.children = children;
        /** How many entries it has. */
        this.length = 0;
        this.memory = new ArrayBuffer(LENGTHS_AT + MOST);
        /** How many items there are up to each entry and in it, and the sums of their digests. */
        this.counts = new Uint32Array(this.memory, 0, MOST);
        this.lanes = new Uint32Array(this.memory, LANES_AT, MOST * LANE_WORDS);
        this.bytes = new Uint8Array(this.memory, ITEMS_AT, MOST * LONGEST);
        this.lengths = new Uint8Array(this.memory, LENGTHS_AT, MOST);
    }

    /** @param {object} owner */
    copy(owner) {
        const made = new Node(owner, this.children && this.children.slice());
        made.length = this.length;
        new Uint8Array(made.memory).set(new Uint8Array(this.memory));
        return made;
    }

    /** How many items are below it. */
    get count() {
        return this.countBefore(this.length);
    }

    /** How many items are in the first entries.
     * @param {number} place how many entries */
    countBefore(place) {
        return place === 0 ? 0 : this.counts[place - 1];
    }

    /** The item of an entry, in the memory of the node.
     * @param {number} place */
    item(place) {
        return this.bytes.subarray(place * LONGEST, place * LONGEST + this.lengths[place]);
    }

    /** Below 0, 0 or above 0, as the item of an entry is before, equal to or after a byte string.
     * @param {number} place @param {Uint8Array} other */
    compare(place, other) {
        return compareAt(this.bytes, place * LONGEST, this.lengths[place], other, 0, other.length);
    }

    /** How many entries begin before a bound.
     * @param {Uint8Array} bound */
    below(bound) {
        let from = 0;
        let to = this.length;
        while (from < to) {
            const middle = (from + to) >> 1;
            if (this.compare(middle, bound) < 0) from = middle + 1;
            else to = middle;
        }
        return from;
    }

    /** The place of the last child that begins before a bound, or of the first child.
     * @param {Uint8Array} bound */
    childBelow(bound) {
        return Math.max(this.below(bound) - 1, 0);
    }

    /** How many entries have together at most so many items.
     * @param {number} count */
    entriesWithin(count) {
        let place = 0;
        while (place < this.length && this.counts[place] <= count) place++;
        return place;
    }

    /** Writes an item over that of an entry.
     * @param {number} place @param {Uint8Array} item */
    setItem(place, item) {
        this.bytes.set(item, place * LONGEST);
        this.lengths[place] = item.length;
    }

    /** Makes room for an entry; what is up to it stays as it was there.
     * @param {number} place */
    makeRoom(place) {
        this.counts.copyWithin(place + 1, place, this.length);
        this.lanes.copyWithin((place + 1) * LANE_WORDS, place * LANE_WORDS, this.length * LANE_WORDS);
        this.bytes.copyWithin((place + 1) * LONGEST, place * LONGEST, this.length * LONGEST);
        this.lengths.copyWithin(place + 1, place, this.length);
        this.length += 1;
    }

    /** Sets what is up to an entry: what is before it, and so many items with this sum in it.
     * @param {number} place @param {number} count @param {Uint32Array} lanes @param {number} from */
    setEntry(place, count, lanes, from) {
        const at = place * LANE_WORDS;
        this.counts[place] = this.countBefore(place) + count;
        if (place > 0) this.lanes.copyWithin(at, at - LANE_WORDS, at);
        else this.lanes.fill(0, 0, LANE_WORDS);
        addAt(this.lanes, at, lanes, from);
    }

    /** Counts one item more in an entry, and so up to each one after it.
     * @param {number} place @param {Uint32Array} digest */
    addItem(place, digest) {
        for (let each = place; each < this.length; each++) {
            this.counts[each] += 1;
            addAt(this.lanes, each * LANE_WORDS, digest, 0);
        }
    }

    /** Moves the upper half of the entries into a new node. */
    split() {
        const right = new Node(this.owner, this.children && this.children.splice(HALF));
        right.length = this.length - HALF;
        right.bytes.set(this.bytes.subarray(HALF * LONGEST));
        right.lengths.set(this.lengths.subarray(HALF));
        right.counts.set(this.counts.subarray(HALF));
        right.lanes.set(this.lanes.subarray(HALF * LANE_WORDS));
        for (let place = 0; place < right.length; place++) {
            right.counts[place] -= this.counts[HALF - 1];
            subtractAt(right.lanes, place * LANE_WORDS, this.lanes, (HALF - 1) * LANE_WORDS);
        }
        this.length = HALF;
        return right;
    }
}

/**
 * The node, or a copy of it if another owner made it.
 * @param {Node} node
 * @param {object} owner
 */
function owned(node, owner) {
    return node.owner === owner ? node : node.copy(owner);
}

/** Puts an item into a leaf that does not have it.
 * @param {Node} leaf @param {Uint8Array} item @param {Uint32Array} digest */
function insertIntoLeaf(leaf, item, digest) {
    const place = leaf.below(item);
    leaf.makeRoom(place);
    leaf.setItem(place, item);
    leaf.setEntry(place, 1, digest, 0);
    leaf.addItem(place + 1, digest);
}

/** Puts an item into a branch that does not have it.
 * @param {Node} branch @param {Node[]} children @param {Uint8Array} item @param {Uint32Array} digest */
function insertIntoBranch(branch, children, item, digest) {
    const place = branch.childBelow(item);
    const child = owned(children[place], branch.owner);
    children[place] = child;
    const right = insert(child, item, digest);
    branch.addItem(place, digest);
    // An item below all others is now the first of the first child.
    if (branch.compare(place, item) > 0) branch.setItem(place, item);
    if (right === null) return;
    children.splice(place + 1, 0, right);
    branch.makeRoom(place + 1);
    branch.setItem(place + 1, right.item(0));
    // What is up to both is now up to the right one.
    branch.counts[place + 1] = branch.counts[place];
    branch.lanes.copyWithin((place + 1) * LANE_WORDS, place * LANE_WORDS, (place + 1) * LANE_WORDS);
    branch.setEntry(place, child.count, child.lanes, (child.length - 1) * LANE_WORDS);
}

/** Puts an item into a node that does not have it; the new node beside it where it was split.
 * @param {Node} node @param {Uint8Array} item @param {Uint32Array} digest @returns {Node | null} */
function insert(node, item, digest) {
    if (node.children === null) insertIntoLeaf(node, item, digest);
    else insertIntoBranch(node, node.children, item, digest);
    return node.length === MOST ? node.split() : null;
}

/** A branch over nodes.
 * @param {Node[]} children at least one, and fewer than split a node */
function branchOver(children) {
    const branch = new Node(children[0].owner, children);
    branch.length = children.length;
    for (const [place, child] of children.entries()) {
        branch.setItem(place, child.item(0));
        branch.setEntry(place, child.count, child.lanes, (child.length - 1) * LANE_WORDS);
    }
    return branch;
}

/** Whether a node has an item.
 * @param {Node} root @param {Uint8Array} item */
function hasItem(root, item) {
    let node = root;
    for (;;) {
        const place = node.below(item);
        if (place < node.length && node.compare(place, item) === 0) return true;
        if (node.children === null || place === 0) return false;
        node = node.children[place - 1];
    }
}

/** How many items of a tree are before a bound.
 * @param {Node} root @param {Uint8Array | null} bound all of them for null, the end */
function itemsBelow(root, bound) {
    if (bound === null) return root.count;
    let node = root;
    let before = 0;
    while (node.children !== null) {
        const place = node.childBelow(bound);
        before += node.countBefore(place);
        node = node.children[place];
    }
    return before + node.below(bound);
}

/** The sum of the digests of the first items of a tree.
 * @param {Node} root @param {number} count */
function sumOfItems(root, count) {
    const sum = new Uint32Array(LANE_WORDS);
    let node = root;
    for (let left = count; left > 0; ) {
        const place = node.entriesWithin(left);
        if (place > 0) addAt(sum, 0, node.lanes, (place - 1) * LANE_WORDS);
        left -= node.countBefore(place);
        if (left > 0 && node.children !== null) node = node.children[place];
    }
    return sum;
}

/** A set as it was when it was taken, or a part of it: nothing changes it. */
export class View {
    #root;
    #from;
    #to;
    /** The sum of the digests of the items of the tree before this part. */
    #before;

    /** The items of a tree from a place on and before another one.
     * @param {Node} root @param {number} [from] @param {number} [to] */
    constructor(root, from = 0, to = root.count) {
        this.#root = root;
        this.#from = from;
        this.#to = to;
        this.#before = sumOfItems(root, from);
    }

    /** Its items in a range, as a set of their own.
     * @param {import("./items.js").Range} range */
    part({ lower, upper }) {
        return new View(this.#root, this.#from + this.below(lower), this.#from + this.below(upper));
    }

    /** How many items it has. */
    get count() {
        return this.#to - this.#from;
    }

    /** How many of its items are before a bound.
     * @param {Uint8Array | null} bound all of them for null, the end */
    below(bound) {
        return Math.min(Math.max(itemsBelow(this.#root, bound), this.#from), this.#to) - this.#from;
    }

    /** The item that has so many of its items before it, in the memory of the tree.
     * @param {number} place 0 to `count` - 1 */
    item(place) {
        let node = this.#root;
        let left = this.#from + place;
        while (node.children !== null) {
            const at = node.entriesWithin(left);
            left -= node.countBefore(at);
            node = node.children[at];
        }
        return node.item(left);
    }

    /** The sum of the digests of its first items.
     * @param {number} count 0 to `count` of the set */
    sumOfFirst(count) {
        const sum = sumOfItems(this.#root, this.#from + count);
        if (this.#from > 0) subtractAt(sum, 0, this.#before, 0);
        return sum;
    }

    /** Whether it has an item.
     * @param {Uint8Array} item */
    has(item) {
        if (!hasItem(this.#root, item)) return false;
        const place = itemsBelow(this.#root, item);
        return this.#from <= place && place < this.#to;
    }

    /** The items from a place on and before another one, rising, in the memory of the tree.
     * @param {number} from @param {number} to @returns {Generator<Uint8Array, void, undefined>} */
    *items(from, to) {
        if (from < to) yield* within(this.#root, this.#from + from, this.#from + to);
    }
}

/** The items of a node between two places of it.
 * @param {Node} node @param {number} from @param {number} to @returns {Generator<Uint8Array, void, undefined>} */
function* within(node, from, to) {
    if (node.children === null) {
        for (let place = from; place < to; place++) yield node.item(place);
        return;
    }
    for (let at = node.entriesWithin(from); at < node.length && node.countBefore(at) < to; at++) {
        const before = node.countBefore(at);
        yield* within(node.children[at], Math.max(from - before, 0), Math.min(to, node.counts[at]) - before);
    }
}

/** Some of the items of a rising list, as a leaf.
 * @param {object} owner @param {Uint8Array[]} items at least one, and fewer than split a node */
function leafOf(owner, items) {
    const leaf = new Node(owner, null);
    const digest = new Uint32Array(LANE_WORDS);
    leaf.length = items.length;
    for (const [place, item] of items.entries()) {
        digestInto(item, digest);
        leaf.setItem(place, item);
        leaf.setEntry(place, 1, digest, 0);
    }
    return leaf;
}

/** The parts of a list.
 * @template T @param {T[]} list @returns {Generator<T[], void, undefined>} */
function* parts(list) {
    for (let at = 0; at < list.length; at += FILL) yield list.slice(at, at + FILL);
}

/** A set that grows. */
export class Tree {
    #owner = {};
    /** @type {Node} */
    #root;
    /** @type {View} */
    #view;
    #digest = new Uint32Array(LANE_WORDS);

    /** The set of items that rise, each of which is copied.
     * @param {Uint8Array[]} [items] */
    constructor(items = []) {
        let nodes = Array.from(parts(items), (some) => leafOf(this.#owner, some));
        while (nodes.length > 1) nodes = Array.from(parts(nodes), branchOver);
        this.#root = nodes[0] ?? new Node(this.#owner, null);
        this.#view = new View(this.#root);
    }

    /** The set as it is now. It is not changed by what is put in later. */
    view() {
        if (this.#root.owner === this.#owner) {
            this.#view = new View(this.#root);
            this.#owner = {};
        }
        return this.#view;
    }

    /** How many items it has. */
    get count() {
        return this.#root.count;
    }

    /** Whether it has an item.
     * @param {Uint8Array} item */
    has(item) {
        return hasItem(this.#root, item);
    }

    /** Puts in an item that is not there, which is copied.
     * @param {Uint8Array} item */
    insert(item) {
        const root = owned(this.#root, this.#owner);
        digestInto(item, this.#digest);
        const right = insert(root, item, this.#digest);
        this.#root = right === null ? root : branchOver([root, right]);
    }
}
