/** The tree beside a sorted array and sums of BigInts. */

import assert from "node:assert/strict";
import { createHash } from "node:crypto";
import { test } from "node:test";

import { Tree } from "../src/tree.js";
import { rangeOf } from "../src/items.js";
import { Chance, seedOf, within } from "./chance.js";
import { bytesOf, hex } from "./worked.js";

const chance = new Chance(seedOf("tree"));
const WHOLE = 2n ** 128n;

/** Texts of hex digits are in the order of the bytes, but that a beginning comes first, as it does among the bytes. */
function sorted(items) {
    return [...new Set(items.map(hex))].sort();
}

/** The lanes of some items, as hex digits. */
function lanesOf(texts) {
    const lanes = [0n, 0n];
    for (const text of texts) {
        const digest = createHash("sha256").update(Buffer.from(text, "hex")).digest("hex");
        lanes[0] += BigInt(`0x${digest.slice(0, 32)}`);
        lanes[1] += BigInt(`0x${digest.slice(32)}`);
    }
    return lanes.map((lane) => (lane % WHOLE).toString(16).padStart(32, "0")).join("");
}

function sumOfFirst(view, count) {
    return [...view.sumOfFirst(count)].map((word) => word.toString(16).padStart(8, "0")).join("");
}

/** Compares all that a view says with an array, and so of parts of it, and of parts of these. */
function sameAs(view, texts, depth = 2) {
    assert.equal(view.count, texts.length);
    assert.deepEqual([...view.items(0, view.count)].map(hex), texts);
    for (let turn = 0; turn < 20; turn++) {
        const from = chance.between(0, texts.length);
        const to = chance.between(from, texts.length);
        assert.deepEqual([...view.items(from, to)].map(hex), texts.slice(from, to));
        assert.equal(sumOfFirst(view, to), lanesOf(texts.slice(0, to)));
        const bound = chance.item();
        assert.equal(view.below(bound), texts.filter((text) => text < hex(bound)).length);
        assert.equal(view.has(bound), texts.includes(hex(bound)));
        if (to > 0) assert.equal(hex(view.item(to - 1)), texts[to - 1]);
        if (to > 0) assert.equal(view.has(Buffer.from(texts[to - 1], "hex")), true);
    }
    assert.equal(view.below(null), texts.length);
    assert.equal(sumOfFirst(view, texts.length), lanesOf(texts));
    for (let turn = 0; turn < depth; turn++) {
        const items = texts.map(bytesOf);
        const part = chance.part(items);
        const { from, to } = part;
        sameAs(view.part(rangeOf(from, to)), within(items, part).map(hex), depth - 1);
    }
}

for (const count of [0, 1, 2, 24, 31, 32, 33, 100, 577, 2000]) {
    test(`${count} items that are put in, and versions in between`, () => {
        const tree = new Tree();
        const kept = [];
        const versions = [];
        for (let place = 0; place < count; place++) {
            const item = chance.item();
            if (tree.has(item)) continue;
            tree.insert(item);
            kept.push(item.slice());
            // The tree has a copy.
            item.fill(0xee);
            if (chance.below(count) < 8) versions.push([tree.view(), sorted(kept)]);
        }
        sameAs(tree.view(), sorted(kept));
        assert.equal(tree.view(), tree.view());
        for (const [view, texts] of versions) sameAs(view, texts);
    });

    test(`${count} items of a list, and more of them`, () => {
        const texts = sorted(Array.from({ length: count }, () => chance.item()));
        const tree = new Tree(texts.map((text) => new Uint8Array(Buffer.from(text, "hex"))));
        const before = tree.view();
        sameAs(before, texts);
        const more = [...texts];
        for (let turn = 0; turn < 200; turn++) {
            const item = chance.item();
            if (tree.has(item)) continue;
            tree.insert(item);
            more.push(hex(item));
        }
        sameAs(tree.view(), more.sort());
        sameAs(before, texts);
    });
}

for (const [name, orderOf] of [["rising", (place) => place], ["falling", (place) => 70_000 - place]]) {
    test(`5,000 items that are put in ${name}`, () => {
        const tree = new Tree();
        const texts = [];
        for (let place = 0; place < 5_000; place++) {
            const item = new Uint8Array([1, orderOf(place) >> 8, orderOf(place) & 255]);
            tree.insert(item);
            texts.push(hex(item));
        }
        sameAs(tree.view(), texts.sort());
    });
}
