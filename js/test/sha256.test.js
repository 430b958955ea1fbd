/** SHA-256 beside that of Node, and beside digests that are typed in. */

import assert from "node:assert/strict";
import { createHash } from "node:crypto";
import { test } from "node:test";

import { shardOf } from "../index.js";
import { digestInto } from "../src/sha256.js";
import { Chance, seedOf } from "./chance.js";

const chance = new Chance(seedOf("sha256"));

function digest(bytes, at = 0) {
    const words = new Uint32Array(at + 8);
    digestInto(bytes, words, at);
    return [...words.subarray(at)].map((word) => word.toString(16).padStart(8, "0")).join("");
}

test("digests that FIPS 180-4 and the page show", () => {
    const of = (text) => digest(new TextEncoder().encode(text));
    assert.equal(of(""), "e3b0c44298fc1c149afbf4c8996fb92427ae41e4649b934ca495991b7852b855");
    assert.equal(of("abc"), "ba7816bf8f01cfea414140de5dae2223b00361a396177a9cb410ff61f20015ad");
    const two = "abcdbcdecdefdefgefghfghighijhijkijkljklmklmnlmnomnopnopq";
    assert.equal(of(two), "248d6a61d20638b8e5c026930c3e6039a33ce45964ff2167f6ecedd419db06c1");
});

test("every length up to 300, at a place of an array", () => {
    for (let length = 0; length <= 300; length++) {
        const bytes = chance.bytes(length);
        assert.equal(digest(bytes, length % 3), createHash("sha256").update(bytes).digest("hex"));
    }
});

test("a megabyte", () => {
    const bytes = chance.bytes(1_000_003);
    assert.equal(digest(bytes), createHash("sha256").update(bytes).digest("hex"));
});

test("the shard of an item", () => {
    const shards = (text) => [12, 2, 1, 0].map((bits) => shardOf(new TextEncoder().encode(text), bits));
    assert.deepEqual(shards("a"), [0xca9, 3, 1, 0]);
    assert.deepEqual(shards("b"), [0x3e2, 0, 0, 0]);
    assert.deepEqual(shards("c"), [0x2e7, 0, 0, 0]);
});
