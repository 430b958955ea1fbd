/** Strategies: what is refused, how ranges are cut, and how often. */

import assert from "node:assert/strict";
import { test } from "node:test";

import { Refused, Strategy } from "../index.js";
import { cutsOf } from "../src/strategy.js";
import { OtherValue, readToml } from "../src/toml.js";
import { fileOf } from "./worked.js";

const SHIPPED = ["all-round", "few-bytes", "few-rounds", "newest-last", "whole-list", "small"];
const EIGHT = { cap: 8, limit: 1, rounds: 3, row: [{ upto: 1, list: true }, { upto: 8, split: [1, 1] }] };

/** The text with the values of a row in the place of their keys, as tests/words/run fills them in. */
function filled(text, row) {
    return Object.entries(row).reduce((some, [key, value]) => some.replaceAll(`<${key}>`, value), text);
}

/** What a strategy comes to: `accepted` and its steps, or its refusal with the numbers and the key that it names. */
function judged(text) {
    try {
        return `accepted\nsteps ${Strategy.parse(text).steps.join(" ")}\n`;
    } catch (fault) {
        if (!(fault instanceof Refused)) throw fault;
        const { key, count, rank, upto } = fault.values;
        const told = { 31: [key], 36: [count], 37: [upto], 38: [count, rank] }[fault.number] ?? [];
        return `refused ${[fault.number, fault.code, ...told].join(" ")}\n`;
    }
}

/** The texts of the strategies that `check` is called with in tests/words/strategies.toml, and what comes of them. */
function* calls() {
    for (const each of readToml(fileOf("tests/words/strategies.toml")).case) {
        const isText = each.words.join(" ") === "check t.toml" && !("to" in each);
        for (const row of isText ? (each.each ?? [{}]) : []) {
            const file = filled((each.raw ?? each.files)["t.toml"], row);
            const text = "raw" in each ? Buffer.from(file, "hex") : file;
            const wanted = filled(each.status === 0 ? each.output : each.error, row);
            yield { name: each.name, text, wanted };
        }
    }
}

test("the strategies of tests/words", () => {
    const all = [...calls()];
    assert.ok(all.length >= 70, String(all.length));
    for (const { name, text, wanted } of all) assert.equal(judged(text), wanted, `${name}: ${text}`);
});

for (const name of SHIPPED) {
    test(`the shipped table ${name} is that of examples`, () => {
        const read = Strategy.parse(fileOf(`examples/${name}.toml`));
        const named = Strategy.named(name);
        assert.deepEqual(named.steps, read.steps);
        assert.deepEqual([named.cap, named.limit, named.hasShortBounds], [read.cap, read.limit, read.hasShortBounds]);
        for (let count = 0; count <= read.cap; count += 1 + (count >> 5)) {
            assert.deepEqual(named.cuts(count), read.cuts(count));
        }
    });
}

test("a name that no shipped table has", () => {
    assert.equal(Strategy.named().cap, 65_536);
    assert.throws(() => Strategy.named("all-round.toml"), RangeError);
    assert.throws(() => Strategy.named("toString"), RangeError);
});

test("an object in the place of a text", () => {
    assert.deepEqual(Strategy.from(JSON.parse(JSON.stringify(EIGHT))).steps, [1, 2, 4, 8]);
    const refused = (value, number) => assert.throws(() => Strategy.from(value), { name: "Refused", number });
    refused({}, 31);
    refused({ ...EIGHT, cap: "8" }, 32);
    refused({ ...EIGHT, cap: 8.5 }, 32);
    refused({ ...EIGHT, row: {} }, 34);
    refused({ ...EIGHT, row: [] }, 31);
    refused({ ...EIGHT, row: [null] }, 34);
    refused({ ...EIGHT, bounds: "long" }, 29);
    for (const value of [null, 8, "cap = 8", [], new Map()]) assert.throws(() => Strategy.from(value), TypeError);
});

test("what a refusal says", () => {
    const row = { upto: 8, split: [1, 1025] };
    assert.throws(() => Strategy.from({ ...EIGHT, row: [EIGHT.row[0], row] }), {
        message:
            "refused 32 BadNumber: a number of a strategy is no whole number, or is out of its range" +
            " (key split, least 1, greatest 1024, row 2)",
        code: "BadNumber",
        values: { key: "split", least: 1, greatest: 1024, row: 2 },
        byPeer: false,
    });
});

test("where weights cut", () => {
    const cut = (split, count) => {
        let front = 0;
        return cutsOf({ upto: 0, fronts: split.map((weight) => (front += weight)) }, count);
    };
    assert.deepEqual(cut([3, 1, 1], 7), [4, 5]);
    assert.deepEqual(cut([3, 1, 1], 1), []);
    assert.deepEqual(cut([1, 1], 2), [1]);
    // The products reach 2^32 here.
    assert.deepEqual(cut(Array(64).fill(1024), 65_536), Array.from({ length: 63 }, (_, at) => 1024 * (at + 1)));
    assert.deepEqual(cutsOf({ upto: 0, peel: 4 }, 4), []);
    assert.deepEqual(cutsOf({ upto: 0, peel: 4 }, 5), [4]);
});

test("ranks", () => {
    const { steps } = Strategy.from(EIGHT);
    assert.deepEqual(steps, [1, 2, 4, 8]);
    assert.deepEqual([0, 1, 2, 3, 4, 5, 8].map((count) => Strategy.from(EIGHT).rank(count)), [0, 0, 1, 2, 2, 3, 3]);
});

test("values of TOML", () => {
    const read = (text) => readToml(`x = ${text}\n`).x;
    assert.equal(read("0x1_F"), 31);
    assert.equal(read("-9223372036854775808"), -(2n ** 63n));
    assert.ok(read("8.0") instanceof OtherValue);
    assert.ok(read("2026-11-29 14:00") instanceof OtherValue);
    assert.equal(read('"\\e\\x41\\u00e9\\U0001F600\\\\"'), "\x1bAé😀\\");
    assert.equal(read('"""\na\\\n   b""" # c'), "ab");
    assert.equal(read("'''a'''''"), "a''");
    assert.equal(JSON.stringify(read("{ a.b = 1, 'c d' = [1, 2,], }")), '{"a":{"b":1},"c d":[1,2]}');
    const text = "[[a]]\nb = 1\n[a.c]\nd = 2\n[[a]]\n";
    assert.equal(JSON.stringify(readToml(text)), '{"a":[{"b":1,"c":{"d":2}},{}]}');
    assert.equal(readToml("__proto__ = 1\n")["__proto__"], 1);
});

test("texts that are no TOML", () => {
    const texts = ["x", "x = ", "x = 1 y = 2", "x = 1\nx = 2", "[x]\n[x]", "x = {a = 1}\n[x.b]", "x = [1 2]", "x = 01"];
    texts.push("x = '\n'", "x = '", 'x = "\\q"', "x = 1_", "x = 9223372036854775808", "x = 1e400", "x = 2026-02-29");
    texts.push("[a]\nb.c = 1\n[a.b]", "x = \u0000", "# \u0007", "x = 1\r", "x = '\ud800'", "x = '\udc00'");
    texts.push('x = "\\ud800"', "x = True", "[a]\nx = [1]\n[[a.x]]");
    for (const text of texts) assert.throws(() => Strategy.parse(text), { number: 30 }, text);
});
