/** Sessions by chance between two ends: what they learn is the difference of the sets, in bounds, however cut. */

import assert from "node:assert/strict";
import { test } from "node:test";

import { RangeSet, Shards } from "../index.js";
import { Chance, seedOf, within } from "./chance.js";
import { hex, pulled } from "./worked.js";

const SESSIONS = Number(process.env.SESSIONS ?? 2000);
const seed = seedOf("random");

/** What only the first of two lists has, rising. */
function lacking(one, other) {
    const there = new Set(other.map(hex));
    return [...new Set(one.map(hex))].filter((each) => !there.has(each)).sort();
}

/** Two lists of items that have much in common. */
function twoOf(chance, most) {
    const common = chance.items(most);
    const some = (share) => chance.items(Math.floor(most / share));
    return [[...common, ...some(4)], [...common.filter(() => chance.below(9) > 0), ...some(6)]];
}

/** Moves the bytes of two sessions in pieces by chance, and gives both. */
function talk(chance, initiator, responder) {
    const sides = [initiator, responder];
    for (let moved = true; moved; ) {
        moved = false;
        for (const [place, side] of sides.entries()) {
            const bytes = pulled(side, chance.between(1, 5000));
            moved ||= bytes.length > 0;
            for (const piece of chance.pieces(bytes)) sides[1 - place].push(piece);
        }
    }
    for (const side of sides) side.finish();
    return sides;
}

/** Compares what two sessions learned with the items of both. */
function sameAs(sessions, here, there, told) {
    const wanted = [lacking(here, there), lacking(there, here)];
    for (const [place, session] of sessions.entries()) {
        assert.equal(session.state, "ended", told);
        assert.ok(session.sent <= session.bound, told);
        const { ours, theirs } = session.learned();
        assert.deepEqual([ours.map(hex), theirs.map(hex)], [wanted[place], wanted[1 - place]], told);
    }
}

/** The bounds of a part, or none. */
function someOf(chance, items) {
    return chance.below(2) === 0 ? {} : chance.part(items);
}

test(`${SESSIONS} sessions, half of them of a part`, () => {
    for (let turn = 0; turn < SESSIONS; turn++) {
        const chance = new Chance(seed + turn);
        const [here, there] = twoOf(chance, chance.of([0, 3, 20, 200]));
        const strategies = [chance.strategy(400), chance.strategy(400)];
        const set = chance.of([undefined, undefined, "", "logst"]);
        const part = someOf(chance, [...here, ...there]);
        const options = { profile: chance.of([undefined, 1, 2]), set, ...part };
        const initiator = new RangeSet(strategies[0].strategy, here).initiate(options);
        const responder = new RangeSet(strategies[1].strategy, there).respond({ set });
        const told = `SEED=${seed + turn}: ${JSON.stringify(strategies.map(({ given }) => given))}`;
        sameAs(talk(chance, initiator, responder), within(here, part), within(there, part), told);
    }
});

test("a session over two large sets", () => {
    const chance = new Chance(seed);
    const all = Array.from({ length: 20_500 }, () => chance.bytes(16));
    const [here, there] = [all.slice(250), all.slice(0, -250)];
    const { strategy } = chance.strategy(65_536);
    const sessions = [new RangeSet(strategy, here).initiate(), new RangeSet(strategy, there).respond()];
    sameAs(talk(chance, ...sessions), here, there, `SEED=${seed}`);
});

/** Two ends of a connection, as pairs of web streams. */
function connected() {
    const [there, back] = [new TransformStream(), new TransformStream()];
    return [
        { readable: back.readable, writable: there.writable },
        { readable: there.readable, writable: back.writable },
    ];
}

test("sets in shards, half of them of a part", async () => {
    for (let turn = 0; turn < SESSIONS / 20; turn++) {
        const chance = new Chance(seed + turn);
        const both = twoOf(chance, chance.of([0, 20, 400]));
        const bits = chance.of([0, 1, 3, 6]);
        const name = chance.bytes(chance.between(0, 64));
        const shardsOf = (items) => new Shards(chance.strategy(600).strategy, bits, items, { name });
        const [one, other] = both.map(shardsOf);
        const part = someOf(chance, both.flat());
        const [here, there] = both.map((items) => within(items, part));
        const answers = [];
        const connect = () => {
            const [near, far] = connected();
            answers.push(other.answer(far));
            return near;
        };
        const found = await one.reconcile(connect, { profile: chance.of([1, 2]), atOnce: chance.of([1, 4]), ...part });
        const told = `SEED=${seed + turn}`;
        assert.deepEqual(found.ours.map(hex), lacking(here, there), told);
        assert.deepEqual(found.theirs.map(hex), lacking(there, here), told);
        const learned = await Promise.all(answers);
        assert.equal(learned.length, bits > 0 ? found.differ + 1 : 1, told);
        assert.deepEqual(learned.flatMap(({ ours }) => ours.map(hex)).sort(), lacking(there, here), told);
        assert.deepEqual(learned.flatMap(({ theirs }) => theirs.map(hex)).sort(), lacking(here, there), told);
        assert.equal(one.update(found.theirs), found.theirs.length);
        other.update(found.ours);
        assert.equal((await one.reconcile(connect, part)).differ, 0, told);
        const all = [one, other].map((shards) => within([...shards], part).map(hex).sort());
        assert.deepEqual(all[0], all[1], told);
    }
});
