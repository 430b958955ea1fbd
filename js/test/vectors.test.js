/** The worked cases of docs/vectors, from bytes to bytes. */

import assert from "node:assert/strict";
import { test } from "node:test";

import { Incomplete, RangeSet, Refused, Shards, Strategy } from "../index.js";
import { fingerprintText, PROFILES } from "../src/profiles.js";
import { DIRECTORY } from "../src/selector.js";
import { Tree } from "../src/tree.js";
import { bytesOf, casesOf, hex, outcomeOf, pulled, replyTo, setOf, tableOf } from "./worked.js";

/** In which pieces the bytes of a peer are given: each length in turn. */
const CUTS = [[1 << 20], [1], [2], [3], [7], [4, 1, 35, 2], [1, 64, 5]];
const LISTS_ALL = "lists-all";

/** The reply, or the number of the refusal. */
function comesTo(does) {
    try {
        return hex(does());
    } catch (fault) {
        assert.ok(fault instanceof Refused, fault);
        return fault.number;
    }
}

/** Requires these keys, and no others. */
function hasKeys(given, keys) {
    assert.deepEqual(Object.keys(given).sort(), [...keys].sort());
}

for (const each of casesOf("fingerprints")) {
    test(each.name, () => {
        const items = each.items.map(bytesOf);
        const view = new Tree(items).view();
        for (const profile of PROFILES) {
            const wanted = hex(bytesOf(each[`profile_${profile.number}`]));
            assert.equal(hex(fingerprintText(profile, view.count, view.sumOfFirst(view.count))), wanted);
            const first = new RangeSet(tableOf(LISTS_ALL), items).initiate({ profile: profile.number }).pull();
            assert.equal(hex(first.subarray(4 + 7, 4 + 7 + profile.size)), wanted);
        }
    });
}

for (const folder of ["answers", "refusals"]) {
    for (const each of casesOf(folder)) {
        test(each.name, () => {
            const set = setOf({ table: LISTS_ALL, items: each.items ?? [] });
            const wanted = each.refused ?? hex(bytesOf(each.reply));
            assert.equal(comesTo(() => replyTo(set, bytesOf(each.message), false)), wanted);
        });
    }
}

for (const each of casesOf("replies")) {
    test(each.name, () => {
        const wanted = each.refused ?? hex(bytesOf(each.reply));
        assert.equal(comesTo(() => replyTo(setOf(each), bytesOf(each.message), true)), wanted);
    });
}

for (const folder of ["sessions", "faults"]) {
    for (const each of casesOf(folder)) {
        for (const [role, other] of [["initiator", "responder"], ["responder", "initiator"]]) {
            const own = each[role];
            if (own.table === undefined) continue;
            test(`${each.name}: the ${role}`, () => {
                const { outcome, sent, ours = [], theirs = [], writes } = own;
                const wanted = { outcome, sent, ours, theirs, written: hex(bytesOf(writes)) };
                for (const lengths of CUTS) {
                    const set = setOf(own);
                    const session = role === "initiator" ? set.initiate({ profile: each.profile }) : set.respond();
                    assert.deepEqual(outcomeOf(session, bytesOf(each[other].writes), lengths), wanted);
                }
            });
        }
    }
}

/** What a side keeps in shards. */
function shardsOf({ set = "", bits }, { table, items }) {
    return new Shards(tableOf(table), bits, items.map(bytesOf), { name: bytesOf(set) });
}

for (const each of casesOf("directories")) {
    test(each.name, () => {
        const session = shardsOf(each, { table: LISTS_ALL, items: each.items }).respond();
        const came = ["5252534e00", each.bits.toString(16).padStart(2, "0"), "ffff", "52525331"];
        session.push(bytesOf(came.join("") + `0000002301 00 ff ${"00".repeat(32)} 0000000104`));
        const entries = each.entries.map((entry) => hex(bytesOf(entry)));
        const count = entries.length.toString(16).padStart(8, "0");
        const body = `0200ff${count}${entries.map((entry) => `26${entry}`).join("")}`;
        const length = (body.length / 2).toString(16).padStart(8, "0");
        assert.equal(hex(pulled(session)), `52525331${length}${body}0000000104`);
        assert.equal(session.shard, DIRECTORY);
    });
}

/** The responders of a case: a set in shards, and a set where there is no shard. */
function respondersOf(each) {
    const responders = [];
    if (each.bits !== undefined) responders.push(() => shardsOf(each, each).respond());
    if (!each.bits) responders.push(() => setOf(each).respond({ set: namedBy(each) }));
    return responders;
}

/** The name that a side is given, if it is given one. */
function namedBy({ set }) {
    return set === undefined ? undefined : bytesOf(set);
}


for (const folder of ["selectors", "parts"]) {
    for (const each of casesOf(folder)) {
        test(each.name, () => {
            const selector = bytesOf(each.selector);
            const all = bytesOf(each.selector + each.message);
            for (const respond of respondersOf(each)) {
                for (const lengths of CUTS) {
                    const { outcome, written } = outcomeOf(respond(), all, lengths);
                    assert.deepEqual([outcome, written], [each.outcome, hex(bytesOf(each.reply))]);
                }
                for (let length = 0; each.outcome === "ended" && length < selector.length; length++) {
                    const { outcome, written } = outcomeOf(respond(), selector.subarray(0, length));
                    assert.deepEqual([outcome, written], ["refused 3", "52525331000000020503"]);
                }
            }
        });
    }
}

/** A pair of web streams by which these bytes come, and then the end; what was written is put into a list. */
function played(bytes, written) {
    const readable = new ReadableStream({
        start(controller) {
            if (bytes.length > 0) controller.enqueue(bytes);
            controller.close();
        },
    });
    const mine = [];
    written.push(mine);
    return { readable, writable: new WritableStream({ write: (piece) => void mine.push(piece) }) };
}

/** The number that a selector of a part has behind its name and b, in hex, and its bounds as options. */
function readPart(selector) {
    const number = 5 + selector[4] + 1;
    const to = number + 3 + selector[number + 2];
    const bounds = { from: selector.subarray(number + 3, to), to: selector.subarray(to + 1) };
    const there = Object.entries(bounds).filter(([, bound]) => bound.length > 0);
    return { number: hex(selector.subarray(number, number + 2)), bounds: Object.fromEntries(there) };
}

for (const each of casesOf("parts")) {
    const selector = bytesOf(each.selector);
    if (each.outcome !== "ended" || selector.length === 0) continue;
    const { number, bounds } = readPart(selector);
    // Of a set in shards the directory is asked for first.
    if (each.bits > 0 && number !== "ffff") continue;
    test(`${each.name}: the selector of an initiator`, async () => {
        const written = [];
        if (!each.bits) written.push([setOf(each).initiate({ set: namedBy(each), ...bounds }).pull()]);
        const asked = () => shardsOf(each, each).reconcile(() => played(new Uint8Array(0), written), bounds);
        if (each.bits !== undefined) await assert.rejects(asked(), { name: "Refused", number: 3 });
        for (const pieces of written) {
            assert.equal(hex(Buffer.concat(pieces).subarray(0, selector.length)), hex(selector));
        }
    });
}

/** How a call of `reconcile` ended, as the cases have it. */
async function reconciled(here, connect, profile) {
    const textOf = (fault) => `${fault.byPeer ? "peer refused" : "refused"} ${fault.number}`;
    try {
        return { outcome: "ended", ...(await here.reconcile(connect, { profile })) };
    } catch (fault) {
        if (fault instanceof Refused) return { outcome: textOf(fault) };
        assert.ok(fault instanceof Incomplete, fault);
        const faults = Object.fromEntries([...fault.faults].map(([number, each]) => [number, textOf(each)]));
        return { outcome: "incomplete", ...fault.found, faults };
    }
}

for (const each of casesOf("shards")) {
    test(`${each.name}: the initiator`, async () => {
        const { outcome, differ, ours, theirs, faults } = each.initiator;
        const written = [];
        const connect = () => played(bytesOf(each.session[written.length].responder), written);
        const came = await reconciled(shardsOf(each, each.initiator), connect, each.profile);
        const seen = JSON.stringify({ ...came, ours: came.ours?.map(hex), theirs: came.theirs?.map(hex) });
        assert.deepEqual(JSON.parse(seen), JSON.parse(JSON.stringify({ outcome, ours, theirs, differ, faults })));
        const wrote = written.map((pieces) => hex(Buffer.concat(pieces)));
        assert.deepEqual(wrote, each.session.map((talk) => hex(bytesOf(talk.selector + talk.initiator))));
    });
    if (each.responder === undefined) continue;
    test(`${each.name}: the responder`, () => {
        for (const talk of each.session) {
            for (const lengths of CUTS) {
                const session = shardsOf(each, each.responder).respond();
                const { outcome, written } = outcomeOf(session, bytesOf(talk.selector + talk.initiator), lengths);
                assert.deepEqual([outcome, written], ["ended", hex(bytesOf(talk.responder))]);
            }
        }
    });
}

for (const each of casesOf("tables")) {
    test(each.name, () => {
        const { name, ...keys } = each;
        const given = ["bounds", "opening"].filter((key) => key in keys);
        hasKeys(keys, ["cap", "limit", "rounds", "row", ...given]);
        assert.ok(Strategy.from(keys).cap > 0);
    });
}
