/** Sets, versions and sessions without a connection. */

import assert from "node:assert/strict";
import { test } from "node:test";

import { RangeSet, Refused, Shards, Strategy } from "../index.js";
import { bytesOf, fileOf, hex, outcomeOf, pulled } from "./worked.js";

const EIGHT = Strategy.parse(fileOf("examples/eight.toml"));
const ALL = Strategy.named("whole-list");
const text = (value) => new TextEncoder().encode(value);
const texts = (items) => [...items].map((item) => new TextDecoder().decode(item));
const NONE = `00 ff ${"00".repeat(32)} 0000000104`;
const FIRST = bytesOf(`52525331 00000023 01 ${NONE}`);

/** Sees that a call is refused by this number, with these values. */
function refuses(number, values, call) {
    assert.throws(call, (fault) => fault instanceof Refused && fault.number === number && !fault.byPeer);
    try {
        call();
    } catch ({ values: came }) {
        assert.deepEqual(came, values);
    }
}

test("a set", () => {
    const set = new RangeSet(EIGHT, ["b", "a", "b"].map(text));
    assert.equal(set.size, 2);
    assert.deepEqual([set.insert(text("c")), set.insert(text("a")), set.size], [true, false, 3]);
    assert.deepEqual([set.has(text("c")), set.has(text("d")), set.has(text("cc"))], [true, false, false]);
    assert.deepEqual(texts(set), ["a", "b", "c"]);
    assert.deepEqual(texts(set.items(text("b"))), ["b", "c"]);
    assert.deepEqual(texts(set.items(text("a"), text("b"))), ["a"]);
    assert.equal(set.update(["c", "d", "e"].map(text)), 2);
    assert.equal(set.strategy, EIGHT);
    assert.equal(new RangeSet(EIGHT).size, 0);
});

test("the order is that of the bytes", () => {
    const items = [[0x61, 0], [0x61], [0xff], [0x7f], [0x61, 0, 0], [0xf0, 1]];
    const set = new RangeSet(EIGHT, items.map((each) => Uint8Array.from(each)));
    assert.deepEqual([...set].map(hex), ["61", "6100", "610000", "7f", "f001", "ff"]);
});

test("what is no item", () => {
    const set = new RangeSet(EIGHT, [text("a")]);
    for (const call of [(item) => set.insert(item), (item) => set.has(item), (item) => new RangeSet(EIGHT, [item])]) {
        refuses(71, {}, () => call(new Uint8Array(0)));
        refuses(72, { length: 65 }, () => call(new Uint8Array(65)));
        for (const value of ["a", 1, null, undefined, [1], new Int8Array(1), new ArrayBuffer(1)]) {
            assert.throws(() => call(value), TypeError);
        }
    }
    assert.throws(() => set.update([text("b"), new Uint8Array(0), text("c")]), { number: 71 });
    assert.deepEqual(texts(set), ["a", "b"]);
    assert.ok(set.insert(new Uint8Array(64)));
    assert.throws(() => new RangeSet([text("a")]), TypeError);
    refuses(72, { length: 65 }, () => [...set.items(new Uint8Array(65))]);
    refuses(73, {}, () => [...set.items(text("b"), text("b"))]);
    refuses(73, {}, () => [...set.items(undefined, new Uint8Array(0))]);
});

test("a full set", () => {
    const letters = [..."abcdefgh"].map(text);
    const set = new RangeSet(EIGHT, [...letters, letters[0]]);
    assert.equal(set.insert(letters[3]), false);
    refuses(40, { cap: 8 }, () => set.insert(text("i")));
    refuses(82, { cap: 8 }, () => new RangeSet(EIGHT, [...letters, text("i")]));
    assert.equal(set.size, 8);
});

test("a shard without room", () => {
    // The digests of a, b and c begin with the bits 11, 00 and 00.
    const one = Strategy.from({ cap: 4, limit: 4, rounds: 0, row: [{ upto: 4, list: true }] });
    const shards = new Shards(one, 2, [text("b"), text("c"), text("a")]);
    const others = Array.from({ length: 40 }, (_, number) => text(`n${number}`));
    assert.throws(() => shards.update(others), (fault) => fault.number === 40 && fault.values.cap === 4);
    assert.throws(() => new Shards(one, 2, others), (fault) => fault.number === 82 && fault.values.shard >= 0);
    refuses(82, { cap: 4 }, () => new Shards(one, 3));
    refuses(71, {}, () => shards.insert(new Uint8Array(0)));
    assert.equal(shards.has(text("a")), true);
    assert.equal(shards.has(text("d")), false);
    assert.throws(() => shards.insert("a"), TypeError);
});

test("some of the shards", () => {
    const some = new Shards(EIGHT, 2, [text("a")], { only: [3, 1] });
    assert.throws(() => some.insert(text("b")), /shard 0 is not kept here/);
    assert.throws(() => new Shards(EIGHT, 2, [text("b")], { only: [3] }), RangeError);
    assert.deepEqual([some.has(text("b")), some.has(text("a")), some.size, texts(some)], [false, true, 1, ["a"]]);
    for (const only of [[], [4], [-1], [0.5], [0, 0xffff]]) {
        assert.throws(() => new Shards(EIGHT, 2, [], { only }), RangeError);
    }
    for (const bits of [-1, 13, 0.5, "2"]) assert.throws(() => new Shards(ALL, bits), RangeError);
    assert.throws(() => new Shards(ALL, 1, [], { name: "n".repeat(65) }), RangeError);
    const named = new Shards(ALL, 12, [], { name: "é" });
    assert.deepEqual([named.bits, hex(named.name)], [12, "c3a9"]);
});

test("the caller keeps its own memory", () => {
    const item = text("abc");
    const set = new RangeSet(EIGHT, [item]);
    item.fill(0);
    for (const each of set) each.fill(0);
    assert.deepEqual(texts(set), ["abc"]);
    const { ours } = learnedOf(set.initiate(), new RangeSet(EIGHT));
    ours[0].fill(0);
    assert.deepEqual(texts(set), ["abc"]);
    const buffer = Buffer.from("xabcx").subarray(1, 4);
    assert.equal(set.has(buffer), true);
});

/** Runs a session with a set that answers, both sides in one process. */
function learnedOf(session, other, options) {
    const responder = other.respond(options);
    for (let bytes = pulled(session); bytes.length > 0; bytes = pulled(session)) {
        responder.push(bytes);
        session.push(pulled(responder));
    }
    return session.learned();
}

test("a session, and what changes it", () => {
    const here = new RangeSet(EIGHT, [text("one"), text("two")]);
    const there = new RangeSet(EIGHT, [text("two"), text("three")]);
    const session = here.initiate();
    assert.deepEqual([session.state, session.refusal, session.sent, session.bound], ["open", null, 1, 3]);
    refuses(98, {}, () => session.learned());
    // The session is over the set as it was.
    here.insert(text("four"));
    const { ours, theirs } = learnedOf(session, there);
    assert.deepEqual([texts(ours), texts(theirs)], [["one"], ["three"]]);
    assert.deepEqual([session.state, session.refusal, session.sent, session.shard], ["ended", null, 2, 0]);
    // Afterwards nothing changes it.
    session.push(bytesOf("00000000"));
    session.finish();
    assert.deepEqual([session.state, hex(session.pull())], ["ended", ""]);
});

test("pieces of what is due", () => {
    const set = new RangeSet(EIGHT, [text("abc")]);
    const whole = hex(pulled(set.initiate()));
    assert.equal(hex(pulled(set.initiate(), 1)), whole);
    assert.equal(hex(pulled(set.initiate(), 5)), whole);
    assert.equal(set.initiate().pull(7).length, 7);
    assert.equal(whole.slice(0, 8), "52525331");
    for (const most of [0, -1, NaN]) assert.throws(() => set.initiate().pull(most), RangeError);
});

test("what was pushed may be used again", () => {
    const there = new RangeSet(ALL, [text("abc"), text("longer than the first")]);
    const responder = there.respond();
    const session = new RangeSet(ALL).initiate();
    responder.push(pulled(session));
    const said = pulled(responder);
    for (let at = 0; at < said.length; at += 11) {
        const piece = said.slice(at, at + 11);
        session.push(piece);
        piece.fill(0xee);
    }
    assert.deepEqual(texts(session.learned().theirs), ["abc", "longer than the first"]);
});

test("profiles", () => {
    const set = new RangeSet(EIGHT);
    for (const profile of [0, 3, "1"]) {
        refuses(98, { profile }, () => set.initiate({ profile }));
        refuses(98, { profile }, () => set.respond({ profile }));
    }
    // A responder that speaks one profile alone writes its own hello, whatever it reads.
    const of = (peer, profile) => outcomeOf(set.respond({ profile }), bytesOf(peer));
    assert.deepEqual([of("52525332", 1).outcome, of("52525332", 1).written], ["refused 1", "52525331000000020501"]);
    assert.deepEqual([of("52525331", 2).outcome, of("52525331", 2).written], ["refused 1", "52525332000000020501"]);
    assert.deepEqual([of("525253", 2).outcome, of("525253", 2).written], ["refused 3", "52525332000000020503"]);
    assert.deepEqual([of("52525334").outcome, of("52525334").written], ["refused 1", "52525331000000020501"]);
});

test("a bound on what is taken", () => {
    const set = new RangeSet(ALL);
    const refused = (mostBytes, peer) => {
        const session = set.initiate({ mostBytes });
        session.push(bytesOf(peer));
        return session.refusal?.number;
    };
    const list = `52525331 0000000B 02 00 FF 00000001 03 616263`;
    const end = "00000001 04";
    assert.equal(refused(24, list + end), undefined);
    assert.equal(refused(23, list + end), 3);
    // It is refused as soon as the length says so, and an end of the session is in time.
    assert.equal(refused(18, "52525331 0000000B"), 3);
    assert.equal(refused(19, "52525331 0000000B"), undefined);
    assert.equal(refused(9, `52525331 ${end}`), undefined);
    assert.equal(refused(8, "52525331 00000000"), 2);
    assert.equal(refused(4, "52525331"), 3);
    for (const mostBytes of [0, 3, -1, NaN]) assert.throws(() => set.initiate({ mostBytes }), RangeError);
});

test("a length that nothing follows takes no memory", () => {
    const before = process.memoryUsage().arrayBuffers;
    const open = Array.from({ length: 200 }, () => {
        const session = new RangeSet(ALL).initiate();
        session.push(bytesOf("52525331 00800000 02"));
        return session;
    });
    assert.ok(process.memoryUsage().arrayBuffers - before < 50_000_000);
    assert.ok(open.every((session) => session.state === "open"));
});

test("the names of sets", () => {
    const set = new RangeSet(EIGHT, [text("abc")]);
    assert.equal(hex(set.initiate({ set: "logsh" }).pull()).slice(0, 34), "5252534e056c6f6773680000" + "0052525331");
    assert.equal(hex(set.initiate({ set: "" }).pull(16)), "5252534e0000000052525331" + "00000023");
    assert.equal(hex(set.initiate({ set: text("logsh"), profile: 2 }).pull(17)).slice(26), "52525332");
    const other = new RangeSet(EIGHT);
    assert.deepEqual(texts(learnedOf(set.initiate({ set: "logsh" }), other, { set: "logsh" }).ours), ["abc"]);
    const number = (options, answering) => {
        try {
            return learnedOf(set.initiate(options), other, answering);
        } catch (fault) {
            return [fault.number, fault.byPeer];
        }
    };
    assert.deepEqual(number({ set: "logsh" }, { set: "logst" }), [55, true]);
    assert.deepEqual(number({ set: "logsh" }, {}), [1, true]);
    assert.deepEqual(number({}, { set: "logsh" }), [1, true]);
    assert.deepEqual(number({ profile: 2 }, { set: "logsh" }), [1, true]);
    assert.throws(() => set.initiate({ set: "n".repeat(65) }), RangeError);
    assert.throws(() => set.initiate({ set: 1 }), TypeError);
});

test("a part of a set", () => {
    const items = ["a", "b", "c", "d"].map(text);
    const set = new RangeSet(EIGHT, items);
    const begins = (options) => hex(set.initiate(options).pull()).slice(0, 40);
    assert.equal(begins({ from: text("b"), to: text("d") }).slice(0, 32), "525253500000000001620164" + "52525331");
    assert.equal(begins({ from: text("b"), profile: 2 }).slice(0, 30), "5252535000000000016200" + "52525332");
    assert.equal(begins({ to: text("d"), set: "logsh" }), "52525350056c6f67736800000000016452525331");
    // A part has a bound: without one it is the whole set.
    assert.equal(begins({ from: new Uint8Array(0) }), begins({}));
    assert.equal(begins({ from: undefined, to: undefined, set: "" }), begins({ set: "" }));
    const other = new RangeSet(EIGHT, ["a", "c", "c1", "e"].map(text));
    const bounds = { from: text("b"), to: text("d") };
    const session = set.initiate(bounds);
    // The caller keeps the memory of the bounds, and the session is over the set as it was.
    for (const bound of [bounds.from, bounds.to]) bound.fill(0xff);
    set.insert(text("b1"));
    const { ours, theirs } = learnedOf(session, other);
    assert.deepEqual([texts(ours), texts(theirs)], [["b"], ["c1"]]);
    for (const [number, values, options] of [
        [72, { length: 65 }, { from: new Uint8Array(65) }],
        [72, { length: 65 }, { to: new Uint8Array(65) }],
        [73, {}, { from: text("b"), to: text("b") }],
        [73, {}, { from: text("ba"), to: text("b") }],
        [73, {}, { to: new Uint8Array(0) }],
    ]) {
        refuses(number, values, () => set.initiate(options));
    }
    for (const bound of ["b", null, 1, [98]]) {
        assert.throws(() => set.initiate({ from: bound }), TypeError);
        assert.throws(() => set.initiate({ to: bound }), TypeError);
    }
});

test("how many messages a session over a part says", () => {
    const set = new RangeSet(EIGHT, [..."abcdefgh"].map(text));
    const whole = set.initiate().bound;
    assert.deepEqual([set.initiate({ from: text("h") }).bound, whole > 2], [2, true]);
    const responder = set.respond();
    assert.equal(responder.bound, whole - 1);
    responder.push(bytesOf("52525350 00 00 0000 01 68 00 525253"));
    assert.deepEqual([responder.bound, responder.shard], [whole - 1, 0]);
    responder.push(bytesOf("31"));
    assert.deepEqual([responder.bound, responder.shard], [1, 0]);
});

test("a part of a shard that is not kept", () => {
    const some = new Shards(EIGHT, 2, [], { only: [1] });
    // The number is judged before the bounds, whether they come or not.
    for (const [asked, outcome] of [
        ["52525350 00 02 0001", "refused 3"],
        ["52525350 00 02 0000", "refused 55"],
        ["52525350 00 02 0000 01 62 00 52525331", "refused 55"],
        ["52525350 00 02 0001 01 62 00 52525333", "refused 1"],
        ["52525350 00 02 ffff 01", "refused 3"],
    ]) {
        assert.equal(outcomeOf(some.respond(), bytesOf(asked)).outcome, outcome, asked);
    }
});

test("a peer that brings items outside the part", () => {
    // Neither the answer nor the list is refused; what the peer brings is told as it came.
    const set = new RangeSet(ALL, ["a", "b"].map(text));
    const session = set.initiate({ from: text("b") });
    session.push(bytesOf("52525331 0000000b 02 00 ff 00000002 0161 0162 00000001 04"));
    assert.deepEqual(texts(session.learned().theirs), ["a"]);
    const responder = set.respond();
    responder.push(bytesOf(`52525350 00 00 0000 01 62 00 52525331 00000023 01 ${NONE}`));
    responder.push(bytesOf("0000000e 03 00 ff 00000001 00 00000001 0161 00000001 04"));
    assert.deepEqual(texts(responder.learned().theirs), ["a"]);
});

test("a fault of a peer, of any number", () => {
    for (const [byte, code] of [["37", "WrongSet"], ["63", "OtherKind"], ["ff", ""], ["00", ""]]) {
        const session = new RangeSet(EIGHT).initiate();
        pulled(session);
        session.push(bytesOf(`52525331 00000002 05 ${byte}`));
        const { state, refusal } = session;
        assert.deepEqual([state, refusal.number, refusal.code], ["peer refused", parseInt(byte, 16), code]);
        assert.throws(() => session.learned(), { name: "Refused", byPeer: true });
        assert.equal(session.pull().length, 0);
    }
    assert.equal(new Refused(255, {}, true).message, "peer refused 255");
    assert.equal(new Refused(40).message.slice(0, 16), "refused 40 Full:");
});

test("an empty push is nothing", () => {
    const session = new RangeSet(EIGHT).respond();
    session.push(new Uint8Array(0));
    session.push(FIRST.subarray(0, 3));
    session.push(new Uint8Array(0));
    session.push(FIRST.subarray(3));
    assert.equal(session.state, "ended");
    assert.equal(session.bound, 1);
    assert.throws(() => session.push("text"), TypeError);
});

/** So many Sums over the parts of [S, E), of no items or with another fingerprint, and the end of the message. */
function sums(count, byte) {
    const bound = (at) => Buffer.from([3, at >> 16, (at >> 8) & 255, at & 255]);
    const frame = (lower, upper) => {
        const body = Buffer.concat([Buffer.from([1]), lower, upper, Buffer.alloc(32, byte)]);
        return Buffer.concat([Buffer.from([0, 0, 0, body.length]), body]);
    };
    const frames = Array.from({ length: count }, (_, at) => {
        return frame(at === 0 ? Buffer.from([0]) : bound(at), at + 1 === count ? Buffer.from([255]) : bound(at + 1));
    });
    return Buffer.concat([bytesOf("52525331"), ...frames, bytesOf("0000000104")]);
}

test("as many parts as a message can have, and one more", () => {
    const one = { cap: 8, limit: 1, rounds: 3, row: [{ upto: 1, list: true }, { upto: 8, split: [1, 1] }] };
    const comesTo = (items, peer) => {
        const session = new RangeSet(Strategy.from(one), items.map(text)).initiate();
        session.push(peer);
        return [session.state, session.refusal?.number];
    };
    assert.deepEqual(comesTo([], sums(131_072, 0)), ["ended", undefined]);
    assert.deepEqual(comesTo([], sums(131_073, 0)), ["refused", 12]);
    // Two items in one range, which is cut in two: the reply has one part more.
    assert.deepEqual(comesTo(["a", "b"], sums(131_071, 1)), ["open", undefined]);
    assert.deepEqual(comesTo(["a", "b"], sums(131_072, 1)), ["refused", 12]);
});

test("the longest body, and one byte more", () => {
    // 129,055 items of 64 bytes, and one that fills the body.
    const items = Array.from({ length: 129_055 }, (_, at) => {
        const item = Buffer.alloc(65, 7);
        item.writeUInt8(64, 0);
        item.writeUInt32BE(at, 1);
        return item;
    });
    const head = bytesOf("02 00 ff 0001f820");
    const left = 8_388_608 - head.length - items.length * 65;
    const last = Buffer.concat([Buffer.from([left - 1]), Buffer.alloc(left - 1, 255)]);
    const body = Buffer.concat([head, ...items, last]);
    const session = new RangeSet(ALL).initiate();
    session.push(bytesOf("52525331 00800000"));
    session.push(body.subarray(0, 5_000_000));
    session.push(body.subarray(5_000_000));
    session.push(bytesOf("0000000104"));
    assert.deepEqual([session.state, session.refusal], ["ended", null]);
    assert.equal(session.learned().theirs.length, 129_056);
    const other = new RangeSet(ALL).initiate();
    other.push(bytesOf("52525331 00800001"));
    assert.equal(other.refusal.number, 2);
});
