/** Sessions over sockets, web streams and WebSockets. */

import assert from "node:assert/strict";
import { connect, createServer } from "node:net";
import { Duplex } from "node:stream";
import { test } from "node:test";

import { Incomplete, RangeSet, Refused, Shards, Strategy, answer, run, sync } from "../index.js";
import { bridgeTo } from "./bridge.js";
import { bytesOf, hex } from "./worked.js";

const ALL_ROUND = Strategy.named();
const ALL = Strategy.named("whole-list");
const text = (value) => new TextEncoder().encode(value);
const texts = (items) => [...items].map((item) => new TextDecoder().decode(item));
const HERE = new RangeSet(ALL_ROUND, ["one", "two"].map(text));
const THERE = new RangeSet(ALL_ROUND, ["two", "three"].map(text));
const found = ({ ours, theirs }) => [texts(ours), texts(theirs)];
const WANTED = [["one"], ["three"]];
const LARGE = Array.from({ length: 30_000 }, (_, number) => text(`${number} `.repeat(9).slice(0, 60)));

/** A server of this process: what `answers` gives for each socket, and the port. */
async function listening(answers, given = {}) {
    const came = [];
    const server = createServer(given, (socket) => came.push(answers(socket).catch((fault) => fault)));
    await new Promise((resolve) => server.listen(0, "127.0.0.1", resolve));
    // A test that fails before it closes the server is not to hold the process.
    server.unref();
    const { port } = server.address();
    return { came, port, connect: () => connect(port, "127.0.0.1"), close: () => server.close() };
}

/** A server that writes these bytes, and ends, whatever comes. */
function saying(bytes) {
    return listening(async (socket) => {
        socket.on("error", () => {});
        socket.on("data", () => {});
        socket.end(bytes);
    });
}

test("sockets of Node", async () => {
    const server = await listening((socket) => answer(THERE, socket));
    assert.deepEqual(found(await sync(HERE, server.connect())), WANTED);
    assert.deepEqual(found(await sync(HERE, server.connect(), { profile: 2 })), WANTED);
    assert.deepEqual(found(await run(HERE.version().initiate(), server.connect())), WANTED);
    for (const came of await Promise.all(server.came)) assert.deepEqual(found(came), [WANTED[1], WANTED[0]]);
    server.close();
});

test("web streams over sockets", async () => {
    const server = await listening((socket) => answer(THERE, Duplex.toWeb(socket)));
    const streams = Duplex.toWeb(server.connect());
    assert.deepEqual(found(await sync(HERE, streams)), WANTED);
    await Promise.all(server.came);
    server.close();
});

for (const [name, over] of [["sockets", (socket) => socket], ["web streams", (socket) => Duplex.toWeb(socket)]]) {
    test(`messages of megabytes over ${name}`, async () => {
        const server = await listening((socket) => answer(new RangeSet(ALL, LARGE.slice(0, 20_000)), over(socket)));
        const { ours, theirs } = await sync(new RangeSet(ALL, LARGE.slice(10_000)), over(server.connect()));
        assert.deepEqual([ours.length, theirs.length], [10_000, 10_000]);
        const [came] = await Promise.all(server.came);
        assert.deepEqual([came.ours.length, came.theirs.length], [10_000, 10_000]);
        server.close();
    });
}

test("refusals", async () => {
    const byPeer = await saying(bytesOf("52525331 00000002 05 37"));
    await assert.rejects(sync(HERE, byPeer.connect()), { name: "Refused", number: 55, byPeer: true });
    byPeer.close();
    const early = await saying(bytesOf("52525331"));
    await assert.rejects(sync(HERE, early.connect()), { name: "Refused", number: 3, byPeer: false });
    early.close();
    // This side sees the number of a peer that speaks no such profile, and so does the other.
    const server = await listening((socket) => answer(THERE, socket, { profile: 1 }));
    await assert.rejects(sync(HERE, server.connect(), { profile: 2 }), { name: "Refused", number: 1, byPeer: false });
    const [came] = await Promise.all(server.came);
    assert.deepEqual([came.number, came.byPeer], [1, false]);
    server.close();
});

test("a fault frame is seen, whatever the peer still writes", async () => {
    const server = await listening((socket) => answer(THERE, socket, { set: "logsh" }));
    const socket = server.connect();
    socket.write(Buffer.concat([bytesOf("52525331"), Buffer.alloc(100_000)]));
    const said = [];
    socket.on("data", (piece) => said.push(piece));
    await new Promise((resolve) => socket.on("end", resolve));
    assert.equal(hex(Buffer.concat(said)), "52525331000000020501");
    const [came] = await Promise.all(server.came);
    assert.equal(came.number, 1);
    server.close();
});

test("nobody listens", async () => {
    const server = await saying(Buffer.alloc(0));
    server.close();
    await new Promise((resolve) => setTimeout(resolve, 20));
    await assert.rejects(sync(HERE, server.connect()), { code: "ECONNREFUSED" });
    await assert.rejects(sync(HERE, Duplex.toWeb(server.connect())), { code: "ECONNREFUSED" });
});

test("a signal", async () => {
    const silent = await listening(async (socket) => void socket.on("error", () => {}));
    const abort = new AbortController();
    const reason = new Error("enough");
    setTimeout(() => abort.abort(reason), 50);
    for (const over of [(socket) => socket, (socket) => Duplex.toWeb(socket)]) {
        await assert.rejects(sync(HERE, over(silent.connect()), { signal: abort.signal }), reason);
    }
    await assert.rejects(sync(HERE, silent.connect(), { signal: AbortSignal.timeout(30) }), { name: "TimeoutError" });
    silent.close();
});

test("what is no connection", async () => {
    for (const stream of [null, undefined, 1, {}, { readable: true, writable: true }, { on() {} }]) {
        await assert.rejects(sync(HERE, stream), TypeError);
    }
});

test("shards over sockets", async () => {
    const there = new Shards(ALL_ROUND, 4, LARGE.slice(0, 2_000), { name: "logst" });
    const server = await listening((socket) => there.answer(socket));
    const here = new Shards(ALL_ROUND, 4, LARGE.slice(20, 2_010), { name: "logst" });
    const { ours, theirs, differ } = await here.reconcile(server.connect, { atOnce: 3 });
    assert.deepEqual([ours.length, theirs.length], [10, 20]);
    const came = await Promise.all(server.came);
    assert.equal(came.length, differ + 1);
    assert.deepEqual([came[0].shard, came[0].theirs], [null, []]);
    const other = new Shards(ALL_ROUND, 4, [], { name: "logsh" });
    await assert.rejects(other.reconcile(server.connect), { number: 55, byPeer: true });
    await assert.rejects(here.reconcile(server.connect, { atOnce: 0 }), RangeError);
    await assert.rejects(here.reconcile(server.connect, { profile: 3 }), { number: 98 });
    server.close();
});

test("shards of which some fail", async () => {
    const there = new Shards(ALL_ROUND, 3, LARGE.slice(0, 500));
    const server = await listening((socket) => there.answer(socket));
    const here = new Shards(ALL_ROUND, 3, LARGE.slice(100, 600));
    let calls = 0;
    const twice = () => {
        calls += 1;
        if (calls > 3) throw new Error("no more");
        return server.connect();
    };
    const fault = await here.reconcile(twice).catch((each) => each);
    assert.ok(fault instanceof Incomplete);
    assert.deepEqual([calls, fault.found.differ, fault.faults.size, fault.cause.message], [4, 8, 6, "no more"]);
    assert.match(fault.message, /^6 of 8 shards that differ are not reconciled; shard 2: no more$/);
    assert.ok(fault.found.ours.length > 0 && fault.found.ours.length < 100);
    // One that keeps fewer shards is told by the number of the first that the other lacks.
    const some = new Shards(ALL_ROUND, 3, [], { only: [1, 2, 5] });
    const less = await listening((socket) => some.answer(socket));
    await assert.rejects(here.reconcile(less.connect), (each) => each.number === 56 && each.values.shard === 0);
    assert.equal((await some.reconcile(server.connect)).differ, 3);
    for (const each of [server, less]) each.close();
});

// WebSockets.

/** One end of a connection that behaves as a WebSocket does, over another one of these. */
class Played extends EventTarget {
    static OPEN = 1;
    CONNECTING = 0;
    OPEN = 1;
    readyState = 0;
    bufferedAmount = 0;
    sent = [];
    closedWith = [];

    static pair() {
        const [one, other] = [new Played(), new Played()];
        [one.other, other.other] = [other, one];
        setTimeout(() => [one, other].forEach((each) => each.tell("open", (each.readyState = 1))), 5);
        return [one, other];
    }

    tell(name, _, more = {}) {
        this.dispatchEvent(Object.assign(new Event(name), more));
    }

    send(bytes) {
        assert.equal(this.readyState, 1);
        this.sent.push(bytes.length);
        this.bufferedAmount += bytes.length;
        this.most = Math.max(this.most ?? 0, this.bufferedAmount);
        const data = bytes.slice().buffer;
        setTimeout(() => {
            this.bufferedAmount -= bytes.length;
            // Messages are cut otherwise on their way than they were sent.
            for (let at = 0; at < data.byteLength; at += 40_000) {
                this.other.tell("message", 0, { data: data.slice(at, at + 40_000) });
            }
        }, 3);
    }

    close(code) {
        // A page may close with these codes alone.
        if (code !== undefined && code !== 1000 && code < 3000) throw new Error("no such code");
        this.closedWith.push(code);
        setTimeout(() => {
            for (const each of [this, this.other]) {
                if (each.readyState === 3) continue;
                each.readyState = 3;
                each.tell("close");
            }
        }, 10);
    }
}

test("a WebSocket that is played", async () => {
    const [near, far] = Played.pair();
    const [came, learned] = await Promise.all([answer(THERE, far), sync(HERE, near)]);
    assert.deepEqual([found(learned), found(came)], [WANTED, [WANTED[1], WANTED[0]]]);
    assert.equal(near.binaryType, "arraybuffer");
});

test("large messages over it go in pieces, and few of them wait", async () => {
    const [near, far] = Played.pair();
    const there = new RangeSet(ALL, LARGE.slice(0, 20_000));
    const [came] = await Promise.all([answer(there, far), sync(new RangeSet(ALL, LARGE.slice(10_000)), near)]);
    assert.equal(came.ours.length, 10_000);
    assert.ok(Math.max(...far.sent) === 65_536 && far.sent.length > 10);
    assert.ok(far.most <= 5 * 65_536);
});

test("a Close before the end of the session", async () => {
    const [near] = Played.pair();
    setTimeout(() => near.close(), 20);
    await assert.rejects(sync(HERE, near), { name: "Refused", number: 3, byPeer: false });
});

test("a text message", async () => {
    const [near] = Played.pair();
    setTimeout(() => near.tell("message", 0, { data: "hello" }), 20);
    await assert.rejects(sync(HERE, near), /a text message came/);
    assert.ok(near.closedWith.length > 0);
});

test("a WebSocket that fails, and one that is closed", async () => {
    const [near] = Played.pair();
    setTimeout(() => (near.tell("error"), near.close()), 20);
    await assert.rejects(sync(HERE, near), /the WebSocket failed/);
    while (near.readyState === near.OPEN) await new Promise((resolve) => setTimeout(resolve, 5));
    await assert.rejects(sync(HERE, near), /the WebSocket is closed/);
    const [slow] = Played.pair();
    const abort = new AbortController();
    setTimeout(() => abort.abort(), 20);
    await assert.rejects(sync(HERE, slow, { signal: abort.signal }), { name: "AbortError" });
});

test("a WebSocket by which more comes than is taken", async () => {
    const [near] = Played.pair();
    setTimeout(() => near.tell("message", 0, { data: Buffer.alloc(200) }), 20);
    await assert.rejects(sync(HERE, near, { mostBytes: 100 }), { name: "Refused", number: 3 });
});

const lacksWebSocket = typeof WebSocket === "undefined" && "this Node has no WebSocket";

test("a WebSocket over a bridge", { skip: lacksWebSocket }, async () => {
    const server = await listening((socket) => answer(THERE, socket), { allowHalfOpen: true });
    const bridge = await bridgeTo(server.port);
    const open = () => new WebSocket(`ws://127.0.0.1:${bridge.port}`);
    assert.deepEqual(found(await sync(HERE, open())), WANTED);
    await assert.rejects(sync(HERE, open(), { set: "logsh" }), { number: 1, byPeer: true });
    const came = await Promise.all(server.came);
    assert.deepEqual(found(came[0]), [WANTED[1], WANTED[0]]);
    assert.ok(came[1] instanceof Refused);
    server.close();
    const large = await listening((socket) => answer(new RangeSet(ALL, LARGE.slice(0, 20_000)), socket));
    const other = await bridgeTo(large.port);
    const here = new RangeSet(ALL, LARGE.slice(10_000));
    const { ours, theirs } = await sync(here, new WebSocket(`ws://127.0.0.1:${other.port}`));
    assert.deepEqual([ours.length, theirs.length], [10_000, 10_000]);
    for (const each of [large, bridge, other]) each.close();
});
