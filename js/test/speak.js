/**
 * Speaks with the program over TCP, for other tests:
 *
 *     node speak.js sync OPTIONS PORT FILE      one session, or those of a set in shards, with a server at this port
 *     node speak.js answer OPTIONS COUNT FILE   answers so many connections; it prints its port first
 *
 * OPTIONS is JSON: `profile`, `set`, `bits`, `from` and `to` as texts, and `over`: `socket`, `web`, `websocket`, or `bridge`: a
 * WebSocket to a server of TCP. FILE
 * has an item a line. It prints what was found, a line each, as `ours one` and `theirs two`, and of an answer its
 * shard; or the refusal.
 */

import { readFileSync } from "node:fs";
import { connect, createServer } from "node:net";
import { Duplex } from "node:stream";

import { RangeSet, Refused, Shards, Strategy, answer, sync } from "../index.js";
import { bridgeTo } from "./bridge.js";

const [role, given, number, path] = process.argv.slice(2);
const { profile, set, bits, from, to, over, table } = JSON.parse(given);
const lines = readFileSync(path, "utf8").split("\n").filter(Boolean);
const bytes = (text) => text && new TextEncoder().encode(text);
const items = lines.map(bytes);
const strategy = Strategy.named(table);
const held = bits === undefined ? new RangeSet(strategy, items) : new Shards(strategy, bits, items, { name: set });
const part = { from: bytes(from), to: bytes(to) };

function print({ ours, theirs }) {
    for (const [word, found] of [["ours", ours], ["theirs", theirs]]) {
        for (const item of found) console.log(`${word} ${new TextDecoder().decode(item)}`);
    }
}

function connected(port) {
    if (over === "websocket") return new WebSocket(`ws://127.0.0.1:${port}`, "rangesync");
    if (over === "bridge") return new WebSocket(`ws://127.0.0.1:${port}`);
    const socket = connect({ port, host: "127.0.0.1" });
    return over === "web" ? Duplex.toWeb(socket) : socket;
}

async function speakFirst() {
    const bridge = over === "bridge" ? await bridgeTo(Number(number)) : null;
    const port = bridge?.port ?? Number(number);
    if (bits === undefined) print(await sync(held, connected(port), { profile, set, ...part }));
    else print(await held.reconcile(() => connected(port), { profile, atOnce: 4, ...part }));
    bridge?.close();
}

async function answerAll() {
    const came = [];
    const server = createServer((socket) => {
        const stream = over === "web" ? Duplex.toWeb(socket) : socket;
        came.push(bits === undefined ? answer(held, stream, { set }) : held.answer(stream));
        if (came.length === Number(number)) server.close();
    });
    await new Promise((resolve) => server.listen(0, "127.0.0.1", resolve));
    console.log(`listening 127.0.0.1:${server.address().port}`);
    await new Promise((resolve) => server.on("close", resolve));
    for (const each of came) print(await each);
}

try {
    await (role === "sync" ? speakFirst() : answerAll());
} catch (fault) {
    if (!(fault instanceof Refused)) throw fault;
    console.log(fault.message.split(":")[0]);
}
