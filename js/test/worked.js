/** The worked cases of docs/vectors, and what runs one side of them. */

import { readFileSync, readdirSync } from "node:fs";

import { RangeSet, Strategy } from "../index.js";
import { bodyLength, isPart, readBody, SUM } from "../src/wire.js";
import { End } from "../src/ends.js";
import { Message } from "../src/message.js";
import { Opening } from "../src/placing.js";
import { PROFILES } from "../src/profiles.js";
import { require } from "../src/refused.js";
import { readToml } from "../src/toml.js";
import { Tree } from "../src/tree.js";

const TOP = new URL("../../", import.meta.url);
const CASES = new URL("docs/vectors/", TOP);

/** The bytes of hex digits, in which blanks and line ends have no meaning. */
export function bytesOf(text) {
    return new Uint8Array(Buffer.from(text.replace(/\s/g, ""), "hex"));
}

export function hex(bytes) {
    return Buffer.from(bytes).toString("hex");
}

/** A file of the repository. */
export function fileOf(path) {
    return readFileSync(new URL(path, TOP));
}

/** The cases of a folder, with their names; `set` is the name of a set. The package speaks no compact profile. */
export function casesOf(folder) {
    const files = readdirSync(new URL(folder, CASES)).filter((name) => name.endsWith(".toml"));
    const names = files.filter((name) => !name.includes("compact-"));
    if (names.length === 0) throw new Error(`no case in ${folder}`);
    return names.map((file) => {
        const name = `${folder}/${file}`;
        const { name: set, ...fields } = readToml(readFileSync(new URL(name, CASES)));
        return set === undefined ? { name, ...fields } : { name, set, ...fields };
    });
}

/** A table of the cases, by its name. */
export function tableOf(name) {
    return Strategy.parse(readFileSync(new URL(`tables/${name}.toml`, CASES)));
}

/** The set of a side that is run. */
export function setOf({ table, items }) {
    return new RangeSet(tableOf(table), items.map(bytesOf));
}

/** All that is due. */
export function pulled(session, most = 65536) {
    const all = [];
    for (let bytes = session.pull(most); bytes.length > 0; bytes = session.pull(most)) all.push(bytes);
    return Buffer.concat(all);
}

/** What came of a session over all bytes of a peer, cut at these lengths in turn, and what it wrote. */
export function outcomeOf(session, peer, lengths = [peer.length || 1]) {
    let written = pulled(session);
    for (let at = 0, turn = 0; at < peer.length; turn++) {
        const length = lengths[turn % lengths.length];
        session.push(peer.subarray(at, at + length));
        written = Buffer.concat([written, pulled(session)]);
        at += length;
    }
    session.finish();
    written = hex(Buffer.concat([written, pulled(session)]));
    const number = session.refusal === null ? "" : ` ${session.refusal.number}`;
    const learned = session.state === "ended" ? session.learnedInTurn() : { ours: [], theirs: [] };
    const [ours, theirs] = [learned.ours.map(hex), learned.theirs.map(hex)];
    return { outcome: session.state + number, sent: session.sent, ours, theirs, written };
}

/** The place of the parts of a message that is read alone: Sums, over any ranges. */
class Sums extends Opening {
    next(part) {
        require(part.kind === SUM, 20);
        return null;
    }
    finish() {}
}

/** The bodies of one message of profile 1 that is read alone. */
function readAlone(text) {
    const bodies = [];
    let at = 0;
    for (let isOver = false; !isOver; ) {
        require(text.length - at >= 4, 3);
        const length = bodyLength(text.subarray(at, at + 4));
        at += 4 + length;
        require(at <= text.length, 3);
        const read = readBody(text.subarray(at - length, at), 32, false);
        if (isPart(read)) bodies.push(read);
        else isOver = true;
    }
    require(at === text.length, 11);
    return bodies;
}

/** The reply to one message of profile 1 that is read alone: to any Sums, or to a first message. */
export function replyTo(set, text, isFirst) {
    const end = new End(new Tree([...set]).view(), set.strategy, PROFILES[0], isFirst ? new Opening() : new Sums());
    for (const part of readAlone(text)) end.take(part);
    return end.finish() ?? new Message().written();
}
