/**
 * Runs sets and sessions for another program, which asks by lines of JSON and is answered by lines of JSON:
 *
 *     {"open": {"role": "initiator", "profile": 1, "set": "..", "mostBytes": 100}, "table": {..}, "items": ["61"]}
 *                                  in "open" also "from" and "to", the bounds of a part
 *     {"push": ["0102", "03"]}     pieces of what the peer wrote
 *     {"finish": true}             the peer's bytes end
 *     {"judge": "cap = .."}        reads a strategy: its number, or its steps
 *
 * The answer to the first three, which may stand in one line, is the session: what is due in hex, how it stands, and
 * what was learned if it ended.
 */

import { createInterface } from "node:readline";

import { RangeSet, Refused, Strategy } from "../index.js";
import { bytesOf, hex, pulled } from "./worked.js";

/** How a session stands, in the words of docs/vectors. */
function standing(session) {
    const { state, refusal, sent, bound } = session;
    const outcome = refusal === null ? state : `${state} ${refusal.number}`;
    const due = hex(pulled(session));
    if (state !== "ended") return { due, outcome, sent, bound };
    const { ours, theirs } = session.learnedInTurn();
    return { due, outcome, sent, bound, ours: ours.map(hex), theirs: theirs.map(hex) };
}

/** @returns the session of a line */
function opened({ open: { role, ...options }, table, items }) {
    const all = new RangeSet(Strategy.from(table), items.map(bytesOf));
    for (const key of ["set", "from", "to"]) if (key in options) options[key] = bytesOf(options[key]);
    return role === "initiator" ? all.initiate(options) : all.respond(options);
}

function judged(text) {
    try {
        return { steps: Strategy.parse(bytesOf(text)).steps };
    } catch (fault) {
        if (fault instanceof Refused) return { refused: fault.number };
        throw fault;
    }
}

let session;
for await (const line of createInterface({ input: process.stdin })) {
    const asked = JSON.parse(line);
    if ("judge" in asked) {
        console.log(JSON.stringify(judged(asked.judge)));
        continue;
    }
    if ("open" in asked) session = opened(asked);
    for (const piece of asked.push ?? []) session.push(bytesOf(piece));
    if (asked.finish) session.finish();
    console.log(JSON.stringify(standing(session)));
}
