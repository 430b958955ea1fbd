/** Runs a session over a connection. */

import { connectionOver, forAWhile } from "./connections.js";
import { MOST_BYTES } from "./session.js";

/** @typedef {import("./session.js").Session} Session */
/** @typedef {import("./connections.js").Connection} Connection */
/** @typedef {import("./sets.js").SessionOptions & { signal?: AbortSignal }} SyncOptions */

/** Writes all that is due.
 * @param {Session} session @param {Connection} connection */
async function writeDue(session, connection) {
    try {
        for (let bytes = session.pull(); bytes.length > 0; bytes = session.pull()) await connection.write(bytes);
    } catch (fault) {
        // The peer may have refused before the connection broke.
        await forAWhile(hearLast(session, connection));
        // A refusal stands, whether the peer can be told of it or not.
        if (session.refusal === null) throw fault;
    }
}

/** Takes what has come, while the session goes on.
 * @param {Session} session @param {Connection} connection */
async function hearLast(session, connection) {
    while (session.state === "open") {
        const came = await connection.read();
        if (came === null) return;
        session.push(came);
    }
}

/** Moves the bytes until the session is over.
 * @param {Session} session @param {Connection} connection */
async function moveBytes(session, connection) {
    await writeDue(session, connection);
    while (session.state === "open") {
        const came = await connection.read();
        if (came === null) session.finish();
        else session.push(came);
        await writeDue(session, connection);
    }
}

/**
 * Runs a session over a connection of its own, closes the connection, and gives what the session found. Throws Refused
 * where one of the sides refused, 3 where the connection ended before the session did; the signal's reason where it was
 * aborted; and what the connection throws.
 * @param {Session} session
 * @param {unknown} stream a WebSocket, a pair of web streams, or a socket of Node
 * @param {{ signal?: AbortSignal, mostBytes?: number }} [options]
 */
export async function run(session, stream, options = {}) {
    const { signal, mostBytes = MOST_BYTES } = options;
    const connection = connectionOver(stream, mostBytes);
    const aborted = () => connection.abort(signal?.reason);
    signal?.addEventListener("abort", aborted);
    try {
        if (signal?.aborted) aborted();
        signal?.throwIfAborted();
        await moveBytes(session, connection);
        await connection.close();
    } catch (fault) {
        connection.abort(fault);
        throw signal?.aborted ? signal.reason : fault;
    } finally {
        signal?.removeEventListener("abort", aborted);
    }
    signal?.throwIfAborted();
    return session.learned();
}

/**
 * Runs a session that speaks first, with a server or another side that answers, and gives what it found, rising: `ours`
 * the other side lacks, and `theirs` this side lacks. Nothing is put in: `set.update(theirs)` does that. Throws as
 * `run`, and as `initiate` of the set.
 * @param {import("./sets.js").RangeSet | import("./sets.js").Version} set
 * @param {unknown} stream a WebSocket, a pair of web streams, or a socket of Node; it is closed
 * @param {SyncOptions & import("./sets.js").PartOptions} [options] with `from` and `to`, of the items between alone
 */
export async function sync(set, stream, options = {}) {
    return run(set.initiate(options), stream, options);
}

/**
 * The same for the side that is spoken to first. It is to be called before bytes can come, as in the handler of a new
 * connection. Throws as `run`, and as `respond` of the set.
 * @param {{ respond(options: import("./sets.js").SessionOptions): Session }} set a set, a version, or `Shards`
 * @param {unknown} stream a WebSocket, a pair of web streams, or a socket of Node; it is closed
 * @param {SyncOptions} [options]
 */
export async function answer(set, stream, options = {}) {
    return run(set.respond(options), stream, options);
}

