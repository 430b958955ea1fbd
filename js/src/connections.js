/**
 * Connections of three kinds as one: a WebSocket, a pair of web streams, a socket of Node. Each is a stream of bytes
 * each way. `read` gives bytes that came, or null at the end. `close` writes no more, reads on for at most a second, so
 * that what was written arrives, and closes.
 */

import { bytesOf, isBytes } from "./items.js";

/** The most bytes of a piece that is written. */
const PIECE = 65_536;
/** How many bytes may wait in a WebSocket before more are written to it. */
const MOST_WAITING = 4 * PIECE;
const LOOK_AGAIN_MILLISECONDS = 10;
const MOST_CLOSING_MILLISECONDS = 1_000;
const TEXT_IS_NO_STREAM = 1003;

/**
 * @typedef {object} Connection
 * @property {() => Promise<Uint8Array | null>} read
 * @property {(bytes: Uint8Array) => Promise<void>} write
 * @property {() => Promise<void>} close
 * @property {(reason: unknown) => void} abort closes at once; what waits for the connection fails
 */

/** @param {number} milliseconds @returns {Promise<void>} */
const pause = (milliseconds) => new Promise((resolve) => setTimeout(resolve, milliseconds));

/** Waits for something, but not longer than a close may take. A fault of it does not matter any more.
 * @param {Promise<unknown>} promise */
export async function forAWhile(promise) {
    /** @type {ReturnType<typeof setTimeout> | undefined} */
    let timer;
    const late = new Promise((resolve) => (timer = setTimeout(resolve, MOST_CLOSING_MILLISECONDS)));
    await Promise.race([promise.catch(() => {}), late]);
    clearTimeout(timer);
}

/** Reads to the end.
 * @param {() => Promise<unknown>} read */
async function readOn(read) {
    while ((await read()) !== null);
}

/** What came and was not read yet, of something that tells it by events. */
class Inbox {
    /** @type {Uint8Array[]} */
    #pieces = [];
    #held = 0;
    #most;
    #isOver = false;
    /** @type {unknown} */
    #fault = undefined;
    #wake = () => {};

    /** @param {number} most how many bytes are held; what comes beyond is the end */
    constructor(most) {
        this.#most = most;
    }

    /** @param {Uint8Array} bytes */
    put(bytes) {
        if (this.#isOver) return;
        this.#held += bytes.length;
        if (this.#held > this.#most) this.#isOver = true;
        else this.#pieces.push(bytes);
        this.#wake();
    }

    /** @param {unknown} [fault] */
    end(fault) {
        this.#isOver = true;
        this.#fault ??= fault;
        this.#wake();
    }

    /** Throws the fault, if there is one and nothing is left to read. */
    async read() {
        while (this.#pieces.length === 0) {
            if (this.#fault !== undefined) throw this.#fault;
            if (this.#isOver) return null;
            await new Promise((/** @type {(value?: unknown) => void} */ resolve) => (this.#wake = resolve));
        }
        const [piece] = this.#pieces.splice(0, 1);
        this.#held -= piece.length;
        return piece;
    }
}

/** The pieces of some bytes.
 * @param {Uint8Array} bytes */
function* pieces(bytes) {
    for (let at = 0; at < bytes.length; at += PIECE) yield bytes.subarray(at, at + PIECE);
}

/**
 * A WebSocket, which may still be opening. Its binary messages are pieces of the stream, and its Close is the end.
 * @param {WebSocket} socket
 * @param {number} most how many bytes that came may wait to be read
 * @returns {Connection}
 */
function overWebSocket(socket, most) {
    const inbox = new Inbox(most);
    socket.binaryType = "arraybuffer";
    const closed = new Promise((resolve) => socket.addEventListener("close", resolve));
    const opened = new Promise((resolve) => {
        socket.addEventListener("open", resolve);
        closed.then(resolve);
        if (socket.readyState !== socket.CONNECTING) resolve(undefined);
    });
    socket.addEventListener("message", ({ data }) => {
        if (typeof data !== "string") inbox.put(isBytes(data) ? data : new Uint8Array(data));
        else fail(new Error("a text message came, and the stream is of bytes"), TEXT_IS_NO_STREAM);
    });
    socket.addEventListener("error", () => inbox.end(new Error("the WebSocket failed")));
    socket.addEventListener("close", () => inbox.end());
    if (socket.readyState > socket.OPEN) inbox.end();

    /** @param {unknown} fault @param {number} code */
    function fail(fault, code) {
        inbox.end(fault);
        try {
            socket.close(code);
        } catch {
            // This WebSocket lets its user close with no such code.
            socket.close();
        }
    }

    /** @param {Uint8Array} bytes */
    async function write(bytes) {
        await opened;
        for (const piece of pieces(bytes)) {
            while (socket.readyState === socket.OPEN && socket.bufferedAmount > MOST_WAITING) {
                await pause(LOOK_AGAIN_MILLISECONDS);
            }
            if (socket.readyState !== socket.OPEN) throw new Error("the WebSocket is closed");
            socket.send(/** @type {any} */ (piece));
        }
    }

    async function close() {
        socket.close();
        await forAWhile(closed);
    }

    return { read: () => inbox.read(), write, close, abort: (reason) => fail(reason, 1000) };
}

/**
 * A pair of web streams, as a connection of Deno is or `Duplex.toWeb` of Node gives.
 * @param {{ readable: ReadableStream<Uint8Array>, writable: WritableStream<Uint8Array> }} streams
 * @returns {Connection}
 */
function overWebStreams(streams) {
    const reader = streams.readable.getReader();
    const writer = streams.writable.getWriter();
    // What fails is told by the call that waits for it.
    reader.closed.catch(() => {});
    writer.closed.catch(() => {});

    async function read() {
        const { value, done } = await reader.read();
        return done || value === undefined ? null : bytesOf(value);
    }

    /** @param {Uint8Array} bytes */
    async function write(bytes) {
        for (const piece of pieces(bytes)) {
            await writer.ready;
            await writer.write(piece);
        }
    }

    /** @param {unknown} reason */
    function abort(reason) {
        reader.cancel(reason).catch(() => {});
        writer.abort(reason).catch(() => {});
    }

    async function close() {
        await forAWhile(writer.close().then(() => readOn(read)));
        abort(undefined);
    }

    return { read, write, close, abort };
}

/**
 * The part of a Duplex of Node that is used.
 * @typedef {object} NodeSocket
 * @property {(event: string, listener: (fault?: unknown) => void) => unknown} on
 * @property {() => unknown} read
 * @property {(bytes: Uint8Array) => boolean} write
 * @property {() => unknown} end
 * @property {(fault?: unknown) => unknown} destroy
 * @property {boolean} destroyed
 * @property {boolean} readableEnded
 * @property {boolean} writableEnded
 * @property {boolean} writableNeedDrain
 */

/**
 * A socket of Node, or another Duplex.
 * @param {NodeSocket} socket
 * @returns {Connection}
 */
function overNodeSocket(socket) {
    /** @type {unknown} */
    let failed;
    let wake = () => {};
    const events = ["readable", "end", "close", "drain", "connect"];
    for (const event of events) socket.on(event, () => wake());
    socket.on("error", (fault) => {
        failed = fault;
        wake();
    });
    const event = () => new Promise((/** @type {(value?: unknown) => void} */ resolve) => (wake = resolve));

    async function read() {
        for (;;) {
            const piece = socket.read();
            if (piece !== null) return bytesOf(piece);
            if (failed !== undefined) throw failed;
            if (socket.readableEnded || socket.destroyed) return null;
            await event();
        }
    }

    /** @param {Uint8Array} bytes */
    async function write(bytes) {
        for (const piece of pieces(bytes)) {
            if (failed !== undefined) throw failed;
            if (socket.destroyed || socket.writableEnded) throw new Error("the socket is closed");
            if (!socket.write(piece)) await drained();
        }
    }

    async function drained() {
        while (socket.writableNeedDrain && !socket.destroyed && failed === undefined) await event();
    }

    async function close() {
        socket.end();
        await forAWhile(readOn(read));
        socket.destroy();
    }

    return { read, write, close, abort: (reason) => void socket.destroy(reason) };
}

/**
 * A connection over what is given. Throws TypeError where it is none of the three.
 * @param {any} stream
 * @param {number} most how many bytes that came may wait to be read
 */
export function connectionOver(stream, most) {
    const has = (/** @type {string} */ name) => typeof stream?.[name] === "function";
    if (has("addEventListener") && "bufferedAmount" in stream) return overWebSocket(stream, most);
    if (stream?.readable?.getReader && stream?.writable?.getWriter) return overWebStreams(stream);
    if (has("on") && has("write")) return overNodeSocket(stream);
    throw new TypeError("a connection is to be a WebSocket, { readable, writable } as web streams, or a Node socket");
}
