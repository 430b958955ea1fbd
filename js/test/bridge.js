/**
 * A bridge from WebSockets to a server of TCP, for tests: binary messages are the bytes of the stream, a Close is the
 * end of the input, and a message is written in two frames. What is no binary message ends the connection.
 */

import { createHash } from "node:crypto";
import { createServer } from "node:http";
import { connect } from "node:net";

const KEY = "258EAFA5-E914-47DA-95CA-C5AB0DC85B11";
const [MORE, BINARY, CLOSE, PING] = [0, 2, 8, 9];

/** A frame of this kind, which is the last one of its message or not. */
function frame(kind, bytes, isLast = true) {
    const long = bytes.length < 126 ? [bytes.length] : [126, bytes.length >> 8, bytes.length & 255];
    return Buffer.concat([Buffer.from([(isLast ? 128 : 0) | kind, ...long]), bytes]);
}

/** Takes the frames of a browser off the front of what came; what is left. */
function takeFrames(came, take) {
    for (;;) {
        const short = came[1] & 127;
        const head = short === 127 ? 10 : short === 126 ? 4 : 2;
        if (came.length < head + 4) return came;
        const length = short === 127 ? Number(came.readBigUInt64BE(2)) : short === 126 ? came.readUInt16BE(2) : short;
        if (came.length < head + 4 + length) return came;
        const mask = came.subarray(head, head + 4);
        const bytes = came.subarray(head + 4, head + 4 + length).map((byte, place) => byte ^ mask[place % 4]);
        take(came[0] & 15, bytes);
        came = came.subarray(head + 4 + length);
    }
}

/** A bridge to a port of this machine; its own port, once it listens. */
export async function bridgeTo(port) {
    const server = createServer();
    server.on("upgrade", (request, browser) => {
        const accept = createHash("sha1").update(request.headers["sec-websocket-key"] + KEY).digest("base64");
        browser.write("HTTP/1.1 101 Switching Protocols\r\nUpgrade: websocket\r\nConnection: Upgrade\r\n");
        browser.write(`Sec-WebSocket-Accept: ${accept}\r\n\r\n`);
        const peer = connect({ port, host: "127.0.0.1", allowHalfOpen: true });
        let came = Buffer.alloc(0);
        const take = (kind, bytes) => {
            if (kind === BINARY || kind === MORE) peer.write(bytes);
            else if (kind !== PING) peer.end();
        };
        browser.on("data", (piece) => (came = takeFrames(Buffer.concat([came, piece]), take)));
        peer.on("data", (piece) => {
            for (let at = 0; at < piece.length; at += 5000) {
                const part = piece.subarray(at, at + 5000);
                browser.write(frame(BINARY, part.subarray(0, 1), false));
                browser.write(frame(MORE, part.subarray(1)));
            }
        });
        peer.on("end", () => browser.end(frame(CLOSE, Buffer.from([3, 232]))));
        for (const each of [peer, browser]) each.on("error", () => [peer, browser].forEach((side) => side.destroy()));
        browser.on("close", () => peer.end());
    });
    await new Promise((resolve) => server.listen(0, "127.0.0.1", resolve));
    server.unref();
    return { port: server.address().port, close: () => server.close() };
}
