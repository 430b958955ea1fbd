/** Bytes that grow at their end. */

const FIRST_ROOM = 64;

/** Bytes that are written one after the other, the highest byte of a number first. */
export class Text {
    constructor() {
        this.room = new Uint8Array(FIRST_ROOM);
        /** How many bytes were written. */
        this.length = 0;
    }

    /** Makes room for more bytes.
     * @param {number} more */
    #need(more) {
        if (this.length + more <= this.room.length) return;
        const larger = new Uint8Array(Math.max(2 * this.room.length, this.length + more));
        larger.set(this.room.subarray(0, this.length));
        this.room = larger;
    }

    /** @param {number} value 0 to 255 */
    byte(value) {
        this.#need(1);
        this.room[this.length++] = value;
    }

    /** @param {number} value 0 to 2^32 - 1 */
    number(value) {
        this.#need(4);
        this.length += 4;
        this.setNumber(this.length - 4, value);
    }

    /** Writes over four bytes.
     * @param {number} at @param {number} value */
    setNumber(at, value) {
        this.room[at] = value >>> 24;
        this.room[at + 1] = value >>> 16;
        this.room[at + 2] = value >>> 8;
        this.room[at + 3] = value;
    }

    /** @param {Uint8Array} bytes */
    bytes(bytes) {
        this.#need(bytes.length);
        this.room.set(bytes, this.length);
        this.length += bytes.length;
    }

    /** A length byte, and at most 255 bytes.
     * @param {Uint8Array} bytes */
    short(bytes) {
        this.byte(bytes.length);
        this.bytes(bytes);
    }

    /** All that was written. It is the same memory, until more is written. */
    written() {
        return this.room.subarray(0, this.length);
    }
}

/**
 * A number of four bytes.
 * @param {Uint8Array} bytes
 * @param {number} at
 */
export function numberAt(bytes, at) {
    return bytes[at] * 2 ** 24 + ((bytes[at + 1] << 16) | (bytes[at + 2] << 8) | bytes[at + 3]);
}

/** Gathers a number of bytes that come in pieces. */
export class Gathered {
    #wanted;
    #held = 0;
    #room = new Uint8Array(0);

    /** @param {number} wanted how many bytes, 1 or more */
    constructor(wanted) {
        this.#wanted = wanted;
    }

    /** How many bytes are still to come. */
    get missing() {
        return this.#wanted - this.#held;
    }

    /** Wants more bytes than were asked for at first. What has come is copied.
     * @param {number} wanted */
    want(wanted) {
        this.#wanted = wanted;
        this.#room = this.came.slice();
    }

    /** Takes bytes, at most as many as are missing. It holds no more memory than twice what has come.
     * @param {Uint8Array} bytes */
    take(bytes) {
        if (this.#held === 0 && bytes.length === this.#wanted) {
            this.#room = bytes;
        } else {
            if (this.#held + bytes.length > this.#room.length) this.#grow(bytes.length);
            this.#room.set(bytes, this.#held);
        }
        this.#held += bytes.length;
    }

    /** @param {number} more */
    #grow(more) {
        const larger = new Uint8Array(Math.min(this.#wanted, Math.max(2 * this.#held, this.#held + more)));
        larger.set(this.#room.subarray(0, this.#held));
        this.#room = larger;
    }

    /** What has come: of one piece if it was whole, which is then the memory of the caller. */
    get came() {
        return this.#room.subarray(0, this.#held);
    }
}
