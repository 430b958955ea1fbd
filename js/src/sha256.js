/** SHA-256 (FIPS 180-4), at once and without a promise. */

const ROUNDS = new Int32Array([
    0x428a2f98, 0x71374491, 0xb5c0fbcf, 0xe9b5dba5, 0x3956c25b, 0x59f111f1, 0x923f82a4, 0xab1c5ed5,
    0xd807aa98, 0x12835b01, 0x243185be, 0x550c7dc3, 0x72be5d74, 0x80deb1fe, 0x9bdc06a7, 0xc19bf174,
    0xe49b69c1, 0xefbe4786, 0x0fc19dc6, 0x240ca1cc, 0x2de92c6f, 0x4a7484aa, 0x5cb0a9dc, 0x76f988da,
    0x983e5152, 0xa831c66d, 0xb00327c8, 0xbf597fc7, 0xc6e00bf3, 0xd5a79147, 0x06ca6351, 0x14292967,
    0x27b70a85, 0x2e1b2138, 0x4d2c6dfc, 0x53380d13, 0x650a7354, 0x766a0abb, 0x81c2c92e, 0x92722c85,
    0xa2bfe8a1, 0xa81a664b, 0xc24b8b70, 0xc76c51a3, 0xd192e819, 0xd6990624, 0xf40e3585, 0x106aa070,
    0x19a4c116, 0x1e376c08, 0x2748774c, 0x34b0bcb5, 0x391c0cb3, 0x4ed8aa4a, 0x5b9cca4f, 0x682e6ff3,
    0x748f82ee, 0x78a5636f, 0x84c87814, 0x8cc70208, 0x90befffa, 0xa4506ceb, 0xbef9a3f7, 0xc67178f2,
]);
const FIRST = [
    0x6a09e667, 0xbb67ae85, 0x3c6ef372, 0xa54ff53a, 0x510e527f, 0x9b05688c, 0x1f83d9ab, 0x5be0cd19,
];
const BLOCK = 64;
const words = new Int32Array(64);
const state = new Int32Array(8);

/** Takes in the block that lies in the first 16 words. */
function mix() {
    for (let t = 16; t < 64; t++) {
        const early = words[t - 15];
        const late = words[t - 2];
        const s0 = ((early >>> 7) | (early << 25)) ^ ((early >>> 18) | (early << 14)) ^ (early >>> 3);
        const s1 = ((late >>> 17) | (late << 15)) ^ ((late >>> 19) | (late << 13)) ^ (late >>> 10);
        words[t] = (words[t - 16] + s0 + words[t - 7] + s1) | 0;
    }
    let a = state[0];
    let b = state[1];
    let c = state[2];
    let d = state[3];
    let e = state[4];
    let f = state[5];
    let g = state[6];
    let h = state[7];
    for (let t = 0; t < 64; t++) {
        const s1 = ((e >>> 6) | (e << 26)) ^ ((e >>> 11) | (e << 21)) ^ ((e >>> 25) | (e << 7));
        const one = (h + s1 + ((e & f) ^ (~e & g)) + ROUNDS[t] + words[t]) | 0;
        const s0 = ((a >>> 2) | (a << 30)) ^ ((a >>> 13) | (a << 19)) ^ ((a >>> 22) | (a << 10));
        const two = (s0 + ((a & b) ^ (a & c) ^ (b & c))) | 0;
        h = g;
        g = f;
        f = e;
        e = (d + one) | 0;
        d = c;
        c = b;
        b = a;
        a = (one + two) | 0;
    }
    state[0] += a;
    state[1] += b;
    state[2] += c;
    state[3] += d;
    state[4] += e;
    state[5] += f;
    state[6] += g;
    state[7] += h;
}

/**
 * Puts the bytes of a block into the words: those of the message, one bit, and noughts.
 * @param {Uint8Array} bytes
 * @param {number} from where the block begins in the message; it may begin after it
 */
function fill(bytes, from) {
    words.fill(0, 0, 16);
    const end = Math.min(bytes.length, from + BLOCK);
    for (let at = from; at < end; at++) words[(at - from) >> 2] |= bytes[at] << (24 - 8 * (at & 3));
    const bit = bytes.length - from;
    if (bit >= 0 && bit < BLOCK) words[bit >> 2] |= 0x80 << (24 - 8 * (bit & 3));
}

/**
 * Writes the digest of some bytes, as eight words, the highest first, to a place of an array.
 * @param {Uint8Array} bytes
 * @param {Uint32Array} into
 * @param {number} [at]
 */
export function digestInto(bytes, into, at = 0) {
    state.set(FIRST);
    const whole = BLOCK * Math.ceil((bytes.length + 9) / BLOCK);
    for (let from = 0; from < whole; from += BLOCK) {
        fill(bytes, from);
        if (from + BLOCK === whole) {
            words[14] = Math.floor(bytes.length / 2 ** 29);
            words[15] = bytes.length << 3;
        }
        mix();
    }
    into.set(state, at);
}
