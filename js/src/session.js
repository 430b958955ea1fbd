/** One side of a session: it takes the bytes of its peer, cut in any way, and gives those that are due to it. */

import { Gathered } from "./bytes.js";
import { End, itemsOf } from "./ends.js";
import { bytesOf, compare } from "./items.js";
import { faultText } from "./message.js";
import { HELLO, profileOfHello } from "./profiles.js";
import { Refused } from "./refused.js";
import { Front } from "./selector.js";
import { FAULT, bodyLength, isPart, readBody } from "./wire.js";

/** @typedef {import("./profiles.js").Profile} Profile */
/** @typedef {import("./tree.js").View} View */
/** @typedef {import("./strategy.js").Strategy} Strategy */
/** @typedef {{ view: View, shard: number }} Opened what a responder speaks of */

/** How many bytes a session takes of its peer, if nothing else is said. */
export const MOST_BYTES = 33_554_432;
const MOST_PULLED = 65_536;
const LENGTH = 4;

/**
 * How a session begins. An initiator has a profile, what it speaks of, and the bytes before its hello. A responder has
 * the profiles that it speaks, and `front`, which takes a selector off; `select` gives what it speaks of by what came,
 * or throws Refused. If it needs no selector, `opened` is what it speaks of without one.
 * @typedef {object} Beginning
 * @property {Strategy} strategy
 * @property {number} mostBytes
 * @property {Profile[]} profiles
 * @property {Opened} [opened]
 * @property {Uint8Array} [selector]
 * @property {Front} [front]
 * @property {(came: Uint8Array) => Opened} [select]
 */

/** One side of a session, as `initiate` and `respond` of a set make it. */
export class Session {
    #strategy;
    #profiles;
    #left;
    #select;
    /** @type {Opened | undefined} */
    #opened;
    /** @type {End | null} */
    #end = null;
    /** @type {Uint8Array[]} What is due to the peer. */
    #due = [];
    /** @type {Front | Gathered} What is read: the hello, with what may stand before it, a length, or a body. */
    #reading;
    /** @type {"hello" | "length" | "body"} */
    #stage = "hello";
    #isInitiator;
    /** @type {"open" | "ended" | "refused" | "peer refused"} */
    #state = "open";
    /** @type {Refused | null} */
    #refusal = null;
    #sent = 0;

    /** @param {Beginning} beginning */
    constructor({ strategy, mostBytes, profiles, opened, selector, front, select }) {
        if (!(mostBytes >= HELLO)) throw new RangeError(`mostBytes is to be ${HELLO} or more`);
        this.#strategy = strategy;
        this.#left = mostBytes;
        this.#profiles = profiles;
        this.#opened = opened;
        this.#select = select;
        this.#reading = front ?? new Gathered(HELLO);
        this.#isInitiator = selector !== undefined;
        if (selector !== undefined && opened !== undefined) {
            this.#due.push(selector, profiles[0].hello);
            this.#end = new End(opened.view, strategy, profiles[0]);
            this.#due.push(this.#end.begin());
        }
    }

    /** How it stands. After `open` nothing changes any more, but what is due is still to be sent. */
    get state() {
        return this.#state;
    }

    /** The refusal, by this side or by the peer, or null. */
    get refusal() {
        return this.#refusal;
    }

    /** How many messages were said. */
    get sent() {
        return this.#end?.sent ?? this.#sent;
    }

    /** How many messages it says at most, whatever comes; 0 while it is not known of which shard it speaks. */
    get bound() {
        if (this.#opened === undefined) return 0;
        return this.#strategy.rank(this.#opened.view.count) + (this.#isInitiator ? 2 : 1);
    }

    /** The number of the shard that it speaks of, or null: 65,535 is the directory. */
    get shard() {
        return this.#opened?.shard ?? null;
    }

    /**
     * Takes bytes of the peer. They are not kept, so their memory may be used again. What comes after the end of the
     * session, or after a refusal, counts no more. Throws TypeError where they are no Uint8Array.
     * @param {Uint8Array} came
     */
    push(came) {
        const bytes = bytesOf(came);
        for (let at = 0; at < bytes.length && this.#state === "open"; ) {
            const piece = bytes.subarray(at, at + Math.min(this.#reading.missing, this.#left));
            at += piece.length;
            this.#left -= piece.length;
            this.#reading.take(piece);
            if (this.#reading.missing === 0) this.#refusing(() => this.#whole());
            // A peer that takes no more refuses as if the input had ended.
            if (this.#left === 0) this.finish();
        }
    }

    /** The peer's bytes end here: a session that has not ended is refused 3. */
    finish() {
        if (this.#state !== "open") return;
        this.#refusing(() => {
            if (this.#stage === "hello") this.#select?.(/** @type {Front} */ (this.#reading).came);
            throw new Refused(3);
        });
    }

    /**
     * Bytes that are due to the peer, none where none are. They are to be sent in any state.
     * @param {number} most 1 or more
     */
    pull(most = MOST_PULLED) {
        if (!(most >= 1)) throw new RangeError("most is to be 1 or more");
        let wanted = Math.min(Math.floor(most), this.#due.reduce((sum, text) => sum + text.length, 0));
        const pulled = new Uint8Array(wanted);
        while (wanted > 0) {
            const text = this.#due[0];
            const some = text.subarray(0, wanted);
            pulled.set(some, pulled.length - wanted);
            wanted -= some.length;
            if (some.length === text.length) this.#due.shift();
            else this.#due[0] = text.subarray(some.length);
        }
        return pulled;
    }

    /**
     * What it found, once it has ended, rising. Throws the session's refusal, and Refused 98 while it goes on.
     * @returns {{ ours: Uint8Array[], theirs: Uint8Array[] }}
     */
    learned() {
        const { ours, theirs } = this.learnedInTurn();
        return { ours: ours.sort(compare), theirs: theirs.sort(compare) };
    }

    /**
     * The same in the order in which it was learned. Throws as `learned`.
     * @returns {{ ours: Uint8Array[], theirs: Uint8Array[] }}
     */
    learnedInTurn() {
        if (this.#refusal !== null) throw this.#refusal;
        if (this.#state !== "ended" || this.#end === null) throw new Refused(98);
        return { ours: this.#end.ours.map((item) => item.slice()), theirs: itemsOf(this.#end.theirs.written()) };
    }

    /** Does something that may refuse: then the fault frame is due.
     * @param {() => void} does */
    #refusing(does) {
        try {
            does();
        } catch (fault) {
            if (!(fault instanceof Refused)) throw fault;
            this.#refuse(fault);
        }
    }

    /** @param {Refused} fault */
    #refuse(fault) {
        if (!this.#isInitiator && this.#stage === "hello") this.#due.push(this.#answeringProfile().hello);
        this.#due.push(faultText(fault.number));
        this.#over("refused", fault);
    }

    /** @param {"ended" | "refused" | "peer refused"} state @param {Refused | null} refusal */
    #over(state, refusal) {
        this.#state = state;
        this.#refusal = refusal;
        if (refusal === null) return;
        // Nothing is learned then, and nothing of it is kept.
        this.#sent = this.sent;
        this.#end = null;
    }

    /** What was read is whole. Throws Refused. */
    #whole() {
        const { came } = this.#reading;
        if (this.#stage === "hello") {
            this.#hello();
            this.#reads("length", LENGTH);
        } else if (this.#stage === "length") {
            const length = bodyLength(came);
            // It will not all be taken, so it is not waited for.
            if (length > this.#left) throw new Refused(3);
            this.#reads("body", length);
        } else {
            this.#reads("length", LENGTH);
            this.#body(came);
        }
    }

    /** @param {"length" | "body"} stage @param {number} length */
    #reads(stage, length) {
        this.#stage = stage;
        this.#reading = new Gathered(length);
    }

    /** The four bytes of the peer's hello. */
    #read() {
        return this.#reading instanceof Front ? this.#reading.hello : this.#reading.came;
    }

    /** The profile in which a responder writes its hello: that of the initiator's, or else the first one spoken. */
    #answeringProfile() {
        return profileOfHello(this.#profiles, this.#read()) ?? this.#profiles[0];
    }

    /** Judges a hello, and what stood before it. Throws Refused 1, 3, 55. */
    #hello() {
        if (this.#reading instanceof Front) this.#opened = this.#select?.(this.#reading.came);
        const profile = profileOfHello(this.#profiles, this.#read());
        if (profile === undefined || this.#opened === undefined) throw new Refused(1);
        if (this.#isInitiator) return;
        this.#due.push(profile.hello);
        this.#end = new End(this.#opened.view, this.#strategy, profile);
        this.#profiles = [profile];
    }

    /** Takes the body of a frame. Throws Refused.
     * @param {Uint8Array} bytes */
    #body(bytes) {
        const end = /** @type {End} */ (this.#end);
        const read = readBody(bytes, this.#profiles[0].size);
        if (isPart(read)) {
            end.take(read);
        } else if (read.kind === FAULT) {
            this.#over("peer refused", new Refused(read.number, {}, true));
        } else {
            const message = end.finish();
            if (message !== null) this.#due.push(message);
            if (message === null || !end.isWaiting) this.#over("ended", null);
        }
    }
}
