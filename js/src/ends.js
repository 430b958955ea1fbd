/** One end of a session: what it replies to each part, and what it learns. */

import { Text } from "./bytes.js";
import { START, shortBound } from "./items.js";
import { subtractAt } from "./lanes.js";
import { Message } from "./message.js";
import { Opening, Place } from "./placing.js";
import { fingerprintText, isSame } from "./profiles.js";
import { require } from "./refused.js";
import { ANSWER, LIST, MOST_PARTS } from "./wire.js";

/** @typedef {import("./wire.js").Part} Part */
/** @typedef {import("./message.js").Open} Open */
/** @typedef {import("./tree.js").View} View */

/** An end over a set as it was, under a strategy, in a profile. */
export class End {
    #view;
    #strategy;
    #profile;
    /** @type {Open[] | null} The open parts of our last message. */
    #last = null;
    /** @type {{ next(part: Part): Open | null, finish(): void }} */
    #place;
    #reply = new Message();
    #heard = 0;
    #isOpen = false;
    /** How many messages were said. */
    sent = 0;
    /** @type {Uint8Array[]} The items learned that the peer lacks, in the order learned; those of the set itself. */
    ours = [];
    /** The items learned that this end lacks, in the order learned, each behind a length byte. */
    theirs = new Text();

    /** @param {View} view @param {import("./strategy.js").Strategy} strategy
     * @param {import("./profiles.js").Profile} profile
     * @param {Opening} [first] the place of the parts of a message that answers none */
    constructor(view, strategy, profile, first = new Opening()) {
        this.#place = first;
        this.#view = view;
        this.#strategy = strategy;
        this.#profile = profile;
    }

    /** The first message of a session, which an initiator says. */
    begin() {
        const message = new Message();
        message.sum(START, null, this.#fingerprint(0, this.#view.count));
        return this.#said(message);
    }

    /** Takes a part, and replies to it. Throws Refused 12 and 20 to 25.
     * @param {Part} part */
    take(part) {
        this.#heard += 1;
        require(this.#heard <= MOST_PARTS, 12);
        const answered = this.#place.next(part);
        const from = this.#view.below(part.lower);
        const to = this.#view.below(part.upper);
        if (part.kind === ANSWER) {
            this.#learn(part, /** @type {Open} */ (answered));
            return;
        }
        this.#isOpen = true;
        if (part.kind === LIST) this.#answer(part, from, to);
        else this.#compare(part, from, to);
    }

    /** Takes the end of a message: our next message, or null if the session is over without one. Throws Refused 12, 20,
     * 22, 23. */
    finish() {
        this.#place.finish();
        if (!this.#isOpen) return null;
        require(!this.#reply.isTooLong, 12);
        return this.#said(this.#reply);
    }

    /** Whether the peer has to say something. */
    get isWaiting() {
        return this.#last === null || this.#last.length > 0;
    }

    /** @param {Message} message */
    #said(message) {
        this.sent += 1;
        this.#last = message.open;
        this.#place = new Place(message.open);
        this.#reply = new Message();
        this.#heard = 0;
        this.#isOpen = false;
        return message.written();
    }

    /** The fingerprint of the items between two places.
     * @param {number} from @param {number} to */
    #fingerprint(from, to) {
        return this.#difference(this.#view.sumOfFirst(from), from, this.#view.sumOfFirst(to), to);
    }

    /** The same by the sums up to both places. The latter one is changed.
     * @param {Uint32Array} before @param {number} from @param {Uint32Array} sum @param {number} to */
    #difference(before, from, sum, to) {
        subtractAt(sum, 0, before, 0);
        return fingerprintText(this.#profile, to - from, sum);
    }

    /** Replies to a Sum: nothing, a List, or the Sums of its parts.
     * @param {Part} part @param {number} from @param {number} to */
    #compare({ lower, upper, fingerprint }, from, to) {
        if (isSame(fingerprint, this.#fingerprint(from, to))) return;
        const cuts = this.#strategy.cuts(to - from);
        const begin = lower.slice();
        const end = upper && upper.slice();
        if (cuts === null) this.#reply.list(begin, end, from, to, this.#view.items(from, to));
        else this.#split(begin, end, [from, ...cuts.map((cut) => from + cut), to]);
    }

    /** Says the Sums between these places, of which the first and the last are those of the range.
     * @param {Uint8Array} lower @param {Uint8Array | null} upper @param {number[]} places */
    #split(lower, upper, places) {
        let begin = lower;
        let before = this.#view.sumOfFirst(places[0]);
        for (let place = 1; place < places.length; place++) {
            const end = place + 1 < places.length ? this.#bound(places[place]) : upper;
            const sum = this.#view.sumOfFirst(places[place]);
            const text = this.#difference(before, places[place - 1], sum.slice(), places[place]);
            this.#reply.sum(begin, end, text);
            before = sum;
            if (end !== null) begin = end;
        }
    }

    /** The bound at which a part begins, at a place of the set from 1 on.
     * @param {number} place */
    #bound(place) {
        const item = this.#view.item(place);
        return this.#strategy.hasShortBounds ? shortBound(this.#view.item(place - 1), item) : item;
    }

    /** Replies to a List, and learns of it.
     * @param {Part} part @param {number} from @param {number} to */
    #answer({ lower, upper, items }, from, to) {
        const bits = new Uint8Array(Math.ceil(items.count / 8));
        /** @type {Uint8Array[]} */
        const unlisted = [];
        const listed = items.cursor();
        const own = this.#view.items(from, to);
        let mine = own.next().value;
        for (let place = 0; place < items.count; listed.next(), place++) {
            while (mine !== undefined && listed.compare(mine) > 0) {
                unlisted.push(mine);
                mine = own.next().value;
            }
            if (mine !== undefined && listed.compare(mine) === 0) {
                mine = own.next().value;
            } else {
                bits[place >> 3] |= 1 << (place & 7);
                this.theirs.short(listed.item());
            }
        }
        for (; mine !== undefined; mine = own.next().value) unlisted.push(mine);
        for (const item of unlisted) this.ours.push(item);
        this.#reply.answer(lower, upper, items.count, bits, unlisted);
    }

    /** Learns of an Answer to a List of ours. Throws Refused 25.
     * @param {Part} part @param {Open} open */
    #learn({ marks, items }, open) {
        const listed = items.cursor();
        for (let left = items.count; left > 0; left--, listed.next()) {
            const item = listed.item();
            // All own items of the range were listed.
            require(!this.#view.has(item), 25);
            this.theirs.short(item);
        }
        for (let place = 0; place < marks.count; place++) {
            if (marks.isSet(place)) this.ours.push(this.#view.item(open.from + place));
        }
    }
}

/**
 * The items that were written one after the other, each behind a length byte, in memory of their own.
 * @param {Uint8Array} text
 */
export function itemsOf(text) {
    const items = [];
    for (let at = 0; at < text.length; at += 1 + text[at]) items.push(text.slice(at + 1, at + 1 + text[at]));
    return items;
}
