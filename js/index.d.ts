/** One side of a rangesync session, for browsers, Node and Deno. README.md beside this file shows it. */

/** A call or a session was refused, by this side or by its peer. */
export class Refused extends Error {
    constructor(number: number, values?: Record<string, number | string>, byPeer?: boolean);
    readonly name: "Refused";
    /** That of docs/PROTOCOL.md. */
    readonly number: number;
    /** Its name there, as `Full`; empty if the peer sent a number that has none. */
    readonly code: string;
    /** What it says beside: the key of a strategy, the row (from 1), a number of items, a shard. */
    readonly values: Record<string, number | string>;
    /** Whether the peer refused. */
    readonly byPeer: boolean;
}

/** A row of a table: what is done with a range of at most `upto` items of one's own. */
export type Row =
    | { upto: number; list: true }
    /** 2 to 64 weights of 1 to 1,024. */
    | { upto: number; split: number[] }
    | { upto: number; peel: number };

/** A strategy as an object, with the keys of a strategy file. */
export interface Table {
    /** 1 to 65,536: the most items of a set. */
    cap: number;
    /** 0 to the cap: the most items of a List. */
    limit: number;
    /** 0 to 255: how often a range may be cut. */
    rounds: number;
    /** `items` if it is left out. */
    bounds?: "items" | "short";
    /** `sum` if it is left out. */
    opening?: "sum" | "split";
    row: Row[];
}

export type ShippedName = "all-round" | "few-bytes" | "few-rounds" | "newest-last" | "whole-list" | "small";

/** An accepted strategy. */
export class Strategy {
    private constructor();
    /** The strategy of a text in TOML. Throws Refused 28 to 38. */
    static parse(text: string | Uint8Array): Strategy;
    /** The strategy of an object. Throws Refused 28, 29 and 31 to 38, and TypeError where it is no object. */
    static from(table: Table): Strategy;
    /** A shipped strategy, `all-round` if none is named. Throws RangeError for another name. */
    static named(name?: ShippedName): Strategy;
    /** The most items of a set under it. */
    readonly cap: number;
    /** The most items of a List under it. */
    readonly limit: number;
    /** Whether the bounds between parts are short. */
    readonly hasShortBounds: boolean;
    /** Entry j is the greatest number of items that is cut at most j times before it is listed. */
    readonly steps: number[];
    /** How often a range of so many items, 0 to the cap, is cut at most. */
    rank(count: number): number;
    /** Where so many items, 0 to the cap, are cut; null if they are listed. */
    cuts(count: number): number[] | null;
}

export interface SessionOptions {
    /** That of an initiator (1 if it is left out), or the only one of a responder (both if it is left out). */
    profile?: 1 | 2;
    /** The name of the set, of 0 to 64 bytes, which both sides have to give. A text is taken in UTF-8. */
    set?: string | Uint8Array;
    /** Of more bytes of the peer the session is refused 3. 33,554,432 if it is left out; 4 or more. */
    mostBytes?: number;
}

/**
 * The part of a set that a session speaks of: the items at or after `from` and before `to`, each of which may be left
 * out. The side that speaks first says it, and the other one answers for its own items there.
 */
export interface PartOptions {
    from?: Uint8Array;
    to?: Uint8Array;
}

export interface SyncOptions extends SessionOptions {
    /** Closes the connection when it is aborted. */
    signal?: AbortSignal;
}

/** What a session found, rising. */
export interface Learned {
    /** The items that the other side lacks. */
    ours: Uint8Array[];
    /** The items that this side lacks. */
    theirs: Uint8Array[];
}

/** A set as it was when the version was taken. */
export class Version implements Iterable<Uint8Array> {
    private constructor();
    /** How many items it has. */
    readonly size: number;
    /** Whether it has an item. Throws Refused 71, 72, and TypeError where it is no Uint8Array. */
    has(item: Uint8Array): boolean;
    /** Its items from `lower` on and before `upper`, rising, each a copy. Throws Refused 72, 73. */
    items(lower?: Uint8Array, upper?: Uint8Array): Generator<Uint8Array, void, undefined>;
    [Symbol.iterator](): Generator<Uint8Array, void, undefined>;
    /** A session that speaks first. Throws Refused 98 for another profile, 72 and 73 as `items`, TypeError, and
     * RangeError for a longer name. */
    initiate(options?: SessionOptions & PartOptions): Session;
    /** A session that is spoken to first, of the part that the other side asks for. Throws Refused 98, RangeError. */
    respond(options?: SessionOptions): Session;
}

/** A set of items of 1 to 64 bytes each, at most as many as the strategy's cap. */
export class RangeSet implements Iterable<Uint8Array> {
    /** Copies the items. Throws Refused 71, 72, 82, and TypeError for an item that is no Uint8Array. */
    constructor(strategy: Strategy, items?: Iterable<Uint8Array>);
    readonly size: number;
    readonly strategy: Strategy;
    /** Puts a copy in, and says whether it is new. Throws Refused 40, 71, 72, and TypeError. */
    insert(item: Uint8Array): boolean;
    /** Puts items in, and says how many are new. Throws as `insert`: the items before that one are then in the set. */
    update(items: Iterable<Uint8Array>): number;
    /** The set as it is now. It costs nothing. */
    version(): Version;
    has(item: Uint8Array): boolean;
    items(lower?: Uint8Array, upper?: Uint8Array): Generator<Uint8Array, void, undefined>;
    [Symbol.iterator](): Generator<Uint8Array, void, undefined>;
    /** A session that speaks first, over the set as it is now. */
    initiate(options?: SessionOptions & PartOptions): Session;
    /** A session that is spoken to first, over the set as it is now. */
    respond(options?: SessionOptions): Session;
}

/** One side of a session, which moves no bytes itself. `initiate` and `respond` make it. */
export class Session {
    private constructor();
    readonly state: "open" | "ended" | "refused" | "peer refused";
    readonly refusal: Refused | null;
    /** How many messages it said. */
    readonly sent: number;
    /** How many it says at most, whatever comes; 0 while it is not known of which shard it speaks. */
    readonly bound: number;
    /** The number of the shard that it speaks of, 65,535 for the directory; null while it is not known. */
    readonly shard: number | null;
    /** Takes bytes of the peer, cut in any way. They are not kept. */
    push(bytes: Uint8Array): void;
    /** The peer's bytes end here: a session that has not ended is refused 3. */
    finish(): void;
    /** Bytes that are due to the peer, 65,536 at most if no other number is given; none where none are. */
    pull(most?: number): Uint8Array;
    /** What it found. Throws the session's refusal, and Refused 98 while it goes on. */
    learned(): Learned;
    /** The same in the order in which it was learned. */
    learnedInTurn(): Learned;
}

/** The part of a socket of Node, or of another Duplex, that is used. */
export interface NodeSocket {
    on(event: string, listener: (...values: any[]) => void): unknown;
    read(): unknown;
    write(bytes: Uint8Array): boolean;
    end(): unknown;
    destroy(fault?: Error): unknown;
}

/** The part of a WebSocket that is used. */
export interface WebSocketLike {
    binaryType: string;
    readonly bufferedAmount: number;
    readonly readyState: number;
    send(bytes: any): void;
    close(code?: number): void;
    addEventListener(type: string, listener: (event: any) => void): void;
}

/** The part of a pair of web streams that is used, as of a connection of Deno. */
export interface StreamPair {
    readonly readable: { getReader(): any };
    readonly writable: { getWriter(): any };
}

/** A connection: a stream of bytes each way, for one session. It is closed at the end of that. */
export type Stream = WebSocketLike | StreamPair | NodeSocket;

/**
 * A session that speaks first. Throws Refused where one of the sides refused, 3 where the connection ended before the
 * session did; the signal's reason; and what the connection throws.
 */
export function sync(
    set: RangeSet | Version,
    stream: Stream,
    options?: SyncOptions & PartOptions,
): Promise<Learned>;
/** A session that is spoken to first. To be called before bytes can come. Throws as `sync`. */
export function answer(set: RangeSet | Version, stream: Stream, options?: SyncOptions): Promise<Learned>;
/** Any session. Throws as `sync`. */
export function run(
    session: Session,
    stream: Stream,
    options?: Pick<SyncOptions, "signal" | "mostBytes">,
): Promise<Learned>;

/** What the sessions over the shards found together, and how many shards differ. */
export interface Reconciled extends Learned {
    differ: number;
}

/** Some of the shards that differ were not reconciled. */
export class Incomplete extends Error {
    constructor(found: Reconciled, faults: Map<number, unknown>);
    /** What was found in the others, which holds; its `differ` counts all that differ. */
    readonly found: Reconciled;
    /** What stopped each of them, by their numbers. */
    readonly faults: Map<number, unknown>;
}

/** A set of any size: 2 ** bits shards, of which each has at most as many items as the strategy's cap. */
export class Shards implements Iterable<Uint8Array> {
    /** Throws Refused 71, 72, 82; RangeError for bits, a name, a number or a shard that is none; TypeError. */
    constructor(
        strategy: Strategy,
        /** 0 to 12. */
        bits: number,
        items?: Iterable<Uint8Array>,
        options?: { name?: string | Uint8Array; only?: Iterable<number> },
    );
    readonly bits: number;
    readonly name: Uint8Array;
    readonly size: number;
    /** Throws Refused 40 with `values.shard`, 71, 72; RangeError where its shard is not kept; TypeError. */
    insert(item: Uint8Array): boolean;
    update(items: Iterable<Uint8Array>): number;
    has(item: Uint8Array): boolean;
    /** Shard by shard, and rising in each. */
    [Symbol.iterator](): Generator<Uint8Array, void, undefined>;
    /** A session of whatever shard the other side asks for, or of the directory, or of a part of these. */
    respond(options?: Pick<SessionOptions, "profile" | "mostBytes">): Session;
    /** Answers one connection; `shard` is null for the directory. Throws as `sync`. */
    answer(stream: Stream, options?: Omit<SyncOptions, "set">): Promise<Learned & { shard: number | null }>;
    /** Finds the difference over a connection for the directory, and one for each shard that differs; of a part, what
     * differs there. Throws Incomplete; before that as `sync`, what `connect` throws, and Refused 56 and 57. */
    reconcile(
        connect: () => Stream | Promise<Stream>,
        options?: Omit<SyncOptions, "set"> & PartOptions & { atOnce?: number },
    ): Promise<Reconciled>;
}

/** The number of the shard that an item is in, of 2 ** bits, for bits 0 to 12. */
export function shardOf(item: Uint8Array, bits: number): number;
