/** A program that uses all declared types. It is not run: tests/js has tsc look at it. */

import { Incomplete, RangeSet, Refused, Shards, Strategy, answer, run, shardOf, sync } from "../index.js";
import type { Learned, Session, Stream, Table, Version } from "../index.js";

const table: Table = { cap: 8, limit: 1, rounds: 3, row: [{ upto: 1, list: true }, { upto: 8, split: [1, 1] }] };
const strategies: Strategy[] = [Strategy.from(table), Strategy.named("small"), Strategy.parse("cap = 8")];
const item: Uint8Array = new TextEncoder().encode("one");
const set: RangeSet = new RangeSet(strategies[0], [item]);
const version: Version = set.version();
const isNew: boolean = set.insert(item) && set.has(item) && version.has(item);
const count: number = set.update([item]) + set.size + version.size + strategies[0].rank(3) + shardOf(item, 3);

type Streams = { readable: ReadableStream; writable: WritableStream };

export async function talk(socket: WebSocket, streams: Streams): Promise<Learned[]> {
    const session: Session = set.initiate({ profile: 2, set: "logst", mostBytes: 1_000_000 });
    session.push(session.pull(100));
    const shards = new Shards(strategies[1], 4, [item], { name: "logst", only: [1, 2] });
    const connect = (): Stream => new WebSocket("ws://localhost:7701");
    try {
        const { shard, ours } = await shards.answer(streams, { signal: new AbortController().signal });
        const found = await shards.reconcile(connect, { atOnce: 8, profile: 1, from: item });
        const learned = { ours, theirs: shard === null ? [] : [item] };
        return [await sync(set, socket, { from: item, to: item }), await answer(version, streams), await run(session, socket), found, learned];
    } catch (fault) {
        if (fault instanceof Refused) return fault.number === 3 && !fault.byPeer ? [] : [session.learned()];
        if (fault instanceof Incomplete) return [fault.found];
        throw fault;
    }
}

for (const each of set.items(item)) each.fill(isNew ? count : 0);
// @ts-expect-error: an item is a Uint8Array.
set.insert("one");
// @ts-expect-error: the side that speaks first says the part.
set.respond({ from: item });
// @ts-expect-error: there is no such profile.
set.initiate({ profile: 3 });
// @ts-expect-error: there is no such table.
Strategy.named("large");
