/** One side of a rangesync session, for browsers, Node and Deno. README.md beside this file shows it. */

export { shardOf } from "./src/directory.js";
export { Refused } from "./src/refused.js";
export { RangeSet, Version } from "./src/sets.js";
export { Session } from "./src/session.js";
export { Incomplete, Shards } from "./src/shards.js";
export { Strategy } from "./src/strategy.js";
export { answer, run, sync } from "./src/sync.js";
