/** Reads a strategy: its keys, in the order of docs/COMMANDS.md (*The strategy file*), as refusals 28, 29 and 31 to 35. */

import { Refused } from "./refused.js";

/**
 * A row. `fronts` are the running sums of its weights.
 * @typedef {{ upto: number, list: true } | { upto: number, fronts: number[] } | { upto: number, peel: number }} Row
 */
/** @typedef {{ cap: number, limit: number, rounds: number, bounds: "items" | "short", rows: Row[] }} Table */

const MOST_CAP = 65_536;
const MOST_ROUNDS = 255;
const MOST_WEIGHTS = 64;
const MOST_WEIGHT = 1_024;
const MOST_PEELED = 65_536;

/** @param {unknown} value @returns {value is Record<string, unknown>} */
function isTable(value) {
    if (typeof value !== "object" || value === null || Array.isArray(value)) return false;
    const above = Object.getPrototypeOf(value);
    return above === null || Object.getPrototypeOf(above) === null;
}

/** The value of a key. Throws Refused 31 where it is not there.
 * @param {Record<string, unknown>} table @param {string} key @param {Record<string, number>} where */
function valueOf(table, key, where = {}) {
    if (!Object.hasOwn(table, key)) throw new Refused(31, { key, ...where });
    return table[key];
}

/** A whole number in its range. Throws Refused 32.
 * @param {unknown} value @param {string} key @param {[number, number]} span @param {Record<string, number>} where */
function numberOf(value, key, [least, greatest], where = {}) {
    if (typeof value === "number" && Number.isInteger(value) && least <= value && value <= greatest) return value;
    throw new Refused(32, { key, least, greatest, ...where });
}

/** What a row does with a range.
 * @param {Record<string, unknown>} row @param {number} upto @param {{ row: number }} where @returns {Row} */
function actionOf(row, upto, where) {
    const said = ["list", "split", "peel"].filter((key) => Object.hasOwn(row, key));
    if (said.length !== 1) throw new Refused(34, where);
    if (said[0] === "peel") return { upto, peel: numberOf(row.peel, "peel", [1, MOST_PEELED], where) };
    if (said[0] === "list") {
        if (row.list !== true) throw new Refused(34, where);
        return { upto, list: true };
    }
    const { split } = row;
    if (!Array.isArray(split) || split.length < 2 || split.length > MOST_WEIGHTS) throw new Refused(34, where);
    let front = 0;
    return { upto, fronts: split.map((weight) => (front += numberOf(weight, "split", [1, MOST_WEIGHT], where))) };
}

/** The rows of a table with this cap. Throws Refused 31 to 35.
 * @param {unknown} given @param {number} cap */
function rowsOf(given, cap) {
    if (Array.isArray(given) && given.length === 0) throw new Refused(31, { key: "row" });
    if (!Array.isArray(given)) throw new Refused(34);
    /** @type {Row[]} */
    const rows = [];
    for (const [place, row] of given.entries()) {
        const where = { row: place + 1 };
        if (!isTable(row)) throw new Refused(34, where);
        const upto = numberOf(valueOf(row, "upto", where), "upto", [0, cap], where);
        if (rows.length > 0 && upto <= rows[rows.length - 1].upto) throw new Refused(33, where);
        rows.push(actionOf(row, upto, where));
    }
    const { upto } = rows[rows.length - 1];
    if (upto !== cap) throw new Refused(35, { upto, cap });
    return rows;
}

/** The bounds between parts. Throws Refused 29.
 * @param {Record<string, any>} table @returns {"items" | "short"} */
function boundsOf(table) {
    const bounds = Object.hasOwn(table, "bounds") ? table.bounds : "items";
    if (bounds !== "items" && bounds !== "short") throw new Refused(29);
    for (const [place, row] of table.row.entries()) {
        if (Object.hasOwn(row, "bounds")) throw new Refused(29, { row: place + 1 });
    }
    return bounds;
}

/** Tests what a session has first, which nothing asks here: no profile of this library may begin with a cut. Throws
 * Refused 28.
 * @param {Record<string, any>} table */
function testOpening(table) {
    const opening = Object.hasOwn(table, "opening") ? table.opening : "sum";
    if (opening !== "sum" && opening !== "split") throw new Refused(28);
    for (const [place, row] of table.row.entries()) {
        if (Object.hasOwn(row, "opening")) throw new Refused(28, { row: place + 1 });
    }
}

/**
 * The table that the keys of a strategy spell: `cap`, `limit`, `rounds`, `bounds` and `row`. Other keys are ignored.
 * Throws Refused 28, 29 and 31 to 35, as the first test that fails says, and TypeError where it is no object.
 * @param {unknown} given
 * @returns {Table}
 */
export function readTable(given) {
    if (!isTable(given)) throw new TypeError("a strategy is to be an object with the keys cap, limit, rounds and row");
    const cap = numberOf(valueOf(given, "cap"), "cap", [1, MOST_CAP]);
    const limit = numberOf(valueOf(given, "limit"), "limit", [0, cap]);
    const rounds = numberOf(valueOf(given, "rounds"), "rounds", [0, MOST_ROUNDS]);
    const rows = rowsOf(valueOf(given, "row"), cap);
    const bounds = boundsOf(given);
    testOpening(given);
    return { cap, limit, rounds, bounds, rows };
}
