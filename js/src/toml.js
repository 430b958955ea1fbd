/** A reader of TOML 1.1, as far as a strategy can hold it: all of its syntax; of floats, dates and times the text. */

import { NotToml, bareValue, quoted, wants } from "./toml_scalars.js";

export { NotToml, OtherValue } from "./toml_scalars.js";

/** How deep arrays and inline tables may be, and of how many parts a key may be. */
const DEEPEST = 80;
const BARE_KEY = /[A-Za-z0-9_-]+/y;
const BARE_VALUE = /\d{4}-\d\d-\d\d \d\d:[^\s,\]}#]*|[^\s,\]}#]+/y;
/** With the flag these surrogates are those that stand alone. */
const NO_CHARACTER = /[\0-\x08\x0b\x0c\x0e-\x1f\x7f\ud800-\udfff]|\r(?!\n)/u;

/**
 * How a table came to be, which decides what may be added to it: `path` where it is named only in longer headers,
 * `header` and `dotted` by a header and by a dotted key; an `inline` one is whole. Of arrays those of headers grow.
 * @type {WeakMap<object, "path" | "header" | "dotted" | "inline" | "tables">}
 */
const MADE = new WeakMap();

/** @typedef {Record<string, any>} Table */

/** @param {"path" | "header" | "dotted" | "inline"} how @returns {Table} */
function newTable(how) {
    const table = Object.create(null);
    MADE.set(table, how);
    return table;
}

/** Puts a value in under a key that is not there yet.
 * @template T @param {Table} table @param {string} key @param {T} value @returns {T} */
function added(table, key, value) {
    wants(!(key in table));
    table[key] = value;
    return value;
}

class Reading {
    /** @param {string} text */
    constructor(text) {
        this.text = text;
        this.at = 0;
    }

    get next() {
        return this.text[this.at];
    }

    /** Whether the text goes on with this, which is then read.
     * @param {string} wanted */
    takes(wanted) {
        const does = this.text.startsWith(wanted, this.at);
        if (does) this.at += wanted.length;
        return does;
    }

    /** What a sticky pattern finds here. Throws NotToml if it is nothing.
     * @param {RegExp} pattern */
    match(pattern) {
        pattern.lastIndex = this.at;
        const found = pattern.exec(this.text);
        wants(found !== null);
        this.at = pattern.lastIndex;
        return found[0];
    }

    /** Spaces and tabs. */
    blanks() {
        this.match(/[ \t]*/y);
    }

    /** Blanks, line ends and comments. */
    lines() {
        this.match(/(?:[ \t\n]|#[^\n]*)*/y);
    }

    /** The end of a line, with a comment before it. */
    lineEnd() {
        this.match(/[ \t]*(?:#[^\n]*)?(?:\n|$)/y);
    }

    /** The parts of a key, and the blanks after it. */
    key() {
        const parts = [];
        do {
            this.blanks();
            parts.push(this.keyPart());
            this.blanks();
        } while (this.takes("."));
        wants(parts.length <= DEEPEST);
        return parts;
    }

    keyPart() {
        if (this.next !== '"' && this.next !== "'") return this.match(BARE_KEY);
        wants(!this.text.startsWith(this.next.repeat(3), this.at));
        return this.string();
    }

    string() {
        const [found, end] = quoted(this.text, this.at);
        this.at = end;
        return found;
    }

    /** A key and its value, put into a table.
     * @param {Table} into @param {number} depth */
    pair(into, depth) {
        const parts = this.key();
        const last = /** @type {string} */ (parts.pop());
        wants(this.takes("="));
        this.blanks();
        let table = into;
        for (const part of parts) {
            table = table[part] ?? added(table, part, newTable("dotted"));
            wants(MADE.get(table) === "dotted");
        }
        added(table, last, this.value(depth));
    }

    /** @param {number} depth @returns {any} */
    value(depth) {
        if (this.next === '"' || this.next === "'") return this.string();
        const isArray = this.takes("[");
        if (!isArray && !this.takes("{")) return bareValue(this.match(BARE_VALUE));
        wants(depth < DEEPEST);
        return isArray ? this.array(depth + 1) : this.inlineTable(depth + 1);
    }

    /** @param {number} depth */
    array(depth) {
        /** @type {any[]} */
        const values = [];
        this.list("]", () => values.push(this.value(depth)));
        return values;
    }

    /** @param {number} depth */
    inlineTable(depth) {
        const table = newTable("dotted");
        this.list("}", () => this.pair(table, depth));
        close(table);
        return table;
    }

    /** What stands between brackets, with a comma between two and maybe after the last.
     * @param {string} end @param {() => void} read */
    list(end, read) {
        this.lines();
        while (!this.takes(end)) {
            read();
            this.lines();
            if (!this.takes(",")) wants(this.next === end);
            this.lines();
        }
    }

    /** A header: the table whose keys follow.
     * @param {Table} root */
    header(root) {
        const isOfTables = this.takes("[");
        const parts = this.key();
        wants(this.takes(isOfTables ? "]]" : "]"));
        const last = /** @type {string} */ (parts.pop());
        const above = parts.reduce(stepInto, root);
        return isOfTables ? tableOfArray(above, last) : tableOfHeader(above, last);
    }
}

/** Nothing is added to an inline table, and to those in it, once it is read.
 * @param {Table} table */
function close(table) {
    MADE.set(table, "inline");
    for (const value of Object.values(table)) if (MADE.get(value) === "dotted") close(value);
}

/** The table under a part of a header's key that is not the last.
 * @param {Table} table @param {string} part @returns {Table} */
function stepInto(table, part) {
    const found = table[part] ?? added(table, part, newTable("path"));
    const how = MADE.get(found);
    wants(how !== undefined && how !== "inline");
    return how === "tables" ? found[found.length - 1] : found;
}

/** @param {Table} above @param {string} key */
function tableOfHeader(above, key) {
    if (!(key in above)) return added(above, key, newTable("header"));
    wants(MADE.get(above[key]) === "path");
    MADE.set(above[key], "header");
    return above[key];
}

/** @param {Table} above @param {string} key */
function tableOfArray(above, key) {
    if (!(key in above)) MADE.set(added(above, key, []), "tables");
    wants(MADE.get(above[key]) === "tables");
    const table = newTable("header");
    above[key].push(table);
    return table;
}

/** @param {string | Uint8Array} text */
function characters(text) {
    if (typeof text === "string") return text;
    try {
        return new TextDecoder("utf-8", { fatal: true, ignoreBOM: true }).decode(text);
    } catch {
        throw new NotToml();
    }
}

/**
 * The table that a text of TOML is, with tables as objects without a prototype. Whole numbers are numbers, or BigInts
 * where these are not exact; floats, dates and times are `OtherValue`s. Throws NotToml.
 * @param {string | Uint8Array} text
 */
export function readToml(text) {
    const whole = characters(text).replace(/^\ufeff/, "");
    wants(!NO_CHARACTER.test(whole));
    const reading = new Reading(whole.replaceAll("\r\n", "\n"));
    const root = newTable("header");
    let table = root;
    for (reading.lines(); reading.next !== undefined; reading.lines()) {
        if (reading.takes("[")) table = reading.header(root);
        else reading.pair(table, 0);
        reading.lineEnd();
    }
    return root;
}
