/** The values of TOML 1.1 that hold no others: strings, numbers, booleans, dates and times. */

/** A text is no TOML. */
export class NotToml extends Error {}

/** A float, a date or a time: a value that no strategy asks for. */
export class OtherValue {
    /** @param {string} text */
    constructor(text) {
        this.text = text;
    }
}

const ESCAPED = { b: "\b", t: "\t", n: "\n", f: "\f", r: "\r", e: "\x1b", '"': '"', "\\": "\\" };
const ESCAPES = new Map(Object.entries(ESCAPED));
const ESCAPE = /\\(?:x([0-9A-Fa-f]{2})|u([0-9A-Fa-f]{4})|U([0-9A-Fa-f]{8})|([ \t]*\n[ \t\n]*)|([^]))/g;
const MOST = 2n ** 63n;
/** The length of each month, of a leap year. */
const DAYS = [31, 29, 31, 30, 31, 30, 31, 31, 30, 31, 30, 31];

const DECIMAL = /^[+-]?(0|[1-9](_?[0-9])*)$/;
const OTHER_BASE = /^0(x[0-9A-Fa-f](_?[0-9A-Fa-f])*|o[0-7](_?[0-7])*|b[01](_?[01])*)$/;
const FLOAT = /^[+-]?(0|[1-9](_?[0-9])*)(\.[0-9](_?[0-9])*)?([eE][+-]?[0-9](_?[0-9])*)?$/;
const NOT_FINITE = /^[+-]?(inf|nan)$/;
const DATE = "(\\d{4})-(\\d{2})-(\\d{2})";
const TIME = "(\\d{2}):(\\d{2})(?::(\\d{2})(?:\\.\\d+)?)?";
const MOMENT = new RegExp(`^(?:${DATE})?(?:(?:^|[Tt ])${TIME}([Zz]|[+-](\\d{2}):(\\d{2}))?)?$`);

/**
 * Requires that a text is TOML so far.
 * @param {unknown} holds
 * @returns {asserts holds}
 */
export function wants(holds) {
    if (!holds) throw new NotToml();
}

/** The value of a word that is not in quotes. Throws NotToml.
 * @param {string} word */
export function bareValue(word) {
    if (word === "true" || word === "false") return word === "true";
    if (DECIMAL.test(word) || OTHER_BASE.test(word)) return wholeNumber(word.replaceAll("_", ""));
    if (!NOT_FINITE.test(word)) {
        wants(FLOAT.test(word) ? Number.isFinite(Number(word.replaceAll("_", ""))) : isMoment(word));
    }
    return new OtherValue(word);
}

/** A whole number, as a BigInt where a number would not be exact. Throws NotToml if it does not fit into 64 bits.
 * @param {string} digits */
function wholeNumber(digits) {
    const value = digits.startsWith("-") ? -BigInt(digits.slice(1)) : BigInt(digits.replace("+", ""));
    wants(-MOST <= value && value < MOST);
    return Number.isSafeInteger(Number(value)) ? Number(value) : value;
}

/** Whether a word is a date, a time, or both.
 * @param {string} word */
function isMoment(word) {
    const found = MOMENT.exec(word);
    if (found === null || word === "") return false;
    const [year, month, day, hour, minute, second, , offsetHour, offsetMinute] = found
        .slice(1)
        .map((digits) => (digits === undefined ? -1 : Number(digits)));
    if (found[1] !== undefined && !isDate(year, month, day)) return false;
    if (found[1] === undefined && (found[7] !== undefined || /^[Tt ]/.test(word))) return false;
    return hour <= 23 && minute <= 59 && second <= 60 && offsetHour <= 23 && offsetMinute <= 59;
}

/** Whether there is such a day.
 * @param {number} year @param {number} month @param {number} day */
function isDate(year, month, day) {
    const isLeap = year % 4 === 0 && (year % 100 !== 0 || year % 400 === 0);
    if (month < 1 || month > 12 || day < 1) return false;
    return day <= DAYS[month - 1] - (month === 2 && !isLeap ? 1 : 0);
}

/**
 * The text that a string of TOML spells, from its first quotation mark on, and where it ends. Throws NotToml.
 * @param {string} text
 * @param {number} at
 * @returns {[string, number]}
 */
export function quoted(text, at) {
    const mark = text[at];
    const isLong = text.startsWith(mark.repeat(3), at);
    return isLong ? longQuoted(text, at + 3, mark) : shortQuoted(text, at + 1, mark);
}

/** @param {string} text @param {number} from @param {string} mark @returns {[string, number]} */
function shortQuoted(text, from, mark) {
    const end = endOf(text, from, mark);
    const inside = text.slice(from, end);
    wants(!inside.includes("\n"));
    return [mark === '"' ? unescaped(inside) : inside, end + 1];
}

/** @param {string} text @param {number} from @param {string} mark @returns {[string, number]} */
function longQuoted(text, from, mark) {
    let end = endOf(text, from, mark.repeat(3));
    // One or two quotation marks may stand before the three that end it.
    for (let more = 0; more < 2 && text[end + 3] === mark; more++) end++;
    const inside = text.slice(from, end).replace(/^\n/, "");
    return [mark === '"' ? unescaped(inside) : inside, end + 3];
}

/** Where a string ends: at these marks, but for those that a backslash stands before. Throws NotToml.
 * @param {string} text @param {number} from @param {string} marks */
function endOf(text, from, marks) {
    let at = from;
    while (!text.startsWith(marks, at)) {
        wants(at < text.length);
        at += marks.startsWith('"') && text[at] === "\\" ? 2 : 1;
    }
    return at;
}

/** The text with its escapes replaced. Throws NotToml.
 * @param {string} inside */
function unescaped(inside) {
    return inside.replace(ESCAPE, (_whole, two, four, eight, line, other) => {
        const digits = two ?? four ?? eight;
        if (line !== undefined) return "";
        wants(digits !== undefined || ESCAPES.has(other));
        if (digits === undefined) return /** @type {string} */ (ESCAPES.get(other));
        const point = parseInt(digits, 16);
        wants(point <= 0x10ffff && (point < 0xd800 || point > 0xdfff));
        return String.fromCodePoint(point);
    });
}
