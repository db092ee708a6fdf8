// `printer` comes from compiled.js or from plain.js.
import { printer } from "modules";
import { ROUNDINGS, STYLES, UNITS } from "./lists.js";
import { checkPlain, listedUnit, typeOf, unitOf, unknown } from "./options.js";

// The constants here are not computed: esbuild drops only such constants from a bundle that prints
// nothing.
/** All durations are below this many nanoseconds. */
const LIMIT = 18_446_744_073_709_551_616n;
/** No greater number of milliseconds is below the limit. */
const MOST = 18_446_744_073_709.55;
/** The names of the units in `parts`, which has no quarters. */
const PARTS = [
    "years", null, "months", "weeks", "days", "hours", "minutes",
    "seconds", "milliseconds", "microseconds", "nanoseconds",
];
/** A set of units is a number with the bit `1 << unit` for each of them. */
const allUnits = () => (1 << UNITS.length) - 1;
const countedUnits = () => allUnits() & ~(1 << PARTS.indexOf(null));
/** The names of the options. For counting there is no style. */
const FORMAT = ["units", "largest", "smallest", "parts", "rounding", "style"];

// After the module's own memory comes a `struct Page`. The nanoseconds are at 0, the counts at this
// offset, and the text after them.
const COUNTS = 8;

let calls, page;
// Views of the memory from the struct on, and from the text on. This memory never grows.
let fields, written;

function start() {
    calls = printer();
    page = calls.__heap_base.value;
    fields = new DataView(calls.memory.buffer, page);
    written = new Uint8Array(calls.memory.buffer, page + COUNTS + 8 * UNITS.length);
}

// ---- Durations

/** Refuses what is no duration. The value is a bigint of nanoseconds, or a number of
 * milliseconds. */
function check(value) {
    const isNanos = typeof value === "bigint";
    if (!isNanos && !Number.isFinite(value)) {
        throw new RangeError(`milliseconds must be finite, not ${value}`);
    }
    if (value < 0) throw new RangeError(`a duration is not negative: ${value}`);
    if (isNanos ? value >= LIMIT : value > MOST) {
        const longest = isNanos ? "2^64 - 1 ns" : `${MOST} ms`;
        throw new RangeError(`a duration is at most 584 years, ${longest}`);
    }
}

/** Returns the milliseconds. Nanoseconds are written where the module looks for them, and -1 is
 * returned. An option may have a getter that calls this package, so this comes after it. */
function taken(value) {
    if (!calls) start();
    if (typeof value === "number") return value;
    fields.setBigUint64(0, value, true);
    return -1;
}

// ---- Formats

/** The position of this name among those that the option takes. */
function placeOf(option, name, names) {
    if (typeof name !== "string") {
        throw new TypeError(`the option ${option} must be a string, not ${typeOf(name)}`);
    }
    const place = names.indexOf(name);
    if (place >= 0) return place;
    throw new RangeError(`the option ${option} must be one of ${names.join(", ")}, not ${name}`);
}

function unitsOf(names) {
    if (!Array.isArray(names)) {
        throw new TypeError(`the option units must be an array, not ${typeOf(names)}`);
    }
    if (names.length === 0) throw new RangeError("the option units must name a unit");
    let units = 0;
    for (const name of names) {
        units |= 1 << unitOf("a unit of the option units", name, listedUnit);
    }
    return units;
}

/** The module's number of a way of rounding. 0 is not to round. */
function wayOf(rounding) {
    return rounding === undefined ? 0 : 1 + placeOf("rounding", rounding, ROUNDINGS);
}

/** No duration has more parts than there are units. */
function countOf(parts) {
    if (typeof parts !== "number") {
        throw new TypeError(`the option parts must be a number, not ${typeOf(parts)}`);
    }
    if (parts < 1 || !Number.isInteger(parts) && parts !== Infinity) {
        throw new RangeError(`the option parts must be a whole number from 1 on, not ${parts}`);
    }
    return Math.min(parts, UNITS.length);
}

/** Returns the set of units that the options allow. If no units are listed and no largest is
 * chosen, the largest is `longest`. */
function unitsLeft({ units, largest, smallest }, all, longest) {
    const wanted = units === undefined ? all : unitsOf(units);
    if (largest === undefined) largest = units === undefined ? longest : "y";
    const first = unitOf("the option largest", largest, listedUnit);
    const last = unitOf("the option smallest", smallest, listedUnit);
    if (first > last) {
        const why = `the largest unit, ${largest}, is shorter than the smallest, ${smallest}`;
        throw new RangeError(why);
    }
    const left = wanted & (2 << last) - (1 << first);
    if (left === 0) {
        throw new RangeError(`the option units has no unit from ${largest} to ${smallest}`);
    }
    // `breakdown` counts all units, and `parts` all except the quarter.
    if ((wanted | 1 << first | 1 << last) & ~all) throw new RangeError("parts has no quarters");
    return left;
}

/** The numbers by which the module knows the format. Only printing has a style. */
function formatOf(options, hasStyle, all, longest) {
    checkPlain(options);
    const chosen = { smallest: "ns", parts: Infinity, style: "short" };
    for (const name of Object.keys(options)) {
        if (!FORMAT.includes(name)) throw unknown(name);
        const value = options[name];
        if (value === undefined) continue;
        if (name === "style" && !hasStyle) throw unknown(name);
        chosen[name] = value;
    }
    return {
        left: unitsLeft(chosen, all, longest),
        parts: countOf(chosen.parts),
        style: placeOf("style", chosen.style, STYLES),
        rounding: wayOf(chosen.rounding),
    };
}

// ---- Printing

/** `String.fromCharCode` also takes an array of codes, by `apply`, but is slower then. So it gets 9
 * or 28 codes, and the text is cut. */
function textOf(c, length) {
    const whole = length <= 9
        ? String.fromCharCode(c[0], c[1], c[2], c[3], c[4], c[5], c[6], c[7], c[8])
        : String.fromCharCode(
            c[0], c[1], c[2], c[3], c[4], c[5], c[6], c[7], c[8], c[9], c[10], c[11], c[12], c[13],
            c[14], c[15], c[16], c[17], c[18], c[19], c[20], c[21], c[22], c[23], c[24], c[25],
            c[26], c[27],
        );
    return whole.slice(0, length);
}

/** The text of this length that the module has written. Beyond ASCII, it has only the µ, whose
 * bytes are C2 and its code. */
function output(length) {
    const bytes = written;
    let all = length > 28 ? 0x80 : 0;
    for (let place = 0; place < length; place++) all |= bytes[place];
    if (all <= 0x7f) return textOf(bytes, length);
    const codes = bytes.subarray(0, length).filter((byte) => byte !== 0xc2);
    return String.fromCharCode.apply(null, codes);
}

function print(value, options) {
    check(value);
    let left = allUnits(), parts = UNITS.length, rounding = 0, style = 0;
    if (options !== undefined) {
        ({ left, parts, rounding, style } = formatOf(options, true, left, "y"));
    }
    const millis = taken(value);
    return output(calls.print(page, millis, left, parts, rounding, style));
}

export function formatNs(nanoseconds, options) {
    if (typeof nanoseconds !== "bigint") {
        const type = typeOf(nanoseconds);
        const why = `nanoseconds must be a bigint, not ${type}; format takes milliseconds`;
        throw new TypeError(why);
    }
    return print(nanoseconds, options);
}

export function format(milliseconds, options) {
    if (typeof milliseconds !== "number") {
        const type = typeOf(milliseconds);
        const why = `milliseconds must be a number, not ${type}; formatNs takes nanoseconds`;
        throw new TypeError(why);
    }
    return print(milliseconds, options);
}

// ---- Counting parts

/** Counts the parts of a duration. Returns the set of the units that may have a part, and of those
 * that have one. The counts of the latter are at COUNTS then, and the rest is at 0. */
function count(value, options, all, longest) {
    if (typeof value !== "number" && typeof value !== "bigint") {
        const wanted = "a number of milliseconds or a bigint of nanoseconds";
        throw new TypeError(`a duration is ${wanted}, not ${typeOf(value)}`);
    }
    check(value);
    const { left, parts, rounding } = formatOf(options, false, all, longest);
    const millis = taken(value);
    return { left, counted: calls.count(page, millis, left, parts, rounding) };
}

const countAt = (unit) => fields.getBigUint64(COUNTS + 8 * unit, true);

export function breakdown(value, options = {}) {
    const { counted } = count(value, options, allUnits(), "y");
    const parts = [];
    for (let unit = 0; unit < UNITS.length; unit++) {
        if (counted >> unit & 1) parts.push({ count: countAt(unit), unit: UNITS[unit] });
    }
    return { parts, restNs: fields.getBigUint64(0, true) };
}

export function parts(value, options = {}) {
    const { left, counted } = count(value, options, countedUnits(), "d");
    // The highest bit of `left` is the smallest unit.
    const zero = Math.min(31 - Math.clz32(left), UNITS.indexOf("s"));
    if (!counted) return { [PARTS[zero]]: 0 };
    const counts = {};
    for (let unit = 0; unit < UNITS.length; unit++) {
        if (!(counted >> unit & 1)) continue;
        const count = Number(countAt(unit));
        if (!Number.isSafeInteger(count)) {
            const why = `a count must be below 2^53, not ${countAt(unit)}: choose a larger unit`;
            throw new RangeError(why);
        }
        counts[PARTS[unit]] = count;
    }
    return counts;
}
