import { NAMES, OPTIONS, UNITS } from "./lists.js";

/** The bits of two options */
const NO_CALC = 1;
export const REQUIRE_UNIT = 8;
/** From this bit on, the options hold the default unit's number plus 1, or 0 for the second. */
const DEFAULT_UNIT = 16;
/** A bit that the library doesn't know: a default unit is named, so numbers are read. */
export const READS_NUMBERS = 1 << 30;

export function typeOf(value) {
    if (value === null) return "null";
    return Array.isArray(value) ? "array" : typeof value;
}

/** Another realm has an Object.prototype of its own, which counts too. */
function isPlain(options) {
    if (typeof options !== "object" || options === null) return false;
    const prototype = Object.getPrototypeOf(options);
    if (prototype === Object.prototype || prototype === null) return true;
    return Object.getPrototypeOf(prototype) === null
        && Object.getOwnPropertyDescriptor(prototype, "isPrototypeOf") !== undefined;
}

export function checkPlain(options, hint = "") {
    if (isPlain(options)) return;
    const type = typeOf(options).replace("object", "one that inherits");
    throw new TypeError(`the options must be a plain object, not ${type}${hint}`);
}

export const unknown = (name) => new TypeError(`unknown option: ${name}`);

/** The number of the unit that has this name if all options are off, or -1. It is looked up in
 * lists. What reads asks the library in place of it, so that a bundle that only reads contains no
 * lists of names. */
export function listedUnit(name) {
    const printed = UNITS.indexOf(name);
    if (printed >= 0) return printed;
    // `toLowerCase` alone makes a k of the Kelvin sign, too.
    const small = name.replace(/[A-Z]/g, (letter) => letter.toLowerCase());
    return NAMES.findIndex((names) => names.split(" ").includes(small));
}

/** The number of the unit that has this name, which `find` returns. `what` describes the value in
 * errors. */
export function unitOf(what, name, find) {
    if (typeof name !== "string") {
        throw new TypeError(`${what} must be a string, not ${typeOf(name)}`);
    }
    const unit = find(name);
    if (unit >= 0) return unit;
    // Many keyboards have no µ, and the Greek μ looks like it.
    const listed = UNITS.join(", ").replace("µs", "µs or us");
    throw new RangeError(`${what} must be one of ${listed}, not ${name}`);
}

function defaultUnitBits(name, find) {
    if (name === undefined) return 0;
    const unit = unitOf("the option defaultUnit", name, find);
    if (UNITS[unit] === "s") return READS_NUMBERS;
    return READS_NUMBERS | NO_CALC | (unit + 1) << DEFAULT_UNIT;
}

/** The bits of the options for reading. `find` is `listedUnit`, or a function that returns the
 * same. */
export function bitsOf(options, find) {
    // `map` passes the index as the second argument.
    checkPlain(options, ": write (text) => parse(text)");
    let bits = 0;
    let wantsOperators = false;
    const names = Object.keys(options);
    for (let index = 0; index < names.length; index++) {
        const name = names[index];
        const value = options[name];
        if (name === "defaultUnit") {
            bits |= defaultUnitBits(value, find);
            continue;
        }
        const number = OPTIONS.indexOf(name);
        if (number < 0) throw unknown(name);
        if (value === true) {
            bits |= 1 << number;
        } else if (value === false) {
            wantsOperators ||= name === "noCalc";
        } else if (value !== undefined) {
            throw new TypeError(`the option ${name} must be a boolean, not ${typeOf(value)}`);
        }
    }
    if (bits & REQUIRE_UNIT && bits & READS_NUMBERS) {
        throw new RangeError("the options requireUnit and defaultUnit contradict each other");
    }
    // If `noCalc` is false and its bit is on, the default unit has turned it on.
    if (wantsOperators && bits & NO_CALC) {
        const why = "a factor would count that unit too";
        throw new RangeError(
            `the option noCalc can't be false if defaultUnit is not the second: ${why}`,
        );
    }
    return bits;
}
