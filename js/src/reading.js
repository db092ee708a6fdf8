// `reader` comes from compiled.js or from plain.js.
import { reader } from "modules";
import { CODES, UNITS } from "./lists.js";
import { bitsOf, READS_NUMBERS, REQUIRE_UNIT, typeOf } from "./options.js";
import { DurationError, Fault } from "./refusals.js";

/** The size of a page in bytes, by which a memory of WebAssembly grows. */
const PAGE = 65_536;
const LONE_SURROGATE = /[\ud800-\udfff]/u;

// After the module's own memory come a `struct Answer` and the text to read. The struct has the
// nanoseconds, the count to write, further numbers of 32 bits, and the report, at these offsets.
const NANOS = 0, COUNT = 8, NUMBERS = 16, REPORT = 56;
/** A text that needs more suggestions than this has no mended text. For each of them, the whole
 * text is read. So without this limit, a long text could take very long. */
const MOST_SUGGESTIONS = 32;
/** The longest report fits. */
const REPORT_SIZE = 867;
/** The offset of the text. The struct's size is a multiple of 8. */
const TEXT = REPORT + REPORT_SIZE + 7 & -8;

let calls, answer;
// Views of the memory from the struct on, and from the text on.
let fields, texts;

/** Makes room for this many bytes of text. Older views stop working when the memory grows. */
function reserve(length) {
    if (texts?.length >= length) return;
    const { memory } = calls;
    if (texts) memory.grow(Math.ceil((length - texts.length) / PAGE));
    fields = new DataView(memory.buffer, answer);
    texts = new Uint8Array(memory.buffer, answer + TEXT);
    reserve(length);
}

/** Writes a text in UTF-8, and returns its length in bytes. If a lone surrogate is in it, returns
 * the complement of its index, which is negative. */
function write(text) {
    reserve(3 * text.length);
    const bytes = texts;
    let all = 0;
    for (let index = 0; index < text.length; index++) {
        const unit = text.charCodeAt(index);
        all |= unit;
        bytes[index] = unit;
    }
    if (all <= 0x7f) return text.length;
    const lone = text.search(LONE_SURROGATE);
    if (lone >= 0) return ~lone;
    const codes = unescape(encodeURIComponent(text));
    for (let index = 0; index < codes.length; index++) bytes[index] = codes.charCodeAt(index);
    return codes.length;
}

/** The index of the UTF-16 unit that has this place in the text's UTF-8. Each half of a character
 * of four bytes counts two. */
function indexAt(text, place) {
    let index = 0;
    for (let bytes = 0; bytes < place; index++) {
        const unit = text.charCodeAt(index);
        bytes += unit < 0x80 ? 1 : unit < 0x800 || (unit & 0xf800) === 0xd800 ? 2 : 3;
    }
    return index;
}

/** The fault of the text, from the answer and the report that the call has written. */
function faultOf(text, bits, reportLength) {
    const bytes = new Uint8Array(calls.memory.buffer, answer + REPORT, reportLength);
    // Spreading the bytes would take eight times as long as `apply`.
    const report = decodeURIComponent(escape(String.fromCharCode.apply(null, bytes)));
    const numbers = Array.from({ length: 9 }, (_, index) =>
        fields.getInt32(NUMBERS + 4 * index, true));
    const [place, foundLength, cause, expected, help, start, length, hasCount, unit] = numbers;
    const mend = (refused) => mended(refused, bits);
    const fault = new Fault(text, report, CODES[cause], expected, help, mend);
    if (place >= 0) {
        fault.place = place;
        fault.index = indexAt(text, place);
        fault.found = text.slice(fault.index, indexAt(text, place + foundLength)) || null;
    }
    if (start >= 0) {
        const count = hasCount ? fields.getBigUint64(COUNT, true) : "";
        fault.suggestion = count + (UNITS[unit - 1] ?? "").replace("µ", "u");
        fault.span = [indexAt(text, start), indexAt(text, start + length)];
    }
    return fault;
}

function mended(fault, bits) {
    for (let count = 0; count < MOST_SUGGESTIONS && fault.span; count++) {
        const [start, end] = fault.span;
        const text = fault.text.slice(0, start) + fault.suggestion + fault.text.slice(end);
        fault = readText(text, bits);
        if (typeof fault === "number") return text;
    }
    return null;
}

function surrogateAt(text, index) {
    const fault = new Fault(text, `not UTF-8: a lone surrogate at index ${index}`, "NOT_TEXT");
    fault.index = index;
    return fault;
}

const notText = (value, help = "") =>
    new TypeError(`a duration's text must be a string, not ${typeOf(value)}${help}`);

/** For a fraction or a negative number, this is the text that JavaScript prints, which the library
 * refuses. */
function digitsOf(value, bits) {
    if (!(bits & READS_NUMBERS)) {
        throw notText(value, ": to read numbers, name their unit, as by { defaultUnit: 'ms' }");
    }
    // From 2^53 on a number can have lost digits. NaN is not below 2^53 either.
    if (typeof value === "bigint" || value < 2 ** 53) return `${value}`;
    throw new RangeError(`a number must be below 2^53, or a bigint, not ${value}`);
}

/** The milliseconds of one of this unit, or the fault if there is none. */
const lengthOf = (name) => readText(`1${name}`, REQUIRE_UNIT);

/** The number of the unit that the library reads for this name if all options are off, or -1. */
function unitRead(name) {
    const printed = UNITS.indexOf(name);
    if (printed >= 0) return printed;
    // After a number, other characters could be read too, such as in `1h*2`.
    if (!/^[a-zµ]+$/i.test(name)) return -1;
    const length = lengthOf(name);
    return UNITS.findIndex((unit) => lengthOf(unit) === length);
}

/** Returns the milliseconds, or the fault. */
function read(value, options) {
    const isText = typeof value === "string";
    if (!isText && typeof value !== "number" && typeof value !== "bigint") throw notText(value);
    const bits = options === undefined ? 0 : bitsOf(options, unitRead);
    return readText(isText ? value : digitsOf(value, bits), bits & ~READS_NUMBERS);
}

/** Returns the milliseconds, or the fault. */
function readText(text, bits) {
    if (!calls) {
        calls = reader();
        answer = calls.__heap_base.value;
    }
    const length = write(text);
    if (length < 0) return surrogateAt(text, ~length);
    const millis = calls.read(answer, length, bits);
    return millis < 0 ? faultOf(text, bits, -millis) : millis;
}

const nanoseconds = () => fields.getBigUint64(NANOS, true);

export function tryParseNs(value, options) {
    const result = read(value, options);
    if (result instanceof Fault) return { ok: false, fault: result };
    return { ok: true, value: nanoseconds() };
}

export function parseNs(value, options) {
    parse(value, options);
    return nanoseconds();
}

export function tryParse(value, options) {
    const result = read(value, options);
    return result instanceof Fault ? { ok: false, fault: result } : { ok: true, value: result };
}

export function parse(value, options) {
    const result = read(value, options);
    if (typeof result === "number") return result;
    throw new DurationError(result);
}
