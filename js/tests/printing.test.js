import assert from "node:assert/strict";
import { readFileSync } from "node:fs";
import test from "node:test";

import {
    breakdown, formatNs, format, parseNs, parse, parts, tryParseNs,
} from "duration-str";
import { near, OPTION_NAMES, VECTORS } from "./vectors.js";

const NAMES = ["y", "q", "mon", "w", "d", "h", "min", "s", "ms", "µs", "ns"];
const TYPES = readFileSync(new URL("../index.d.ts", import.meta.url), "utf8");
const ALL_NAMES = /type Unit =([^;]*);/.exec(TYPES)[1].trim().split("\n")
    .map((line) => Array.from(line.matchAll(/"(.*?)"/g), ([, name]) => name));
const DAY = 86_400_000_000_000n;

const LENGTHS = Object.fromEntries(NAMES.map((name) => [name, parseNs(`1${name}`)]));

/** A printed text that begins with 0 is a zero, which has no parts. */
function checkRow([text, limits, short, long, secs, nanos]) {
    const value = parseNs(text);
    const texts = { short, compact: short.replaceAll(" ", ""), long };
    for (const style of VECTORS.styles) {
        assert.equal(formatNs(value, { ...limits, style }), texts[style], text);
    }
    if (Object.keys(limits).length === 0) assert.equal(formatNs(value), short);
    const { parts: counted, restNs } = breakdown(value, limits);
    const joined = counted.map(({ count, unit }) => `${count}${unit}`).join(" ");
    assert.equal(joined, short.startsWith("0") ? "" : short);
    assert.equal(restNs, BigInt(secs) * 1_000_000_000n + BigInt(nanos), text);
}

test("prints the vectors, and breaks them down", () => {
    const isRead = ([text]) => tryParseNs(text).ok;
    VECTORS.printed.filter(isRead).forEach(checkRow);
    for (const [text, limits] of VECTORS.printed_as_zero.filter(isRead)) {
        for (const call of [formatNs, breakdown]) {
            assert.throws(() => call(parseNs(text), limits), RangeError);
        }
    }
});

test("rounds as the vectors say", () => {
    for (const [text, limits, ...texts] of VECTORS.rounded) {
        if (!tryParseNs(text).ok) continue;
        const value = parseNs(text);
        for (const rounding of [undefined, "down"]) {
            assert.equal(formatNs(value, { ...limits, rounding }), texts[0], text);
        }
        for (const [place, rounding] of ["down", "nearest", "up"].entries()) {
            const printed = texts[place];
            const options = { ...limits, rounding };
            assert.equal(formatNs(value, options), printed, text);
            const compact = printed.replaceAll(" ", "");
            assert.equal(formatNs(value, { ...options, style: "compact" }), compact, text);
            const { parts: counted, restNs } = breakdown(value, options);
            const joined = counted.map(({ count, unit }) => `${count}${unit}`).join(" ");
            assert.equal(joined, printed.startsWith("0") ? "" : printed, text);
            assert.equal(restNs, 0n, text);
            const total = counted.reduce((sum, { count, unit }) => sum + count * LENGTHS[unit], 0n);
            if (total < 2n ** 64n) assert.equal(formatNs(total, limits), printed);
        }
    }
});

test("rounds milliseconds, and the counts for Intl", () => {
    const nearest = { smallest: "min", rounding: "nearest" };
    assert.equal(format(5_429_999.5, nearest), "1h 30min");
    assert.equal(format(5_430_000, nearest), "1h 31min");
    assert.deepEqual(parts(5_430_000, nearest), { hours: 1, minutes: 31 });
    assert.deepEqual(parts(29_999, nearest), { minutes: 0 });
    assert.deepEqual(parts(7_199_000, { parts: 1, rounding: "up" }), { hours: 2 });
    assert.deepEqual(parts(7_199_000, { parts: 1, rounding: "down" }), { hours: 1 });
    // Without quarters 4mon come after 3mon, and 1mon after 4w.
    const weeks = { units: ["mon", "w"], parts: 1, rounding: "up" };
    assert.deepEqual(parts(91n * DAY, weeks), { months: 4 });
    assert.deepEqual(parts(29n * DAY, weeks), { months: 1 });
    // The seconds get a further bit.
    const seconds = { units: ["s"], rounding: "up" };
    assert.equal(formatNs(2n ** 32n * 10n ** 9n - 1n, seconds), "4294967296s");
    const years = { units: ["y"], rounding: "up" };
    assert.deepEqual(breakdown(2n ** 64n - 1n, years), {
        parts: [{ count: 585n, unit: "y" }], restNs: 0n,
    });
});

test("prints texts of each length", () => {
    // The counts differ, so that none can stand in the place of another.
    const counts = {
        d: [3, 6], h: [4, 17], min: [5, 28], s: [6, 39], ms: [7, 481], µs: [8, 592], ns: [9, 613],
    };
    const names = Object.keys(counts);
    const ascii = new Set();
    const others = new Set();
    for (let set = 1; set < 2 ** names.length; set++) {
        for (let longer = 0; longer < 2 ** names.length; longer++) {
            const chosen = names
                .map((name, index) => ({ name, count: counts[name][longer >> index & 1] }))
                .filter((_, index) => set >> index & 1);
            const text = chosen.map(({ name, count }) => `${count}${name}`).join(" ");
            const lengths = chosen.map(({ name, count }) => BigInt(count) * LENGTHS[name]);
            assert.equal(formatNs(lengths.reduce((sum, each) => sum + each)), text);
            (text.includes("µ") ? others : ascii).add(text.length);
        }
    }
    for (let length = 2; length <= 28; length++) assert.ok(ascii.has(length), `${length}`);
    const longer = "1mon 7h 28min 39s 481ms 613ns";
    assert.deepEqual([longer.length, formatNs(parseNs(longer))], [29, longer]);
    for (let length = 7; length <= 30; length++) assert.ok(others.has(length), `${length} with µ`);
});

test("leaves out options that are undefined, in each call", () => {
    const names = ["units", "largest", "smallest", "parts", "rounding", "style"];
    const options = Object.fromEntries(names.map((name) => [name, undefined]));
    for (const call of [format, formatNs, breakdown, parts]) {
        const value = call === format ? 90_061_000 : 90_061_000_000_000n;
        for (const given of [{}, { units: ["d", "s"] }, { largest: "h", parts: 1 }]) {
            assert.deepEqual(call(value, { ...options, ...given }), call(value, given));
        }
    }
});

test("takes no format from Object.prototype, and minds none there", () => {
    Object.prototype.style = "long";
    Object.prototype.other = true;
    try {
        for (const options of [{}, { largest: "min" }]) {
            assert.equal(format(90_000, options), "1min 30s");
            assert.equal(breakdown(90_000, options).parts.length, 2);
        }
    } finally {
        delete Object.prototype.style;
        delete Object.prototype.other;
    }
});

test("takes any whole number of parts", () => {
    assert.equal(format(193_029, { parts: 2 }), "3min 13s");
    for (const parts of [2 ** 32, Infinity]) {
        assert.equal(formatNs(90_061_000_000_001n, { parts }), "1d 1h 1min 1s 1ns");
    }
    assert.equal(format(90_061_001, { parts: Infinity }), "1d 1h 1min 1s 1ms");
});

test("takes each name that is read for its unit", () => {
    assert.equal(ALL_NAMES.length, NAMES.length);
    for (const [place, names] of ALL_NAMES.entries()) {
        const printed = NAMES[place];
        const capitals = names.map((name) => name.toUpperCase().replace("\u039c", "µ"));
        for (const name of [...names, ...capitals]) {
            const value = parseNs(`1${name}`);
            for (const options of [{ units: [name] }, { largest: name, smallest: name }]) {
                assert.equal(formatNs(value, options), `1${printed}`, name);
            }
        }
    }
});

test("refuses formats that there are not", () => {
    const names = "y, q, mon, w, d, h, min, s, ms, µs or us, ns";
    const noUnit = (name) => new RangeError(
        `a unit of the option units must be one of ${names}, not ${name}`,
    );
    const style = "the option style must be one of short, compact, long, not";
    const rows = [
        [
            { largest: "fortnights" },
            new RangeError(`the option largest must be one of ${names}, not fortnights`),
        ],
        [
            { smallest: "\u03bcs" },
            new RangeError(`the option smallest must be one of ${names}, not \u03bcs`),
        ],
        [{ smallest: 5 }, new TypeError("the option smallest must be a string, not number")],
        [{ parts: 0 }, new RangeError("the option parts must be a whole number from 1 on, not 0")],
        [
            { parts: 1.5 },
            new RangeError("the option parts must be a whole number from 1 on, not 1.5"),
        ],
        [
            { largest: "h", smallest: "d" },
            new RangeError("the largest unit, h, is shorter than the smallest, d"),
        ],
        [{ style: "wide" }, new RangeError(`${style} wide`)],
        [{ style: 1 }, new TypeError("the option style must be a string, not number")],
        [
            { rounding: "Up" },
            new RangeError("the option rounding must be one of down, nearest, up, not Up"),
        ],
        [{ rounding: null }, new TypeError("the option rounding must be a string, not null")],
        [{ parts: "2" }, new TypeError("the option parts must be a number, not string")],
        // None of these names a unit if all options are off.
        ...["x", "", "d 6d", "1d", " d", "d*1d", "分", "__proto__"].map(
            (name) => [{ units: ["d", name] }, noUnit(name)],
        ),
        [{ units: "yd" }, new TypeError("the option units must be an array, not string")],
        [{ units: null }, new TypeError("the option units must be an array, not null")],
        [{ units: [5] }, new TypeError("a unit of the option units must be a string, not number")],
        [
            { units: ["d", , "h"] },
            new TypeError("a unit of the option units must be a string, not undefined"),
        ],
        [{ units: [] }, new RangeError("the option units must name a unit")],
        [
            { units: ["y", "s"], largest: "d", smallest: "h" },
            new RangeError("the option units has no unit from d to h"),
        ],
        [{ unit: "d" }, new TypeError("unknown option: unit")],
        [0, new TypeError("the options must be a plain object, not number")],
    ];
    for (const [options, error] of rows) {
        assert.throws(() => formatNs(1n, options), error);
        assert.throws(() => format(1, options), error);
        const isStyle = Object.hasOwn(options, "style");
        const refused = isStyle ? new TypeError("unknown option: style") : error;
        for (const value of [1, 1n]) assert.throws(() => breakdown(value, options), refused);
    }
});

test("breaks numbers of milliseconds down, and refuses other values", () => {
    const parts = [{ count: 1n, unit: "µs" }, { count: 500n, unit: "ns" }];
    assert.deepEqual(breakdown(0.0015), { parts, restNs: 0n });
    assert.deepEqual(breakdown(0.0015, { parts: 1 }), { parts: parts.slice(0, 1), restNs: 500n });
    for (const value of [-1n, -0.5, 2n ** 64n, NaN, 2e13]) {
        assert.throws(() => breakdown(value), RangeError);
    }
    assert.throws(() => breakdown(-1n), { message: "a duration is not negative: -1" });
    for (const words of [["1"], [undefined], [1n, null]]) {
        assert.throws(() => breakdown(...words), TypeError);
    }
    // An option's getter may call the package, too.
    const options = { get parts() { return breakdown(5_400_000).parts.length; } };
    assert.deepEqual(breakdown(60_001, options).parts[1], { count: 1n, unit: "ms" });
});

test("counts the parts", () => {
    const rows = [
        [5_400_000_000_000n, undefined, { hours: 1, minutes: 30 }],
        [5_400_001.5, undefined, { hours: 1, minutes: 30, milliseconds: 1, microseconds: 500 }],
        [0n, undefined, { seconds: 0 }],
        [1n, { smallest: "µs" }, { seconds: 0 }],
        [1n, { largest: "w", smallest: "d" }, { days: 0 }],
        [
            2n ** 64n - 1n,
            undefined,
            {
                days: 213_503,
                hours: 23,
                minutes: 34,
                seconds: 33,
                milliseconds: 709,
                microseconds: 551,
                nanoseconds: 615,
            },
        ],
        // 400 days are a year of 365 days, a month of 30 days and 5 days. Without years they are 13
        // months, a week and 3 days.
        [400n * DAY, { largest: "y" }, { years: 1, months: 1, days: 5 }],
        [400n * DAY, { largest: "mon" }, { months: 13, weeks: 1, days: 3 }],
        [400n * DAY, { largest: "mon", parts: 2 }, { months: 13, weeks: 1 }],
        [400n * DAY, { units: ["y", "d"] }, { years: 1, days: 35 }],
        [400n * DAY, { units: ["y", "mon", "d"], parts: 1 }, { years: 1 }],
        [5n, { units: ["d", "mon"] }, { days: 0 }],
        [5n, { units: ["µs", "d"] }, { seconds: 0 }],
        [2n ** 53n - 1n, { largest: "ns" }, { nanoseconds: Number.MAX_SAFE_INTEGER }],
    ];
    for (const [value, format, counted] of rows) assert.deepEqual(parts(value, format), counted);
    assert.throws(
        () => parts(2n ** 53n, { largest: "ns" }),
        { name: "RangeError", message: /^a count must be below 2\^53, not 9007199254740992: / },
    );
    for (const format of [
        { largest: "q" }, { largest: "y", smallest: "q" }, { smallest: "w" }, { parts: 0 },
        { units: ["q", "d"] }, { largest: "quarter" }, { units: [] }, { units: ["x"] },
        { units: ["y"], largest: "d" },
    ]) {
        assert.throws(() => parts(1n, format), RangeError);
    }
    for (const value of [-1n, 2n ** 64n]) assert.throws(() => parts(value), RangeError);
    for (const words of [
        ["1"], [undefined], [1n, null], [1n, { style: "long" }], [1n, { unit: "d" }],
    ]) {
        assert.throws(() => parts(...words), TypeError);
    }
});

test("knows whole names only", () => {
    const refuses = (name, words, call) =>
        assert.throws(() => call(words), { name }, JSON.stringify(Object.entries(words)));
    for (const word of near(ALL_NAMES.flat())) {
        const small = word.replace(/[A-Z]/g, (letter) => letter.toLowerCase());
        const place = ALL_NAMES.findIndex((names) => names.includes(small));
        const limits = [{ largest: word }, { smallest: word }, { units: [word] }];
        if (place < 0) {
            for (const each of limits) refuses("RangeError", each, (words) => format(5, words));
            refuses("RangeError", { defaultUnit: word }, (words) => parse("5", words));
        } else {
            const value = parseNs("7", { defaultUnit: word });
            assert.equal(formatNs(value, Object.assign({}, ...limits)), `7${NAMES[place]}`);
        }
    }
    const roundings = ["down", "nearest", "up"];
    for (const [option, known] of [["style", VECTORS.styles], ["rounding", roundings]]) {
        for (const word of near(known)) {
            if (known.includes(word)) continue;
            refuses("RangeError", { [option]: word }, (words) => format(5, words));
        }
    }
    const formats = ["units", "largest", "smallest", "parts", "rounding", "style"];
    for (const name of near([...formats, ...OPTION_NAMES])) {
        const words = { [name]: undefined };
        if (!OPTION_NAMES.includes(name)) refuses("TypeError", words, () => parse("5", words));
        if (formats.includes(name)) continue;
        for (const call of [format, breakdown, parts]) {
            refuses("TypeError", words, () => call(5, words));
        }
    }
});

test("prints milliseconds", () => {
    for (const [value, printed] of [
        [0, "0s"],
        [-0, "0s"],
        [1, "1ms"],
        [193_029, "3min 13s 29ms"],
        [1.005, "1ms 5µs"],
        // This number is 7e-12 ns below the middle, and the next smaller one is 4.5e-10 ns below.
        [3.7672135, "3ms 767µs 214ns"],
        [3.7672134999999995, "3ms 767µs 213ns"],
        [0.0000004, "0s"],
        [0.0000006, "1ns"],
        [2.9999999, "3ms"],
    ]) {
        assert.equal(format(value), printed);
    }
    assert.equal(format(parse("1m 30s")), "1min 30s");
    assert.equal(format(18_446_744_073_709.55, { parts: 1 }), "584y");
    // These values are near 2^32 ns, 2^32 ms and 2^53 ns.
    for (const whole of [4_294, 4_295, 4_294_967_295, 4_294_967_296, 9_007_199_254, 9_007_199_255]) {
        for (const fraction of [0, 0.25, 0.5]) {
            const nanoseconds = BigInt(whole) * 1_000_000n + BigInt(fraction * 1_000_000);
            for (const options of [undefined, { largest: "ns" }, { style: "long", largest: "d" }]) {
                assert.equal(format(whole + fraction, options), formatNs(nanoseconds, options));
            }
            assert.equal(formatNs(nanoseconds, { largest: "ns" }), `${nanoseconds}ns`);
            assert.deepEqual(parts(whole + fraction), parts(nanoseconds));
        }
    }
    // index.d.ts says that `format` prints every nanosecond below 2^33 ms.
    for (const [text, isSame] of [["8589934591999999ns", true], ["8589934592000001ns", false]]) {
        assert.equal(format(parse(text)) === formatNs(parseNs(text)), isSame);
    }
});

test("reads each option once", () => {
    const values = {
        units: ["h", "min"], largest: "h", smallest: "min", parts: 1, rounding: "up", style: "long",
    };
    for (const call of [format, breakdown, parts]) {
        const read = [];
        const options = {};
        for (const name of Object.keys(values)) {
            if (name === "style" && call !== format) continue;
            const get = () => (read.push(name), values[name]);
            Object.defineProperty(options, name, { enumerable: true, get });
        }
        call(5_400_000, options);
        assert.deepEqual(read, Object.keys(options));
    }
});

test("prints what it is given, whatever an option's getter calls", () => {
    const options = { get parts() { return parse("2ms"); } };
    assert.equal(format(5_445_000, options), "1h 30min");
    assert.deepEqual(parts(5_445_000, options), { hours: 1, minutes: 30 });
    // Nanoseconds stand in the module's memory, where the getter's call writes its own.
    const further = { get parts() { return breakdown(3_600_000_000_001n).parts.length; } };
    assert.equal(formatNs(5_445_000_000_000n, further), "1h 30min");
    assert.equal(breakdown(5_445_000_000_000n, further).restNs, 45_000_000_000n);
});

test("refuses what is negative, not finite or too large", () => {
    const rows = [
        [formatNs, [-1n, -(10n ** 1000n)], /^a duration is not negative: -/],
        [formatNs, [2n ** 64n, 10n ** 1000n], /^a duration is at most 584 years, 2\^64 - 1 ns$/],
        [format, [-1, -0.5], /^a duration is not negative: -(1|0\.5)$/],
        [format, [NaN, Infinity, -Infinity], /^milliseconds must be finite, not (NaN|-?Infinity)$/],
        [
            format,
            [18_446_744_073_710, 2 ** 53, 1e300],
            /^a duration is at most 584 years, 18446744073709\.55 ms$/,
        ],
    ];
    for (const [call, values, message] of rows) {
        for (const value of values) {
            assert.throws(() => call(value), { name: "RangeError", message });
        }
    }
});

test("does not take one unit for the other", () => {
    for (const value of [
        undefined, null, "1", "1s", true, [1], {}, new Date(0), new Number(1), Symbol("1"),
    ]) {
        assert.throws(() => formatNs(value), TypeError);
        assert.throws(() => format(value), TypeError);
    }
    assert.throws(
        () => formatNs(90_000),
        { name: "TypeError", message: /; format takes milliseconds$/ },
    );
    assert.throws(
        () => format(90_000n),
        { name: "TypeError", message: /; formatNs takes nanoseconds$/ },
    );
});
