import assert from "node:assert/strict";
import test from "node:test";
import { runInNewContext } from "node:vm";

import { DurationError, parseNs, parse, pattern, tryParse, tryParseNs } from "duration-str";
import { choicesFor, holds, OPTION_NAMES, optionsOf, VECTORS } from "./vectors.js";

const LARGEST = 2n ** 64n - 1n;
const NO_UNITS = [
    "fortnight", "toString", "", " ", "mins", "年", "毫秒", "1分", "m 0s", "d 6d", "1", "2*s",
    "\u039cs", "\u{1f600}", "\ud800", "ms\udc00", "\ud800s", "milliseconds".repeat(10_000),
];

// This test comes first, while the memory is still small.
test("makes room at each size, for texts and faults", () => {
    for (let count = 1; count < 1_000_000; count = Math.ceil(count * 1.2)) {
        assert.equal(
            tryParseNs("分".repeat(2 * count), { cnUnit: true }).fault.found.length,
            2 * count,
        );
        assert.equal(
            parseNs("1分".repeat(count), { cnUnit: true }),
            BigInt(count) * 60_000_000_000n,
        );
        assert.equal(tryParseNs(`${"1分".repeat(count)}-`, { cnUnit: true }).fault.index, 2 * count);
    }
});

test("reads the vectors, and refuses them under the other options", () => {
    for (const group of VECTORS.values) {
        for (const names of choicesFor(group)) {
            for (const [secs, nanos, texts] of group.rows) {
                const value = BigInt(secs) * 1_000_000_000n + BigInt(nanos);
                for (const text of texts) {
                    if (holds(group, names)) {
                        assert.equal(parseNs(text, optionsOf(names)), value, text);
                    }
                    else assert.throws(() => parseNs(text, optionsOf(names)), DurationError, text);
                }
            }
        }
    }
});

test("reads as without options if they are left out or undefined", () => {
    const none = Object.fromEntries(OPTION_NAMES.map((name) => [name, undefined]));
    for (const options of [undefined, {}, none, optionsOf([])]) {
        assert.equal(parseNs("1M*2", options), 120_000_000_000n);
        assert.throws(() => parseNs("1分", options), DurationError);
        assert.throws(() => parseNs("5 mins", options), DurationError);
        assert.throws(() => parseNs(1, options), TypeError);
        assert.equal(pattern(options), pattern());
    }
});

test("takes a plain object's own options, of any realm", () => {
    const other = runInNewContext("({ cnUnit: true })");
    for (const options of [other, Object.assign(Object.create(null), { cnUnit: true })]) {
        assert.equal(parseNs("1分", options), 60_000_000_000n);
    }
    for (const options of [
        Object.create({ cnUnit: true }),
        Object.create(Object.create(null)),
        new (class { cnUnit = true; })(),
        [],
        () => {},
    ]) {
        assert.throws(
            () => parseNs("1分", options),
            { name: "TypeError", message: /^the options must be a plain object, not / },
        );
    }
});

test("takes no option from Object.prototype, and minds none there", () => {
    Object.prototype.cnUnit = true;
    Object.prototype.other = true;
    try {
        assert.throws(() => parseNs("1分", {}), DurationError);
        assert.equal(parseNs("1分", { cnUnit: true }), 60_000_000_000n);
    } finally {
        delete Object.prototype.cnUnit;
        delete Object.prototype.other;
    }
});

test("takes each spelling of a default unit", () => {
    const rows = [["weeks", 604_800_000], ["µSEC", 0.001], ["HR", 3_600_000]];
    for (const [defaultUnit, value] of rows) {
        assert.equal(parse("1", { defaultUnit, requireUnit: false }), value);
    }
    assert.equal(parse("2*3", { defaultUnit: undefined }), 6000);
    assert.equal(parse("1s", { requireUnit: true, defaultUnit: undefined }), 1000);
    const { fault } = tryParse("90s*2", { noCalc: true, defaultUnit: "ms" });
    assert.deepEqual([fault.code, fault.index, fault.found], ["SYNTAX", 3, "*"]);
});

test("reads the numbers of the vectors", () => {
    for (const [defaultUnit, number, secs, nanos] of VECTORS.numbers) {
        const wanted = BigInt(secs) * 1_000_000_000n + BigInt(nanos);
        for (const value of [number, BigInt(number), String(number)]) {
            assert.equal(parseNs(value, { defaultUnit }), wanted);
            assert.equal(tryParseNs(value, { defaultUnit }).value, wanted);
            assert.equal(parse(value, { defaultUnit }), parse(`${wanted}ns`));
            assert.equal(tryParse(value, { defaultUnit }).value, parse(`${wanted}ns`));
        }
    }
    for (const [defaultUnit, number, line] of VECTORS.refused_numbers) {
        const { fault } = tryParse(number, { defaultUnit });
        assert.equal(fault.message, line);
        assert.deepEqual(fault, tryParse(String(number), { defaultUnit }).fault);
    }
    assert.equal(parseNs(LARGEST, { defaultUnit: "ns", lowercase: true }), LARGEST);
    assert.equal(parseNs(-0, { defaultUnit: "y" }), 0n);
});

test("refuses a number as its text, or says why it is no whole number", () => {
    const options = { defaultUnit: "ms" };
    const negative = [-1, -1n, -(2 ** 53), -1e21, -Number.MAX_VALUE, -Infinity];
    const refused = [...negative, 1.5, 1e-7, 18_446_744_073_710, 10n ** 20n, 10n ** 1000n];
    for (const number of refused) {
        const text = String(number);
        const { fault } = tryParse(number, options);
        assert.deepEqual(fault, tryParse(text, options).fault);
        assert.deepEqual([fault.text, fault.report], [text, tryParse(text, options).fault.report]);
        assert.throws(() => parseNs(number, options), { name: "DurationError", code: fault.code });
    }
    for (const number of [NaN, Infinity, 2 ** 53, 1e21, Number.MAX_VALUE]) {
        const error = new RangeError(`a number must be below 2^53, or a bigint, not ${number}`);
        for (const call of [parse, parseNs, tryParse, tryParseNs]) {
            assert.throws(() => call(number, options), error);
        }
    }
    for (const value of [true, null, [1], new Number(1), undefined, {}]) {
        const error = { name: "TypeError", message: /^a duration's text must be a string, not / };
        assert.throws(() => parse(value, options), error);
    }
});

test("refuses a default unit that there is not, or beside a required one", () => {
    const names = "y, q, mon, w, d, h, min, s, ms, µs or us, ns";
    const message = "the options requireUnit and defaultUnit contradict each other";
    const rows = [
        ...NO_UNITS.map((name) => [
            { cnUnit: true, defaultUnit: name },
            new RangeError(`the option defaultUnit must be one of ${names}, not ${name}`),
        ]),
        [{ requireUnit: true, defaultUnit: "ms" }, new RangeError(message)],
        [{ requireUnit: true, defaultUnit: "s" }, new RangeError(message)],
        [{ defaultUnit: 5 }, new TypeError("the option defaultUnit must be a string, not number")],
        [{ defaultUnit: null }, new TypeError("the option defaultUnit must be a string, not null")],
    ];
    for (const [options, error] of rows) {
        for (const call of [parse, parseNs, tryParse, tryParseNs]) {
            assert.throws(() => call("1s", options), error);
        }
    }
});

test("refuses to read operators beside a default unit other than the second", () => {
    const error = new RangeError(
        "the option noCalc can't be false if defaultUnit is not the second: "
            + "a factor would count that unit too",
    );
    for (const defaultUnit of ["ms", "MS", "milliseconds", "y", "m", "µs", "ns"]) {
        const other = { noCalc: false, defaultUnit };
        const others = [{ defaultUnit, noCalc: false }, { ...other, cnUnit: false }];
        for (const options of [other, { ...other, lowercase: true }, ...others]) {
            for (const call of [parse, parseNs, tryParse, tryParseNs]) {
                assert.throws(() => call("1s", options), error);
                assert.throws(() => call(1, options), error);
            }
        }
        for (const noCalc of [undefined, true]) {
            const options = { noCalc, defaultUnit, lowercase: false, cnUnit: false };
            assert.equal(parse("1s", options), 1000);
        }
    }
    for (const defaultUnit of [undefined, "s", "S", "sec", "second", "seconds"]) {
        assert.equal(parse("90s*2", { noCalc: false, defaultUnit }), 180_000);
    }
    assert.equal(parse("1s", { noCalc: false, requireUnit: true }), 1000);
});

test("refuses what is no option", () => {
    const rows = [
        [{ no_calc: true }, "unknown option: no_calc"],
        [{ nocalc: undefined }, "unknown option: nocalc"],
        [{ noCalc: 1 }, "the option noCalc must be a boolean, not number"],
        [{ lowercase: "no" }, "the option lowercase must be a boolean, not string"],
        [{ cnUnit: null }, "the option cnUnit must be a boolean, not null"],
        [{ more_names: true }, "unknown option: more_names"],
        [{ moreNames: "yes" }, "the option moreNames must be a boolean, not string"],
        [null, "the options must be a plain object, not null: write (text) => parse(text)"],
        [[], "the options must be a plain object, not array: write (text) => parse(text)"],
        [
            new Map(),
            "the options must be a plain object, not one that inherits: write (text) => parse(text)",
        ],
        ["noCalc", "the options must be a plain object, not string: write (text) => parse(text)"],
    ];
    for (const [options, message] of rows) {
        for (const call of [parseNs, parse]) {
            assert.throws(() => call("1s", options), new TypeError(message));
        }
    }
});

test("refuses what is no string", () => {
    const rows = [
        [undefined, "undefined"],
        [null, "null"],
        [1, "number: to read numbers, name their unit, as by { defaultUnit: 'ms' }"],
        [1n, "bigint: to read numbers, name their unit, as by { defaultUnit: 'ms' }"],
        [Symbol("1s"), "symbol"],
        [["1s"], "array"],
        [new String("1s"), "object"],
        [{ toString: () => "1s" }, "object"],
        [() => "1s", "function"],
    ];
    for (const [value, type] of rows) {
        const error = new TypeError(`a duration's text must be a string, not ${type}`);
        for (const call of [parseNs, parse]) assert.throws(() => call(value), error);
    }
});

test("reads the nearest number of milliseconds", () => {
    const rows = [
        ["1m 30s", 90_000],
        ["0", 0],
        ["1500us", 1.5],
        ["999999ns", 0.999999],
        ["9007199254740991ns", 9_007_199_254.740991],
        ["9007199254740993ns", 9_007_199_254.740993],
        [`${LARGEST}ns`, 18_446_744_073_709.551615],
    ];
    for (const [text, value] of rows) assert.equal(parse(text), value, text);
});

test("reads the nearest number of milliseconds of a long duration", () => {
    for (let exponent = 52n; exponent < 64n; exponent++) {
        for (let step = 0n; step < 300n; step++) {
            // 2^-20 ms are 15,625 / 2^14 ns.
            const middle = 2n ** exponent + 15_625n * step * 997n / 2n ** 14n;
            for (const nanos of [middle, middle + 1n]) {
                assert.equal(parse(`${nanos}ns`), Number(`${nanos}e-6`), `${nanos}`);
            }
        }
    }
});

test("reads 10 MB, and keeps the memory for later texts", (context) => {
    const grow = context.mock.method(WebAssembly.Memory.prototype, "grow");
    const count = 3_400_000;
    assert.equal(parseNs("1s ".repeat(count)), BigInt(count) * 1_000_000_000n);
    assert.equal(grow.mock.callCount(), 1);
    for (let round = 0; round < 5; round++) {
        assert.equal(parseNs(`1µs${" ".repeat(10_000_000)}1µs`), 2000n);
        assert.equal(parseNs("2s"), 2_000_000_000n);
    }
    assert.equal(grow.mock.callCount(), 1);
});

test("is not confused by an option that reads another text", () => {
    const options = {
        get noCalc() {
            assert.throws(() => parseNs("x".repeat(100_000)), DurationError);
            return false;
        },
    };
    assert.equal(parseNs("1m+2", options), 62_000_000_000n);
});
