import assert from "node:assert/strict";
import { spawnSync } from "node:child_process";
import test from "node:test";
import { fileURLToPath } from "node:url";
import { inspect } from "node:util";

import { DurationError, parseNs, tryParseNs, tryParse } from "duration-str";
import { HELPS } from "../src/lists.js";
import { CHOICES, optionsOf, VECTORS } from "./vectors.js";

const HERE = fileURLToPath(new URL(".", import.meta.url));
const NOTHING = { number: false, unit: false, operator: false, end: false };

function errorOf(text, options) {
    try {
        parseNs(text, options);
    } catch (error) {
        assert.ok(error instanceof DurationError, error);
        return error;
    }
    return assert.fail(`${JSON.stringify(text)} is read`);
}

function indices(text, span) {
    return span?.map((end) => Buffer.from(text).subarray(0, end).toString().length) ?? null;
}

/** The line without its column, if it has one. `before` is the text before the place. */
function reasonOf(line, code, before) {
    if (code !== "SYNTAX") return line;
    const column = ` at column ${[...before].length + 1}`;
    assert.ok(line.includes(column), line);
    return line.replace(column, "");
}

test("tells all of a refusal", () => {
    for (const [text, names, ...row] of VECTORS.refused) {
        const [code, place, found, kinds, line, spaces, help, suggestion, span, mended] = row;
        const options = optionsOf(names);
        const error = errorOf(text, options);
        const before = Buffer.from(text).subarray(0, place ?? 0).toString();
        const index = place === null ? null : before.length;
        assert.deepEqual(
            [error.code, error.place, error.index, error.found],
            [code, place, index, found],
            text,
        );
        assert.deepEqual(
            error.expected,
            { ...NOTHING, ...Object.fromEntries(kinds.map((kind) => [kind, true])) },
            text,
        );
        const { fault } = tryParseNs(text, options);
        assert.deepEqual([error.message, fault.message, String(fault)], [line, line, line]);
        for (const told of [error, fault]) {
            assert.deepEqual([told.help, told.suggestion], [help, suggestion], text);
            assert.deepEqual(told.span, indices(text, span), text);
            assert.equal(told.mended, mended, text);
        }
        const report = spaces === null ? line : `${text}\n${" ".repeat(spaces)}^\n${line}`;
        assert.deepEqual([error.report, fault.report], [report, report]);
        const reason = reasonOf(line, code, before);
        assert.deepEqual([error.reason, fault.reason], [reason, reason]);
    }
});

test("gives each help", () => {
    const given = new Set(VECTORS.refused.map((row) => row.at(-4)));
    assert.deepEqual(given, new Set([null, ...HELPS]));
});

test("lets nothing unsafe into the message, and keeps it short", () => {
    // A terminal acts on these characters, they turn the direction of writing, or they can't be
    // seen.
    const unsafe = /[\0-\x1f\x7f-\x9f\u200b-\u200f\u2028-\u202e\u2060-\u2069\ufeff]/;
    for (let code = 0; code < 0x3000; code++) {
        for (const before of ["", "1", "1h ", "1h x"]) {
            const { ok, fault } = tryParseNs(
                `${before}${String.fromCharCode(code)}${"\u9f98".repeat(50)}`,
            );
            assert.ok(
                !ok && !unsafe.test(fault.message) && Buffer.byteLength(fault.message) <= 294,
                fault.message,
            );
            assert.ok(!unsafe.test(fault.report.replace(/^(.*)\n *\^\n/, "$1")), fault.report);
        }
    }
});

test("mends a part that has fewer UTF-16 units than bytes", () => {
    const rows = [
        ["5 μs 2h", "us", [2, 4], "5 us 2h"],
        ["1分 1.5分 2h 😀", "90s", [3, 7], null],
        ["1分 1.5分 2hrs", "90s", [3, 7], "1分 90s 2h"],
    ];
    for (const [text, suggestion, span, mended] of rows) {
        const error = errorOf(text, { cnUnit: true });
        assert.deepEqual([error.suggestion, error.span, error.mended], [suggestion, span, mended]);
    }
});

test("mends until a text is read, and up to 32 faults", () => {
    const zeros = (count, mark) => `0${`${mark}000`.repeat(count)}s`;
    const rows = [
        ["2hrs 1.5min", {}, "2h 90s"],
        ["1.5h 5x", {}, null],
        ["600years.", {}, null],
        ["1_000.5", { defaultUnit: "ms" }, "1000500us"],
        ["1_5.5", { defaultUnit: "ms" }, null],
        ["1_000'00s", {}, null],
        [1.5, { defaultUnit: "ms" }, "1500us"],
        ["0 0", { requireUnit: true }, null],
        [zeros(32, "_"), {}, zeros(32, "")],
        [zeros(33, "_"), {}, null],
        [zeros(250_000, "_"), {}, null],
    ];
    for (const [text, options, mended] of rows) {
        const error = errorOf(text, options);
        assert.equal(error.mended, mended);
        if (mended !== null) parseNs(mended, options);
        assert.equal(error.mended, mended);
    }
});

test("refuses lone surrogates, wherever they stand", () => {
    const rows = [
        ["1s\udfff", 2],
        ["\udc801s", 0],
        ["1\ud83ds", 1],
        ["😀\ude00", 2],
        [`${"1s".repeat(100_000)}\ud83d`, 200_000],
    ];
    for (const [text, index] of rows) {
        for (const options of CHOICES.map(optionsOf)) {
            const error = errorOf(text, options);
            assert.deepEqual([error.code, error.text], ["NOT_TEXT", text]);
            assert.deepEqual([error.index, error.place, error.found], [index, null, null]);
            assert.deepEqual([error.help, error.suggestion, error.mended], [null, null, null]);
            assert.equal(error.span, null);
            const line = `not UTF-8: a lone surrogate at index ${index}`;
            assert.deepEqual([error.message, error.reason, error.report], [line, line, line]);
        }
    }
});

test("says a quoted column also in the reason", () => {
    const error = errorOf("99999999999999999999m at column 1");
    assert.equal(
        error.reason,
        'number of 2^64 or more in "99999999999999999999m at column 1"',
    );
    assert.equal(errorOf("1h + at column 6").reason, 'expected a number, found "at"');
});

test("does no harm with what is handed in", () => {
    const fails = () => { throw new SyntaxError("mine"); };
    const hostile = [
        Symbol("1s"), new Proxy({}, { get: fails, getPrototypeOf: fails }), new Proxy(
            () => "1s",
            {},
        ), new Map(), new Date(0), /1s/, NaN, 10n ** 1000n,
        { toString: fails, valueOf: fails }, new String("1s"),
    ];
    for (const value of hostile) {
        for (const call of [parseNs, tryParseNs, tryParse]) {
            assert.throws(
                () => call(value),
                { name: "TypeError", message: /^a duration's text must be a string, not / },
            );
            assert.throws(() => call("1s", value), (error) => error instanceof Error);
        }
    }
    for (const value of [Object.create(null), { [Symbol.toPrimitive]: fails }]) {
        assert.throws(() => parseNs(value), TypeError);
    }
    assert.throws(
        () => parseNs("1s", Object.defineProperty({}, "noCalc", { enumerable: true, get: fails })),
        { message: "mine" },
    );
    for (const text of [
        "\0",
        "1\0h",
        "\ufeff1h",
        `${"9".repeat(1_000_000)}h`,
        "1h".repeat(3) + "\u202e",
        "__proto__",
        "constructor",
    ]) {
        assert.equal(tryParseNs(text).ok, false, text.slice(0, 20));
        assert.throws(() => parseNs(text), DurationError);
    }
    assert.equal(parseNs("1s"), 1_000_000_000n);
});

test("is an Error of its own name", () => {
    const error = errorOf("600y");
    assert.ok(error instanceof Error);
    assert.equal(String(error), 'DurationError: duration of over 584 years in "600y"');
    assert.ok(error.stack.startsWith(`${error}\n    at `));
    assert.ok(!Object.hasOwn(error, "name"));
    error.name = "ConfigurationError";
    assert.equal(String(error), 'ConfigurationError: duration of over 584 years in "600y"');
});

test("is made of a fault alone, and shown with its message once", () => {
    assert.equal(new DurationError(tryParseNs("600y").fault).code, "OVERFLOW");
    for (const fault of [undefined, null, {}, "1x"]) {
        assert.throws(
            () => new DurationError(fault),
            { name: "TypeError", message: /^a DurationError is made of a fault/ },
        );
    }
    const shown = inspect(errorOf("1x 2-"));
    assert.deepEqual(
        [shown.split("text: '1x 2-'").length, shown.split("unknown unit").length],
        [2, 2],
    );
});

test("is shown without a long text where nobody catches it", () => {
    const program = `import { parse } from "duration-str"; parse("1h " + "x".repeat(20_000));`;
    const words = ["--input-type=module", "--eval", program];
    const { stderr } = spawnSync(process.execPath, words, { cwd: HERE, encoding: "utf8" });
    assert.ok(stderr.length < 2_000, `${stderr.length} characters`);
    assert.match(stderr, /^DurationError: expected a number, .*, found "x{40}"\.\.\.$/m);
    for (const field of ["text", "found"]) {
        const [shown, hidden] = [80, 81].map((length) => errorOf("x".repeat(length)));
        assert.ok(inspect(shown).includes(`${field}: '${"x".repeat(80)}'`), field);
        assert.ok(inspect(hidden).includes(`${field}: [Getter]`), field);
        for (const each of [hidden, hidden.toJSON(), structuredClone(hidden).cause]) {
            assert.equal(each[field], "x".repeat(81));
        }
    }
});

test("survives a structured clone and JSON, with all that is wrong", () => {
    const error = errorOf("2h 1.5min");
    const { fault } = tryParseNs("2h 1.5min");
    const { message, ...cause } = fault;
    assert.deepEqual([cause.help, cause.suggestion, cause.span], ["FRACTION", "90s", [3, 9]]);
    const clone = structuredClone(error);
    assert.deepEqual(
        [clone.message, clone.cause, structuredClone(fault)],
        [message, cause, { message, ...cause }],
    );
    assert.deepEqual(
        JSON.parse(JSON.stringify(error)),
        { name: "DurationError", message, ...cause, mended: "2h 90s" },
    );
    assert.deepEqual(
        JSON.parse(JSON.stringify(fault)),
        { message, ...cause, mended: "2h 90s" },
    );
});

test("is told without an error by tryParse", () => {
    assert.deepEqual(tryParseNs("1h 30m"), { ok: true, value: 5_400_000_000_000n });
    for (const text of ["", "1m 3-5", "5 mins", "+5m", "600y", "\ud800"]) {
        const { ok, fault } = tryParseNs(text);
        const error = errorOf(text);
        const { code, index, place, found, expected, help, message, report } = error;
        const { suggestion, span, mended } = error;
        assert.deepEqual(
            [ok, fault.toJSON(), fault.report],
            [
                false,
                {
                    code, text, index, place, found, expected, help, suggestion, span, mended,
                    message,
                },
                report,
            ],
        );
        assert.deepEqual(tryParse(text), { ok, fault });
    }
    assert.deepEqual(tryParse("1h 1500us"), { ok: true, value: 3_600_001.5 });
    for (const call of [tryParseNs, tryParse]) assert.throws(() => call(1), TypeError);
});

test("tells what is wrong in 10 MB", () => {
    const blanks = " ".repeat(10_000_000);
    const error = errorOf(`1µs${blanks}😀x`);
    assert.deepEqual([error.index, error.place, error.found], [10_000_003, 10_000_004, "😀"]);
    assert.equal(
        error.message,
        `expected a number, '+', '*' or the end at column 10000004, found "😀x"`,
    );
    assert.equal(error.report, error.message);
    assert.equal(parseNs("1s"), 1_000_000_000n);
});
