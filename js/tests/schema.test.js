// Tests the patterns with JavaScript's engine. tests/patterns compares them with the grammar.
import assert from "node:assert/strict";
import { readFileSync } from "node:fs";
import test from "node:test";

import { pattern, tryParse } from "duration-str";
import { CHOICES, optionsOf, VECTORS } from "./vectors.js";

const FILE = new URL("../../docs/duration.schema.json", import.meta.url);
const { $defs: SCHEMAS } = JSON.parse(readFileSync(FILE, "utf8"));
const OPTIONS = {
    duration: {},
    duration_no_calc: { noCalc: true },
    duration_require_unit: { requireUnit: true },
    duration_no_calc_require_unit: { noCalc: true, requireUnit: true },
};
const ASCII = Array.from({ length: 128 }, (_, code) => String.fromCharCode(code));
const STRANGE = [...ASCII, ..."\x85\xa0\u2028\ufeff٣０μſ\u212a", "\ud800", "\u{1f600}"];

/** HTML compiles a `pattern` with the flag `v` and these anchors. */
function* expressions(source) {
    yield new RegExp(source);
    yield new RegExp(source, "u");
    if (Object.hasOwn(RegExp.prototype, "unicodeSets")) yield new RegExp(`^(?:${source})$`, "v");
}

/** With zeros for all digits, no number, term or step is too large. */
function isSentence(text, options) {
    const { ok, fault } = tryParse(text.replace(/[0-9]/g, "0"), options);
    return ok || fault.code === "MIXED";
}

function* texts() {
    for (const { rows } of VECTORS.values) for (const [, , row] of rows) yield* row;
    for (const [text] of VECTORS.refused) yield text;
    for (const text of ["1h 30m", "1m + 2s", "2 * 1h", "90", "1分"]) {
        for (let place = 0; place <= text.length; place++) {
            for (const character of STRANGE) {
                yield text.slice(0, place) + character + text.slice(place);
            }
        }
    }
}

const OTHERS = [[], ["require_unit"], ["more_names"], ["more_names", "require_unit"]];

for (const names of CHOICES.flatMap((each) => OTHERS.map((others) => [...each, ...others]))) {
    const options = optionsOf(names);
    test(`the pattern with ${names.join(" ") || "no option"} matches the sentences`, () => {
        for (const expression of expressions(pattern(options))) {
            for (const text of texts()) {
                const quoted = JSON.stringify(text);
                assert.equal(expression.test(text), isSentence(text, options), quoted);
            }
            assert.equal(expression.test(`${"1ms ".repeat(10_000)}!`), false);
        }
    });
}

test("the schema has the patterns of these options", () => {
    assert.deepEqual(Object.keys(SCHEMAS), Object.keys(OPTIONS));
    for (const [name, options] of Object.entries(OPTIONS)) {
        assert.equal(pattern(options), SCHEMAS[name].pattern);
    }
});

test("the pattern with another default unit is the one without operators", () => {
    for (const defaultUnit of ["ms", "minutes", "days", "MIN", "y"]) {
        assert.equal(pattern({ defaultUnit }), pattern({ noCalc: true }));
        assert.equal(
            pattern({ defaultUnit, lowercase: true, cnUnit: true }),
            pattern({ noCalc: true, lowercase: true, cnUnit: true }),
        );
    }
    assert.equal(pattern({ defaultUnit: "seconds" }), pattern());
});

test("wrong options throw", () => {
    const plain = "the options must be a plain object, not string";
    assert.throws(() => pattern("1h"), { name: "TypeError", message: plain });
    assert.throws(() => pattern({ other: true }), TypeError);
    assert.throws(() => pattern({ lowercase: 1 }), TypeError);
    for (const options of [
        { defaultUnit: "ms", noCalc: false }, { defaultUnit: "ms", requireUnit: true },
        { defaultUnit: "mins" },
    ]) {
        assert.throws(() => pattern(options), RangeError);
    }
});
