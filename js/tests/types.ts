// Tests the types of the package by the compiler alone.
import {
    type Breakdown, breakdown, DurationError, type Expected, type Fault, formatNs, format,
    type Format, type Help, type Options, parseNs, parse, type Part, type PartFormat, type Parts,
    parts, pattern, type PrintedUnit, type Refusal, tryParseNs, tryParse,
    type Unit, version,
} from "duration-str";

const options: Options = { noCalc: true, lowercase: false, cnUnit: undefined, requireUnit: true };
const inMilliseconds: Options = { defaultUnit: "ms" };
const nanoseconds: bigint = parseNs("2h 37m", options);
const configured: number | string = 1500;
const withoutFactors: Options[] = [
    { defaultUnit: "ms", noCalc: true }, { defaultUnit: "ms", noCalc: undefined },
];
const inSeconds: Options[] = [
    { defaultUnit: "s", noCalc: false }, { defaultUnit: undefined, noCalc: false },
    { requireUnit: true, noCalc: false },
];
const timeouts: (number | bigint | undefined)[] = [
    parse(1500, { defaultUnit: "ms" }), parse(1500n, { defaultUnit: "s", noCalc: true }),
    parseNs(configured, { defaultUnit: "ms", requireUnit: false }),
    tryParse(1500, { defaultUnit: "ms" }).value, tryParseNs(1500, { defaultUnit: "ms" }).value,
    parse("5 mins", { moreNames: true }), parse(1500, { moreNames: true, defaultUnit: "ms" }),
    parse(1500, { defaultUnit: "seconds", noCalc: false }),
];
void [withoutFactors, inSeconds];
function chosen(unit: Unit | undefined, isRequired: boolean | undefined): Options[] {
    return [{ defaultUnit: unit }, { requireUnit: isRequired }, { noCalc: isRequired }];
}
const milliseconds: number = parse("1m 30s", {});
const asked: Format = {
    parts: 2, largest: "d", smallest: "us", rounding: "nearest", style: "long",
};
const texts: string[] = [
    formatNs(nanoseconds),
    format(milliseconds),
    formatNs(1n, asked),
    format(milliseconds, { units: ["y", "days"] as const }),
    pattern(),
    pattern(options),
    pattern({ defaultUnit: "ms", cnUnit: true }),
];
const counting: PartFormat = {
    largest: "y", units: ["years", "d"], rounding: "up", style: undefined,
};
const counted: Parts = parts(nanoseconds, counting);
const hours: number = counted.hours ?? 0;
const broken: Breakdown = breakdown(nanoseconds, { largest: "days", rounding: "up" });
const rest: bigint = broken.restNs + breakdown(milliseconds, { style: undefined }).restNs;
const words: Record<PrintedUnit, string> = {
    y: "a", q: "b", mon: "c", w: "d", d: "e", h: "f", min: "g", s: "h", ms: "i", µs: "j", ns: "k",
};
const inWords = ({ count, unit }: Part): string => `${count + 1n} ${words[unit]}`;
// A printed name is a name that is read.
const units: Unit[] = broken.parts.map(({ unit }) => unit);

try {
    parseNs(texts.join(" "));
} catch (error) {
    if (!(error instanceof DurationError)) throw error;
    const cause: Refusal = error.cause;
    if (error.code === "SYNTAX") {
        const both: number[] = [error.index, error.place];
        void both;
    }
    const places: (number | null)[] = [error.index, error.place];
    const expected: Expected = error.expected;
    const any: boolean = expected.number || expected.unit || expected.operator || expected.end;
    const texts: (string | null)[] = [
        error.found, error.reason, error.report, error.text, error.message, cause.text,
        error.mended, error.toJSON().mended,
    ];
    const help: Help | null = error.help;
    const suggestion: string | null = cause.suggestion;
    if (error.mended !== null) parse(error.mended);
    if (error.span !== null) error.text.slice(...error.span);
    // @ts-expect-error: it is null if no help applies
    const always: Help = error.help;
    // @ts-expect-error: there is no such help
    if (error.help === "HOURS") throw error;
    // @ts-expect-error: it is null if nothing is certain
    const written: string = error.suggestion;
    // @ts-expect-error: without a place it is null
    const index: number = error.index;
    // @ts-expect-error: there is no such code
    if (error.code === "READ") throw error;
    // @ts-expect-error: the field is read-only
    error.report = "";
    void [places, any, texts, help, suggestion, always, written, index];
}

// @ts-expect-error: a number is read only with a default unit
parseNs(1);
// @ts-expect-error: these options name no default unit
parse(1500, { noCalc: true });
// @ts-expect-error: options of this type may lack the default unit
parse(1500, inMilliseconds);
// @ts-expect-error: a unit can't be required and left out
parse("1500", { requireUnit: true, defaultUnit: "ms" });
// @ts-expect-error: a unit can't be required and left out, even if it is the second
tryParseNs("1500", { requireUnit: true, defaultUnit: "s" });
// @ts-expect-error: a unit can't be required and left out
const contradictory: Options = { defaultUnit: "h", requireUnit: true };
// @ts-expect-error: a factor would count milliseconds too
parse("1500", { noCalc: false, defaultUnit: "ms" });
// @ts-expect-error: a factor of a number would count milliseconds too
tryParseNs(1500, { defaultUnit: "ms", noCalc: false });
// @ts-expect-error: a factor would count hours too
const withFactors: Options = { defaultUnit: "h", noCalc: false };
// @ts-expect-error: no option
parseNs("1s", { no_calc: true });
// @ts-expect-error: no boolean
parseNs("1s", { noCalc: 1 });
// @ts-expect-error: a default unit has a name that is read without options
parse("1", { moreNames: true, defaultUnit: "mins" });
// @ts-expect-error: no unit
parseNs("1", { defaultUnit: "fortnight" });
// @ts-expect-error: `map` passes an index in place of options
["1s"].map(parseNs);
// @ts-expect-error: no bigint
formatNs(milliseconds);
// @ts-expect-error: no number
format(nanoseconds);
// @ts-expect-error: no unit
formatNs(1n, { largest: "fortnights" });
// @ts-expect-error: no unit
formatNs(1n, { units: ["d", "fortnights"] });
// @ts-expect-error: no list
formatNs(1n, { units: "d" });
// @ts-expect-error: no option
format(1, { unit: "d" });
// @ts-expect-error: no style
formatNs(1n, { style: "wide" });
// @ts-expect-error: no rounding
formatNs(1n, { rounding: "half" });
// @ts-expect-error: a breakdown has no style
breakdown(1n, { style: "long" });
// @ts-expect-error: a breakdown has no style, and this format can have one
breakdown(1n, asked);
// @ts-expect-error: no unit
breakdown(1n, { units: ["fortnights"] });
// @ts-expect-error: no duration
breakdown("1h");
// @ts-expect-error: quarters are not counted
parts(1n, { largest: "q" });
// @ts-expect-error: quarters are not counted, even if they are chosen
parts(1n, { units: ["quarters"] });
// @ts-expect-error: users can't make an error
new DurationError("1x");
// @ts-expect-error: a bigint is no number
const wrong: number = parseNs("1s");

const result = tryParseNs("1s");
const read: bigint | string = result.ok ? result.value : result.fault.report;
const fault: Fault | undefined = result.fault;
const lines: string[] = [result.fault?.message ?? "", version];
const inMs: number | undefined = tryParse("1s").value;

void [inMilliseconds, timeouts, chosen, contradictory, withFactors, hours, wrong, read, fault];
void [lines, inMs, rest, inWords, units];
