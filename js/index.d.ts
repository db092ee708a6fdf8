/**
 * Reads durations as people write them, such as `3m + 13s + 29ms`, and prints them, such as
 * `3min 13s 29ms`. An error says what is wrong. For wrong syntax it also says where.
 *
 * A text is one term or several. A term is a number and a unit, such as `3m` or `29 ms`. Terms are
 * joined by `+` or by `*`. If the operator is left out, as in `3m 13s`, the terms are added. A text
 * is a sum or a product, and can't mix both. A product multiplies its terms in seconds: `1m*10ms`
 * is 600 ms. Each of its steps is rounded down to nanoseconds. A number without a unit counts
 * seconds, unless another default unit is named or units are required. Such a number must be last
 * or before an operator. Blanks (space, tab, carriage return, line feed) may be anywhere except
 * inside a number or a unit. Each number must be below 2^64. Each term, each step of the evaluation
 * and the value must be below 2^64 nanoseconds, which is some 584 years.
 *
 * `docs/PROMISES.md` in the repository says what is proved, what is tested, and what you trust.
 */

/**
 * Options for reading. If you give none, all are off, and a number without a unit counts seconds.
 * The options must be a plain object, and only the object's own properties count. An unknown option
 * is a `TypeError`. `requireUnit: true` and `defaultUnit` can't stand together. Beside a
 * `defaultUnit` other than the second, `noCalc` can't be `false`. An option that is `undefined` is
 * the same as one that is left out.
 */
export type Options = RequiringOptions | CountingOptions | SecondsOptions;

interface Switches {
    /** `+` and `*` are not read, and the terms are added one by one. */
    noCalc?: boolean | undefined;
    /** ASCII capitals are not read as small letters, so `1M` is not a minute. */
    lowercase?: boolean | undefined;
    /** The Chinese names of the units are read too. */
    cnUnit?: boolean | undefined;
    /** More names of units are read, such as `mins`, `hrs` and `yr`. */
    moreNames?: boolean | undefined;
}

/** Options that name no default unit. They can require units. */
interface RequiringOptions extends Switches {
    /** A number without a unit is refused, such as in `90` and `1h 30`. */
    requireUnit?: boolean | undefined;
    defaultUnit?: undefined;
}

/** Options that can name the default unit. They don't require units. */
interface CountingOptions extends Switches {
    /**
     * A number without a unit counts this unit; with any unit except seconds, `+` and `*` are not
     * read.
     *
     * With `ms`, `1500` is 1.5 seconds, and so is `1s 500`. docs/GRAMMAR.md in the repository says
     * why `+` and `*` are not read then. If you name a default unit, even seconds, a whole number
     * below 2^53 and a bigint are read as their digits would be.
     */
    defaultUnit?: Unit | undefined;
    requireUnit?: false | undefined;
    noCalc?: true | undefined;
}

/** Options that name seconds as the default unit. `noCalc` can be `false` here. */
interface SecondsOptions extends Switches {
    defaultUnit: "s" | "sec" | "second" | "seconds";
    requireUnit?: false | undefined;
}

/** Options that name the default unit, so that numbers can be read too. */
export type NumberOptions = CountingOptions & { defaultUnit: Unit } | SecondsOptions;

/**
 * The names of the units, with a line for each unit, the longest first. If all options are off, a
 * text may have these names, also in ASCII capitals. Code without type checks may use capitals too.
 */
// Made by tools/facts --write.
export type Unit =
    | "y" | "year" | "years"
    | "q" | "quarter" | "quarters"
    | "mon" | "month" | "months"
    | "w" | "week" | "weeks"
    | "d" | "day" | "days"
    | "h" | "hr" | "hour" | "hours"
    | "m" | "min" | "minute" | "minutes"
    | "s" | "sec" | "second" | "seconds"
    | "ms" | "msec" | "millisecond" | "milliseconds"
    | "µs" | "µsec" | "µsecond" | "us" | "usec" | "usecond" | "microsecond" | "microseconds"
    | "ns" | "nsec" | "nanosecond" | "nanoseconds";

/** The names of the units as the short style prints them, the longest unit first. */
// Made by tools/facts --write.
export type PrintedUnit = "y" | "q" | "mon" | "w" | "d" | "h" | "min" | "s" | "ms" | "µs" | "ns";

/** Which units are counted, how many parts, and how the duration is rounded. A format must be a
 * plain object, and only the object's own properties count. */
interface Counted<Name extends Unit> {
    /**
     * Only these units, in any order. A unit that is named twice counts once. With `["y", "d"]`,
     * 400 days are `1y 35d`. If you also give `largest` or `smallest`, only the units that all
     * these options allow are left.
     */
    units?: readonly Name[] | undefined;
    /** The greatest number of parts. `Infinity` means all parts. */
    parts?: number | undefined;
    /** The largest unit. With `d`, 120 days are `120d`. */
    largest?: Name | undefined;
    /** The smallest unit. With `min`, 90 seconds are `1min`. */
    smallest?: Name | undefined;
    /**
     * How a duration is first rounded: `down`, to the `nearest`, or `up`. The rounded duration is
     * one whose text leaves nothing out. Of two that are as near, `nearest` takes the longer one.
     * With `min` as the smallest unit, 90 seconds are `1min`, and rounded to the nearest they are
     * `2min`.
     */
    rounding?: "down" | "nearest" | "up" | undefined;
}

/**
 * How much of a duration is printed, and how. By default all of it is printed, from `y` to `ns`.
 *
 * The text has as many of the largest chosen unit as fit into the duration, then as many of the
 * next one as fit into the rest, and so on. Counts of 0 are left out. A count with its unit is a
 * part. After the greatest number of parts, the rest is left out. If there are no parts, the text
 * is a zero of the smallest chosen unit, such as `0 hours` or `0h`, or of seconds if that unit is
 * shorter than a second.
 */
export interface Format extends Counted<Unit> {
    /**
     * `short`, the default, is `1h 30min`; `compact` is `1h30min`; `long` is `1 hour 30 minutes`.
     */
    style?: "short" | "compact" | "long" | undefined;
}

interface Unstyled {
    /** Only a text has a style. */
    style?: undefined;
}

/** A part of a duration, such as `{ count: 3n, unit: "min" }`. */
export interface Part {
    count: bigint;
    unit: PrintedUnit;
}

/** A duration as counts of units. */
export interface Breakdown {
    /** The parts whose counts are not 0, the largest unit first. */
    parts: Part[];
    /** The nanoseconds that no part has. */
    restNs: bigint;
}

/**
 * How much of a duration the function `parts` counts. By default it counts all of the duration,
 * from days to nanoseconds. Longer units are counted only if you give `units` or `largest`.
 */
export type PartFormat = Counted<Exclude<Unit, "q" | "quarter" | "quarters">> & Unstyled;

/**
 * The counts of a duration, by the names of their units. A count of 0 is there only if all counts
 * are 0. `Intl.DurationFormat` and `Temporal.Duration.from` take objects with these names.
 */
export type Parts = Partial<Record<PartName, number>>;
type PartName =
    | "years" | "months" | "weeks" | "days" | "hours" | "minutes"
    | "seconds" | "milliseconds" | "microseconds" | "nanoseconds";

/** What could stand at the place of a syntax fault. */
export interface Expected {
    readonly number: boolean;
    readonly unit: boolean;
    /** `+` or `*` */
    readonly operator: boolean;
    /** The end of the text */
    readonly end: boolean;
}

/** What a user may have meant by a refused text, or should write instead. Later versions may have
 * more of these codes. */
// Made by tools/facts --write.
export type Help =
    // The word at the place is no unit, but is near one, such as `mins` is near `min`.
    | "DID_YOU_MEAN"
    // The word at the place is no unit, and is near none.
    | "UNITS"
    // A number has a fraction, such as in `1.5s`.
    | "FRACTION"
    // A number has other characters than digits, such as in `1,000s` and `1e3s`.
    | "DIGITS_ONLY"
    // A number is followed by a colon and another number, as in a clock time.
    | "CLOCK_TIME"
    // The text begins with a minus sign, as a negative number does.
    | "NEGATIVE"
    // The text begins with a plus sign.
    | "LEADING_PLUS"
    // The text begins as a duration of ISO 8601 does, such as `PT5M`.
    | "ISO_8601"
    // After a unit comes a comma, `&` or `and`, such as in `1h, 30m`.
    | "ONE_DURATION"
    // After a unit comes a point, such as in `5 min.`.
    | "NO_POINT"
    // A bracket is at the place, such as in `(1h + 30m) * 2`.
    | "BRACKETS"
    // A slash is at the place, such as in `1h / 2`.
    | "DIVISION"
    // The text begins with a quotation mark.
    | "QUOTATION_MARKS"
    // A number lacks its unit, which is required.
    | "MISSING_UNIT"
    // A zero lacks its unit, which is required.
    | "ZERO"
    // A number without a unit is too large in the default unit.
    | "LARGE_NUMBER";

interface Refused {
    /** The whole text. */
    readonly text: string;
    /** For a fault that is not a syntax fault, all fields are false. */
    readonly expected: Expected;
    /** What the user may have meant, or should write instead. It is null if no help applies. */
    readonly help: Help | null;
    /**
     * What to write in place of the part of the text that is wrong, such as `90min` for `1.5h`. It
     * is the empty text if that part is to be removed, such as the sign of `+5m`. It is null if it
     * isn't certain what to write.
     */
    readonly suggestion: string | null;
    /**
     * Where that part begins and ends, in UTF-16 units: `text.slice(...span)`. It is null if
     * `suggestion` is null.
     */
    readonly span: readonly [number, number] | null;
}

/** The token at the place can't follow the text before it, or the text ends too early. */
export interface SyntaxFault extends Refused {
    readonly code: "SYNTAX";
    /**
     * Where the fault is, in UTF-16 units: `text.slice(index)` begins with `found`, if `found` is
     * not null.
     */
    readonly index: number;
    /** The same place, in bytes of UTF-8. */
    readonly place: number;
    /** The token at the place, or null at the end of the text. */
    readonly found: string | null;
}

/**
 * A number is 2^64 or more, or a term, a step of the evaluation or the value is 2^64 nanoseconds or
 * more. In the first term the fault has the place 0. In a later term, and in a step, it has no
 * place.
 */
export interface SizeFault extends Refused {
    readonly code: "NUMBER_TOO_LARGE" | "OVERFLOW";
    readonly index: 0 | null;
    readonly place: 0 | null;
    readonly found: null;
}

/** The text has a lone surrogate at `index`, so it can't be written in UTF-8. */
export interface TextFault extends Refused {
    readonly code: "NOT_TEXT";
    readonly index: number;
    readonly place: null;
    readonly found: null;
}

/** The text is empty, or mixes a sum and a product. */
export interface OtherFault extends Refused {
    readonly code: "EMPTY" | "MIXED";
    readonly index: null;
    readonly place: null;
    readonly found: null;
}

/**
 * Why a text is refused. Look at `code` to distinguish the cases: only `SYNTAX` always has a
 * `place`.
 */
export type Refusal = SyntaxFault | SizeFault | TextFault | OtherFault;

interface Told {
    /**
     * The text with the suggestion for each of its faults, such as `2h 90s` for `2hrs 1.5min`. It
     * is read under the same options. It is null if it isn't certain for each fault what to write,
     * or if the text needs more than 32 suggestions. It is computed when you ask for it.
     */
    readonly mended: string | null;
    /**
     * One line that says what is wrong, for `SYNTAX` also where, and often what to write. The line
     * has no control characters.
     */
    readonly message: string;
    /**
     * The message without ` at column 3` or the like, for programs that say the place themselves:
     * `unknown unit "mins" (did you mean "min"?)` for `5 mins`. For other codes than `SYNTAX` it is
     * the message.
     */
    readonly reason: string;
    /**
     * The report for a terminal. For `SYNTAX` it is the text, a caret below the place, and the
     * message. For other codes, and for some texts, it is the message alone (docs/GRAMMAR.md in the
     * repository says for which).
     */
    readonly report: string;
}

/**
 * Why a text is refused, with the message. As a string it is the message. `toJSON` returns all
 * fields except the reason and the report.
 */
export type Fault = Refusal & Told & {
    toJSON(): Refusal & { message: string; mended: string | null };
};

/**
 * The error for a refused text. In Node 20 a structured clone keeps the message and the `cause`.
 * `toJSON` returns the name and all fields except the reason and the report. In Node `import` and
 * `require` give the same class, and `duration-str/plain` has another class.
 *
 * ```js
 * try {
 *     parse("3h 2 hurs");
 * } catch (error) {
 *     if (!(error instanceof DurationError)) throw error;
 *     if (error.code === "SYNTAX") console.log(error.index, error.found); // 5 hurs
 * }
 * ```
 */
export type DurationError = Error & Refusal & Told & {
    readonly cause: Refusal;
    toJSON(): Refusal & { name: string; message: string; mended: string | null };
};
export declare const DurationError: abstract new (...nobody: never) => DurationError;

/** The value of a text, or what is wrong with it. */
export type Result<Value = number> =
    | { readonly ok: true; readonly value: Value; readonly fault?: undefined }
    | { readonly ok: false; readonly value?: undefined; readonly fault: Fault };

/** The version of the library, such as `0.19.0`. A package that is made of a commit between two
 * releases has a version of its own. */
export declare const version: string;

/**
 * Returns the value of a text in milliseconds: `parse("1m 30s")` is `90000`, and `parse("1500us")`
 * is `1.5`.
 *
 * The value is the number that is nearest to the exact value. Below 2^33 ms (99 days) `format`
 * prints every nanosecond of it. From there on the last nanoseconds may differ. To read an array,
 * write `texts.map((text) => parse(text))`, since `map` also passes the index.
 *
 * ```js
 * setTimeout(retry, parse("1m 30s")); // setTimeout takes at most 24.8 days
 * ```
 *
 * With `defaultUnit` it also reads a whole number below 2^53 or a bigint, as its digits would be:
 * `parse(1500, { defaultUnit: "ms" })` is `1500`, and `parse(2, { defaultUnit: "h" })` is
 * `7200000`. A number with a fraction is refused as its text would be.
 *
 * @throws DurationError if the text or the number is refused
 * @throws TypeError if the options are not a plain object, if one of them is unknown or has the
 * wrong type, or if `text` is not a string. With a `defaultUnit` it can also be a number or a
 * bigint.
 * @throws RangeError if `defaultUnit` is not a name that is read without options, stands beside
 * `requireUnit: true`, or is not the second while `noCalc` is `false`. With a `defaultUnit`, it is
 * also thrown for NaN, and for a number of 2^53 or more, which can have lost digits.
 * @throws Error if WebAssembly is missing or refused. Other functions can throw it too. The message
 * says what to do, and the `cause` is the engine's error. The next call tries again. The functions
 * of `duration-str/plain` don't need WebAssembly.
 */
export function parse(text: string, options?: Options): number;
export function parse(value: string | number | bigint, options: NumberOptions): number;

/**
 * Returns an object with the value that `parse` returns, or with what is wrong with the text. For a
 * refused text it makes no error and no stack.
 *
 * @throws TypeError, RangeError as `parse` does
 */
export function tryParse(text: string, options?: Options): Result;
export function tryParse(value: string | number | bigint, options: NumberOptions): Result;

/**
 * Returns the exact value of a text in nanoseconds: `parseNs("3m + 13s + 29ms")` is
 * `193029000000n`.
 *
 * @throws DurationError, TypeError, RangeError as `parse` does
 */
export function parseNs(text: string, options?: Options): bigint;
export function parseNs(value: string | number | bigint, options: NumberOptions): bigint;

/**
 * Returns an object as `tryParse` does, with the value that `parseNs` returns.
 *
 * @throws TypeError, RangeError as `tryParse` does
 */
export function tryParseNs(text: string, options?: Options): Result<bigint>;
export function tryParseNs(
    value: string | number | bigint, options: NumberOptions,
): Result<bigint>;

/**
 * Returns a regular expression for JSON Schema, HTML's `pattern` and other validators that check a
 * text before your program reads it. It matches exactly the texts that the grammar allows under
 * these options. `parse` reads such a text, unless a number, a term, a step or the value is too
 * large, or a sum and a product are mixed.
 *
 * It needs no flags, begins with `^` and ends with `$`. `docs/GRAMMAR.md` in the repository says in
 * which languages you can use it.
 *
 * ```js
 * const strict = new RegExp(pattern({ requireUnit: true }));
 * console.log(strict.test("1h 30m"), strict.test("90")); // true false
 * ```
 *
 * @throws TypeError, RangeError for options for which `parse` throws it
 */
export function pattern(options?: Options): string;

/**
 * Prints a duration of this many milliseconds, and returns the text: `format(5_400_000)` is
 * `1h 30min`, and with `{ parts: 1 }` it is `1h`.
 *
 * A number with a fraction, such as a difference of `performance.now()`, is rounded to the nearest
 * nanosecond: `format(1.005)` is `1ms 5µs`. Half a nanosecond is rounded up. So may be a fraction
 * that is less than 1e-10 ns below a half.
 *
 * @throws RangeError if the number is negative, 2^64 nanoseconds or more, NaN or infinite. It is
 * also thrown if the name of a unit, a rounding or a style is unknown, if `parts` is neither a
 * whole number from 1 on nor `Infinity`, if the largest unit is shorter than the smallest, or if
 * `units` is empty or has no unit from the largest to the smallest.
 * @throws TypeError if the duration is not a number, if the format is not a plain object, or if an
 * option is unknown or has the wrong type
 */
export function format(milliseconds: number, format?: Format): string;

/**
 * Prints a duration of this many nanoseconds, and returns the text: `formatNs(5_400_000_000_000n)`
 * is `1h 30min`.
 *
 * @throws RangeError if the number is negative, or 2^64 or more, or for an option for which
 * `format` throws it
 * @throws TypeError if the number is not a bigint, or for an option for which `format` throws it
 */
export function formatNs(nanoseconds: bigint, format?: Format): string;

/**
 * Breaks a duration down into counts of units. The duration is a number of milliseconds or a bigint
 * of nanoseconds.
 *
 * The parts are those that the printed text has, so a duration of 0 has none. The counts, each
 * times the length of its unit, and the rest are together the duration.
 *
 * If you name a `rounding`, the parts are those of the rounded duration, and the rest is 0. A
 * number with a fraction is rounded to nanoseconds first, as by `format`.
 *
 * ```js
 * const { parts, restNs } = breakdown(193_029, { parts: 2 });
 * console.log(parts); // [ { count: 3n, unit: "min" }, { count: 13n, unit: "s" } ]
 * console.log(restNs); // 29000000n
 * ```
 *
 * @throws RangeError for a duration or an option for which `format` or `formatNs` throws it
 * @throws TypeError if the duration is neither a number nor a bigint, for an option for which
 * `format` throws it, or if a style is given
 */
export function breakdown(
    duration: number | bigint, format?: Counted<Unit> & Unstyled,
): Breakdown;

/**
 * Returns the parts of a duration as numbers: `parts(5_400_000)` is `{ hours: 1, minutes: 30 }`.
 * The duration is a number of milliseconds or a bigint of nanoseconds. Quarters are not counted.
 * If all counts are 0, the parts are `{ seconds: 0 }`, or 0 of the smallest unit if that unit is
 * longer than a second.
 *
 * ```js
 * new Intl.DurationFormat("en").format(parts(parse("1h 30m"))); // 1 hr, 30 min
 * ```
 *
 * @throws RangeError if a count is 2^53 or more, if the quarter is named, or if `smallest` is
 * longer than a day and you give neither `largest` nor `units`. It is also thrown for a duration or
 * an option for which `format` or `formatNs` throws it.
 * @throws TypeError if the duration is neither a number nor a bigint, for an option for which
 * `format` throws it, or if a style is given
 */
export function parts(duration: number | bigint, format?: PartFormat): Parts;
