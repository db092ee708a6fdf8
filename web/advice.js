// What the page says about a text beside the library's answer, and the texts that it offers. It
// offers a text only if the library reads it.
import { breakdown, formatNs, tryParseNs } from "../js/dist/duration-str.js";
import { quoted } from "./elements.js";
import { UNITS, unitOf } from "./units.js";

/** How many of the next smaller unit a unit has, and the smaller unit's name. People leave the
 * smaller unit out at the end, as in `1h 30`. */
const LEFT_OUT = { d: [24n, "h"], h: [60n, "m"], min: [60n, "s"] };
const END = /(?<unit>\p{L}+)(?<between>(?:\.(?=\s))?\s*\+?\s*)(?<number>[0-9]+)\s*$/u;

/** Adds the unit that is left out at the end, if it is certain which one it is. */
function complete(text) {
    const { unit, between, number } = END.exec(text)?.groups ?? {};
    const [limit, name] = LEFT_OUT[unitOf(unit ?? "")?.printed] ?? [0n];
    if (!limit || BigInt(number) >= limit) return text;
    return text.replace(END, `${unit}${between || " "}${number}${name}`);
}

/** The options, and then those with changes by which more texts are read. Of two that both read a
 * text, the one with fewer changes comes first. */
function optionsToTry(options) {
    const changes = { lowercase: false, cnUnit: true };
    // With another default unit, the library takes no `noCalc: false`.
    if (["s", undefined].includes(options.defaultUnit)) changes.noCalc = false;
    const tried = [options];
    for (const [name, value] of Object.entries(changes)) {
        tried.push(...tried.map((each) => ({ ...each, [name]: value })));
    }
    return tried;
}

/** Returns a text with its options and its value, or undefined. `value` is that of the text that
 * was typed, if it is read. */
export function offerFor(text, options, value) {
    const tried = value === undefined ? optionsToTry(options) : [options];
    // What is left out is told by the unit that was typed, and the mended text of a fraction can
    // have another one: `1.5h 30` is `90min 30m`.
    const completed = complete(text);
    const read = tried.map((each) => {
        const offered = tryParseNs(completed, each).fault?.mended ?? completed;
        return { text: offered, options: each, ...tryParseNs(offered, each) };
    });
    const offer = read.find((each) => each.ok && each.value !== value);
    // `1.5年` is mended only with Chinese units, but its mended text needs none.
    const needed =
        offer && tried.find((each) => tryParseNs(offer.text, each).value === offer.value);
    return offer && { ...offer, options: needed };
}

const BARE = /[0-9]*[1-9][0-9]*(?=\s*(?:\+|$))/;
/** People mean months by `M`, and by `m` after years. */
const MONTH = /[0-9]\s*(?:(M)|[yY][A-Za-z]*[\s+]*[0-9]+\s*([mM]))(?![A-Za-z])/;
const LONG_UNITS = UNITS.slice(0, 3);

function inDays(value, { units, parts }) {
    const printed = breakdown(value, { units, parts }).parts.map(({ unit }) => unit);
    const long = LONG_UNITS.filter((unit) => printed.includes(unit.printed));
    const lengths = long.map(({ names, length }) => `a ${names.at(-2)} has ${length}`);
    if (lengths.length === 0) return [];
    return [["That is ", quoted(formatNs(value, { largest: "d" })), `: ${lengths.join(", ")}.`]];
}

/** Sentences about a text that is read. */
export function notesOn(text, value, { defaultUnit }, format) {
    const notes = [];
    const [bare] = text.includes("*") ? [] : BARE.exec(text) ?? [];
    if (bare) notes.push([quoted(bare), ` has no unit: ${unitOf(defaultUnit).names.at(-1)}.`]);
    const [month] = (MONTH.exec(text) ?? []).slice(1).filter(Boolean);
    if (month) notes.push([quoted(month), " is minutes; months are ", quoted("mon"), "."]);
    return [...notes, ...inDays(value, format)];
}
