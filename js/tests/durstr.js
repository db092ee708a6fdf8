// `node durstr.js [OPTION..]` answers each line of the standard input. It writes the nanoseconds
// and the printed duration, or why the line is refused, the reason, and the help's number, with
// tabs between them, and then where the part to replace begins and ends, in characters, the
// suggestion, and the mended text. Options are named as in vectors.json, such as `no_calc` or
// `default_unit=ms`. The status is 0 if all lines are read, and otherwise 1.
//
// `node durstr.js rounded` prints durations that are rounded down, to the nearest and up. Each line
// has the nanoseconds, the number of a set of units, and the greatest number of parts.
import { readFileSync, writeFileSync } from "node:fs";

import { formatNs, tryParseNs } from "duration-str";
import { HELPS, ROUNDINGS, UNITS } from "../src/lists.js";
import { optionsOf } from "./vectors.js";

const isRounded = process.argv[2] === "rounded";
const options = isRounded ? undefined : optionsOf(process.argv.slice(2));
const strict = new TextDecoder("utf-8", { fatal: true, ignoreBOM: true });

function answer(line) {
    let text;
    try {
        text = strict.decode(line);
    } catch {
        return ["not UTF-8", false];
    }
    const { ok, value, fault } = tryParseNs(text, options);
    return ok ? [`${value} ${formatNs(value)}`, true] : [lineAndHelp(fault), false];
}

function lineAndHelp({ text, message, reason, help, suggestion, span, mended }) {
    if (help === null) return `${message}\t${reason}`;
    const told = [`${message}\t${reason}\t${HELPS.indexOf(help) + 1}`];
    if (span) {
        const [start, end] = span.map((index) => [...text.slice(0, index)].length);
        told.push(`${start}-${end}`, `<${suggestion}>`);
    }
    if (mended !== null) told.push(mended);
    return told.join(" ");
}

function rounded(line) {
    const [nanos, bits, parts] = line.split(" ");
    const units = UNITS.filter((_, place) => bits >> place & 1);
    const texts = ROUNDINGS.map((rounding) =>
        formatNs(BigInt(nanos), { units, parts: Number(parts), rounding }));
    return [texts.join(", "), true];
}

// The last line may lack its line feed.
const lines = readFileSync(0, "latin1").split("\n");
if (lines.at(-1) === "") lines.pop();
const answers = lines.map(
    (line) => isRounded ? rounded(line) : answer(Buffer.from(line, "latin1")),
);
writeFileSync(1, answers.map(([output]) => `${output}\n`).join(""));
process.exitCode = answers.every(([, read]) => read) ? 0 : 1;
