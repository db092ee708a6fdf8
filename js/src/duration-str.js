// index.d.ts documents the exports.
export { pattern } from "./pattern.js";
export { breakdown, format, formatNs, parts } from "./printing.js";
export { parse, parseNs, tryParse, tryParseNs } from "./reading.js";
export { DurationError } from "./refusals.js";

export const version = VERSION;
