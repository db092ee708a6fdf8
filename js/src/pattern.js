import { SENTENCES, UNIT_PATTERNS } from "./lists.js";
import { bitsOf, checkPlain, listedUnit } from "./options.js";

export function pattern(options) {
    let bits = 0;
    if (options !== undefined) {
        // The error of `bitsOf` would say how to read an array.
        checkPlain(options);
        bits = bitsOf(options, listedUnit);
    }
    const unit = UNIT_PATTERNS[bits >> 1 & 3 | bits >> 2 & 4];
    return SENTENCES[bits & 1 | bits >> 2 & 2].replaceAll("U", unit);
}
