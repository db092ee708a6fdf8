// `node duration.mjs EXPRESSION` prints the expression's value in nanoseconds, that value as a
// printed duration, and the moment that much after 2000-01-01T00:00:00Z, in seconds since 1970. Or
// it prints what is wrong with the expression.
import { DurationError, formatNs, parseNs } from "duration-str";

const START = 946_684_800n * 1_000_000_000n;

try {
    const nanos = parseNs(process.argv[2] ?? "");
    const moment = START + nanos;
    const rest = String(moment % 1_000_000_000n).padStart(9, "0");
    console.log(`${nanos} ${formatNs(nanos)} ${moment / 1_000_000_000n}.${rest}`);
} catch (error) {
    if (!(error instanceof DurationError)) throw error;
    console.log(error.message);
    process.exitCode = 1;
}
