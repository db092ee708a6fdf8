import { formatNs, parseNs } from "../js/dist/duration-str.js";

/** A text with more UTF-16 units than this has no mark, no notes and no offers, and is not in the
 * link. */
export const LONG = 2_000;

// Each row has a unit's names, of which the last two are the singular and the plural, then those
// that `more_names` adds, and those that `cn_unit` adds. The rows are made by tools/facts
// --write.
const ROWS = [
    ["y year years", "yr yrs", "年"],
    ["q quarter quarters", "qtr qtrs", ""],
    ["mon month months", "mons mth mths", "月"],
    ["w week weeks", "wk wks", "周"],
    ["d day days", "", "日 天"],
    ["h hr hour hours", "hrs", "时"],
    ["m min minute minutes", "mins", "分"],
    ["s sec second seconds", "secs", "秒"],
    ["ms msec millisecond milliseconds", "msecs milli millis", "毫秒"],
    ["µs µsec µsecond us usec usecond microsecond microseconds",
     "µsecs µseconds usecs useconds micro micros", "微秒"],
    ["ns nsec nanosecond nanoseconds", "nsecs nano nanos", "纳秒"],
];

/** All units, the longest first. `length` is in words, such as `30 days`. */
export const UNITS = ROWS.map((row) => {
    const [names, more, chinese] = row.map((words) => words.split(" ").filter(Boolean));
    const nanos = parseNs(`1${names[0]}`);
    const length = formatNs(nanos, { largest: "d", style: "long" });
    return { names, more, chinese, printed: formatNs(nanos).slice(1), length };
});

/** The unit that has this name under some options, or undefined if there is none. */
export function unitOf(word) {
    const name = word.toLowerCase();
    return UNITS.find(({ names, more, chinese }) => [...names, ...more, ...chinese].includes(name));
}
