// The lists are made by tools/facts --write.

/// A short name of each unit, in ASCII.
pub const UNITS: [&str; 11] = ["y", "q", "mon", "w", "d", "h", "min", "s", "ms", "us", "ns"];
pub const STYLES: [&str; 3] = ["short", "compact", "long"];
/// The helps, in the order of their numbers.
pub const HELPS: [&str; 16] = [
    "DID_YOU_MEAN",
    "UNITS",
    "FRACTION",
    "DIGITS_ONLY",
    "CLOCK_TIME",
    "NEGATIVE",
    "LEADING_PLUS",
    "ISO_8601",
    "ONE_DURATION",
    "NO_POINT",
    "BRACKETS",
    "DIVISION",
    "QUOTATION_MARKS",
    "MISSING_UNIT",
    "ZERO",
    "LARGE_NUMBER",
];
/// Patterns of sentences: without options, without operators, with units required, and with both. U
/// stands for a unit.
pub const SENTENCES: [&str; 4] = [
    "^[ \\t\\n\\r]*[0-9]+[ \\t\\n\\r]*(?:U[ \\t\\n\\r]*(?:(?:[+*][ \\t\\n\\r]*)?[0-9]+[ \\t\\n\\r]*|$)|[+*][ \\t\\n\\r]*[0-9]+[ \\t\\n\\r]*)*$",
    "^[ \\t\\n\\r]*[0-9]+[ \\t\\n\\r]*(?:U[ \\t\\n\\r]*(?:[0-9]+[ \\t\\n\\r]*|$))*$",
    "^[ \\t\\n\\r]*[0-9]+[ \\t\\n\\r]*U[ \\t\\n\\r]*(?:(?:[+*][ \\t\\n\\r]*)?[0-9]+[ \\t\\n\\r]*U[ \\t\\n\\r]*)*$",
    "^[ \\t\\n\\r]*(?:[0-9]+[ \\t\\n\\r]*U[ \\t\\n\\r]*)+$",
];
/// Patterns of units: without options, with `--lowercase`, with `--cn-unit`, and with both. The
/// last four are the same with `--more-names`.
pub const UNIT_PATTERNS: [&str; 8] = [
    "(?:[Yy](?:[Ee][Aa][Rr][Ss]?)?|[Qq](?:[Uu][Aa][Rr][Tt][Ee][Rr][Ss]?)?|[Mm](?:[Oo][Nn](?:[Tt][Hh][Ss]?)?|[Ii](?:[Nn](?:[Uu][Tt][Ee][Ss]?)?|[Ll][Ll][Ii][Ss][Ee][Cc][Oo][Nn][Dd][Ss]?|[Cc][Rr][Oo][Ss][Ee][Cc][Oo][Nn][Dd][Ss]?)|[Ss](?:[Ee][Cc])?)?|[Ww](?:[Ee][Ee][Kk][Ss]?)?|[Dd](?:[Aa][Yy][Ss]?)?|[Hh](?:[Rr]|[Oo][Uu][Rr][Ss]?)?|[Ss](?:[Ee][Cc](?:[Oo][Nn][Dd][Ss]?)?)?|[µUu][Ss](?:[Ee][Cc](?:[Oo][Nn][Dd])?)?|[Nn](?:[Ss](?:[Ee][Cc])?|[Aa][Nn][Oo][Ss][Ee][Cc][Oo][Nn][Dd][Ss]?))",
    "(?:y(?:ears?)?|q(?:uarters?)?|m(?:on(?:ths?)?|i(?:n(?:utes?)?|lliseconds?|croseconds?)|s(?:ec)?)?|w(?:eeks?)?|d(?:ays?)?|h(?:r|ours?)?|s(?:ec(?:onds?)?)?|[µu]s(?:ec(?:ond)?)?|n(?:s(?:ec)?|anoseconds?))",
    "(?:[Yy](?:[Ee][Aa][Rr][Ss]?)?|[Qq](?:[Uu][Aa][Rr][Tt][Ee][Rr][Ss]?)?|[Mm](?:[Oo][Nn](?:[Tt][Hh][Ss]?)?|[Ii](?:[Nn](?:[Uu][Tt][Ee][Ss]?)?|[Ll][Ll][Ii][Ss][Ee][Cc][Oo][Nn][Dd][Ss]?|[Cc][Rr][Oo][Ss][Ee][Cc][Oo][Nn][Dd][Ss]?)|[Ss](?:[Ee][Cc])?)?|[Ww](?:[Ee][Ee][Kk][Ss]?)?|[Dd](?:[Aa][Yy][Ss]?)?|[Hh](?:[Rr]|[Oo][Uu][Rr][Ss]?)?|[Ss](?:[Ee][Cc](?:[Oo][Nn][Dd][Ss]?)?)?|[µUu][Ss](?:[Ee][Cc](?:[Oo][Nn][Dd])?)?|[Nn](?:[Ss](?:[Ee][Cc])?|[Aa][Nn][Oo][Ss][Ee][Cc][Oo][Nn][Dd][Ss]?)|[年月周日天时分秒]|[毫微纳]秒)",
    "(?:y(?:ears?)?|q(?:uarters?)?|m(?:on(?:ths?)?|i(?:n(?:utes?)?|lliseconds?|croseconds?)|s(?:ec)?)?|w(?:eeks?)?|d(?:ays?)?|h(?:r|ours?)?|s(?:ec(?:onds?)?)?|[µu]s(?:ec(?:ond)?)?|n(?:s(?:ec)?|anoseconds?)|[年月周日天时分秒]|[毫微纳]秒)",
    "(?:[Yy](?:[Ee][Aa][Rr][Ss]?|[Rr][Ss]?)?|[Qq](?:[Uu][Aa][Rr][Tt][Ee][Rr][Ss]?|[Tt][Rr][Ss]?)?|[Mm](?:[Oo][Nn](?:[Tt][Hh][Ss]?|[Ss])?|[Ii](?:[Nn](?:[Uu][Tt][Ee][Ss]?|[Ss])?|[Ll][Ll][Ii](?:[Ss](?:[Ee][Cc][Oo][Nn][Dd][Ss]?)?)?|[Cc][Rr][Oo](?:[Ss](?:[Ee][Cc][Oo][Nn][Dd][Ss]?)?)?)|[Ss](?:[Ee][Cc][Ss]?)?|[Tt][Hh][Ss]?)?|[Ww](?:[Ee][Ee][Kk][Ss]?|[Kk][Ss]?)?|[Dd](?:[Aa][Yy][Ss]?)?|[Hh](?:[Rr][Ss]?|[Oo][Uu][Rr][Ss]?)?|[Ss](?:[Ee][Cc](?:[Oo][Nn][Dd][Ss]?|[Ss])?)?|[µUu][Ss](?:[Ee][Cc](?:[Oo][Nn][Dd][Ss]?|[Ss])?)?|[Nn](?:[Ss](?:[Ee][Cc][Ss]?)?|[Aa][Nn][Oo](?:[Ss](?:[Ee][Cc][Oo][Nn][Dd][Ss]?)?)?))",
    "(?:y(?:ears?|rs?)?|q(?:uarters?|trs?)?|m(?:on(?:ths?|s)?|i(?:n(?:utes?|s)?|lli(?:s(?:econds?)?)?|cro(?:s(?:econds?)?)?)|s(?:ecs?)?|ths?)?|w(?:eeks?|ks?)?|d(?:ays?)?|h(?:rs?|ours?)?|s(?:ec(?:onds?|s)?)?|[µu]s(?:ec(?:onds?|s)?)?|n(?:s(?:ecs?)?|ano(?:s(?:econds?)?)?))",
    "(?:[Yy](?:[Ee][Aa][Rr][Ss]?|[Rr][Ss]?)?|[Qq](?:[Uu][Aa][Rr][Tt][Ee][Rr][Ss]?|[Tt][Rr][Ss]?)?|[Mm](?:[Oo][Nn](?:[Tt][Hh][Ss]?|[Ss])?|[Ii](?:[Nn](?:[Uu][Tt][Ee][Ss]?|[Ss])?|[Ll][Ll][Ii](?:[Ss](?:[Ee][Cc][Oo][Nn][Dd][Ss]?)?)?|[Cc][Rr][Oo](?:[Ss](?:[Ee][Cc][Oo][Nn][Dd][Ss]?)?)?)|[Ss](?:[Ee][Cc][Ss]?)?|[Tt][Hh][Ss]?)?|[Ww](?:[Ee][Ee][Kk][Ss]?|[Kk][Ss]?)?|[Dd](?:[Aa][Yy][Ss]?)?|[Hh](?:[Rr][Ss]?|[Oo][Uu][Rr][Ss]?)?|[Ss](?:[Ee][Cc](?:[Oo][Nn][Dd][Ss]?|[Ss])?)?|[µUu][Ss](?:[Ee][Cc](?:[Oo][Nn][Dd][Ss]?|[Ss])?)?|[Nn](?:[Ss](?:[Ee][Cc][Ss]?)?|[Aa][Nn][Oo](?:[Ss](?:[Ee][Cc][Oo][Nn][Dd][Ss]?)?)?)|[年月周日天时分秒]|[毫微纳]秒)",
    "(?:y(?:ears?|rs?)?|q(?:uarters?|trs?)?|m(?:on(?:ths?|s)?|i(?:n(?:utes?|s)?|lli(?:s(?:econds?)?)?|cro(?:s(?:econds?)?)?)|s(?:ecs?)?|ths?)?|w(?:eeks?|ks?)?|d(?:ays?)?|h(?:rs?|ours?)?|s(?:ec(?:onds?|s)?)?|[µu]s(?:ec(?:onds?|s)?)?|n(?:s(?:ecs?)?|ano(?:s(?:econds?)?)?)|[年月周日天时分秒]|[毫微纳]秒)",
];
