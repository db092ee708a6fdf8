# The lists are made by tools/facts --write.
from typing import Literal

#: A unit by one of its names
Unit = Literal["y", "year", "years", "q", "quarter", "quarters", "mon", "month", "months", "w", "week", "weeks", "d", "day", "days", "h", "hr", "hour", "hours", "m", "min", "minute", "minutes", "s", "sec", "second", "seconds", "ms", "msec", "millisecond", "milliseconds", "µs", "µsec", "µsecond", "us", "usec", "usecond", "microsecond", "microseconds", "ns", "nsec", "nanosecond", "nanoseconds"]
#: A unit by the name that is printed in the short style
PrintedUnit = Literal["y", "q", "mon", "w", "d", "h", "min", "s", "ms", "µs", "ns"]
#: How a duration is printed: `1h 30min`, `1h30min`, `1 hour 30 minutes`
Style = Literal["short", "compact", "long"]
#: How a duration is rounded to one that prints whole
Rounding = Literal["down", "nearest", "up"]
#: Patterns of sentences: without options, with `no_calc`, with `require_unit`, and with both. U
#: stands for a unit.
SENTENCES = [
    "^[ \\t\\n\\r]*[0-9]+[ \\t\\n\\r]*(?:U[ \\t\\n\\r]*(?:(?:[+*][ \\t\\n\\r]*)?[0-9]+[ \\t\\n\\r]*|$)|[+*][ \\t\\n\\r]*[0-9]+[ \\t\\n\\r]*)*$",
    "^[ \\t\\n\\r]*[0-9]+[ \\t\\n\\r]*(?:U[ \\t\\n\\r]*(?:[0-9]+[ \\t\\n\\r]*|$))*$",
    "^[ \\t\\n\\r]*[0-9]+[ \\t\\n\\r]*U[ \\t\\n\\r]*(?:(?:[+*][ \\t\\n\\r]*)?[0-9]+[ \\t\\n\\r]*U[ \\t\\n\\r]*)*$",
    "^[ \\t\\n\\r]*(?:[0-9]+[ \\t\\n\\r]*U[ \\t\\n\\r]*)+$",
]
#: Patterns of units: without options, with `lowercase`, with `cn_unit`, and with both. The last
#: four are the same with `more_names`.
UNIT_PATTERNS = [
    "(?:[Yy](?:[Ee][Aa][Rr][Ss]?)?|[Qq](?:[Uu][Aa][Rr][Tt][Ee][Rr][Ss]?)?|[Mm](?:[Oo][Nn](?:[Tt][Hh][Ss]?)?|[Ii](?:[Nn](?:[Uu][Tt][Ee][Ss]?)?|[Ll][Ll][Ii][Ss][Ee][Cc][Oo][Nn][Dd][Ss]?|[Cc][Rr][Oo][Ss][Ee][Cc][Oo][Nn][Dd][Ss]?)|[Ss](?:[Ee][Cc])?)?|[Ww](?:[Ee][Ee][Kk][Ss]?)?|[Dd](?:[Aa][Yy][Ss]?)?|[Hh](?:[Rr]|[Oo][Uu][Rr][Ss]?)?|[Ss](?:[Ee][Cc](?:[Oo][Nn][Dd][Ss]?)?)?|[µUu][Ss](?:[Ee][Cc](?:[Oo][Nn][Dd])?)?|[Nn](?:[Ss](?:[Ee][Cc])?|[Aa][Nn][Oo][Ss][Ee][Cc][Oo][Nn][Dd][Ss]?))",
    "(?:y(?:ears?)?|q(?:uarters?)?|m(?:on(?:ths?)?|i(?:n(?:utes?)?|lliseconds?|croseconds?)|s(?:ec)?)?|w(?:eeks?)?|d(?:ays?)?|h(?:r|ours?)?|s(?:ec(?:onds?)?)?|[µu]s(?:ec(?:ond)?)?|n(?:s(?:ec)?|anoseconds?))",
    "(?:[Yy](?:[Ee][Aa][Rr][Ss]?)?|[Qq](?:[Uu][Aa][Rr][Tt][Ee][Rr][Ss]?)?|[Mm](?:[Oo][Nn](?:[Tt][Hh][Ss]?)?|[Ii](?:[Nn](?:[Uu][Tt][Ee][Ss]?)?|[Ll][Ll][Ii][Ss][Ee][Cc][Oo][Nn][Dd][Ss]?|[Cc][Rr][Oo][Ss][Ee][Cc][Oo][Nn][Dd][Ss]?)|[Ss](?:[Ee][Cc])?)?|[Ww](?:[Ee][Ee][Kk][Ss]?)?|[Dd](?:[Aa][Yy][Ss]?)?|[Hh](?:[Rr]|[Oo][Uu][Rr][Ss]?)?|[Ss](?:[Ee][Cc](?:[Oo][Nn][Dd][Ss]?)?)?|[µUu][Ss](?:[Ee][Cc](?:[Oo][Nn][Dd])?)?|[Nn](?:[Ss](?:[Ee][Cc])?|[Aa][Nn][Oo][Ss][Ee][Cc][Oo][Nn][Dd][Ss]?)|[年月周日天时分秒]|[毫微纳]秒)",
    "(?:y(?:ears?)?|q(?:uarters?)?|m(?:on(?:ths?)?|i(?:n(?:utes?)?|lliseconds?|croseconds?)|s(?:ec)?)?|w(?:eeks?)?|d(?:ays?)?|h(?:r|ours?)?|s(?:ec(?:onds?)?)?|[µu]s(?:ec(?:ond)?)?|n(?:s(?:ec)?|anoseconds?)|[年月周日天时分秒]|[毫微纳]秒)",
    "(?:[Yy](?:[Ee][Aa][Rr][Ss]?|[Rr][Ss]?)?|[Qq](?:[Uu][Aa][Rr][Tt][Ee][Rr][Ss]?|[Tt][Rr][Ss]?)?|[Mm](?:[Oo][Nn](?:[Tt][Hh][Ss]?|[Ss])?|[Ii](?:[Nn](?:[Uu][Tt][Ee][Ss]?|[Ss])?|[Ll][Ll][Ii](?:[Ss](?:[Ee][Cc][Oo][Nn][Dd][Ss]?)?)?|[Cc][Rr][Oo](?:[Ss](?:[Ee][Cc][Oo][Nn][Dd][Ss]?)?)?)|[Ss](?:[Ee][Cc][Ss]?)?|[Tt][Hh][Ss]?)?|[Ww](?:[Ee][Ee][Kk][Ss]?|[Kk][Ss]?)?|[Dd](?:[Aa][Yy][Ss]?)?|[Hh](?:[Rr][Ss]?|[Oo][Uu][Rr][Ss]?)?|[Ss](?:[Ee][Cc](?:[Oo][Nn][Dd][Ss]?|[Ss])?)?|[µUu][Ss](?:[Ee][Cc](?:[Oo][Nn][Dd][Ss]?|[Ss])?)?|[Nn](?:[Ss](?:[Ee][Cc][Ss]?)?|[Aa][Nn][Oo](?:[Ss](?:[Ee][Cc][Oo][Nn][Dd][Ss]?)?)?))",
    "(?:y(?:ears?|rs?)?|q(?:uarters?|trs?)?|m(?:on(?:ths?|s)?|i(?:n(?:utes?|s)?|lli(?:s(?:econds?)?)?|cro(?:s(?:econds?)?)?)|s(?:ecs?)?|ths?)?|w(?:eeks?|ks?)?|d(?:ays?)?|h(?:rs?|ours?)?|s(?:ec(?:onds?|s)?)?|[µu]s(?:ec(?:onds?|s)?)?|n(?:s(?:ecs?)?|ano(?:s(?:econds?)?)?))",
    "(?:[Yy](?:[Ee][Aa][Rr][Ss]?|[Rr][Ss]?)?|[Qq](?:[Uu][Aa][Rr][Tt][Ee][Rr][Ss]?|[Tt][Rr][Ss]?)?|[Mm](?:[Oo][Nn](?:[Tt][Hh][Ss]?|[Ss])?|[Ii](?:[Nn](?:[Uu][Tt][Ee][Ss]?|[Ss])?|[Ll][Ll][Ii](?:[Ss](?:[Ee][Cc][Oo][Nn][Dd][Ss]?)?)?|[Cc][Rr][Oo](?:[Ss](?:[Ee][Cc][Oo][Nn][Dd][Ss]?)?)?)|[Ss](?:[Ee][Cc][Ss]?)?|[Tt][Hh][Ss]?)?|[Ww](?:[Ee][Ee][Kk][Ss]?|[Kk][Ss]?)?|[Dd](?:[Aa][Yy][Ss]?)?|[Hh](?:[Rr][Ss]?|[Oo][Uu][Rr][Ss]?)?|[Ss](?:[Ee][Cc](?:[Oo][Nn][Dd][Ss]?|[Ss])?)?|[µUu][Ss](?:[Ee][Cc](?:[Oo][Nn][Dd][Ss]?|[Ss])?)?|[Nn](?:[Ss](?:[Ee][Cc][Ss]?)?|[Aa][Nn][Oo](?:[Ss](?:[Ee][Cc][Oo][Nn][Dd][Ss]?)?)?)|[年月周日天时分秒]|[毫微纳]秒)",
    "(?:y(?:ears?|rs?)?|q(?:uarters?|trs?)?|m(?:on(?:ths?|s)?|i(?:n(?:utes?|s)?|lli(?:s(?:econds?)?)?|cro(?:s(?:econds?)?)?)|s(?:ecs?)?|ths?)?|w(?:eeks?|ks?)?|d(?:ays?)?|h(?:rs?|ours?)?|s(?:ec(?:onds?|s)?)?|[µu]s(?:ec(?:onds?|s)?)?|n(?:s(?:ecs?)?|ano(?:s(?:econds?)?)?)|[年月周日天时分秒]|[毫微纳]秒)",
]
