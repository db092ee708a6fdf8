"""What a user may have meant by a refused text"""

import enum


class Help(enum.IntEnum):
    """What a user may have meant by a refused text, or should write instead."""

    DID_YOU_MEAN = 1
    """The word at the place is no unit, but is near one, such as `mins` is near `min`."""
    UNITS = 2
    """The word at the place is no unit, and is near none."""
    FRACTION = 3
    """A number has a fraction, such as in `1.5s`."""
    DIGITS_ONLY = 4
    """A number has other characters than digits, such as in `1,000s` and `1e3s`."""
    CLOCK_TIME = 5
    """A number is followed by a colon and another number, as in a clock time."""
    NEGATIVE = 6
    """The text begins with a minus sign, as a negative number does."""
    LEADING_PLUS = 7
    """The text begins with a plus sign."""
    ISO_8601 = 8
    """The text begins as a duration of ISO 8601 does, such as `PT5M`."""
    ONE_DURATION = 9
    """After a unit comes a comma, `&` or `and`, such as in `1h, 30m`."""
    NO_POINT = 10
    """After a unit comes a point, such as in `5 min.`."""
    BRACKETS = 11
    """A bracket is at the place, such as in `(1h + 30m) * 2`."""
    DIVISION = 12
    """A slash is at the place, such as in `1h / 2`."""
    QUOTATION_MARKS = 13
    """The text begins with a quotation mark."""
    MISSING_UNIT = 14
    """A number lacks its unit, which is required."""
    ZERO = 15
    """A zero lacks its unit, which is required."""
    LARGE_NUMBER = 16
    """A number without a unit is too large in the default unit."""


# An error takes it from here, since a program can put another object into the package's names.
Help.__module__ = "duration_str"
