"""The errors that say why and where a text is refused, and durations as nanoseconds"""

import datetime
import enum
import sys
from importlib import import_module

# Each import of the package runs this module. So it doesn't import typing, which takes longer than
# all that it needs.
TYPE_CHECKING = False
if TYPE_CHECKING:
    from typing import Any

    from ._help import Help


class _Unnamed(str):
    pass


#: The default unit of a call that names none. It equals "s", but is another object.
UNNAMED: "Any" = _Unnamed("s")


class _Unsaid(int):
    def __repr__(self) -> str:
        return "False"


#: The option `no_calc` of a call that doesn't set it. It equals False, but is another object.
UNSAID: "Any" = _Unsaid(0)


#: The units of timedelta64 that are read, each with its length in nanoseconds
NANOS = {"W": 604_800 * 10**9, "D": 86_400 * 10**9, "h": 3_600 * 10**9, "m": 60 * 10**9}
NANOS |= {"s": 10**9, "ms": 10**6, "us": 1000, "ns": 1}


class Cause(enum.IntEnum):
    """Why a text is refused."""

    EMPTY = 1
    """The text is empty."""
    SYNTAX = 2
    """The text stops being valid at `place`."""
    NUMBER_TOO_LARGE = 3
    """A number is 2**64 or more."""
    OVERFLOW = 4
    """A term, a step of the evaluation or the value is 2**64 nanoseconds or more. In `to_timedelta`
    it is also the cause if the value is 2**63 nanoseconds or more."""
    MIXED = 5
    """A sum and a product are mixed, as in `1m 2s*3`."""
    NOT_TEXT = 7
    """The text has a lone surrogate."""


class Expected(enum.Flag):
    """What could stand at the place of a syntax fault."""

    NUMBER = 1
    UNIT = 2
    OPERATOR = 4
    END = 8


class DurationTypeError(TypeError, ValueError):
    """A value or a column has a type that is not read, or a value is NaN or a
    float of 2**53 or more. This error is also a ValueError, since pydantic
    doesn't take a plain TypeError for a refusal."""

    # A program can ask each error of a column for these.
    help: None = None
    mended: None = None

    @property
    def reason(self) -> str:
        """The line. For a `DurationError` it is the line without its column."""
        return str(self)


class DurationError(ValueError):
    """A text is refused. `str(error)` is one line for people: it says what is
    wrong, for a syntax fault also where, and often what to write. If a call
    raises it for a text of a column, the line begins with the index, such as
    `at index 1`.

    >>> try:
    ...     duration_str.parse("3h 2 mins")
    ... except duration_str.DurationError as error:
    ...     print(error.report)
    ...     print(error.cause.name, error.pos, error.found)
    ...     print(error.help.name, error.suggestion, repr(error.mended))
    3h 2 mins
         ^
    unknown unit "mins" at column 6 (did you mean "min"?)
    SYNTAX 5 mins
    DID_YOU_MEAN min '3h 2 min'
    """

    # The extension module makes the errors. The rest is computed when a program asks for it.
    args: tuple[str, int, bool, int | None, bool]

    def __str__(self) -> str:
        # A program can make an error of other arguments, such as in its tests.
        if len(self.args) != 5:
            return super().__str__()
        *_, index, names_index = self.args
        return f"at index {index}: {self._answer[0]}" if names_index else self._answer[0]

    def __repr__(self) -> str:
        return f"{type(self).__name__}({str(self)!r})"

    @property
    def _answer(self) -> "tuple[str, int, int | None, int | None, int, str | None]":
        from ._native import answer

        return answer(*self.args[:2])

    @property
    def _advice(self) -> "tuple[int, str | None, int, int]":
        from ._native import help

        return help(*self.args[:2])

    @property
    def text(self) -> str:
        """The whole text."""
        return self.args[0]

    @property
    def index(self) -> int | None:
        """The position of the text in its column, or None if it is in no column."""
        return self.args[3]

    @property
    def cause(self) -> Cause:
        """Why the text is refused."""
        return Cause(self._answer[1])

    @property
    def place(self) -> int | None:
        """Where the fault is: an offset in bytes of UTF-8. It is None if the fault has no place."""
        return self._answer[2]

    @property
    def pos(self) -> int | None:
        """The same place in characters. For a syntax fault `text[pos:]` begins with `found`, if
        that is not None. The column that `str(error)` names is one more, since columns count from
        1."""
        return self._answer[3]

    @property
    def expected(self) -> Expected:
        """What could stand at the place of a syntax fault. For other faults no flag is set."""
        return Expected(self._answer[4])

    @property
    def found(self) -> str | None:
        """The token at the place of a syntax fault. It is None at the end of the text, and for
        other faults."""
        return self._answer[5]

    @property
    def help(self) -> "Help | None":
        """What the user may have meant, or should write instead. It is None if no help applies."""
        # The import of the package takes less time without the many items of this enumeration.
        from ._help import Help

        number = self._advice[0]
        return Help(number) if number else None

    @property
    def suggestion(self) -> str | None:
        """What to write in place of the part of the text that is wrong, such as `90min` for `1.5h`.
        It is the empty text if that part is to be removed, such as the sign of `+5m`. It is None if
        it isn't certain what to write."""
        return self._advice[1]

    @property
    def span(self) -> tuple[int, int] | None:
        """Where the part that the suggestion replaces begins and ends, in characters. It is None if
        `suggestion` is None."""
        _, suggestion, start, end = self._advice
        return None if suggestion is None else (start, end)

    @property
    def mended(self) -> str | None:
        """The text with the suggestion for each of its faults, such as `2h 90s` for `2hrs 1.5min`.
        The call that has refused the text reads this one. It is None if it isn't certain for each
        fault what to write, or if the text needs more than 32 suggestions."""
        from ._native import mended

        text, options, in_timedelta64, *_ = self.args
        found = mended(text, options)
        return None if found is None or (in_timedelta64 and found[1] >= 2**63) else found[0]

    @property
    def reason(self) -> str:
        """The line without ` at column 3` or the like, for programs that say the place themselves.
        For `5 mins` it is `unknown unit "mins" (did you mean "min"?)`. If the fault is no syntax
        fault, the line has no such words. The reason also lacks the index of a value in a column,
        such as `at index 1: `."""
        from ._native import reason

        line, cause, *_ = self._answer
        return reason(*self.args[:2]) if cause == Cause.SYNTAX else line

    @property
    def report(self) -> str:
        """The report for a terminal: the text, a caret below the place, and the line. If the fault
        is no syntax fault, and for some texts, it is the line alone (docs/GRAMMAR.md in the
        repository says for which)."""
        from ._native import report

        above, feed, _ = report(*self.args[:2]).rpartition("\n")
        return above + feed + str(self)


def type_error_of(value: "Any", takes_numbers: bool, index: int) -> DurationTypeError:
    """The index -1 stands for none."""
    where = "" if index < 0 else f"at index {index}: "
    what = type(value).__name__
    if what == "timedelta64":
        what = str(getattr(value, "dtype", what))  # It can be the unit that is not read.
    if takes_numbers:
        if isinstance(value, float):
            what = (
                "NaN" if value != value else "a float of 2**53 or more, which can have lost digits"
            )
        return DurationTypeError(f"{where}a duration must be a str or a whole number, not {what}")
    help = ""
    if is_number(value):
        help = ": to read numbers, name their unit, such as by default_unit='ms'"
    return DurationTypeError(f"{where}a duration's text must be a str, not {what}{help}")


def is_number(value: "Any") -> bool:
    """Returns whether a value is a number, except NaN, of a type that is read if a default unit is
    named."""
    if isinstance(value, (int, float)):
        return not isinstance(value, bool) and value == value
    return whole_of(value) is not None


def whole_of(value: "Any") -> int | None:
    """Returns the int of an integer of NumPy, and None for any other value. NumPy also counts
    timedelta64 among its integers."""
    numpy: Any = sys.modules.get("numpy")
    if numpy is None or isinstance(value, numpy.timedelta64):
        return None
    return int(value) if isinstance(value, numpy.integer) else None


def nanos_a_step(dtype: "Any") -> int:
    """Returns the nanoseconds of one step of this type of timedelta64. Raises TypeError if its unit
    is not one from weeks to nanoseconds."""
    numpy: Any = import_module("numpy")
    unit, count = numpy.datetime_data(dtype)
    if unit not in NANOS:
        raise TypeError(
            f"a duration must be of a unit from weeks to nanoseconds, not of timedelta64[{unit}]"
        )
    return int(count) * NANOS[unit]


def nanos_of(value: "Any") -> int:
    """Returns the nanoseconds of a timedelta or an int, also one of pandas or NumPy."""
    numpy: Any = sys.modules.get("numpy")
    if isinstance(value, datetime.timedelta):
        nanos = ((value.days * 86_400 + value.seconds) * 10**6 + value.microseconds) * 1000
        # pandas' Timedelta is a timedelta that also has nanoseconds.
        return nanos + getattr(value, "nanoseconds", 0)
    if numpy and isinstance(value, numpy.timedelta64):
        if numpy.isnat(value):
            raise ValueError("the duration is missing: NaT")
        return int(value.astype("int64")) * nanos_a_step(value.dtype)
    if isinstance(value, int) and not isinstance(value, bool):
        return int.__index__(value)
    if numpy and isinstance(value, numpy.integer):
        return int(value)
    help = ": timedelta(seconds=...) takes seconds" if isinstance(value, float) else ""
    raise TypeError(
        f"a duration must be an int of nanoseconds or a timedelta, not {type(value).__name__}{help}"
    )
