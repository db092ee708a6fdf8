"""Reads durations as people write them, such as `3m + 13s + 29ms`, and prints
them, such as `3min 13s 29ms`. An error says what is wrong. For wrong syntax it
also says where. `docs/PROMISES.md` in the repository says what is proved, what
is tested, and what you trust.

>>> import duration_str
>>> duration_str.parse("3m + 13s + 29ms")
datetime.timedelta(seconds=193, microseconds=29000)
>>> duration_str.format(193_029_000_000)
'3min 13s 29ms'

A text is one term or several. A term is a number and a unit, such as `3m` or
`29 ms`. Terms are joined by `+` or by `*`. If the operator is left out, as in
`3m 13s`, the terms are added. A text is a sum or a product, and can't mix
both. A product multiplies its terms in seconds: `1m*10ms` is 600 ms. Each of
its steps is rounded down to nanoseconds. A number without a unit counts
seconds, unless another default unit is named or units are required. Such a
number must be last or before an operator. Blanks (space, tab, carriage return,
line feed) may be anywhere except inside a number or a unit. Each number must
be below 2^64. Each term, each step of the evaluation and the value must be
below 2^64 nanoseconds, which is some 584 years.

If you name a default unit, numbers that are not texts can be read too:

>>> duration_str.parse(1500, default_unit="ms")
datetime.timedelta(seconds=1, microseconds=500000)

The units:

  365 days     y, year, years
  91 days      q, quarter, quarters
  30 days      mon, month, months
  7 days       w, week, weeks
  day          d, day, days
  hour         h, hr, hour, hours
  minute       m, min, minute, minutes
  second       s, sec, second, seconds
  millisecond  ms, msec, millisecond, milliseconds
  microsecond  µs, µsec, µsecond, us, usec, usecond, microsecond, microseconds
  nanosecond   ns, nsec, nanosecond, nanoseconds

With `cn_unit` these are read too:
年 year, 月 month, 周 week, 日 天 day, 时 hour, 分 minute, 秒
second, 毫秒 millisecond, 微秒 microsecond, 纳秒 nanosecond.

With `more_names` these are read too:
yr, yrs, qtr, qtrs, mons, mth, mths, wk, wks, hrs, mins, secs, msecs, milli,
millis, µsecs, µseconds, usecs, useconds, micro, micros, nsecs, nano, nanos.

To read a text:

  parse          as a timedelta
  parse_ns       as an int of nanoseconds
  parse_seconds  as a float of seconds, for time.sleep and asyncio.wait_for

If a text is refused, they raise a `DurationError`. As a string it is a line
for people. To say in another language what is wrong, take the error's fields:
the `cause`, the place, what was `found` there and what was `expected`, the
`help`, and the `suggestion` with its `span`. The same call reads the `mended`
text.

To print an int of nanoseconds or a timedelta:

format(value, /, *, parts=11, units=None, largest="y", smallest="ns",
       rounding=None, style="short")

To get the counts of such a duration, for a text of your own, call `breakdown`
with the same options except `style`. It returns a `Breakdown`.

`format` is not in `__all__`, so `from duration_str import *` doesn't hide
Python's own `format`. `Unit`, `Rounding` and `Style` are types of options,
and `PrintedUnit` is the type of a `Part`'s unit.

For a column:

  parse_many    reads texts into an array of nanoseconds
  to_timedelta  reads texts for NumPy or pandas
  errors_of     says why to_timedelta refuses values
  format_many   prints durations

For a validator that takes a regular expression, `pattern` returns one.

For other packages:

  duration_str.click.DURATION     a type of Click's options
  duration_str.argparse.DURATION  a type of argparse's arguments

In a model of pydantic a field may have the type `Duration`, or
`DurationRequireUnit`, which refuses a number without a unit. With
`DurationField` you make such a type with other options. These types are only
annotations: to make a value, call `parse`.
"""
# The table of units above is made by tools/facts --write.

from __future__ import annotations

from importlib import import_module

from ._native import format as format
from ._native import breakdown, parse, parse_ns, parse_seconds
from ._errors import Cause, DurationError, DurationTypeError, Expected

TYPE_CHECKING = False
if TYPE_CHECKING:
    from typing import Any

    from ._arrays import errors_of, format_many, to_timedelta
    from ._columns import parse_many
    from ._help import Help
    from ._lists import PrintedUnit, Rounding, Style, Unit
    from ._models import Duration, DurationField, DurationRequireUnit
    from ._parts import Breakdown, Part
    from ._pattern import pattern

__all__ = [
    "Breakdown",
    "Cause",
    "Duration",
    "DurationError",
    "DurationField",
    "DurationTypeError",
    "DurationRequireUnit",
    "Expected",
    "Help",
    "Part",
    "PrintedUnit",
    "Rounding",
    "Style",
    "Unit",
]
__all__ += [
    "breakdown",
    "errors_of",
    "format_many",
    "parse",
    "parse_many",
    "parse_ns",
    "parse_seconds",
    "pattern",
    "to_timedelta",
]
__version__ = "0.19.0"


def _own(items: dict[str, Any]) -> None:
    """In errors, pickles and documentation, the public items belong to this module."""
    for name in {*__all__} & {*items}:
        items[name].__module__ = __name__


_own(globals())
format.__module__ = __name__

if not TYPE_CHECKING:
    # All of these modules except `_help` need the module typing, which takes longer to import than
    # this package. So the modules are imported when one of their items is used.
    _LATER = ("_help", "_lists", "_parts", "_pattern", "_columns", "_arrays", "_models")

    def __getattr__(name):
        for module in _LATER if name in __all__ else ():
            items = vars(import_module(f"{__name__}.{module}"))
            _own(items)
            if name in items:
                return globals().setdefault(name, items[name])
        raise AttributeError(f"module {__name__!r} has no attribute {name!r}")

    def __dir__():
        hidden = [name for name in globals() if name.startswith("_")]
        return sorted([*__all__, "format", *hidden])
