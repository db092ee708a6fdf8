"""A caller that mypy checks against the types of the package. The lines that mypy must refuse are
marked, and mypy reports a mark on any other line.
"""

import datetime
from array import array
from typing import Annotated, Any, assert_type

import duration_str
import numpy
from duration_str.argparse import DURATION, DurationType
from duration_str.click import DURATION as OPTION
from numpy.typing import NDArray

assert_type(DURATION("1m"), datetime.timedelta)
assert_type(DurationType(default_unit="ms")("1500"), datetime.timedelta)
assert_type(OPTION.convert("1m", None, None), datetime.timedelta)


def read(texts: list[str]) -> NDArray[numpy.timedelta64]:
    return duration_str.to_timedelta(texts)


assert_type(duration_str.parse("1m", no_calc=True), datetime.timedelta)
assert_type(duration_str.parse("5 mins", more_names=True), datetime.timedelta)
assert_type(duration_str.parse_ns("1m"), int)
assert_type(duration_str.parse_seconds("1m"), float)
assert_type(duration_str.format(5), str)
assert_type(duration_str.format(datetime.timedelta(1)), str)
assert_type(duration_str.format(numpy.int64(5)), str)
assert_type(duration_str.format(numpy.timedelta64(5, "s")), str)
assert_type(duration_str.format(5, parts=2, largest="d", smallest="us"), str)
broken = duration_str.breakdown(5, parts=2, units=["years", "d"], largest="d", smallest="us")
assert_type(broken, duration_str.Breakdown)
assert_type(broken.rest_ns, int)
assert_type(duration_str.breakdown(datetime.timedelta(1)).parts[0].count, int)
part: duration_str.Part = duration_str.breakdown(numpy.timedelta64(5, "s")).parts[0]
assert_type(part.unit, duration_str.PrintedUnit)
count, printed = part
assert_type(duration_str.format(count, largest=printed), str)
assert_type(duration_str.breakdown(5, rounding="up"), duration_str.Breakdown)
duration_str.breakdown(5, style="long")  # type: ignore[call-arg]
duration_str.breakdown(5, largest="mins")  # type: ignore[arg-type]
duration_str.breakdown("1m")  # type: ignore[arg-type]
unit: duration_str.Unit = "h"
style: duration_str.Style = "long"
rounding: duration_str.Rounding = "nearest"
assert_type(duration_str.format(5, largest=unit, rounding=rounding, style=style), str)
assert_type(duration_str.format(5, units=["years", "d"]), str)
assert_type(duration_str.parse("1500", default_unit="ms"), datetime.timedelta)
assert_type(duration_str.parse_many(["1500"], default_unit="ms"), array[int])
assert_type(
    duration_str.parse_many(["5 mins", 1500], more_names=True, default_unit="ms"), array[int]
)
assert_type(duration_str.parse(1500, default_unit="ms"), datetime.timedelta)
assert_type(duration_str.parse_ns(numpy.int64(1500), default_unit="s"), int)
assert_type(duration_str.parse_many([1500, "2h"], default_unit="ms"), array[int])
assert_type(duration_str.pattern(no_calc=True, default_unit="ms"), str)
duration_str.pattern(default_unit="mins")  # type: ignore[arg-type]
duration_str.parse("1500", default_unit="mins")  # type: ignore[call-overload]
duration_str.parse(1500)  # type: ignore[call-overload]
duration_str.parse_many([1500])  # type: ignore[list-item]
duration_str.parse("1500", default_unit="ms", require_unit=True)  # type: ignore[call-overload]
duration_str.format(5, units=["mins"])  # type: ignore[list-item]
duration_str.format(5, units=5)  # type: ignore[arg-type]
duration_str.format(5, largest="mins")  # type: ignore[arg-type]
duration_str.format(5, style="words")  # type: ignore[arg-type]
duration_str.format(5, rounding="half")  # type: ignore[arg-type]
duration_str.format_many([5], rounding="half")  # type: ignore[arg-type]
duration_str.format(5, parts=1.5)  # type: ignore[arg-type]
duration_str.format_many([5], smallest="secs")  # type: ignore[arg-type]
duration_str.format("1m")  # type: ignore[arg-type]
duration_str.format(1.5)  # type: ignore[arg-type]
duration_str.format(None)  # type: ignore[arg-type]
duration_str.format(numpy.float64(5))  # type: ignore[arg-type]
duration_str.format(numpy.datetime64(5, "s"))  # type: ignore[arg-type]
assert_type(duration_str.parse_many(["1m"]), array[int])
assert_type(duration_str.parse_many(["1m", None], errors="coerce"), tuple[array[int], array[int]])
duration_str.parse_many(["1m"], errors="ignore")  # type: ignore[call-overload]
assert_type(duration_str.to_timedelta(["1m"]), "NDArray[numpy.timedelta64]")
duration_str.to_timedelta(["1m"], errors="ignore")  # type: ignore[call-overload]
assert_type(duration_str.errors_of(["1m"]), dict[int, Any])
duration_str.errors_of(["1m"], errors="coerce")  # type: ignore[call-overload]
timeout: duration_str.Duration = datetime.timedelta(1)
pause: Annotated[datetime.timedelta, duration_str.DurationField(default_unit="ms")] = timeout
try:
    duration_str.parse("1x")
except duration_str.DurationError as error:
    assert_type(str(error) + error.reason + error.report, str)
    assert_type(error.cause, duration_str.Cause)
    assert_type(error.pos, "int | None")
    assert_type(error.help, "duration_str.Help | None")
    assert_type(error.suggestion, "str | None")
    assert_type(error.span, "tuple[int, int] | None")
    assert_type(error.mended, "str | None")
    assert_type(error.help == duration_str.Help.DID_YOU_MEAN, bool)
    error.help = None  # type: ignore[misc]
