"""Columns of NumPy and pandas. NumPy is imported only when it is used, and pandas is never
imported."""

from __future__ import annotations

import datetime
import sys
from array import array
from collections.abc import Iterable
from functools import partial
from typing import TYPE_CHECKING, Any, overload

from . import _native
from ._columns import (
    Errors,
    Kind,
    coerced_error_of,
    is_missing,
    kind_of,
    raises_errors,
    timedeltas_of,
    values_of,
)
from ._lists import Rounding, Style, Unit
from ._errors import (
    NANOS,
    UNNAMED,
    UNSAID,
    DurationError,
    DurationTypeError,
    is_number,
    nanos_a_step,
    nanos_of,
    type_error_of,
)

if TYPE_CHECKING:
    import numpy
    from numpy.typing import NDArray

#: NaT as a number
_NAT = -(2**63)


def _in_nanos(column: Any, kind: Kind) -> Any:
    """Returns a column of timedeltas as an array of timedelta64[ns]. Returns None if one of them
    doesn't fit, and for another column."""
    given = timedeltas_of(column, kind)
    if given is None:
        return None
    step = nanos_a_step(given.dtype)
    # `abs` leaves the number that stands for NaT below zero.
    if step > 1 and step * int(abs(given.astype("int64")).max(initial=1)) >= 2**63:
        return None
    # Only an array is returned as it is. A sparse column would share its values with the result.
    return given.astype("timedelta64[ns]", copy=given is not column)


def _like(values: Any, result: Any) -> Any:
    """Turns a flat array of results into a Series or an Index like the values. For other values it
    returns an array, in their shape if they have one."""
    pandas = sys.modules.get("pandas")
    if pandas is not None and isinstance(values, pandas.Series):
        return pandas.Series(result, index=values.index, name=values.name)
    if pandas is not None and isinstance(values, pandas.Index):
        return pandas.Index(result, name=values.name)
    return result.reshape(values.shape) if hasattr(values, "shape") else result


def _nanos_or_error(value: Any, index: int, takes_numbers: bool) -> int | Exception:
    """Returns the nanoseconds of a value that has no text, or the error if it is refused. If it is
    missing, its nanoseconds stand for NaT. The index -1 stands for none."""
    numpy: Any = sys.modules.get("numpy")
    if is_missing(value):
        return _NAT
    is_kept = isinstance(value, datetime.timedelta)
    if numpy and isinstance(value, numpy.timedelta64):
        is_kept = numpy.datetime_data(value.dtype)[0] in NANOS
    if not is_kept:
        return type_error_of(value, takes_numbers, index)
    nanos = nanos_of(value)
    if abs(nanos) < 2**63:
        return nanos
    where = "" if index < 0 else f"at index {index}: "
    return OverflowError(f"{where}timedelta64 doesn't have 2**63 nanoseconds or more: {value!r}")


def _nanos_or_raised(value: Any, index: int, takes_numbers: bool) -> int:
    nanos = _nanos_or_error(value, index, takes_numbers)
    if isinstance(nanos, int):
        return nanos
    raise nanos


def _nanos_or_coerced(value: Any, index: int, takes_numbers: bool) -> int:
    """For a refused value it returns nanoseconds that stand for NaT. But for a number it raises an
    error if `takes_numbers` is false."""
    import numpy

    nanos = _nanos_or_error(value, index, takes_numbers)
    if isinstance(nanos, int):
        return nanos
    if not takes_numbers and (is_number(value) or isinstance(value, numpy.floating)):
        raise coerced_error_of(value, takes_numbers, index)
    return _NAT


@overload
def to_timedelta(
    values: None,
    *,
    errors: Errors = ...,
    no_calc: bool = ...,
    lowercase: bool = ...,
    cn_unit: bool = ...,
    require_unit: bool = ...,
    more_names: bool = ...,
    default_unit: Unit = ...,
) -> None:
    ...


@overload
def to_timedelta(
    values: list[Any] | tuple[Any, ...] | NDArray[Any],
    *,
    errors: Errors = ...,
    no_calc: bool = ...,
    lowercase: bool = ...,
    cn_unit: bool = ...,
    require_unit: bool = ...,
    more_names: bool = ...,
    default_unit: Unit = ...,
) -> NDArray[numpy.timedelta64]:
    ...


@overload
def to_timedelta(
    values: Any,
    *,
    errors: Errors = ...,
    no_calc: bool = ...,
    lowercase: bool = ...,
    cn_unit: bool = ...,
    require_unit: bool = ...,
    more_names: bool = ...,
    default_unit: Unit = ...,
) -> Any:
    ...


def to_timedelta(
    values: Any,
    *,
    errors: Errors = "raise",
    no_calc: bool = UNSAID,
    lowercase: bool = False,
    cn_unit: bool = False,
    require_unit: bool = False,
    more_names: bool = False,
    default_unit: Unit = UNNAMED,
) -> Any:
    """Reads texts as timedelta64[ns], like `pandas.to_timedelta`. It needs
    NumPy, but not pandas. Except for `errors`, the options are those of
    `parse_ns`.

    For a Series it returns a Series with the same index and name, and for an
    Index an Index. For a NumPy array it returns an array of the same shape,
    and for a list one of the same length. For a single text it returns a
    Timedelta if pandas is imported, and otherwise a timedelta64.

    Timedeltas in units from weeks to nanoseconds are kept. None, NaT, a float
    that is NaN, pandas' NA, and the masked values of an array become NaT. A
    single None stays None, as in pandas. If you name a default unit, even
    seconds, whole numbers are read too, as by `parse_ns`.

    With `errors="raise"` the first text that is refused raises a
    DurationError, whose `index` is the text's position in a column. So does a
    text or a number whose value is 2**63 nanoseconds or more, which is some
    292 years, since timedelta64 can't hold it. A number that `parse_ns`
    refuses, except NaN, raises an error of the same type. Any other value,
    such as bytes or a timedelta64 of 5 years, raises DurationTypeError. A
    timedelta of 2**63 nanoseconds or more, in either direction, raises
    OverflowError. Both errors are raised even if a text before the value is
    refused.

    With `errors="coerce"` all these values become NaT. But DurationTypeError
    is raised even then

    - for a number, if you name no default unit. (A number is an int or a
      float, also of NumPy, but no bool.)
    - for a column of a type that is never read, such as datetime64 or
      timedelta64 in years, whatever its values are.
    """
    raises = raises_errors(errors)
    reading = _native.reading(
        no_calc=no_calc,
        lowercase=lowercase,
        cn_unit=cn_unit,
        require_unit=require_unit,
        more_names=more_names,
        default_unit=default_unit,
    )
    if values is None:
        return None
    import numpy

    is_one = isinstance(values, (str, datetime.timedelta, numpy.timedelta64, numpy.void))
    # An array of ctypes has no `__iter__`.
    is_column = hasattr(values, "__iter__") or (
        hasattr(values, "__len__") and hasattr(values, "__getitem__")
    )
    is_one = is_one or not is_column
    kind: Kind = "object" if is_one else kind_of(values)
    lengths = _in_nanos(values, kind)
    if lengths is not None:
        is_same = hasattr(values, "array") and values.dtype == lengths.dtype
        return values.copy() if is_same else _like(values, lengths)
    texts = [values] if is_one else values_of(values, kind)
    nanos = array("Q", [0]) * len(texts)
    other = partial(_nanos_or_raised if raises else _nanos_or_coerced, takes_numbers=reading[1])
    _native.read_list(texts, nanos, reading, raises, -1 if is_one else 0, other)
    result = numpy.asarray(nanos).view("timedelta64[ns]")
    if not is_one:
        return _like(values, result)
    pandas = sys.modules.get("pandas")
    return pandas.Timedelta(result[0]) if pandas is not None else result[0]


@overload
def errors_of(
    values: list[Any] | tuple[Any, ...] | NDArray[Any],
    *,
    no_calc: bool = ...,
    lowercase: bool = ...,
    cn_unit: bool = ...,
    require_unit: bool = ...,
    more_names: bool = ...,
    default_unit: Unit = ...,
) -> dict[int, Any]:
    ...


@overload
def errors_of(
    values: Any,
    *,
    no_calc: bool = ...,
    lowercase: bool = ...,
    cn_unit: bool = ...,
    require_unit: bool = ...,
    more_names: bool = ...,
    default_unit: Unit = ...,
) -> Any:
    ...


def errors_of(
    values: Any,
    *,
    no_calc: bool = UNSAID,
    lowercase: bool = False,
    cn_unit: bool = False,
    require_unit: bool = False,
    more_names: bool = False,
    default_unit: Unit = UNNAMED,
) -> Any:
    """Reads a column as `to_timedelta` does, and returns the error of each
    value that it refuses. The options are those of `parse_ns`.

    For a Series it returns a Series of the errors, with the same name and with
    the labels of the refused rows. For any other column, such as a list, it
    returns a dict. Its keys are the positions of the refused values, in order,
    and of an array of several dimensions those in the flat array.

    The error of a text is a DurationError, and so is that of a number if you
    name a default unit. Its `index` is the position, but its line doesn't
    begin with it. Other values have an error of the type that `to_timedelta`
    raises for them, mostly a DurationTypeError. So have numbers if you name no
    default unit. The `help` and `mended` of these errors are None, and their
    `reason` is the line. Missing values have no error.

    For a column of a type that is never read, such as datetime64, it raises
    DurationTypeError, and for a value that is no column, such as a single
    text, TypeError.

    While it reads, Python's garbage collector is off, also for other threads.

    >>> errors = duration_str.errors_of(["1h", "5 mins", None, "soon"])
    >>> for position, error in errors.items():
    ...     print(position, error.mended, error)
    1 5 min unknown unit "mins" at column 3 (did you mean "min"?)
    3 None expected a number at column 1, found "soon"
    """
    reading = _native.reading(
        no_calc=no_calc,
        lowercase=lowercase,
        cn_unit=cn_unit,
        require_unit=require_unit,
        more_names=more_names,
        default_unit=default_unit,
    )
    kind = kind_of(values)
    texts = values_of(values, kind) if _in_nanos(values, kind) is None else []
    nanos = array("Q", [0]) * len(texts)
    errors: list[Any] = []

    def other(value: Any, _: int) -> int | Exception:
        return _nanos_or_error(value, -1, reading[1])

    rows = _native.read_list(texts, nanos, reading, False, 0, other, errors)
    for error in errors:
        # A program can ask each error for these.
        if not isinstance(error, (DurationError, DurationTypeError)):
            error.help = error.mended = None
            error.reason = str(error)
    pandas = sys.modules.get("pandas")
    if pandas is None or not isinstance(values, pandas.Series):
        return dict(zip(rows, errors))
    import numpy

    labels = values.index.take(numpy.array(rows, dtype="int64"))
    result = numpy.empty(len(errors), dtype=object)
    # If the whole list were assigned, NumPy would look for items in each error, which takes longer.
    for place, error in enumerate(errors):
        result[place] = error
    return pandas.Series(result, index=labels, name=values.name)


def format_many(
    values: Any,
    *,
    parts: int = 11,
    units: Iterable[Unit] | None = None,
    largest: Unit = "y",
    smallest: Unit = "ns",
    rounding: Rounding | None = None,
    style: Style = "short",
    errors: Errors = "raise",
) -> Any:
    """Prints a column of durations, each as `format` does. A duration is an
    int of nanoseconds or a timedelta. Except for `errors`, the options are
    those of `format`.

    For a list or a generator it returns a list of str. For a Series, an Index
    or a NumPy array it returns the same kind of column, with the same shape,
    index and name. (A masked array, and an array of pandas, become plain ones
    of NumPy.) Missing values, such as None, NaN and NaT, become None.

    With `errors="raise"` it raises the errors of `format`. The error of a
    value says the value's position. With `errors="coerce"` a value that
    `format` refuses, such as a negative duration, becomes None. But TypeError
    is raised even then for a value in a column of texts or floats, and for a
    column of a type that is never read, such as datetime64.

    >>> duration_str.format_many([90 * 10**9, None])
    ['1min 30s', None]
    >>> duration_str.format_many([90 * 10**9, None], largest="s")
    ['90s', None]
    """
    raises = raises_errors(errors)
    limits = _native.limits(
        parts=parts,
        units=units,
        largest=largest,
        smallest=smallest,
        rounding=rounding,
        style=style,
    )
    kind = kind_of(values)
    lengths = _in_nanos(values, kind)
    if lengths is None:
        given = values_of(values, kind)
    else:
        numbers = lengths.astype("int64").ravel().tolist()
        given = [None if number == _NAT else number for number in numbers]
    # No text and no float is printed, so a whole column would be lost without a word.
    raises = raises or kind in ("text", "float")
    texts: list[str | None] = []
    while len(texts) < len(given):
        try:
            # This begins with the value at the position `len(texts)`.
            _native.format_list(given, _nanos_or_none, texts, limits)
        except (OverflowError, TypeError, ValueError) as error:
            if raises:
                raise type(error)(f"at index {len(texts)}: {error}") from None
            texts.append(None)
    if not hasattr(values, "__array__"):
        return texts
    import numpy

    result = numpy.empty(len(texts), dtype=object)
    result[:] = texts
    return _like(values, result)


def _nanos_or_none(value: Any) -> int | None:
    return None if is_missing(value) else nanos_of(value)
