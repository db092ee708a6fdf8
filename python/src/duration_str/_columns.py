"""Columns as lists of values, and `parse_many`. pandas and Arrow are never imported here, and NumPy
only for a column that has a type."""

from __future__ import annotations

import struct
import sys
from array import array
from collections.abc import Iterable
from typing import Any, Literal, SupportsIndex, overload

from . import _native
from ._lists import Unit
from ._errors import NANOS, UNNAMED, UNSAID, DurationTypeError, is_number, type_error_of

#: What to do with a refused value
Errors = Literal["raise", "coerce"]
#: What the values of a column are. Each of the objects has a type of its own.
Kind = Literal["object", "text", "integer", "float", "timedelta"]

# The types that have a kind: NumPy's by their `kind`, others by their names in small letters, and
# those of buffers by their formats. Floats must have 64 bits.
_NUMPY: dict[str, Kind] = {"O": "object", "U": "text", "T": "text"}
_NUMPY |= {"i": "integer", "u": "integer", "f": "float", "m": "timedelta"}
_NAMES: dict[str, Kind] = {"object": "object", "null": "object"}
_NAMES |= dict.fromkeys(("str", "string", "large_string", "string_view"), "text")
_NAMES |= {f"{sign}int{bits}": "integer" for sign in ("", "u") for bits in (8, 16, 32, 64)}
_NAMES |= {"double": "float", "float64": "float"}
_NAMES |= {f"duration[{unit}]": "timedelta" for unit in ("s", "ms", "us", "ns")}
_FORMATS: dict[str, Kind] = {**dict.fromkeys("bBhHiIlLqQnN", "integer"), "d": "float"}
# An array of Python or ctypes reads these items itself, but neither `memoryview` nor `struct` does.
_OWN_FORMATS: dict[str, Kind] = {**dict.fromkeys("uwZ", "text"), "O": "object"}


def _kind_of_type(dtype: Any) -> tuple[Kind | None, str]:
    """Returns the kind of a type, or None if it is not read, and the name of the type."""
    pandas: Any = sys.modules.get("pandas")
    arrow: Any = sys.modules.get("pyarrow")
    dtype = getattr(dtype, "pyarrow_dtype", dtype)
    if pandas is not None and isinstance(dtype, pandas.SparseDtype):
        return _kind_of_type(dtype.subtype)
    if pandas is not None and isinstance(dtype, pandas.CategoricalDtype):
        return _kind_of_type(dtype.categories.dtype)
    if arrow is not None and isinstance(dtype, arrow.DictionaryType):
        return _kind_of_type(dtype.value_type)
    name = str(getattr(dtype, "name", dtype))
    dtype = getattr(dtype, "numpy_dtype", dtype)
    numpy: Any = sys.modules.get("numpy")
    if numpy is None or not isinstance(dtype, numpy.dtype):
        return _NAMES.get(name.lower()), name
    is_short = dtype.kind == "f" and dtype.itemsize != 8
    has_other_unit = dtype.kind == "m" and numpy.datetime_data(dtype)[0] not in NANOS
    return None if is_short or has_other_unit else _NUMPY.get(dtype.kind), name


def _kind_of_buffer(column: Any) -> tuple[Kind | None, str]:
    """Returns the kind of a buffer's items, or None if they are not read, and a name of the type. A
    sequence that is no buffer has objects."""
    try:
        view = memoryview(column)
    except TypeError:
        return "object", "object"
    name = f"{type(column).__name__} (format {view.format!r}, shape {view.shape})"
    code = view.format.lstrip("@=<>!")
    if view.ndim != 1:
        return None, name
    # Unions and packed structures of ctypes name the format of one byte.
    if code in _FORMATS and struct.calcsize(view.format) == view.itemsize:
        return _FORMATS[code], name
    return None if isinstance(column, memoryview) else _OWN_FORMATS.get(code), name


def _is_arrow(column: Any) -> bool:
    arrow: Any = sys.modules.get("pyarrow")
    return arrow is not None and isinstance(column, (arrow.Array, arrow.ChunkedArray))


def kind_of(column: Any, takes_timedeltas: bool = True) -> Kind:
    """Returns the kind of a column's values. Raises DurationTypeError if its type is not read,
    whatever its values are."""
    if type(column) is list:  # A shortcut: a list is no buffer.
        return "object"
    if isinstance(column, (str, bytes, bytearray)):
        raise TypeError(f"a column must be a sequence, not one {type(column).__name__}")
    pandas: Any = sys.modules.get("pandas")
    if pandas is not None and isinstance(column, pandas.DataFrame):
        raise TypeError("a DataFrame is no column: take its columns one by one")
    dtype = column.type if _is_arrow(column) else getattr(column, "dtype", None)
    kind, name = _kind_of_buffer(column) if dtype is None else _kind_of_type(dtype)
    if kind is None or (kind == "timedelta" and not takes_timedeltas):
        raise DurationTypeError(f"this call reads no column of the type {name}")
    return kind


def timedeltas_of(column: Any, kind: Kind) -> Any:
    """Returns a column of timedeltas as an array of timedelta64, and None for another column."""
    if kind != "timedelta":
        return None
    import numpy

    is_masked = isinstance(column, numpy.ma.MaskedArray)
    given = numpy.asarray(column.filled(numpy.timedelta64("NaT")) if is_masked else column)
    # A type with the name of Arrow's durations can be another library's. Its values are judged one
    # by one.
    return given if given.dtype.kind == "m" else None


def values_of(column: Any, kind: Kind) -> list[Any]:
    """Returns the values, row by row. `is_missing` knows those that are missing."""
    timedeltas = timedeltas_of(column, kind)
    if timedeltas is not None:
        return list(timedeltas.ravel())
    if isinstance(column, memoryview):
        # `tolist` doesn't read formats that name an order of bytes, such as those of ctypes.
        return [value for (value,) in struct.iter_unpack(column.format, column.tobytes())]
    if _is_arrow(column):
        return list(column.to_pylist())
    dtype = getattr(column, "dtype", None)
    if not hasattr(dtype, "kind"):  # The column is neither NumPy's nor pandas'.
        return list(column)
    if hasattr(dtype, "categories"):  # NumPy would make floats of integers beside a gap.
        return list(column.tolist())
    import numpy

    # `tolist` makes None of masked values. NumPy would make floats of pandas' Int64 with a gap.
    # A matrix becomes an array here, masked or not, since its `ravel` still has two dimensions.
    is_plain = isinstance(column, numpy.ndarray)
    flat = numpy.asarray(column, dtype=None if is_plain else object)
    # NumPy takes values such as lists of equal length apart.
    if flat.ndim != getattr(column, "ndim", 1):
        return list(column)
    masked: Any = numpy.ma  # Its calls have no types.
    if isinstance(column, masked.MaskedArray):
        flat = masked.array(flat, mask=masked.getmaskarray(column))
    values: list[Any] = flat.ravel().tolist()
    return values


def is_missing(value: Any) -> bool:
    """Returns whether a value is None, NaT, a float that is NaN, or, if pandas is imported, another
    value that pandas takes for missing."""
    numpy: Any = sys.modules.get("numpy")
    pandas: Any = sys.modules.get("pandas")
    if pandas is not None:
        return value is None or pandas.isna(value) is True
    kinds: Any = (float, numpy.floating, numpy.datetime64, numpy.timedelta64) if numpy else float
    return value is None or (isinstance(value, kinds) and bool(value != value))


def coerced_error_of(value: Any, takes_numbers: bool, index: int) -> DurationTypeError:
    """Returns the error of a number that is refused even if errors are coerced. The index -1 stands
    for none."""
    error = type_error_of(value, takes_numbers, index)
    if index < 0 or not is_number(value):
        return error
    return DurationTypeError(f"{error}, or read the column as texts, in pandas by dtype=str")


def raises_errors(errors: str) -> bool:
    if errors not in ("raise", "coerce"):
        raise ValueError(f"errors must be 'raise' or 'coerce', not {errors!r}")
    return errors == "raise"


@overload
def parse_many(
    texts: Iterable[str],
    *,
    errors: Literal["raise"] = ...,
    no_calc: bool = ...,
    lowercase: bool = ...,
    cn_unit: bool = ...,
    require_unit: bool = ...,
    more_names: bool = ...,
) -> array[int]:
    ...


@overload
def parse_many(
    texts: Iterable[str | SupportsIndex | float],
    *,
    errors: Literal["raise"] = ...,
    no_calc: bool = ...,
    lowercase: bool = ...,
    cn_unit: bool = ...,
    require_unit: Literal[False] = ...,
    more_names: bool = ...,
    default_unit: Unit,
) -> array[int]:
    ...


@overload
def parse_many(
    texts: Iterable[object],
    *,
    errors: Literal["coerce"],
    no_calc: bool = ...,
    lowercase: bool = ...,
    cn_unit: bool = ...,
    require_unit: bool = ...,
    more_names: bool = ...,
    default_unit: Unit = ...,
) -> tuple[array[int], array[int]]:
    ...


def parse_many(
    texts: Any,
    *,
    errors: Errors = "raise",
    no_calc: bool = UNSAID,
    lowercase: bool = False,
    cn_unit: bool = False,
    require_unit: bool = False,
    more_names: bool = False,
    default_unit: Unit = UNNAMED,
) -> array[int] | tuple[array[int], array[int]]:
    """Reads the texts of an iterable, such as a list, and returns their values
    in nanoseconds as an `array('Q')`. Except for `errors`, the options are
    those of `parse_ns`. If you name a default unit, whole numbers are read
    too, as by `parse_ns`.

    With `errors="raise"` the first text that is refused raises a
    DurationError, whose `index` is the text's position. A number that
    `parse_ns` refuses raises an error of the same type. Any other value, such
    as None, raises DurationTypeError. That error is raised even if a text
    before the value is refused.

    With `errors="coerce"` it returns two arrays. The first has the values, and
    0 for each text or number that is refused and for any other value. The
    second has the positions of these zeros. But DurationTypeError is raised
    even then for a column of a type that is never read, such as datetime64,
    and for a value in a column of numbers without a default unit, or in one of
    timedeltas.

    >>> duration_str.parse_many(["1s", "2m"])
    array('Q', [1000000000, 120000000000])
    >>> duration_str.parse_many(["1s", 1500], default_unit="ms")
    array('Q', [1000000000, 1500000000])
    >>> duration_str.parse_many(["1s", "soon", None], errors="coerce")
    (array('Q', [1000000000, 0, 0]), array('Q', [1, 2]))
    """
    raises = raises_errors(errors)
    reading = _native.reading(
        no_calc=no_calc,
        lowercase=lowercase,
        cn_unit=cn_unit,
        require_unit=require_unit,
        more_names=more_names,
        default_unit=default_unit,
    )
    kind = kind_of(texts, takes_timedeltas=False)
    if getattr(texts, "ndim", 1) != 1:
        raise TypeError(f"the texts must be one column, not {texts.ndim} dimensions")
    values = values_of(texts, kind)
    if not raises and not reading[1] and kind in ("integer", "float"):
        for index, value in enumerate(values):
            if not is_missing(value):
                raise coerced_error_of(value, False, index)
    nanos = array("Q", [0]) * len(values)
    refused = _native.read_list(values, nanos, reading, raises, 0, None)
    return nanos if raises else (nanos, array("Q", refused))
