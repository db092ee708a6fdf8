from array import array
from collections.abc import Callable, Iterable
from datetime import timedelta
from typing import Any, Literal, Protocol, SupportsIndex, overload, type_check_only

from ._lists import Rounding, Style, Unit
from ._parts import Breakdown

@type_check_only
class NumpyDuration(Protocol):
    """An integer of NumPy, or its timedelta64. Both have a denominator, which NumPy's
    floats lack."""

    @property
    def denominator(self) -> Any: ...
    def astype(self, dtype: str, /) -> Any: ...

@overload
def parse_ns(
    text: str,
    /,
    *,
    no_calc: bool = False,
    lowercase: bool = False,
    cn_unit: bool = False,
    require_unit: bool = False,
    more_names: bool = False,
) -> int: ...
@overload
def parse_ns(
    text: str | SupportsIndex | float,
    /,
    *,
    no_calc: bool = False,
    lowercase: bool = False,
    cn_unit: bool = False,
    require_unit: Literal[False] = False,
    more_names: bool = False,
    default_unit: Unit,
) -> int: ...
@overload
def parse(
    text: str,
    /,
    *,
    no_calc: bool = False,
    lowercase: bool = False,
    cn_unit: bool = False,
    require_unit: bool = False,
    more_names: bool = False,
) -> timedelta: ...
@overload
def parse(
    text: str | SupportsIndex | float,
    /,
    *,
    no_calc: bool = False,
    lowercase: bool = False,
    cn_unit: bool = False,
    require_unit: Literal[False] = False,
    more_names: bool = False,
    default_unit: Unit,
) -> timedelta: ...
@overload
def parse_seconds(
    text: str,
    /,
    *,
    no_calc: bool = False,
    lowercase: bool = False,
    cn_unit: bool = False,
    require_unit: bool = False,
    more_names: bool = False,
) -> float: ...
@overload
def parse_seconds(
    text: str | SupportsIndex | float,
    /,
    *,
    no_calc: bool = False,
    lowercase: bool = False,
    cn_unit: bool = False,
    require_unit: Literal[False] = False,
    more_names: bool = False,
    default_unit: Unit,
) -> float: ...
def format(
    value: int | timedelta | NumpyDuration,
    /,
    *,
    parts: int = 11,
    units: Iterable[Unit] | None = None,
    largest: Unit = "y",
    smallest: Unit = "ns",
    rounding: Rounding | None = None,
    style: Style = "short",
) -> str: ...
def breakdown(
    value: int | timedelta | NumpyDuration,
    /,
    *,
    parts: int = 11,
    units: Iterable[Unit] | None = None,
    largest: Unit = "y",
    smallest: Unit = "ns",
    rounding: Rounding | None = None,
) -> Breakdown: ...
def reading(
    *,
    no_calc: bool,
    lowercase: bool,
    cn_unit: bool,
    require_unit: bool,
    more_names: bool,
    default_unit: Unit = "s",
) -> tuple[int, bool]: ...
def limits(
    *,
    parts: int,
    units: Iterable[Unit] | None,
    largest: Unit,
    smallest: Unit,
    rounding: Rounding | None,
    style: Style,
) -> tuple[int, int, int, int]: ...
def format_list(
    values: list[Any],
    function: Callable[[Any], int | None],
    texts: list[str | None],
    limits: tuple[int, int, int, int],
    /,
) -> None: ...
def read_list(
    values: list[Any],
    nanos: array[int],
    reading: tuple[int, bool],
    raises: bool,
    first: int,
    function: Callable[[Any, int], int | Exception] | None,
    errors: list[Exception] = ...,
    /,
) -> list[int]: ...
def answer(
    text: str, options: int, /
) -> tuple[str, int, int | None, int | None, int, str | None]: ...
def reason(text: str, options: int, /) -> str: ...
def report(text: str, options: int, /) -> str: ...
def help(text: str, options: int, /) -> tuple[int, str | None, int, int]: ...
def mended(text: str, options: int, /) -> tuple[str, int] | None: ...
