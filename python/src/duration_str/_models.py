"""The types for fields of pydantic's models. This module imports pydantic only when it is used."""

from __future__ import annotations

import datetime
from importlib import import_module
from typing import Annotated, Any

from ._native import format, parse
from ._options import WithOptions
from ._pattern import pattern
from ._errors import DurationError, DurationTypeError


def _read(value: Any, options: dict[str, Any]) -> Any:
    """A timedelta that is not negative is returned as it is."""
    core = import_module("pydantic_core")
    if isinstance(value, datetime.timedelta):
        if value < datetime.timedelta(0):
            raise core.PydanticCustomError("duration_negative", "a negative duration has no text")
        return value
    try:
        return parse(value, **options)
    except DurationTypeError:
        if "default_unit" not in options:
            raise core.PydanticKnownError("string_type") from None
        line = "Input should be a valid string or integer"
        raise core.PydanticCustomError("duration_type", line) from None
    except DurationError as error:
        told = {
            "cause": error.cause.name,
            "place": error.place,
            "pos": error.pos,
            "found": error.found,
            "expected": [str(each.name).lower() for each in error.expected],
            "help": error.help.name if error.help else None,
            "suggestion": error.suggestion,
            "span": error.span,
            "mended": error.mended,
        }
        # pydantic replaces `{NAME}` in the message by the context's value of that name. So a
        # message that contains one of its names in braces gets no context.
        context = None if any(f"{{{name}}}" in str(error) for name in told) else told
        raise core.PydanticCustomError("duration", str(error), context) from None


_LONGEST = datetime.timedelta(microseconds=2**64 // 1000)


def _print(value: Any) -> str:
    """A text is returned as it is, since it can be a default that isn't validated."""
    if isinstance(value, str):
        return value
    if value > _LONGEST:
        raise ValueError("a duration of over 584 years can't be read back")
    return format(value)


class _Shown(dict[str, Any]):
    """A JSON schema, to which pydantic adds a field's default last. A default that is a timedelta
    comes in ISO 8601, or as a number of seconds. This class replaces it by the duration's text, if
    it has one."""

    def __setitem__(self, key: str, value: Any) -> None:
        if key == "default" and (isinstance(value, float) or str(value).startswith("P")):
            try:
                value = format(
                    import_module("pydantic").TypeAdapter(datetime.timedelta).validate_python(value)
                )
            except ValueError:
                pass  # A negative default has no text.
        super().__setitem__(key, value)


class DurationField(WithOptions):
    """Makes pydantic 2 read a timedelta from a text, under these options, and
    write it as a text in JSON. If you name a default unit, numbers can be read
    too, such as `1500` in JSON. Use this class in `Annotated`.

    >>> from datetime import timedelta
    >>> from typing import Annotated
    >>> in_millis = duration_str.DurationField(default_unit="ms")
    >>> Milliseconds = Annotated[timedelta, in_millis]
    """

    def __repr__(self) -> str:
        options = ", ".join(f"{name}={value!r}" for name, value in self._options.items())
        return f"duration_str.DurationField({options})"

    def __eq__(self, other: object) -> bool:
        return isinstance(other, DurationField) and self._options == other._options

    def __hash__(self) -> int:
        return hash(tuple(self._options.items()))

    def __get_pydantic_core_schema__(self, source: Any, handler: Any) -> Any:
        schema: Any = import_module("pydantic_core.core_schema")
        write = schema.plain_serializer_function_ser_schema(
            _print, return_schema=schema.str_schema(), when_used="json"
        )

        # If a field may have other types too, pydantic's errors name this function.
        def duration(value: Any) -> Any:
            return _read(value, self._options)

        return schema.no_info_before_validator_function(
            duration, handler(datetime.timedelta), serialization=write
        )

    def __get_pydantic_json_schema__(self, schema: Any, handler: Any) -> Any:
        kinds = [{"type": "str", "pattern": pattern(**self._options)}]
        if self._takes_numbers and handler.mode == "validation":
            kinds.insert(0, {"type": "int"})
        told = handler({"type": "union", "choices": kinds} if kinds[1:] else kinds[0])
        # pydantic also writes the limits, which JSON Schema doesn't have for a string.
        return _Shown(
            (key, value) for key, value in told.items() if key not in ("gt", "ge", "lt", "le")
        )


Duration = Annotated[datetime.timedelta, DurationField()]
"""A timedelta in a model of pydantic 2. A text is read, and a timedelta is kept if it is not
negative. In JSON it is the printed text, up to 584 years. The limits `gt`, `ge`, `lt` and `le` of a
`Field` are timedeltas."""
DurationRequireUnit = Annotated[datetime.timedelta, DurationField(require_unit=True)]
"""A `Duration`, but a number without a unit is refused, as in `90` and `1h 30`."""
