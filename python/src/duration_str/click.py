"""A type for options of Click. Only this module imports Click."""

# mypy: disallow-any-generics=False
# In Click 8.4 the base class takes a type parameter, which earlier versions refuse.

from __future__ import annotations

import datetime
from typing import Any

import click

from ._native import parse
from ._options import WithOptions
from ._errors import DurationError


class DurationParamType(WithOptions, click.ParamType):
    """Reads a timedelta from a text, under these options. If a text is refused, Click shows the
    text and the error's line. The DurationError is the `__cause__` of the BadParameter. A default
    may also be a timedelta."""

    name = "duration"

    def __repr__(self) -> str:
        return "DURATION"

    def convert(
        self, value: Any, param: click.Parameter | None, ctx: click.Context | None
    ) -> datetime.timedelta:
        if isinstance(value, datetime.timedelta):
            return value
        try:
            return parse(value, **self._options)
        except DurationError as error:
            raise click.BadParameter(f"{value!r}: {error}", ctx, param) from error


DURATION = DurationParamType()
"""For `click.option(type=DURATION)`"""
