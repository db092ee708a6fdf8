"""A type for arguments of argparse. Only this module imports argparse."""

from __future__ import annotations

import argparse
import datetime

from ._native import parse
from ._options import WithOptions
from ._errors import DurationError


class DurationType(WithOptions):
    """Reads a timedelta from a text, under these options. If a text is refused, argparse shows the
    text and the error's line. The DurationError is the `__cause__` of the ArgumentTypeError."""

    def __repr__(self) -> str:
        return "DURATION"

    def __call__(self, text: str) -> datetime.timedelta:
        try:
            return parse(text, **self._options)
        except DurationError as error:
            raise argparse.ArgumentTypeError(f"{text!r}: {error}") from error


DURATION = DurationType()
"""For `parser.add_argument(type=DURATION)`"""
