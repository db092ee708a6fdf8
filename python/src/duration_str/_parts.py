"""The parts of a duration"""

# NamedTuple compiles annotations that are texts. That takes longer than all else in this module. So
# annotations are no texts here.

from typing import NamedTuple

from ._lists import PrintedUnit


class Part(NamedTuple):
    """A part of a duration, such as `Part(count=3, unit='min')`."""

    # Each tuple has a method of this name.
    count: int  # type: ignore[assignment]
    """How many there are of the unit, at least 1."""
    unit: PrintedUnit
    """The unit, by the name that `format` prints in the short style."""


class Breakdown(NamedTuple):
    """A duration as counts of units, which `breakdown` returns."""

    parts: tuple[Part, ...]
    """The parts whose counts are not 0, the largest unit first."""
    rest_ns: int
    """The nanoseconds that no part has."""


# `breakdown` takes them from here, since a program can put other objects into the package's names.
Part.__module__ = Breakdown.__module__ = "duration_str"
