"""The base class of the types for argparse, Click and pydantic."""

from __future__ import annotations

from typing import Any

from ._lists import Unit
from ._native import reading
from ._errors import UNNAMED, UNSAID


class WithOptions:
    """Keeps the options under which a type reads."""

    def __init__(
        self,
        *,
        no_calc: bool = UNSAID,
        lowercase: bool = False,
        cn_unit: bool = False,
        require_unit: bool = False,
        more_names: bool = False,
        default_unit: Unit = UNNAMED,
    ) -> None:
        given: dict[str, Any] = {
            "no_calc": no_calc,
            "lowercase": lowercase,
            "cn_unit": cn_unit,
            "require_unit": require_unit,
            "more_names": more_names,
            "default_unit": default_unit,
        }
        # This raises an error if the default unit is unknown, or if the options contradict each
        # other.
        _, self._takes_numbers = reading(**given)
        chosen = {name: value for name, value in given.items() if value and value is not UNNAMED}
        self._options: dict[str, Any] = chosen
