"""The regular expressions of the texts that the grammar allows."""

from __future__ import annotations

from ._lists import SENTENCES, UNIT_PATTERNS, Unit
from ._native import reading
from ._errors import UNNAMED, UNSAID


def pattern(
    *,
    no_calc: bool = UNSAID,
    lowercase: bool = False,
    cn_unit: bool = False,
    require_unit: bool = False,
    more_names: bool = False,
    default_unit: Unit = UNNAMED,
) -> str:
    """Returns a regular expression for JSON Schema, OpenAPI and other validators
    that check a text before your program reads it. It matches exactly the
    texts that the grammar allows under these options. `parse` reads such a
    text, unless a number, a term, a step or the value is too large, or a sum
    and a product are mixed.

    It needs no flags, begins with `^` and ends with `$`. `docs/GRAMMAR.md` in
    the repository says in which languages you can use it.

    >>> import re
    >>> strict = re.compile(duration_str.pattern(require_unit=True))
    >>> [*map(bool, map(strict.search, ["1h 30m", "90", "5 mins"]))]
    [True, False, False]
    """
    bits, _ = reading(
        no_calc=no_calc,
        lowercase=lowercase,
        cn_unit=cn_unit,
        require_unit=require_unit,
        more_names=more_names,
        default_unit=default_unit,
    )
    # The bits are those of the library for C, in the order of the keywords.
    sentence = SENTENCES[bits & 1 | bits >> 2 & 2]
    return sentence.replace("U", UNIT_PATTERNS[bits >> 1 & 3 | bits >> 2 & 4])
