"""Makes the regular expressions of the sentences of docs/GRAMMAR.md from the table of units.

They need no flags, except PCRE's flag for UTF-8. They use only syntax that ECMA 262, RE2, PCRE,
Python, Perl and Java share. At each character at most one way to go on fits, so going back after a
mismatch takes few steps.
"""
import units

BLANKS = r"[ \t\n\r]*"
NUMBER = f"[0-9]+{BLANKS}"
# The letter `U` stands for the pattern of a unit.
UNIT = f"U{BLANKS}"

# If no unit is required, `$` lets a text end after a unit, so that `U` occurs only once.
SENTENCES = {
    (False, False): f"^{BLANKS}{NUMBER}"
    rf"(?:{UNIT}(?:(?:[+*]{BLANKS})?{NUMBER}|$)|[+*]{BLANKS}{NUMBER})*$",
    (True, False): f"^{BLANKS}{NUMBER}(?:{UNIT}(?:{NUMBER}|$))*$",
    (False, True): f"^{BLANKS}{NUMBER}{UNIT}(?:(?:[+*]{BLANKS})?{NUMBER}{UNIT})*$",
    (True, True): f"^{BLANKS}(?:{NUMBER}{UNIT})+$",
}


def one_of(letters, capitals):
    """With `capitals` an ASCII letter stands for its capital, too."""
    cases = [
        case
        for letter in letters
        for case in ((letter.upper(), letter) if capitals and letter.isascii() else letter)
    ]
    return cases[0] if len(cases) == 1 else f"[{''.join(cases)}]"


def any_of(names, capitals):
    """Names that begin alike share their beginning, and letters after which the same can follow
    share a class."""
    follows = {}
    for name in names:
        follows.setdefault(name[:1], []).append(name[1:])
    may_end = follows.pop("", None)
    firsts = {}
    for letter, tails in follows.items():
        firsts.setdefault(any_of(tails, capitals), []).append(letter)
    branches = [one_of(letters, capitals) + tail for tail, letters in firsts.items()]
    if may_end and [*firsts] == [""]:
        return f"{branches[0]}?"
    if may_end and branches:
        return f"(?:{'|'.join(branches)})?"
    return "|".join(branches) if len(branches) < 2 else f"(?:{'|'.join(branches)})"


def units_by(lowercase, cn_unit, more_names=False):
    table = list(units.table())
    names = [name for unit in table for name in unit.names]
    if more_names:
        names += [name for unit in units.more() for name in unit.names]
    if cn_unit:
        names += [name for unit in table for name in unit.chinese]
    return any_of(names, not lowercase)


def pattern(no_calc=False, lowercase=False, cn_unit=False, require_unit=False, more_names=False):
    unit = units_by(lowercase, cn_unit, more_names)
    return SENTENCES[no_calc, require_unit].replace("U", unit)
