"""Compares the rows of rust/vectors.json with the reference parser. tests/repository names the rows
that differ. tests/compare takes the texts and durations.
"""
import itertools
import json
import pathlib
import re

import reference_parser
from reference_parser import (
    BLANKS,
    CHOICES,
    PLACES,
    ROUNDINGS,
    SECOND,
    STYLES,
    SWITCHES,
    UNITS,
    Choice,
    as_packages_mean,
)

FILE = "rust/vectors.json"
KINDS = (*reference_parser.KINDS, "end")


def tables():
    return json.loads((pathlib.Path(__file__).resolve().parent.parent / FILE).read_text("utf-8"))


def texts():
    """The texts of values and refusals, each with a choice and with the nanoseconds that it is read
    as, or None.
    """
    rows = tables()
    known = {*rows["options"]}
    for group, options in itertools.product(rows["values"], CHOICES):
        named = Choice.named(group["on"])
        rules = named.options[len(SWITCHES) :]
        choice = Choice(options.with_rules(rules), named.default_unit)
        is_read = {*group["on"]} & known <= {*options.words()} <= known - {*group["off"]}
        for secs, nanos, each in group["rows"]:
            nanos = secs * SECOND + nanos if is_read else None
            yield from ((text, choice, nanos) for text in each)
    for text, names, *_ in rows["refused"]:
        yield text, Choice.named(names), None
    for unit, number, secs, nanos in rows["numbers"]:
        yield str(number), in_unit(unit), secs * SECOND + nanos
    for unit, number, _ in rows["refused_numbers"]:
        yield str(number), in_unit(unit), None


def in_unit(name):
    return as_packages_mean(Choice.named([f"default_unit={name}"]))


def refusals():
    """The rows of refusals, each with what the reference parser has for it, and with its line."""
    rows = tables()
    for row in rows["refused"]:
        text, names, _, _, _, _, line, *_ = row
        answer = Choice.named(names).answer(text)
        place = None if answer.place is None else len(text[: answer.place].encode())
        kinds = [kind for kind in KINDS if kind in answer.expected]
        cause = answer.cause.replace(" ", "_").upper()
        wanted = [text, names, cause, place, answer.found or None, kinds]
        if cause != "READ":
            found = reference_parser.help_of(text, answer)
            wanted += [reference_parser.one_line(text, answer), spaces_of(text, answer)]
            wanted += [found and found.code(), answer.mend and answer.mend.written]
            wanted += [span_of(text, answer), reference_parser.mended(text, Choice.named(names))]
        yield row, wanted, line
    for row in rows["refused_numbers"]:
        unit, number, line = row
        answer = in_unit(unit).answer(str(number))
        wanted = [unit, number]
        if answer.cause != "read":
            wanted.append(reference_parser.one_line(str(number), answer))
        yield row, wanted, line


def span_of(text, answer):
    """The bytes where the replaced part begins and ends"""
    if answer.mend is None:
        return None
    return [len(text[:place].encode()) for place in (answer.mend.start, answer.mend.end)]


def spaces_of(text, answer):
    caret = re.search(r"\n( *)\^\n.*\Z", reference_parser.report(text, answer))
    return caret and len(caret[1])


def durations():
    """The rows of printed durations, each with its nanoseconds, its units and its parts."""
    rows = tables()
    yield from read_durations(rows["printed"] + rows["printed_as_zero"])


def rounded():
    """The same for the rows of rounded durations."""
    yield from read_durations(tables()["rounded"])


def read_durations(rows):
    for row in rows:
        text, limits = row[:2]
        whole = re.fullmatch(r"(\d+) s (\d+) ns", text)
        length = int(whole[1]) * SECOND + int(whole[2]) if whole else Choice().answer(text).value
        chosen = {PLACES[name.lower()] for name in limits.get("units", PLACES)}
        between = range(
            PLACES[limits.get("largest", "y")], PLACES[limits.get("smallest", "ns")] + 1
        )
        units = tuple(UNITS[place] for place in between if place in chosen)
        yield row, length, units, limits.get("parts", len(UNITS))


def differing():
    rows, named = tables(), set()
    for text, choice, nanos in texts():
        if (wanted := choice.answer(text).value) != nanos and text not in named:
            named.add(text)
            yield [text, choice.words(), nanos], wanted
    yield from ((row, wanted) for row, wanted, _ in refusals() if row != wanted)
    for row in rows["from"]:
        unit, text, *_ = row
        length = UNITS[PLACES[unit]].length
        wanted = [reference_parser.bare_number(text, length, way) for way in ("down", "up")]
        if None in wanted:
            wanted = [f"duration of over 584 years in {reference_parser.quote(text.strip(BLANKS))}"]
        if row != [unit, text, *wanted]:
            yield row, wanted
    for row, length, units, parts in durations():
        short, long = (
            reference_parser.print_within(length, units, parts, style)
            for style in ("short", "long")
        )
        _, rest = reference_parser.break_down(length, units, parts)
        wanted = [short, long, *divmod(rest, SECOND)]
        if row[2:] != wanted:
            yield row, wanted
        if (row in rows["printed"]) != bool(units and parts):
            yield row, "the other table for it"
    for row, length, units, parts in rounded():
        lengths = (reference_parser.round_to(length, units, parts, way) for way in ROUNDINGS)
        wanted = [
            None if length is None else reference_parser.print_within(length, units, parts)
            for length in lengths
        ]
        if row[2:] != wanted:
            yield row, row[:2] + wanted
    if rows["styles"] != [*STYLES]:
        yield rows["styles"], STYLES


def problems():
    yield from (f"{FILE}: {name} is empty" for name, rows in tables().items() if not rows)
    for row, wanted in differing():
        row, wanted = (json.dumps(each, ensure_ascii=False) for each in (row, wanted))
        yield f"{FILE}: for {row} the reference parser has {wanted}"
