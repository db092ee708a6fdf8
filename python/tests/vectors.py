"""Reads vectors.json, by which tests of several packages check how texts are read and refused, and
how durations are printed."""

import itertools
import json
import pathlib

from duration_str import DurationError

# In a clone the file is beside the package, and in an sdist inside it.
FOLDERS = pathlib.Path(__file__).parents[1:3]
FILE = next(file for folder in FOLDERS if (file := folder / "rust/vectors.json").exists())
VECTORS = json.loads(FILE.read_text(encoding="utf-8"))

# Values that are refused in milliseconds, each with the error's line
REFUSED_IN_MILLIS = [row[1:] for row in VECTORS["refused_numbers"] if row[0] == "ms"]
REFUSED_IN_MILLIS += [
    [True, "a duration must be a str or a whole number, not bool"],
    [2**64, 'number of 2^64 or more in "18446744073709551616"'],
]


def words_of(names):
    """A name is that of an option that is on, or a default unit such as `default_unit=ms`."""
    words = {name: True for name in names if "=" not in name}
    return words | dict(name.split("=") for name in names if "=" in name)


def others_of(names):
    """Returns the names that are not among the options, such as `default_unit=ms`."""
    return tuple(name for name in names if name not in VECTORS["options"])


# Each choice of the options, with the other names of each group
OTHERS = sorted({others_of(group["on"]) for group in VECTORS["values"]})
CHOICES = itertools.product((False, True), repeat=len(VECTORS["options"]))
CHOICES = [[*itertools.compress(VECTORS["options"], choice)] for choice in CHOICES]
CHOICES = [[*names, *others] for names in CHOICES for others in OTHERS]


def values_under(names):
    """Gives texts of the vectors with their values in nanoseconds. A value is None if this choice
    refuses the text."""
    for group in VECTORS["values"]:
        if others_of(names) != others_of(group["on"]):
            continue
        is_read = {*group["on"]} <= {*names} and not {*group["off"]} & {*names}
        for secs, nanos, texts in group["rows"]:
            yield from ((text, secs * 10**9 + nanos if is_read else None) for text in texts)


def value_columns():
    for names in CHOICES:
        refused = [(text, None) for text, on, *_ in VECTORS["refused"] if {*on} == {*names}]
        yield words_of(names), [*values_under(names), *refused]


def refused_positions(values):
    return [index for index, value in enumerate(values) if value is None]


def error_of(call, *arguments, **words):
    try:
        value = call(*arguments, **words)
    except DurationError as error:
        return error
    raise AssertionError(f"{arguments} is read as {value}")


def reason_of(line, cause, pos):
    """Returns the line without its column, if it has one."""
    if cause != "SYNTAX":
        return line
    front, column, rest = line.partition(f" at column {pos + 1}")
    assert column, line
    return front + rest


def told_by(error):
    """Returns all that an error says."""
    names = "text cause place pos expected found help suggestion span mended index reason report"
    return {"line": str(error)} | {name: getattr(error, name) for name in names.split()}


def near(words):
    """Words with a character more, less or exchanged at each place, and the words themselves."""
    found = set()
    for word in words:
        for place in range(len(word) + 1):
            here, after = word[place : place + 1], word[place + 1 :]
            for other in ("", here.swapcase(), *"05emsx_+-*., \t\n\0\xa0٣０µμſK分\ud800"):
                found |= {word[:place] + other + after, word[:place] + other + here + after}
    return found
