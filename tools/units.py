"""Reads the table of units in crates/duration_str_base/specs/Units.antt, and the names in
MoreNames.antt.
"""
import pathlib
import re
import typing

CRATE = pathlib.Path(__file__).resolve().parent.parent / "crates/duration_str_base"
ROW = re.compile(
    r'^row_of (\w+) = record \{ nanos = (\w+); printed = codes "(.*?)"; names = (.*?); chinese = (.*?) \}$',
    re.M,
)

MORE = re.compile(r"^more_names (\w+) = (.*)$", re.M)


class Unit(typing.NamedTuple):
    variant: str
    length: int
    printed: str
    long: str
    names: list
    chinese: list


def table():
    for variant, length, printed, *words in ROW.findall(
        (CRATE / "specs/Units.antt").read_text(encoding="utf-8")
    ):
        names, chinese = (re.findall('"(.*?)"', row) for row in words)
        yield Unit(variant, int(length), printed, names[-2], names, chinese)


def more():
    """The units with only the names that the table with more names adds."""
    text = (CRATE / "specs/MoreNames.antt").read_text(encoding="utf-8")
    names = {variant: re.findall('"(.*?)"', row) for variant, row in MORE.findall(text)}
    for unit in table():
        yield unit._replace(names=names[unit.variant], chinese=[])
