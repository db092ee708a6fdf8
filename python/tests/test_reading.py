import concurrent.futures
import datetime
import decimal
import enum
import fractions
import functools
import itertools
import random
import re
import subprocess
import sys
import typing
import unittest

import duration_str
import duration_str.argparse
from duration_str import (
    DurationError,
    DurationTypeError,
    Unit,
    parse,
    parse_many,
    parse_ns,
    parse_seconds,
    to_timedelta,
)
from tests.vectors import CHOICES, REFUSED_IN_MILLIS, VECTORS, error_of, values_under, words_of


class Whole(enum.IntEnum):
    FEW = 1
    MANY = 1_500

    def __str__(self):
        return self.name


class Place:
    """This can be the place of an item in a list, but is no number."""

    def __index__(self):
        return 1


# Texts that can't name a default unit
NO_UNITS = ["", " ", "mins", "年", "毫秒", "1分", "m 0s", "1", "2*s", "\u039cs", "\U0001f600"]
NO_UNITS += ["\ud800", "ms\udc00", "\ud800s", "m" * 15, "m" * 16, "milliseconds" * 10_000]

CALLS = [
    lambda **words: parse("1s", **words),
    lambda **words: parse_ns("1s", **words),
    lambda **words: parse_seconds("1s", **words),
    duration_str.DurationField,
    duration_str.argparse.DurationType,
]
for _errors in ("raise", "coerce"):
    CALLS += [
        functools.partial(parse_many, ["1s"], errors=_errors),
        functools.partial(to_timedelta, None, errors=_errors),
    ]


def value_of(text, options):
    try:
        return parse_ns(text, **options)
    except DurationError:
        return None


class Reading(unittest.TestCase):
    def test_reads_the_vectors(self):
        for names in CHOICES:
            options = words_of(names)
            for text, value in values_under(names):
                with self.subTest(text=text, **options):
                    self.assertEqual(value_of(text, options), value)

    def test_rounds_down_to_microseconds(self):
        self.assertEqual(
            parse("3m + 13s + 29ms"), datetime.timedelta(minutes=3, seconds=13, milliseconds=29)
        )
        self.assertEqual(str(parse("3m + 13s + 29ms")), "0:03:13.029000")
        self.assertEqual(parse("1999ns"), datetime.timedelta(microseconds=1))
        self.assertEqual(parse_ns("1999ns"), 1999)
        self.assertEqual(parse("999ns"), datetime.timedelta(0))
        longest = parse(f"{2**64 - 1}ns")
        self.assertEqual(longest // datetime.timedelta(microseconds=1), (2**64 - 1) // 1000)
        self.assertEqual(parse("1分", cn_unit=True), datetime.timedelta(minutes=1))
        self.assertEqual(parse("1h 30m", require_unit=True), datetime.timedelta(minutes=90))

    def test_makes_timedeltas_of_all_digits(self):
        day = 86_400 * 10**6
        most = 2**64 // 1000
        micros = {0, 1, most}
        for unit in [1, 1_000, 10**6, 300 * 10**6, day, 1_000 * day]:
            micros.update(count * unit + some for count in range(1, 1_000) for some in (-1, 0, 1))
        micros.update(random.Random(11).randrange(most) for _ in range(1_000))
        for count in sorted(micros):
            if count <= most:
                # The first call can make timedeltas that the second one finds.
                for read in [parse(f"{count}us"), parse(f"{count}us")]:
                    self.assertEqual(read, datetime.timedelta(microseconds=count))
                    self.assertIs(type(read), datetime.timedelta)

    def test_makes_timedeltas_if_a_mock_stood_in_their_place(self):
        program = """
import datetime, unittest.mock
with unittest.mock.patch("datetime.timedelta", resolution=datetime.timedelta.resolution):
    from duration_str import parse
assert parse("90s") == datetime.timedelta(seconds=90)
"""
        subprocess.run([sys.executable, "-c", program], check=True)

    def test_keeps_one_timedelta_of_a_digit(self):
        # While the module datetime in Python multiplies, another call can make the same timedelta.
        program = """
import gc, sys
sys.modules["_datetime"] = None
from datetime import timedelta
from duration_str import parse

multiply = timedelta.__mul__

def parse_meanwhile(value, count):
    timedelta.__mul__ = multiply
    parse("7s")
    return multiply(value, count)

def counted():
    return sum(type(each) is timedelta for each in gc.get_objects())

timedelta.__mul__ = parse_meanwhile
before = counted()
assert parse("7s") == timedelta(seconds=7)
assert counted() - before == 1, counted() - before
"""
        subprocess.run([sys.executable, "-c", program], check=True)

    def test_counts_the_default_unit(self):
        for name in typing.get_args(Unit):
            # The micro sign's capital in Unicode is a Greek letter, which no unit's name has.
            capitals = name.upper().replace("\u039c", "µ")
            for each in [name, capitals, capitals[0] + name[1:]]:
                self.assertEqual(parse_ns("3", default_unit=each), parse_ns(f"3{name}"), each)
        self.assertEqual(parse("1s 500", default_unit="ms"), datetime.timedelta(seconds=1.5))
        self.assertEqual(parse_seconds("1500", default_unit="ms", lowercase=True), 1.5)
        with self.assertRaises(DurationError):
            parse_ns("90s*2", default_unit="s", no_calc=True)

    def test_reads_numbers_in_a_unit_that_is_named(self):
        for name in typing.get_args(Unit):
            self.assertEqual(parse_ns(3, default_unit=name), parse_ns(f"3{name}"))
        half = datetime.timedelta(seconds=1.5)
        for number in [1500, 1500.0, "1500", Whole.MANY]:
            self.assertEqual(parse(number, default_unit="ms"), half)
            self.assertEqual(parse_seconds(number, default_unit="ms", no_calc=True), 1.5)
        for number in [0, -0.0]:
            self.assertEqual(parse_ns(number, default_unit="s"), 0)
        self.assertEqual(parse_ns(2**64 - 1, default_unit="ns"), 2**64 - 1)
        self.assertEqual(parse_ns(2.0**53 - 1, default_unit="ns"), 2**53 - 1)
        for number in [-1, -1.0, -(2.0**53), 2**64, 1.5, 0.1, 1e-07, 10**4_000]:
            texts = [str(number), str(number).removesuffix(".0")]
            for unit in ["ns", "s", "y"]:
                with self.subTest(number=number, unit=unit):
                    with self.assertRaises(DurationError) as by_number:
                        parse_ns(number, default_unit=unit)
                    error = by_number.exception
                    self.assertIn(error.text, texts)
                    with self.assertRaises(DurationError) as by_text:
                        parse_ns(error.text, default_unit=unit)
                    self.assertEqual(vars(error), vars(by_text.exception))
                    self.assertEqual(str(error), str(by_text.exception))
        with self.assertRaisesRegex(ValueError, "4300 digits"):
            parse_ns(10**5_000, default_unit="ms")
        others = [True, None, float("nan"), b"1", [1], datetime.timedelta(1), decimal.Decimal(1)]
        for value in [*others, fractions.Fraction(1), Place()]:
            with self.assertRaisesRegex(DurationTypeError, "must be a str or a whole number, not "):
                parse(value, default_unit="ms")
        for number in [2.0**53, 2.0**64, 1e22, float("inf")]:
            line = r"not a float of 2\*\*53 or more, which can have lost digits$"
            with self.assertRaisesRegex(DurationTypeError, line):
                parse(number, default_unit="ms")

    def test_reads_the_numbers_of_the_vectors(self):
        for unit, number, secs, nanos in VECTORS["numbers"]:
            for value in [number, float(number), str(number)]:
                self.assertEqual(parse_ns(value, default_unit=unit), secs * 10**9 + nanos)
                self.assertEqual(
                    parse_many([value], default_unit=unit).tolist(), [secs * 10**9 + nanos]
                )
        for unit, number, line in VECTORS["refused_numbers"]:
            for value in (number, str(number)):
                self.assertEqual(str(error_of(parse_ns, value, default_unit=unit)), line)
            self.assertEqual(parse_many([number], errors="coerce", default_unit=unit)[1][0], 0)

    def test_says_why_it_refuses_numbers(self):
        for value, line in REFUSED_IN_MILLIS:
            for call in [parse, parse_ns, parse_seconds]:
                with self.assertRaisesRegex(ValueError, f"^{re.escape(line)}$"):
                    call(value, default_unit="ms")

    def test_says_how_numbers_are_read(self):
        for value in [1, 1.5, Whole.FEW]:
            for words in ({}, {"require_unit": True}, {"no_calc": True}):
                with self.assertRaisesRegex(
                    DurationTypeError, "^a duration's .*default_unit='ms'$"
                ):
                    parse_ns(value, **words)
        for value in [True, None, b"1", float("nan")]:
            with self.assertRaisesRegex(DurationTypeError, "must be a str, not [A-Za-z]*$"):
                parse_ns(value)

    def test_wants_one_default_unit(self):
        names = "one of y, q, mon, w, d, h, min, s, ms, µs or us, ns, not "
        rows = [
            (
                {"default_unit": name},
                ValueError,
                f"^default_unit must be {names}{re.escape(repr(name))}$",
            )
            for name in NO_UNITS
        ]
        rows += [({"default_unit": unit}, TypeError, names) for unit in (None, 8, b"s")]
        for others in ({}, {"lowercase": True}):
            both = {"require_unit": True, "default_unit": "ms", **others}
            rows += [(both, ValueError, "^default_unit can't be named if require_unit is on$")]
        rows += [({"require_unit": True, "default_unit": "s"}, ValueError, "can't be named")]
        for (words, error, line), call in itertools.product(rows, CALLS):
            with self.subTest(call=call, **words):
                with self.assertRaisesRegex(error, line) as raised:
                    call(**words)
                self.assertNotIsInstance(raised.exception, DurationError)
        self.assertEqual(parse_ns("1s", require_unit=False, default_unit="ms"), 10**9)

    def test_reads_no_factors_that_would_count_the_default_unit(self):
        line = "^no_calc can't be False if default_unit is not the second: a factor would count "
        for unit, off in itertools.product(["ms", "y", "m", "ns", "Min"], [False, 0, None]):
            for others in ({}, {"require_unit": False, "lowercase": True}):
                given = {"no_calc": off, "default_unit": unit, **others}
                for call, words in itertools.product(CALLS, [given, dict(reversed(given.items()))]):
                    with self.subTest(call=call, **words):
                        with self.assertRaisesRegex(ValueError, line) as raised:
                            call(**words)
                        self.assertNotIsInstance(raised.exception, DurationError)
        for call in CALLS:
            for words in [
                {"no_calc": False},
                {"no_calc": False, "default_unit": "s"},
                {"no_calc": False, "default_unit": "SEC"},
                {"no_calc": False, "require_unit": True},
                {"no_calc": True, "default_unit": "ms"},
                {"default_unit": "ms"},
                {"lowercase": False, "cn_unit": False, "require_unit": False, "default_unit": "ms"},
            ]:
                with self.subTest(call=call, **words):
                    call(**words)
        self.assertEqual(parse_ns("90s*2", no_calc=False, default_unit="s"), 180 * 10**9)

    def test_rounds_seconds_to_the_nearest_float(self):
        self.assertEqual(parse_seconds("1h 30m"), 5400.0)
        self.assertEqual(parse_seconds("1分", cn_unit=True), 60.0)
        for nanos in [0, 1, 10**8, 10**16 + 1, 2**53 + 1, 2**63 + 513, 2**64 - 1]:
            self.assertEqual(parse_seconds(f"{nanos}ns"), nanos / 10**9)
        with self.assertRaises(DurationError):
            parse_seconds("1x")

    def test_wants_a_str(self):
        self.assertEqual(DurationTypeError.__bases__, (TypeError, ValueError))
        for value in [None, 1, 1.5, b"1s", bytearray(b"1s"), ["1s"], datetime.timedelta(1)]:
            for call in (parse, parse_ns):
                with self.subTest(value=value), self.assertRaisesRegex(
                    DurationTypeError, "must be a str, not "
                ):
                    call(value)

    def test_reads_in_threads(self):
        seed = random.Random(18)
        values = [seed.randrange(2**64) for _ in range(2_000)]
        texts = [duration_str.format(nanos) for nanos in values]
        refused = [f"{text} {'x' * (place % 50)}!" for place, text in enumerate(texts)]

        def read(place):
            try:
                parse_ns(refused[place])
            except DurationError as error:
                return parse_ns(texts[place]), error.found
            return None

        with concurrent.futures.ThreadPoolExecutor(8) as pool:
            answers = list(pool.map(read, range(len(values))))
        found = [("x" * (place % 50)) or "!" for place in range(len(values))]
        self.assertEqual(answers, list(zip(values, found)))
