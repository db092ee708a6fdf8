import datetime
import inspect
import os
import pickle
import random
import re
import string
import subprocess
import sys
import typing
import unittest

from duration_str import (
    Breakdown,
    DurationError,
    Part,
    Rounding,
    Style,
    Unit,
    breakdown,
    format,
    format_many,
    parse,
    parse_ns,
)
from tests.vectors import VECTORS, near

SECOND = 10**9
DAY = 86_400 * SECOND
UNITS = ["y", "q", "mon", "w", "d", "h", "min", "s", "ms", "µs", "ns"]


class Interrupted:
    def __iter__(self):
        raise KeyboardInterrupt("while it iterates")


def length_of(text):
    """In the vectors, a duration that is too long to be read has the form `5 s 7 ns`."""
    secs, is_long, nanos = text.removesuffix(" ns").partition(" s ")
    return int(secs) * SECOND + int(nanos) if is_long else parse_ns(text)


LENGTHS = {unit: parse_ns(f"1{unit}") for unit in UNITS}


TOO_LARGE = r"^a count is 2\*\*64 or more: choose a longer unit$"


def check_breakdown(test, nanos, **words):
    """The parts must be those that are printed. With the rest they must add up to the duration.
    Returns that sum and the rest. If a count is too large, which must be an error, returns None."""
    printed = format(nanos, **words)
    if int(re.match(r"\d+", printed)[0]) >= 2**64:
        test.assertRaisesRegex(OverflowError, TOO_LARGE, breakdown, nanos, **words)
        return None
    parts, rest_ns = breakdown(nanos, **words)
    joined = " ".join(f"{count}{unit}" for count, unit in parts)
    test.assertEqual(joined, "" if printed.startswith("0") else printed)
    total = sum(count * LENGTHS[unit] for count, unit in parts) + rest_ns
    if words.get("rounding") is None:
        test.assertEqual(total, nanos)
    else:
        test.assertEqual(rest_ns, 0)
    return total, rest_ns


class Printing(unittest.TestCase):
    def test_breaks_down_if_a_mock_stands_in_place_of_the_types(self):
        program = """
import duration_str
duration_str.Part = duration_str.Breakdown = None
broken = duration_str.breakdown(60 * 10**9)
assert repr(broken) == "Breakdown(parts=(Part(count=1, unit='min'),), rest_ns=0)", broken
assert {type(each).__module__ for each in [broken, *broken.parts]} == {"duration_str"}
"""
        subprocess.run([sys.executable, "-c", program], check=True)

    def test_prints_the_vectors_and_breaks_them_down(self):
        for text, limits, short, long, secs, rest_ns in VECTORS["printed"]:
            value = length_of(text)
            texts = {"short": short, "compact": short.replace(" ", ""), "long": long}
            for style in VECTORS["styles"]:
                words = {**limits, "style": style}
                with self.subTest(text=text, **words):
                    printed = texts[style]
                    self.assertEqual(format(value, **words), printed)
                    self.assertEqual(
                        format_many([value, None, value], **words), [printed, None, printed]
                    )
                    if value % 1000 == 0 and value < 2**64:
                        self.assertEqual(
                            format(datetime.timedelta(microseconds=value // 1000), **words), printed
                        )
            with self.subTest(text=text, **limits):
                self.assertEqual(format(value, **limits), short)
                checked = check_breakdown(self, value, **limits)
                self.assertIn(checked, [None, (value, secs * SECOND + rest_ns)])
        for text, limits, *_ in VECTORS["printed_as_zero"]:
            for call in [format, breakdown]:
                with self.subTest(text=text, **limits):
                    self.assertRaises(ValueError, call, length_of(text), **limits)
        self.assertRaises(OverflowError, format, 2**64 * SECOND)

    def test_rounds_as_the_vectors_say(self):
        for text, limits, *texts in VECTORS["rounded"]:
            value = length_of(text)
            self.assertEqual(format(value, rounding=None, **limits), texts[0])
            check_breakdown(self, value, rounding=None, **limits)
            for rounding, printed in zip(typing.get_args(Rounding), texts):
                words = {**limits, "rounding": rounding}
                with self.subTest(text=text, **words):
                    if printed is None:
                        line = "seconds is long enough for rounding='up'$"
                        for call in [format, breakdown]:
                            self.assertRaisesRegex(ValueError, line, call, value, **words)
                        with self.assertRaisesRegex(ValueError, f"^at index 1: no .* {line}"):
                            format_many([0, value], **words)
                        continue
                    self.assertEqual(format(value, **words), printed)
                    compact = printed.replace(" ", "")
                    self.assertEqual(format(value, style="compact", **words), compact)
                    self.assertEqual(format_many([value, None], **words), [printed, None])
                    checked = check_breakdown(self, value, **words)
                    if checked:
                        total, _ = checked
                        # The rounded duration prints whole, and so has the same text.
                        self.assertEqual(format(total, **limits), printed)
                    if value % 1000 == 0 and value < 2**64:
                        length = datetime.timedelta(microseconds=value // 1000)
                        self.assertEqual(format(length, **words), printed)

    def test_prints_a_timedelta(self):
        for value in [
            datetime.timedelta(0),
            datetime.timedelta(hours=7, microseconds=1),
            datetime.timedelta.max,
        ]:
            self.assertEqual(
                format(value), format(value // datetime.timedelta(microseconds=1) * 1000)
            )

    def test_reads_back_what_it_prints(self):
        seed = random.Random(18)
        for bits in range(65):
            for _ in range(20):
                nanos = seed.getrandbits(bits)
                self.assertEqual(parse_ns(format(nanos)), nanos)
                value = datetime.timedelta(microseconds=nanos // 1000)
                self.assertEqual(parse(format(value)), value)
        with self.assertRaises(DurationError):
            parse_ns(format(2**64))

    def test_refuses_negative_durations(self):
        for value in [-1, datetime.timedelta(microseconds=-1), datetime.timedelta.min]:
            for call in [format, breakdown]:
                with self.subTest(value=value), self.assertRaisesRegex(ValueError, "negative"):
                    call(value)

    def test_takes_any_iterable_of_units_and_any_number_of_parts(self):
        nanos = 500 * DAY
        for units in [{"years", "Days"}, dict.fromkeys("yd"), (name for name in ("y", "d"))]:
            self.assertEqual(format(nanos, units=units), "1y 135d")
        self.assertEqual(format(nanos, units=None), "1y 1q 1mon 2w")
        for parts in [10**30, 2**32 + 1]:
            self.assertEqual(format(193_029_000_000, parts=parts), "3min 13s 29ms")
        units = (name for name in ("min", "s"))
        self.assertEqual(format_many([3_601 * SECOND] * 2, units=units), ["60min 1s"] * 2)

    def test_knows_units_by_each_name_that_is_read(self):
        for name in typing.get_args(Unit):
            for word in (name, name.upper().replace("Μ", "µ")):
                self.assertEqual(format(parse_ns(f"3{word}"), units=[word], largest=word)[0], "3")

    def test_wants_known_limits(self):
        names = "one of y, q, mon, w, d, h, min, s, ms, µs or us, ns, not "
        rows = [
            ({"parts": parts}, ValueError, "^parts must be 1 or more$")
            for parts in (0, -1, -(10**30), -(10**5000))
        ]
        shorter = [("h", "d"), ("ns", "us"), ("q", "y")]
        rows += [
            ({"largest": one, "smallest": other}, ValueError, "shorter unit than smallest$")
            for one, other in shorter
        ]
        rows += [({"smallest": "d", "largest": "h"}, ValueError, "shorter unit than smallest$")]
        rows += [
            (
                {"style": style},
                ValueError,
                f"^style must be one of short, compact, long, not {style!r}$",
            )
            for style in ("Long", "")
        ]
        rows += [({"style": style}, TypeError, "^style must be one of") for style in (None, 2)]
        rows += [
            (
                {"rounding": rounding},
                ValueError,
                f"^rounding must be one of down, nearest, up, not {rounding!r}$",
            )
            for rounding in ("Up", "half", "")
        ]
        rows += [
            ({"rounding": rounding}, TypeError, "^rounding must be one of")
            for rounding in (0, True)
        ]
        rows += [
            ({"parts": value}, TypeError, "parts must be a whole number")
            for value in (1.0, 1.5, "2", None, True)
        ]
        for unit in [
            "",
            "mins",
            "年",
            "1",
            "000ms",  # With a 1 before it, it is read as a second.
            "h 0s",
            "\ud800",
            "s" * 15,
            "s" * 16,
            "s" * 999,
        ]:
            rows += [
                (
                    {"largest": unit},
                    ValueError,
                    f"^largest must be {names}{re.escape(repr(unit))}$",
                ),
                ({"smallest": unit}, ValueError, names),
                ({"units": ["y", unit]}, ValueError, f"^each of units must be {names}"),
            ]
        for unit in (None, 4, b"d"):
            rows += [
                ({"largest": unit}, TypeError, f"^largest must be {names}"),
                ({"units": [unit]}, TypeError, f"^each of units must be {names}"),
            ]
        rows += [
            ({"units": units}, TypeError, f"^units must be a list of units, not {units!r}$")
            for units in ("yd", "d", "", 4)
        ]
        rows += [({"units": units}, ValueError, "^units must not be empty$") for units in ([], {})]
        rows += [({"units": Interrupted()}, KeyboardInterrupt, "^while it iterates$")]
        for limits in ({"largest": "w"}, {"largest": "w", "smallest": "w"}):
            limits["units"] = ("y", "mon")
            rows += [(limits, ValueError, "^units must have one from largest to smallest$")]
        for limits, error, line in rows:
            for call in [lambda: format(5, **limits), lambda: format_many([], **limits)]:
                with self.subTest(**limits):
                    self.assertRaisesRegex(error, line, call)
            if "style" in limits:
                error, line = (
                    TypeError,
                    r"^breakdown\(\) got an unexpected keyword argument 'style'$",
                )
            with self.subTest(**limits):
                self.assertRaisesRegex(error, line, breakdown, 5, **limits)
        for call in [
            lambda: format(5, 2),
            lambda: format(),
            lambda: format(5, part=2),
            lambda: format(value=5),
            lambda: breakdown(5, 2),
            lambda: breakdown(),
            lambda: breakdown(5, part=2),
            lambda: breakdown(value=5),
        ]:
            self.assertRaises(TypeError, call)

    def test_knows_whole_names_only(self):
        def refuses(word, error, call, *values, **words):
            with self.assertRaises(error, msg=ascii(word)):
                call(*values, **words)

        small = str.maketrans(string.ascii_uppercase, string.ascii_lowercase)
        units = typing.get_args(Unit)
        for word in near(units):
            if word.translate(small) in units:
                nanos = parse_ns(f"7{word}")
                self.assertEqual(parse_ns("7", default_unit=word), nanos)
                self.assertEqual(format(nanos, units=[word], largest=word, smallest=word)[0], "7")
                continue
            for limits in ({"largest": word}, {"smallest": word}, {"units": [word]}):
                refuses(word, ValueError, format, 5, **limits)
            refuses(word, ValueError, parse_ns, "5", default_unit=word)
        for keyword, kind in (("rounding", Rounding), ("style", Style)):
            words = typing.get_args(kind)
            for word in near(words) - {*words}:
                refuses(word, ValueError, format, 5, **{keyword: word})
        for call, value in ((parse_ns, "5"), (format, 5), (breakdown, 5)):
            names = {*inspect.signature(call).parameters}
            for word in near(names) - names:
                refuses(word, TypeError, call, value, **{word: "s"})

    def test_wants_an_int_or_a_timedelta(self):
        for value in [None, "1s", 1.0, True, datetime.datetime(2000, 1, 1)]:
            for call in [format, breakdown]:
                with self.subTest(value=value), self.assertRaisesRegex(
                    TypeError, "must be an int .* not "
                ):
                    call(value)


class Breakdowns(unittest.TestCase):
    def test_refuses_a_count_of_2_to_the_64(self):
        for unit in ["ms", "µs", "ns"]:
            most = (2**64 - 1) * LENGTHS[unit]
            self.assertEqual(
                breakdown(most, units=[unit]), Breakdown((Part(2**64 - 1, unit),), 0)
            )
            for value, rounding in [
                (most + LENGTHS[unit], "down"),
                (most + LENGTHS[unit], "nearest"),
                (most + 1, "up"),
                # Nothing below 2**64 seconds is long enough to round this one up to.
                (2**64 * SECOND - 1, "up"),
            ]:
                with self.subTest(unit=unit, value=value, rounding=rounding):
                    with self.assertRaisesRegex(OverflowError, TOO_LARGE):
                        breakdown(value, units=[unit], rounding=rounding)
        longest = breakdown(2**64 * SECOND - 1, largest="s", parts=1)
        self.assertEqual(longest, Breakdown((Part(2**64 - 1, "s"),), SECOND - 1))
        with self.assertRaisesRegex(ValueError, "is long enough for rounding='up'$"):
            breakdown(2**64 * SECOND - 1, units=["s"], rounding="up")

    def test_has_named_parts(self):
        counted = breakdown(datetime.timedelta(hours=1, minutes=30), smallest="h")
        self.assertEqual(counted, Breakdown((Part(1, "h"),), 1800 * SECOND))
        self.assertEqual(
            (counted.parts[0].count, counted.parts[0].unit, counted.rest_ns),
            (1, "h", 1800 * SECOND),
        )
        self.assertEqual(repr(counted.parts), "(Part(count=1, unit='h'),)")
        self.assertEqual(pickle.loads(pickle.dumps(counted)), counted)

    def test_breaks_random_durations_down_as_they_are_printed(self):
        seed = random.Random(19)
        # The longest duration has 94 bits.
        for _ in range(int(os.environ.get("DURATION_STR_ROUNDS", 10_000))):
            nanos = min(seed.getrandbits(seed.randrange(1, 95)), 2**64 * SECOND - 1)
            units = seed.sample(UNITS, seed.randrange(12)) or None
            check_breakdown(self, nanos, units=units, parts=seed.randrange(1, 13))
