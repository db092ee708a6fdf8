import datetime
import decimal
import importlib.util
import re
import subprocess
import sys
import unittest
from array import array

from duration_str import (
    Cause,
    DurationError,
    DurationTypeError,
    breakdown,
    errors_of,
    format,
    format_many,
    parse_many,
    to_timedelta,
)
from tests.vectors import (
    REFUSED_IN_MILLIS,
    error_of,
    refused_positions,
    told_by,
    value_columns,
)

try:
    import numpy
    import pandas
except ImportError:
    numpy = pandas = None

SECOND = 10**9
MINUTE = 60 * SECOND
#: What the error of a column's number says if errors are coerced and no default unit is named
TWO_WAYS = "default_unit='ms', or read the column as texts, in pandas by dtype=str"


def numbers(result):
    values = result if isinstance(result, numpy.ndarray) else result.to_numpy()
    assert values.dtype == numpy.dtype("timedelta64[ns]"), values.dtype
    return [
        None if number == -(2**63) else number for number in values.ravel().view("int64").tolist()
    ]


class Name(str):
    pass


@unittest.skipIf(importlib.util.find_spec("numpy"), "NumPy is installed")
class Nothing(unittest.TestCase):
    def test_misses_numpy(self):
        with self.assertRaisesRegex(ImportError, "numpy"):
            to_timedelta(["1s"])

    def test_prints_lists(self):
        self.assertEqual(format_many([MINUTE, None, datetime.timedelta(1)]), ["1min", None, "1d"])

    def test_tells_the_errors_of_lists(self):
        errors = errors_of(["1s", "5 mins", None, float("nan"), 5, datetime.timedelta.max])
        self.assertEqual(
            [*map(type, errors.values())], [DurationError, DurationTypeError, OverflowError]
        )
        self.assertEqual([*errors], [1, 4, 5])


@unittest.skipUnless(numpy, "NumPy or pandas is missing")
class Reading(unittest.TestCase):
    def test_reads_the_vectors(self):
        for options, rows in value_columns():
            texts = [text for text, _ in rows]
            wanted = [value if value is not None and value < 2**63 else None for _, value in rows]
            for values in [texts, numpy.array(texts, dtype=object), pandas.Series(texts)]:
                with self.subTest(type=type(values), **options):
                    self.assertEqual(
                        numbers(to_timedelta(values, errors="coerce", **options)), wanted
                    )

    def test_keeps_index_and_name(self):
        series = pandas.Series(["1s", None, "2m"], index=["a", "b", "b"], name="wait")
        wanted = pandas.Series(
            [SECOND, None, 2 * MINUTE], index=series.index, name="wait", dtype="timedelta64[ns]"
        )
        pandas.testing.assert_series_equal(to_timedelta(series), wanted)
        for kind in ["string", "category"]:
            pandas.testing.assert_series_equal(to_timedelta(series.astype(kind)), wanted)
        index = pandas.Index(["1s", None, "2m"], name="wait")
        pandas.testing.assert_index_equal(
            to_timedelta(index), pandas.TimedeltaIndex(wanted, name="wait")
        )
        self.assertEqual(numbers(to_timedelta(series.array)), [SECOND, None, 2 * MINUTE])
        self.assertEqual(list(series), ["1s", None, "2m"])

    def test_keeps_the_shape(self):
        for shape in [(), (0,), (6,), (2, 3), (3, 0, 2)]:
            for kind in [object, "U5"]:
                values = numpy.full(shape, "1s", dtype=kind)
                with self.subTest(shape=shape, kind=kind):
                    read = to_timedelta(values)
                    self.assertEqual((read.shape, numbers(read)), (shape, [SECOND] * values.size))
        table = numpy.array([["1s", "2s", "3s"], ["4s", "5s", "6s"]])
        self.assertEqual(
            to_timedelta(table.T).tolist(), [[n * SECOND, (n + 3) * SECOND] for n in (1, 2, 3)]
        )
        self.assertEqual(
            numbers(to_timedelta(numpy.asfortranarray(table))), [n * SECOND for n in range(1, 7)]
        )
        self.assertEqual(numbers(to_timedelta(table[:, ::2])), [n * SECOND for n in (1, 3, 4, 6)])
        self.assertEqual(to_timedelta([]).shape, (0,))

    def test_answers_arrays_that_can_be_written(self):
        read = to_timedelta(pandas.Series(["1s", "2s"]))
        read.iloc[0] = pandas.Timedelta(0)
        self.assertEqual(numbers(read), [0, 2 * SECOND])

    def test_keeps_what_is_missing(self):
        missing = [
            None,
            float("nan"),
            numpy.nan,
            numpy.float32("nan"),
            pandas.NA,
            pandas.NaT,
            decimal.Decimal("nan"),
        ]
        missing += [numpy.timedelta64("NaT"), numpy.datetime64("NaT")]
        values = ["1s", *missing, *missing, *missing[::-1], "1m"]
        wanted = [SECOND, *[None] * 3 * len(missing), MINUTE]
        for errors in ["raise", "coerce"]:
            for column in [values, pandas.Series(values), numpy.array(values, dtype=object)]:
                self.assertEqual(numbers(to_timedelta(column, errors=errors)), wanted)
        self.assertEqual(numbers(to_timedelta(numpy.full(3, numpy.nan))), [None] * 3)
        lengths = pandas.Series([pandas.NaT] * 3, dtype="timedelta64[ns]")
        self.assertEqual(numbers(to_timedelta(lengths)), [None] * 3)
        masked = numpy.ma.array(["1s", "x", "1m"], mask=[False, True, False])
        self.assertEqual(numbers(to_timedelta(masked)), [SECOND, None, MINUTE])
        masked = masked.astype(object)
        to_timedelta(masked)
        self.assertEqual(masked.data.tolist(), ["1s", "x", "1m"])
        # `ravel` of a matrix has two dimensions.
        masked = numpy.ma.array(masked.data.view(numpy.matrix), mask=masked.mask)
        self.assertEqual(numbers(to_timedelta(masked)[0]), [SECOND, None, MINUTE])

    def test_knows_missing_values_without_pandas(self):
        program = (
            "import sys, numpy, duration_str\n"
            "values = ['1s', None, float('nan'), numpy.float32('nan'), numpy.timedelta64('NaT'), numpy.datetime64('NaT')]\n"
            "print(duration_str.to_timedelta(values).astype('int64').tolist(), 'pandas' in sys.modules)\n"
            "one = ['1s', float('nan'), None]\n"
            "print(*map(repr, map(duration_str.to_timedelta, one)), repr(duration_str.to_timedelta('x', errors='coerce')))\n"
        )
        ran = subprocess.run(
            [sys.executable, "-c", program], capture_output=True, text=True, check=True
        )
        # From version 2 on, NumPy shows its values in another way.
        second, missing = numpy.timedelta64(SECOND, "ns"), numpy.timedelta64("NaT", "ns")
        one = f"{second!r} {missing!r} None {missing!r}"
        self.assertEqual(ran.stdout, f"{[SECOND, *[-(2**63)] * 5]} False\n{one}\n")

    def test_counts_the_default_unit(self):
        read = to_timedelta(pandas.Series(["1500", "1s 500", None]), default_unit="ms")
        self.assertEqual(numbers(read), [1_500_000_000, 1_500_000_000, None])
        self.assertEqual(to_timedelta("2", default_unit="d"), pandas.Timedelta(2, "D"))
        coerced = to_timedelta(["2*3"], default_unit="ms", errors="coerce")
        self.assertEqual(numbers(coerced), [None])

    def test_reads_numbers_in_a_unit_that_is_named(self):
        read = [1_500_000_000, 2_000_000]
        for kind in ["int16", "int64", "uint64", "float64", "object", "Int64", "category"]:
            column = pandas.Series([1500, 2], dtype=kind, name="wait", index=[7, 8])
            with self.subTest(kind=kind):
                result = to_timedelta(column, default_unit="ms")
                self.assertEqual(numbers(result), read)
                self.assertEqual((result.name, [*result.index]), ("wait", [7, 8]))
                self.assertEqual(parse_many(column, default_unit="ms").tolist(), read)
                line = "^at index 0: .*default_unit='ms'$"
                with self.assertRaisesRegex(TypeError, line):
                    to_timedelta(column)
                calls = [to_timedelta] if kind == "object" else [to_timedelta, parse_many]
                for call in calls:
                    with self.assertRaisesRegex(DurationTypeError, f"^at index 0: .*{TWO_WAYS}$"):
                        call(column, errors="coerce")
        gaps = pandas.Series([1500, None, 2])
        self.assertEqual(gaps.dtype, numpy.float64)
        with self.assertRaisesRegex(DurationTypeError, "^at index 0: "):
            to_timedelta(gaps, errors="coerce")
        with self.assertRaisesRegex(DurationTypeError, "^at index 1: "):
            to_timedelta(gaps[1:], errors="coerce")
        # NumPy would make floats of these integers, and the second would lose its last digit.
        categories = pandas.Categorical.from_codes([0, 1, -1], [2, 2**53 + 1])
        for column in (categories, pandas.Series(categories), pandas.Index(categories)):
            for errors in ("raise", "coerce"):
                with self.subTest(kind=type(column), errors=errors):
                    result = to_timedelta(column, default_unit="ns", errors=errors)
                    self.assertEqual(numbers(result), [2, 2**53 + 1, None])
                    printed = format_many(column, errors=errors).tolist()
                    self.assertEqual(printed, ["2ns", format(2**53 + 1), None])
        nothing = pandas.Series([None, None], dtype="float64")
        self.assertEqual(numbers(to_timedelta(nothing, errors="coerce")), [None, None])
        empty = pandas.Series([], dtype="int64")
        self.assertEqual(numbers(to_timedelta(empty, errors="coerce")), [])
        self.assertEqual(numbers(to_timedelta(gaps, default_unit="ms")), [read[0], None, read[1]])
        self.assertEqual(numbers(to_timedelta(numpy.array([[1500, 2]]), default_unit="ms")), read)
        masked = numpy.ma.array([1500, 2], mask=[True, False])
        self.assertEqual(numbers(to_timedelta(masked, default_unit="ms")), [None, read[1]])
        self.assertEqual(to_timedelta(1500, default_unit="ms"), pandas.Timedelta(1.5, "s"))
        self.assertEqual(to_timedelta(numpy.uint8(9), default_unit="s"), pandas.Timedelta(9, "s"))
        mixed = [7, "8", datetime.timedelta(1), numpy.timedelta64(5, "ms"), numpy.int64(1), None]
        wanted = [7 * SECOND, 8 * SECOND, 86_400 * SECOND, 5_000_000, SECOND, None]
        self.assertEqual(numbers(to_timedelta(mixed, default_unit="s")), wanted)
        self.assertEqual(
            numbers(to_timedelta(["1", 10**5_000], default_unit="s", errors="coerce")),
            [SECOND, None],
        )

    def test_loses_no_number_among_texts(self):
        zero = numpy.zeros(1)
        types = [zero.astype(f"{kind}{size}")[0] for kind in "iu" for size in (1, 2, 4, 8)]
        values = [90, 1.5, 0, -1, 2**64, 10**5_000, float("inf"), *types, numpy.float64(1)]
        for value in values:
            line = f"^at index 3: .* must be a str, not {type(value).__name__}: .*{TWO_WAYS}$"
            column = ["1h", None, "x", value, 90]
            for given in [column, numpy.array(column, dtype=object), pandas.Series(column)]:
                with self.assertRaisesRegex(DurationTypeError, line):
                    to_timedelta(given, errors="coerce")
            nanos, refused = parse_many(column, errors="coerce")
            self.assertEqual(refused.tolist(), [1, 2, 3, 4])
        # A default unit reads no floats of these types.
        for value in [numpy.float16(1), numpy.float32(90), numpy.longdouble(90)]:
            line = f"^at index 1: a duration's text must be a str, not {type(value).__name__}$"
            with self.assertRaisesRegex(DurationTypeError, line):
                to_timedelta(["1h", value], errors="coerce")
        others = [True, numpy.True_, 1j, decimal.Decimal(90), b"90", [90], object()]
        others += [datetime.date(2026, 11, 30), numpy.datetime64(90, "s"), datetime.timedelta.max]
        others += [float("nan"), numpy.float32("nan"), numpy.timedelta64(2**62, "s")]
        coerced = to_timedelta(["1s", *others], errors="coerce")
        self.assertEqual(numbers(coerced), [SECOND, *[None] * len(others)])

    def test_reads_numbers_beside_a_gap(self):
        column = pandas.Series([1500, None])
        self.assertEqual(numbers(to_timedelta(column, default_unit="ms")), [1_500_000_000, None])
        for value, line in REFUSED_IN_MILLIS:
            # Beside a gap, some versions of pandas turn 2**64 into a float, whose error differs.
            for kind in [object] if value == 2**64 else [object, None]:
                column = pandas.Series([None, value], dtype=kind)
                with self.assertRaisesRegex(ValueError, f"^at index 1: {re.escape(line)}$"):
                    to_timedelta(column, default_unit="ms")
                coerced = to_timedelta(column, default_unit="ms", errors="coerce")
                self.assertEqual(numbers(coerced), [None, None])

    def test_refuses_numbers_as_their_texts(self):
        for value in [1.5, -1, 2**63]:
            column = pandas.Series(["1", value])
            with self.assertRaises(DurationError) as raised:
                to_timedelta(column, default_unit="ns")
            text = str(value)
            self.assertEqual((raised.exception.index, raised.exception.text), (1, text))
            with self.assertRaisesRegex(ValueError, f"^{re.escape(str(raised.exception))}$"):
                to_timedelta(["1", text], default_unit="ns")
            coerced = to_timedelta(column, default_unit="ns", errors="coerce")
            self.assertEqual(numbers(coerced), [1, None])

    def test_refuses_floats_that_can_have_lost_digits(self):
        for value in [2.0**53, 1e300, float("inf")]:
            column = pandas.Series(["1", value])
            line = r"^at index 1: .*, not a float of 2\*\*53 or more"
            for call in (to_timedelta, parse_many):
                with self.assertRaisesRegex(DurationTypeError, line):
                    call(column, default_unit="ns")
            coerced = to_timedelta(column, default_unit="ns", errors="coerce")
            self.assertEqual(numbers(coerced), [1, None])

    def test_takes_no_other_numbers(self):
        for call in (to_timedelta, parse_many):
            with self.assertRaisesRegex(TypeError, "str or a whole number, not bool_?$"):
                call([numpy.True_], default_unit="ms")
        with self.assertRaisesRegex(TypeError, "not int64: .*default_unit='ms'$"):
            to_timedelta([numpy.int64(1)])

    def test_refuses_what_timedelta64_lacks(self):
        most = 2**63 - 1
        self.assertEqual(numbers(to_timedelta([f"{most}ns"])), [most])
        for text in [f"{2**63}ns", f"{2**63 + 1}ns", "300y", f"{2**64 - 1}ns"]:
            with self.subTest(text=text):
                self.assertEqual(
                    numbers(to_timedelta(["1s", text], errors="coerce")), [SECOND, None]
                )
                line = r"^at index 1: duration of 2\^63 nanoseconds or more, which timedelta64 doesn't have$"
                with self.assertRaisesRegex(DurationError, line) as raised:
                    to_timedelta(["1s", text, "x"])
                error = raised.exception
                self.assertEqual((error.index, error.cause), (1, Cause.OVERFLOW))
                self.assertEqual((error.text, error.place), (text, None))
                self.assertEqual((error.help, error.suggestion, error.mended), (None,) * 3)

    def test_mends_no_text_to_what_timedelta64_lacks(self):
        for text, call, mended in (
            ("292 yrs", to_timedelta, "292 y"),
            ("293 yrs", to_timedelta, None),
            (["1s", "293 yrs"], to_timedelta, None),
            (["1s", "293 yrs"], parse_many, "293 y"),
        ):
            with self.subTest(text=text), self.assertRaises(DurationError) as raised:
                call(text)
            self.assertEqual(raised.exception.mended, mended)

    def test_raises_the_first_refusal(self):
        with self.assertRaisesRegex(
            DurationError, '^at index 2: expected .* at column 5, found "-"$'
        ) as raised:
            to_timedelta(["1s", None, "1m 3-5", "300y", "x"])
        self.assertEqual((raised.exception.index, raised.exception.found), (2, "-"))
        labelled = pandas.Series(["1s", "x"], index=[10, 20])
        with self.assertRaises(DurationError) as raised:
            to_timedelta(labelled)
        self.assertEqual(raised.exception.index, 1)

    def test_keeps_timedeltas(self):
        lengths = [
            datetime.timedelta(days=-1),
            pandas.Timedelta(5, "ns"),
            numpy.timedelta64(3, "D"),
            pandas.NaT,
        ]
        wanted = [SECOND, -86_400 * SECOND, 5, 3 * 86_400 * SECOND, None, 60 * SECOND]
        for errors in ["raise", "coerce"]:
            for column in [
                ["1s", *lengths, "1m"],
                pandas.Series(["1s", *lengths, "1m"], dtype=object),
            ]:
                read = to_timedelta(column, errors=errors)
                self.assertEqual(numbers(read), wanted)
                again = to_timedelta(read, errors=errors)
                self.assertEqual((type(again), numbers(again)), (type(read), wanted))
            for unit, length in [
                ("s", SECOND),
                ("ns", 1),
                ("W", 7 * 86_400 * SECOND),
                ("10ms", 10_000_000),
            ]:
                values = numpy.array([[1, -2], ["NaT", 3]], dtype=f"timedelta64[{unit}]")
                read = to_timedelta(values, errors=errors)
                self.assertEqual(
                    (read.shape, numbers(read)), ((2, 2), [length, -2 * length, None, 3 * length])
                )
        self.assertEqual(numbers(to_timedelta([lengths[1]] * 2)), [5, 5])
        for value in [
            datetime.timedelta.max,
            numpy.timedelta64(2**62, "s"),
            numpy.timedelta64(-(2**60), "W"),
        ]:
            with self.assertRaisesRegex(
                OverflowError, "^at index 1: .* 2\\*\\*63 nanoseconds or more: "
            ):
                to_timedelta(["1s", value])
            self.assertEqual(numbers(to_timedelta(["1s", value], errors="coerce")), [SECOND, None])

    def test_reads_no_timedelta_of_another_unit(self):
        for unit in ("Y", "M", "ps", "generic"):
            value = numpy.timedelta64(1, unit)
            line = f"must be a str, not {re.escape(str(value.dtype))}$"
            with self.subTest(unit=unit):
                with self.assertRaisesRegex(DurationTypeError, f"^at index 1: .* {line}"):
                    to_timedelta(["1s", value])
                with self.assertRaisesRegex(DurationTypeError, line):
                    to_timedelta(value)
                values = [value, "1s"]
                self.assertEqual(numbers(to_timedelta(values, errors="coerce")), [None, SECOND])
                self.assertIs(to_timedelta(value, errors="coerce"), pandas.NaT)

    def test_keeps_the_longest_timedeltas(self):
        microsecond = datetime.timedelta(microseconds=1)
        for value in [
            (2**63 - 1) // 1000 * microsecond,
            -((2**63 - 1) // 1000) * microsecond,
            datetime.timedelta(106_750),
        ]:
            self.assertEqual(numbers(to_timedelta([value])), [value // microsecond * 1000])
        for value in [(2**63 // 1000 + 1) * microsecond, -(2**63 // 1000 + 1) * microsecond]:
            self.assertEqual(numbers(to_timedelta([value], errors="coerce")), [None])
        seconds = (2**63 - 1) // SECOND
        column = numpy.array(
            [seconds, -seconds, seconds + 1, -seconds - 1, "NaT"], dtype="timedelta64[s]"
        )
        wanted = [seconds * SECOND, -seconds * SECOND, None, None, None]
        for some in (column, column[3:]):  # The second has no positive one that is too long.
            self.assertEqual(numbers(to_timedelta(some, errors="coerce")), wanted[-len(some) :])
        self.assertEqual(numbers(to_timedelta(pandas.Series(column[:2]))), wanted[:2])
        with self.assertRaisesRegex(
            OverflowError, "^at index 2: .*timedelta64\\(9223372037,'s'\\)$"
        ):
            to_timedelta(column)
        # Only steps of a power of two have exactly 2**63 nanoseconds.
        for count in (2**60, -(2**60)):
            column = numpy.array([count], dtype="timedelta64[8ns]")
            self.assertRaises(OverflowError, to_timedelta, column)
        for step in ("15250W", "15251W", "40000W"):  # The last two don't fit into 63 and 64 bits.
            longest = numpy.array([0, "NaT", 1], dtype=f"timedelta64[{step}]")
            with self.subTest(step=step):
                self.assertEqual(numbers(to_timedelta(longest[:2])), [0, None])
                one = 15_250 * 604_800 * SECOND if step == "15250W" else None
                self.assertEqual(numbers(to_timedelta(longest, errors="coerce")), [0, None, one])

    def test_returns_an_array_of_timedelta64_as_it_is(self):
        lengths = numpy.array([1, "NaT"], dtype="timedelta64[ns]")
        self.assertTrue(numpy.shares_memory(to_timedelta(lengths), lengths))
        series = pandas.Series(lengths, index=["a", "b"], name="wait")
        read = to_timedelta(series)
        pandas.testing.assert_series_equal(read, series)
        read.iloc[0] = pandas.Timedelta(5)
        self.assertEqual(numbers(series), [1, None])
        sparse = pandas.Series(pandas.arrays.SparseArray(lengths[:1]))
        read = to_timedelta(sparse)
        read.iloc[0] = pandas.Timedelta(5)
        self.assertEqual(numbers(to_timedelta(sparse)), [1])
        masked = numpy.ma.array(lengths, mask=[True, False])
        self.assertEqual(numbers(to_timedelta(masked)), [None, None])

    def test_takes_one_column(self):
        for table in [numpy.array("12"), numpy.array([["1s"]]), pandas.DataFrame({"1s": ["2s"]})]:
            with self.assertRaises(TypeError):
                parse_many(table)
        self.assertEqual(parse_many(numpy.array(["1s", "2s"])).tolist(), [SECOND, 2 * SECOND])

    def test_wants_texts(self):
        for value in [b"1s", 1, 1.5, True, ["1s", "2s"], numpy.int64(1), numpy.datetime64(1, "s")]:
            with self.subTest(value=value):
                with self.assertRaisesRegex(TypeError, "^at index 2: .* must be a str, not "):
                    to_timedelta(["x", None, value])
        for column in [numpy.array([1]), pandas.Series([1.5]), {1}]:
            with self.assertRaisesRegex(TypeError, "^at index 0: "):
                to_timedelta(column)
        self.assertRaises(TypeError, to_timedelta, b"1s")
        for table in [pandas.DataFrame({name: ["1s"]}) for name in ("wait", "dtype")]:
            for call in (parse_many, to_timedelta, format_many):
                with self.assertRaisesRegex(TypeError, "^a DataFrame is no column"):
                    call(table)
        for value in [5, 1.5]:
            with self.assertRaisesRegex(
                TypeError, "must be a str, not (int|float): .*default_unit"
            ):
                to_timedelta(value)
            with self.assertRaisesRegex(DurationTypeError, "^a duration's text .*='ms'$"):
                to_timedelta(value, errors="coerce")
        has_length = type("HasLength", (), {"__len__": lambda self: 2})()
        record = numpy.zeros(1, "i4,f4")[0]
        for value in [has_length, record, numpy.void(b"1s")]:
            line = f"^a duration's text must be a str, not {type(value).__name__}$"
            with self.assertRaisesRegex(DurationTypeError, line):
                to_timedelta(value)
            self.assertIs(to_timedelta(value, errors="coerce"), pandas.NaT)

    def test_refuses_columns_of_dates_as_a_whole(self):
        # pandas takes a column that has only NaT for one of dates.
        for values in [[], [pandas.NaT] * 2, [pandas.Timestamp(0)]]:
            column = pandas.Series(values, dtype="datetime64[ns]")
            for call in (parse_many, to_timedelta, format_many):
                for errors in ("raise", "coerce"):
                    with self.assertRaisesRegex(DurationTypeError, r"type datetime64\[ns\]$"):
                        call(column, errors=errors)

    def test_reads_empty_columns_of_files(self):
        for kind in (object, "float64", "string"):
            for values in ([], [None, None]):
                column = pandas.Series(values, dtype=kind)
                for errors in ("raise", "coerce"):
                    with self.subTest(kind=kind, values=values, errors=errors):
                        self.assertEqual(numbers(to_timedelta(column, errors=errors)), values)
                        self.assertEqual([*format_many(column, errors=errors)], values)
                refused = array("Q", range(len(values)))
                self.assertEqual(parse_many(column, errors="coerce")[1], refused)

    def test_takes_one_missing_value(self):
        self.assertIsNone(to_timedelta(None))
        for value in [
            float("nan"),
            numpy.float32("nan"),
            pandas.NA,
            pandas.NaT,
            numpy.timedelta64("NaT"),
            decimal.Decimal("nan"),
        ]:
            with self.subTest(value=value):
                self.assertIs(to_timedelta(value), pandas.NaT)
        texts = pandas.Series(
            ["1s", None, pandas.NA, float("nan"), "2m"], index=list("abcde"), dtype=object
        )
        pandas.testing.assert_series_equal(texts.map(to_timedelta), to_timedelta(texts))

    def test_takes_one_value(self):
        rows = [
            ("1m 5ns", MINUTE + 5),
            (datetime.timedelta(1), 86_400 * SECOND),
            (pandas.Timedelta(-5, "ns"), -5),
        ]
        for value, nanos in [*rows, (numpy.timedelta64(3, "m"), 3 * MINUTE), (Name("1分"), MINUTE)]:
            with self.subTest(value=value):
                read = to_timedelta(value, cn_unit=True)
                self.assertEqual((type(read), read.value), (pandas.Timedelta, nanos))
        with self.assertRaisesRegex(
            DurationError, r'^unknown unit "x" at column 2 \(write y, .* or ns\)$'
        ) as raised:
            to_timedelta("1x")
        self.assertIsNone(raised.exception.index)
        self.assertTrue(
            numpy.isnat(to_timedelta(["1h", "90"], errors="coerce", require_unit=True)[1])
        )
        with self.assertRaisesRegex(DurationError, "^duration of .* timedelta64 doesn't have$"):
            to_timedelta("300y")
        with self.assertRaisesRegex(OverflowError, "nanoseconds or more: .*=999999\\)$"):
            to_timedelta(datetime.timedelta.max)
        for value in ["1x", "300y", datetime.timedelta.max, numpy.timedelta64("NaT")]:
            self.assertIs(to_timedelta(value, errors="coerce"), pandas.NaT)

    def test_reads_as_pandas_does_where_both_read(self):
        texts = [
            f"{n % 50}d {n % 24}h {n % 60}m {n % 61}s {n}ms {n % 7}us {n % 3}ns"
            for n in range(20_000)
        ]
        for column in [pandas.Series(texts), pandas.Series([*texts, None])]:
            pandas.testing.assert_series_equal(to_timedelta(column), pandas.to_timedelta(column))


@unittest.skipUnless(numpy, "NumPy or pandas is missing")
class Errors(unittest.TestCase):
    def test_says_of_each_text_what_it_alone_raises(self):
        for options, rows in value_columns():
            texts = [text for text, _ in rows]
            values = [value if value is not None and value < 2**63 else None for _, value in rows]
            refused = refused_positions(values)
            for column in (texts, tuple(texts), numpy.array(texts, dtype=object)):
                errors = errors_of(column, **options)
                with self.subTest(type=type(column), **options):
                    self.assertEqual([*errors], refused)
            for at, error in errors.items():
                with self.subTest(text=texts[at], **options):
                    alone = error_of(to_timedelta, texts[at], **options)
                    self.assertEqual(told_by(error), {**told_by(alone), "index": at})

    def test_keeps_the_labels_of_a_series(self):
        took = ["1s", "5 mins", None, "soon", "5 mins"]
        wanted = [(1, "5 min"), (3, None), (4, "5 min")]
        for index in (
            None,
            list("abcde"),
            list("aabba"),
            pandas.MultiIndex.from_product([["x"], range(5)], names=["job", "run"]),
            pandas.date_range("2026-01-01", periods=5),
        ):
            for kind in (object, "string", "category"):
                series = pandas.Series(took, index=index, name="took", dtype=kind)
                errors = errors_of(series)
                with self.subTest(index=index, kind=kind):
                    self.assertEqual((errors.name, errors.dtype), ("took", object))
                    pandas.testing.assert_index_equal(errors.index, series.index[[1, 3, 4]])
                    self.assertEqual([(error.index, error.mended) for error in errors], wanted)
        sparse = pandas.Series(pandas.arrays.SparseArray(numpy.array(took, dtype=object)))
        self.assertEqual([*errors_of(sparse).index], [1, 3, 4])

    def test_gives_positions_for_other_columns(self):
        table = numpy.array([["1s", "x"], ["y", "2s"]])
        columns = [table, table.ravel(), [*table.ravel()], pandas.Index(table.ravel())]
        columns += [pandas.array([*table.ravel()], dtype="string"), iter(table.ravel().tolist())]
        for column in columns:
            with self.subTest(type=type(column)):
                errors = errors_of(column)
                self.assertIs(type(errors), dict)
                self.assertEqual(
                    [(at, error.text) for at, error in errors.items()], [(1, "x"), (2, "y")]
                )

    def test_tells_all_or_nothing(self):
        for values, rows in (
            ([], []),
            (["1s", "2m"], []),
            ([None, float("nan"), pandas.NA, pandas.NaT, numpy.timedelta64("NaT")], []),
            (["x", "1.5h", ""], [0, 1, 2]),
            (["x"] * 10_000, [*range(10_000)]),
        ):
            self.assertEqual([*errors_of(values)], rows)
            for kind in (object, "category"):
                errors = errors_of(pandas.Series(values, dtype=kind))
                self.assertEqual((type(errors), [*errors.index]), (pandas.Series, rows))
        for kind in ("float64", "string", "timedelta64[ns]"):
            self.assertEqual(len(errors_of(pandas.Series([None], dtype=kind))), 0)

    def test_takes_the_options_of_reading(self):
        for text, options in (
            ("5 mins", {"more_names": True}),
            ("5分", {"cn_unit": True}),
            (1500, {"default_unit": "ms"}),
            (numpy.int64(5), {"default_unit": "s"}),
        ):
            self.assertEqual([*errors_of([text])], [0])
            self.assertEqual(errors_of([text], **options), {})
        for text, options in (
            ("5", {"require_unit": True}),
            ("1M", {"lowercase": True}),
            ("1s+1s", {"no_calc": True}),
            ("2*3", {"default_unit": "ms"}),
        ):
            self.assertEqual(errors_of([text]), {})
            self.assertEqual([*errors_of([text], **options)], [0])
        errors = errors_of(["5 mins 1.5h"], require_unit=True, more_names=True)
        self.assertEqual(errors[0].mended, "5 mins 90min")
        for options in ({"default_unit": "mins"}, {"default_unit": "s", "require_unit": True}):
            self.assertRaises(ValueError, errors_of, ["1s"], **options)

    def test_tells_what_timedelta64_lacks(self):
        line = "duration of 2^63 nanoseconds or more, which timedelta64 doesn't have"
        for text in (f"{2**63}ns", "300y", f"{2**64 - 1}ns"):
            (error,) = errors_of([text]).values()
            self.assertEqual((str(error), error.cause), (line, Cause.OVERFLOW))
            self.assertEqual((error.reason, error.report), (line, line))
            self.assertEqual((error.help, error.mended), (None, None))
        self.assertEqual(errors_of([f"{2**63 - 1}ns"]), {})
        self.assertEqual(errors_of(["293 yrs", "292 yrs"])[0].mended, None)
        self.assertEqual(errors_of(["293 yrs", "292 yrs"])[1].mended, "292 y")
        days = numpy.array([1, 2**40], dtype="timedelta64[D]")
        self.assertEqual(
            [(at, type(error)) for at, error in errors_of(days).items()], [(1, OverflowError)]
        )
        self.assertEqual(errors_of(days[:1]), {})

    def test_tells_why_other_values_are_refused(self):
        values = [b"1s", True, datetime.date(2026, 1, 1), 90, 1.5, datetime.timedelta.max, "x"]
        values += [numpy.float32(1), numpy.timedelta64(1, "Y"), datetime.timedelta(1)]
        errors = errors_of(values)
        self.assertEqual([*errors], [*range(9)])
        for at, error in errors.items():
            with self.subTest(value=values[at]):
                with self.assertRaises((DurationTypeError, OverflowError, DurationError)) as raised:
                    to_timedelta([values[at]])
                told = f"at index 0: {error}"
                self.assertEqual(
                    (type(error), told), (type(raised.exception), str(raised.exception))
                )
                if not isinstance(error, DurationError):
                    self.assertEqual((error.help, error.mended), (None, None))
                    self.assertEqual(error.reason, str(error))
        for value, line in REFUSED_IN_MILLIS:
            (error,) = errors_of([value], default_unit="ms").values()
            self.assertEqual(str(error), line)
        (error,) = errors_of([10**5_000], default_unit="ms").values()
        self.assertIs(type(error), ValueError)
        self.assertIn("4300 digits", str(error))
        self.assertEqual((error.help, error.mended), (None, None))
        for value in (-1, 1.5):
            (error,) = errors_of([value], default_unit="ms").values()
            self.assertEqual((type(error), error.text), (DurationError, str(value)))

    def test_tells_of_each_row_that_is_coerced(self):
        column = pandas.Series(
            ["1h", "5 mins", None, b"1s", "2 hrs", True, "300y", "", "1.5h"] * 50
        )
        missing = to_timedelta(column, errors="coerce").isna() & column.notna()
        self.assertEqual([*errors_of(column).index], [*column[missing].index])
        mended = errors_of(column).map(lambda error: error.mended).dropna()
        self.assertEqual({*mended}, {"5 min", "2 h", "90min"})
        self.assertEqual(len(errors_of(mended)), 0)

    def test_refuses_no_column(self):
        for column in ("5 mins", b"5 mins", 5, None):
            self.assertRaises(TypeError, errors_of, column)
        with self.assertRaisesRegex(TypeError, "^a DataFrame is no column"):
            errors_of(pandas.DataFrame({"took": ["1s"]}))
        for values in ([], [pandas.NaT]):
            with self.assertRaisesRegex(DurationTypeError, r"type datetime64\[ns\]$"):
                errors_of(pandas.Series(values, dtype="datetime64[ns]"))


@unittest.skipUnless(numpy, "NumPy or pandas is missing")
class Printing(unittest.TestCase):
    NANOS = [0, 1, 193_029_000_000, 365 * 1440 * MINUTE, 2**63 - 1]

    def test_prints_columns(self):
        printed = [*map(format, self.NANOS), None]
        values = numpy.array([*self.NANOS, "NaT"], dtype="timedelta64[ns]")
        self.assertEqual(format_many(values).tolist(), printed)
        self.assertEqual(format_many(values.reshape(2, 3)).tolist(), [printed[:3], printed[3:]])
        self.assertEqual(format_many(values.astype(">m8[ns]")).tolist(), printed)
        days = [format(nanos, units=["d"]) for nanos in self.NANOS]
        self.assertEqual(format_many(values[:-1], units=["d"]).tolist(), days)
        self.assertEqual(format_many(values[::-1]).tolist(), printed[::-1])
        series = pandas.Series(values, index=list("abcdef"), name="wait")
        wanted = pandas.Series(printed, index=series.index, name="wait", dtype=object)
        pandas.testing.assert_series_equal(format_many(series), wanted)
        pandas.testing.assert_index_equal(
            format_many(pandas.Index(series)), pandas.Index(printed, name="wait")
        )
        pandas.testing.assert_series_equal(to_timedelta(format_many(series)), series)

    def test_prints_ints_and_timedeltas(self):
        values = [
            2**63,
            5,
            datetime.timedelta(1),
            pandas.Timedelta(1, "ns"),
            pandas.NaT,
            numpy.int64(7),
            float("nan"),
        ]
        values += [numpy.timedelta64(3, "ns"), numpy.timedelta64(3, "D"), numpy.timedelta64("NaT")]
        printed = [format(2**63), "5ns", "1d", "1ns", None, "7ns", None, "3ns", "3d", None]
        self.assertEqual(format_many(values), printed)
        self.assertEqual(format_many(numpy.array(values, dtype=object)).tolist(), printed)
        self.assertEqual(format_many(array("Q", [1, 2**64 - 1])), ["1ns", format(2**64 - 1)])
        largest = numpy.array([1, 2**64 - 1], dtype="uint64")
        self.assertEqual(format_many(largest).tolist(), ["1ns", format(2**64 - 1)])
        masked = numpy.ma.array([1, 2], mask=[True, False])
        self.assertEqual(format_many(masked).tolist(), [None, "2ns"])
        self.assertEqual(format_many(masked.astype("timedelta64[s]")).tolist(), [None, "2s"])
        masked = numpy.ma.array(numpy.array([1, 2]).view(numpy.matrix), mask=[[True, False]])
        self.assertEqual(format_many(masked).tolist(), [[None, "2ns"]])
        self.assertEqual(format_many(masked.astype("timedelta64[s]")).tolist(), [[None, "2s"]])
        self.assertEqual(format_many([]), [])

    def test_prints_one_value_of_numpy(self):
        self.assertEqual(format(numpy.int64(5)), "5ns")
        self.assertEqual(format(numpy.uint8(5)), "5ns")
        self.assertEqual(format(numpy.timedelta64(5, "s")), "5s")
        for value in [numpy.timedelta64(90, "s"), numpy.int64(90 * SECOND)]:
            self.assertEqual(breakdown(value, parts=1), (((1, "min"),), 30 * SECOND))
        for call in [format, breakdown]:
            with self.assertRaisesRegex(ValueError, "missing"):
                call(numpy.timedelta64("NaT"))
        for value in [
            numpy.bool_(True),
            numpy.float64(1),
            numpy.timedelta64(1, "Y"),
            numpy.timedelta64(1),
        ]:
            for call in [format, breakdown]:
                with self.assertRaises(TypeError):
                    call(value)

    def test_prints_units_beyond_nanoseconds(self):
        for unit, length in [("W", 604_800), ("D", 86_400), ("h", 3_600), ("m", 60), ("s", 1)]:
            values = numpy.array([1, 2**33], dtype=f"timedelta64[{unit}]")
            self.assertEqual(
                format_many(values).tolist(), [format(n * length * SECOND) for n in (1, 2**33)]
            )
        self.assertEqual(
            format_many(numpy.array([3], dtype="timedelta64[10ms]")).tolist(), ["30ms"]
        )
        for unit in ["Y", "M", "ps"]:
            with self.assertRaisesRegex(TypeError, "^at index 0: .*not of timedelta64"):
                format_many([numpy.timedelta64(1, unit)])

    def test_names_the_position(self):
        rows = [(ValueError, -1), (OverflowError, 2**64 * SECOND)]
        rows += [(TypeError, value) for value in (1.5, "1s", True)]
        for error, value in rows:
            for column in [[1, value], numpy.array([1, value], dtype=object)]:
                with self.subTest(value=value), self.assertRaisesRegex(error, "^at index 1: "):
                    format_many(column)
        for column in ["5s", b"5s", bytearray(b"5s")]:
            with self.assertRaisesRegex(TypeError, f"not one {type(column).__name__}$"):
                format_many(column)
        with self.assertRaisesRegex(ValueError, "^at index 0: "):
            format_many(pandas.Series([pandas.Timedelta(-1)]))

    def test_prints_what_it_can_if_errors_are_coerced(self):
        column = pandas.Series([pandas.Timedelta(90, "s"), pandas.Timedelta(-1), pandas.NaT])
        printed = format_many(column, errors="coerce")
        pandas.testing.assert_series_equal(printed, pandas.Series(["1min 30s", None, None]))
        values = [-1, "1s", 5, None]
        self.assertEqual(format_many(values, errors="coerce"), [None, None, "5ns", None])
        many = [-1, 5] * 2_000
        self.assertEqual(format_many(many, errors="coerce"), [None, "5ns"] * 2_000)
        for values in [[1.0], [float("nan"), 1.0]]:
            with self.assertRaisesRegex(TypeError, f"^at index {len(values) - 1}: .* not float: "):
                format_many(numpy.array(values), errors="coerce")
        with self.assertRaisesRegex(ValueError, "^errors must be 'raise' or 'coerce', not "):
            format_many([1], errors="ignore")
