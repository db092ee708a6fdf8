import os
import pickle
import signal
import unittest
from array import array

import duration_str
from duration_str import Cause, _native, parse_many, parse_ns
from tests.vectors import error_of, refused_positions, told_by, value_columns

SECOND = 10**9
LENGTHS = [0, 1, 2, 20_000]


class Columns(unittest.TestCase):
    def test_reads_the_vectors(self):
        for options, rows in value_columns():
            texts, values = zip(*rows)
            wanted = (
                array("Q", [value or 0 for value in values]),
                array("Q", refused_positions(values)),
            )
            with self.subTest(**options):
                self.assertEqual(parse_many(texts, errors="coerce", **options), wanted)

    def test_raises_what_the_text_alone_raises(self):
        for options, rows in value_columns():
            accepted = [text for text, value in rows if value is not None][:3]
            for text in {text for text, value in rows if value is None}:
                column = [*accepted, text, "x"]
                alone = error_of(parse_ns, text, **options)
                with self.subTest(text=text, **options):
                    error = error_of(parse_many, column, **options)
                    line = f"at index {len(accepted)}: {alone}"
                    report = alone.report.replace(str(alone), line)
                    there = {"line": line, "report": report, "index": len(accepted)}
                    self.assertEqual(told_by(error), told_by(alone) | there)
                    again = pickle.loads(pickle.dumps(error))
                    self.assertEqual(told_by(again), told_by(error))

    def test_reads_any_length(self):
        for length in LENGTHS:
            with self.subTest(length=length):
                values = array("Q", range(length))
                texts = [f"{value}ns".rjust(value % 600) for value in values]
                self.assertEqual(parse_many(texts), values)
                self.assertEqual(parse_many(texts, errors="coerce"), (values, array("Q")))
                for place in {0, length // 2, length - 1} if length else ():
                    spoilt = [*texts[:place], "1µx", *texts[place + 1 :]]
                    error = error_of(parse_many, spoilt)
                    self.assertEqual(
                        (error.index, str(error).partition(":")[0]), (place, f"at index {place}")
                    )
                    values[place], kept = 0, values[place]
                    self.assertEqual(
                        parse_many(spoilt, errors="coerce"), (values, array("Q", [place]))
                    )
                    values[place] = kept

    @unittest.skipIf(os.environ.get("DURATION_STR_SLOW") == "no", "it is slow")
    def test_reads_ten_million(self):
        nanos = parse_many(["1ns", "2 µs"] * 5_000_000)
        self.assertEqual((len(nanos), sum(nanos)), (10**7, 2_001 * 5_000_000))

    def test_reads_a_long_text_among_short_ones(self):
        long = "1s " * 3_500_000
        self.assertEqual(
            list(parse_many(["1s", long, "2s"])), [SECOND, 3_500_000 * SECOND, 2 * SECOND]
        )
        error = error_of(parse_many, ["1s", f"{long}µ", "2s"])
        self.assertEqual((error.index, error.pos, error.found), (1, len(long), "µ"))

    def test_takes_any_sequence(self):
        for texts in [
            ("1s", "2s"),
            {"1s": 0, "2s": 0},
            (text for text in ("1s", "2s")),
            map(str, ["1s", "2s"]),
        ]:
            self.assertEqual(list(parse_many(texts)), [SECOND, 2 * SECOND])
        for text in ["12", b"12", bytearray(b"12")]:
            with self.assertRaisesRegex(TypeError, "not one (str|bytes|bytearray)$"):
                parse_many(text)
        with self.assertRaisesRegex(TypeError, "^'int' object is not iterable$"):
            parse_many(12)
        self.assertEqual(parse_many(["1M"], no_calc=2).tolist(), [60 * SECOND])

    def test_counts_the_default_unit(self):
        nanos, refused = parse_many(["1500", "2s", "2*3"], default_unit="ms", errors="coerce")
        self.assertEqual(nanos.tolist(), [1_500_000_000, 2 * SECOND, 0])
        self.assertEqual(refused.tolist(), [2])

    def test_reads_numbers_in_a_unit_that_is_named(self):
        values = [1500, "1500", 1500.0, 0, 1.5, -1, None, True, 10**5_000, "1s"]
        nanos, refused = parse_many(values, default_unit="ms", errors="coerce")
        read = 1_500_000_000
        self.assertEqual(nanos.tolist(), [read, read, read, 0, 0, 0, 0, 0, 0, SECOND])
        self.assertEqual(refused.tolist(), [4, 5, 6, 7, 8])
        self.assertEqual(list(parse_many(range(3), default_unit="s")), [0, SECOND, 2 * SECOND])
        for value in [-1, 1.5, 2**64]:
            error = error_of(parse_many, ["1", value], default_unit="ms")
            self.assertEqual((error.index, error.text), (1, str(value)))
            text = error_of(parse_many, ["1", str(value)], default_unit="ms")
            self.assertEqual(str(error), str(text))
        for value in [None, True, b"1", float("nan")]:
            with self.assertRaisesRegex(TypeError, "^at index 1: .* str or a whole number, not "):
                parse_many(["x", value], default_unit="ms")
        with self.assertRaisesRegex(ValueError, "4300 digits"):
            parse_many([1, 10**5_000], default_unit="ms")
        data = array("Q", [1, 2**64 - 1])
        self.assertEqual(parse_many(data, default_unit="ns"), data)

    def test_refuses_lone_surrogates(self):
        texts = ["1s", "\ud800", "1\udc00s", "\ud83d\ude00", "1µs"]
        wanted = (array("Q", [SECOND, 0, 0, 0, 1000]), array("Q", [1, 2, 3]))
        self.assertEqual(parse_many(texts, errors="coerce"), wanted)
        error = error_of(parse_many, texts)
        self.assertEqual((error.index, error.cause, error.text), (1, Cause.NOT_TEXT, "\ud800"))
        self.assertEqual(error_of(parse_many, texts[1:]).index, 0)
        self.assertEqual(list(parse_many(["\ud83d", "\ude00"], errors="coerce")[1]), [0, 1])

    def test_wants_str(self):
        class Pretender:
            __class__ = str

        for value in [None, float("nan"), b"1s", 1, ["1s"], Pretender()]:
            with self.subTest(value=value):
                for before in [[], ["1s", "x"]]:
                    line = f"^at index {len(before)}: .* must be a str, not {type(value).__name__}"
                    end = ": to read numbers, .*default_unit='ms'$" if value == 1 else "$"
                    self.assertRaisesRegex(TypeError, line + end, parse_many, [*before, value])
                answer = parse_many(["1s", value, "2s"], errors="coerce")
                self.assertEqual(answer, (array("Q", [SECOND, 0, 2 * SECOND]), array("Q", [1])))

    def test_knows_two_ways_with_errors(self):
        for errors in ["ignore", "Raise", None, "", True]:
            for call in (parse_many, duration_str.to_timedelta):
                with self.assertRaisesRegex(
                    ValueError, "^errors must be 'raise' or 'coerce', not "
                ):
                    call(["1s"], errors=errors)
        with self.assertRaises(TypeError):
            parse_many(["1s"], "coerce")

    def test_is_ended_by_a_signal(self):
        def interrupt(*_):
            raise KeyboardInterrupt

        count = 3_000_000
        texts, nanos, printed = ["1s"] * count, array("Q", bytes(8 * count)), []
        limits = _native.limits(parts=11, largest="y", smallest="ns", style="short")
        before = signal.signal(signal.SIGVTALRM, interrupt)
        try:
            for call, arguments in [
                (_native.read_list, (texts, nanos, (0, False), True, 0, None)),
                (_native.format_list, ([SECOND] * count, None, printed, limits)),
            ]:
                with self.assertRaises(KeyboardInterrupt):
                    signal.setitimer(signal.ITIMER_VIRTUAL, 0.005)
                    call(*arguments)
        finally:
            signal.setitimer(signal.ITIMER_VIRTUAL, 0)
            signal.signal(signal.SIGVTALRM, before)
        self.assertEqual(nanos[-1], 0)
        self.assertLess(len(printed), count)
