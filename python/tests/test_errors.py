import copy
import pickle
import sys
import functools
import operator
import unittest

from duration_str import Cause, DurationError, Expected, Help, parse_ns
from tests import vectors
from tests.vectors import CHOICES, VECTORS, told_by, words_of


error_of = functools.partial(vectors.error_of, parse_ns)


class JobError(DurationError):
    """A subclass of the error, as a caller may write it."""


class Errors(unittest.TestCase):
    def test_tells_what_is_wrong(self):
        for row in VECTORS["refused"]:
            text, names, cause, place, found, expected, line, spaces, code, *mend = row
            suggestion, span, mended = mend
            with self.subTest(text=text):
                error = error_of(text, **words_of(names))
                self.assertIsInstance(error, ValueError)
                pos = place and len(text.encode()[:place].decode())
                self.assertEqual(
                    (error.cause.name, error.place, error.pos, error.found),
                    (cause, place, pos, found),
                )
                kinds = (Expected[name.upper()] for name in expected)
                self.assertEqual(error.expected, functools.reduce(operator.or_, kinds, Expected(0)))
                above = "" if spaces is None else f"{text}\n{' ' * spaces}^\n"
                self.assertEqual((str(error), error.report), (line, above + line))
                self.assertEqual(error.reason, vectors.reason_of(line, cause, pos))
                self.assertIs(error.help, code and Help[code])
                ends = span and tuple(len(text.encode()[:end].decode()) for end in span)
                self.assertEqual((error.suggestion, error.span), (suggestion, ends))
                self.assertEqual(error.mended, mended)

    def test_mends_a_part_that_has_fewer_characters_than_bytes(self):
        rows = [
            ("5 μs 2h", "us", (2, 4), "5 us 2h"),
            ("1分 1.5分 2h 分", "90s", (3, 7), None),
            ("1分 1.5分 2hrs", "90s", (3, 7), "1分 90s 2h"),
        ]
        for text, suggestion, span, mended in rows:
            with self.subTest(text=text):
                error = error_of(text, cn_unit=True)
                self.assertEqual((error.suggestion, error.span), (suggestion, span))
                self.assertEqual(error.mended, mended)

    def test_mends_until_a_text_is_read(self):
        rows = [
            ("2hrs 1.5min", {}, "2h 90s"),
            ("1.5h 5x", {}, None),
            ("600years.", {}, None),
            ("1_000.5", {"default_unit": "ms"}, "1000500us"),
            ("1_5.5", {"default_unit": "ms"}, None),
            ("1_000'00s", {}, None),
            (1.5, {"default_unit": "ms"}, "1500us"),
            ("0 0", {"require_unit": True}, None),
        ]
        for text, options, mended in rows:
            with self.subTest(text=text):
                self.assertEqual(error_of(text, **options).mended, mended)

    def test_mends_up_to_32_faults(self):
        for count, is_mended in ((32, True), (33, False), (250_000, False)):
            error = error_of(f"0{'_000' * count}s")
            self.assertEqual(error.mended, f"0{'000' * count}s" if is_mended else None)

    def test_mends_to_a_longer_text(self):
        for before in ("", "0s" * 300):
            error = error_of(before + "+".join(["00.7d"] + [".7d"] * 31))
            self.assertEqual(error.mended, before + "+".join(["1008min"] * 32))

    def test_has_each_help(self):
        codes = {code for *_, code, _, _, _ in VECTORS["refused"]}
        self.assertEqual({None, *(each.name for each in Help)}, codes)

    def test_reports_nothing_unsafe(self):
        unsafe = "[\0-\t\v-\x1f\x7f-\xa0\xad\u061c\u1680\u2000-\u200f\u2028-\u202f\u2060-\u206f\u3000\ufeff\U000e0001-\U000e007f]"
        for code in [*range(0xD800), *range(0xE000, 0x10000), *range(0xE0000, 0xE0080)]:
            report = error_of(f"1h -{chr(code)}").report
            self.assertIn(report.count("\n"), (0, 2))
            self.assertNotRegex(report, unsafe)

    def test_reads_a_zero_character_as_any_other(self):
        error = error_of("1s\0 2s")
        self.assertEqual((error.cause, error.place, error.found), (Cause.SYNTAX, 2, "\0"))
        self.assertEqual(error.report, str(error))
        self.assertEqual(error_of("\0").place, 0)

    def test_refuses_lone_surrogates(self):
        rows = [("\ud800", 0), ("1s\udfff", 2), ("\udc801s", 0), ("1\ud83ds", 1)]
        for text, place in rows:
            for options in map(words_of, CHOICES):
                with self.subTest(text=text, **options):
                    error = error_of(text, **options)
                    self.assertIs(error.cause, Cause.NOT_TEXT)
                    self.assertEqual(
                        (error.text, error.place, error.pos, error.found), (text, None, None, None)
                    )
                    line = f"not UTF-8: a lone surrogate at index {place}"
                    self.assertEqual((str(error), error.reason, error.report), (line,) * 3)
                    self.assertEqual((error.help, error.suggestion, error.mended), (None,) * 3)
                    self.assertIsNone(error.span)

    def test_tells_of_a_long_text_in_a_short_line(self):
        line = "expected a number, '+', '*' or the end at column 100003, found \"x\""
        error = error_of(f"1s{' ' * 100_000}x")
        self.assertEqual((str(error), error.report), (line, line))

    def test_costs_little(self):
        """A refusal calls no function that is written in Python."""
        called = []
        sys.setprofile(
            lambda frame, event, _: called.append(frame.f_code.co_name) if event == "call" else None
        )
        try:
            parse_ns("1m 3-5")
        except DurationError:
            pass
        finally:
            sys.setprofile(None)
        self.assertEqual(called, [])

    def test_can_be_made_with_other_arguments(self):
        self.assertEqual(str(DurationError("too short")), "too short")
        self.assertEqual(repr(DurationError()), "DurationError('')")

    def test_can_be_copied_and_pickled(self):
        for text in ["", "1µs …", "600y", "1\ud800", "5 mins", "1.5h"]:
            error = error_of(text, no_calc=True)
            error.__class__ = JobError
            error.job = "backup"
            error.__notes__ = ["of the second job"]
            for other in [copy.copy(error), pickle.loads(pickle.dumps(error))]:
                self.assertEqual((type(other), vars(other)), (JobError, vars(error)))
                self.assertEqual(told_by(other), told_by(error))
                self.assertEqual(repr(other), f"JobError({str(error)!r})")
