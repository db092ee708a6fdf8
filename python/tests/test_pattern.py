"""Tests the regular expressions with Python's engine. tests/patterns compares them with the
grammar."""

import re
import unittest

import duration_str
from tests.vectors import CHOICES, VECTORS, words_of

# ASCII, and some characters that another program may take for a blank, a digit or a letter
STRANGE = [*map(chr, range(128)), *"\x85\xa0\u2028\ufeff٣０μſ\u212a"]


def is_sentence(text, words):
    """With zeros for all digits, no number or term is too large."""
    try:
        duration_str.parse_ns(re.sub("[0-9]", "0", text), **words)
    except duration_str.DurationError as error:
        return error.cause == duration_str.Cause.MIXED
    return True


class Patterns(unittest.TestCase):
    def test_match_the_sentences_of_the_vectors(self):
        texts = [text for group in VECTORS["values"] for *_, row in group["rows"] for text in row]
        texts += [text for text, *_ in VECTORS["refused"]]
        strange = [
            text[:place] + character + text[place:]
            for text in ["1h 30m", "1m + 2", "1m + 2s", "2 * 1h", "90", "1分"]
            for place in range(len(text) + 1)
            for character in STRANGE
        ]
        for names in CHOICES:
            words = words_of(names)
            matches = re.compile(duration_str.pattern(**words)).search
            with self.subTest(names=names):
                for text in [*texts, *strange]:
                    self.assertEqual(bool(matches(text)), is_sentence(text, words), text)

    def test_match_long_sentences_in_linear_time(self):
        for names in CHOICES:
            matches = re.compile(duration_str.pattern(**words_of(names))).search
            for term in ["1", "1ms", " ", "1ms ", "1ms\t+ ", "1\n*", "1MS*1ms+", "1Microsecond"]:
                self.assertIsNone(matches(f"1{term * 10_000}!"))
            self.assertTrue(matches("1m 1Ms\n".lower() * 10_000))

    def test_need_no_flags(self):
        for names in CHOICES:
            pattern = duration_str.pattern(**words_of(names))
            self.assertNotRegex(pattern, r"\(\?[^:]|\\[^tnr]")
            self.assertTrue(pattern.startswith("^") and pattern.endswith("$"))

    def test_refuse_contradictory_options(self):
        for words in [
            {"default_unit": "ms", "no_calc": False},
            {"default_unit": "ms", "require_unit": True},
            {"default_unit": "mins"},
        ]:
            with self.assertRaises(ValueError):
                duration_str.pattern(**words)
