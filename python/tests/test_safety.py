"""Tests calls that must neither crash nor keep memory, such as calls with values of subclasses,
with lists that change while they are read, and in several interpreters."""

import concurrent.futures
import datetime
import gc
import importlib.util
import os
import sys
import tracemalloc
import unittest
from array import array

import duration_str
from duration_str import (
    DurationError,
    breakdown,
    errors_of,
    format,
    format_many,
    parse,
    parse_many,
    parse_ns,
)

SECOND = 10**9


class Named(str):
    """Like the members of many enumerations, it prints another text than it holds."""

    def __str__(self):
        return "3s"


class Odd:
    pass


class Number(int):
    pass


class Safety(unittest.TestCase):
    def test_reads_what_a_str_holds(self):
        self.assertEqual(parse_ns(Named("1s")), SECOND)
        self.assertEqual(
            parse_many(["1s", Named("1m"), Named("1分")], cn_unit=True).tolist(),
            [SECOND, 60 * SECOND, 60 * SECOND],
        )
        for call, given, index in [
            (parse_ns, Named("1x"), None),
            (parse_many, ["1s", Named("1x")], 1),
        ]:
            with self.assertRaises(DurationError) as raised:
                call(given)
            self.assertEqual(
                (raised.exception.index, raised.exception.text, type(raised.exception.text)),
                (index, "1x", str),
            )

    def test_wants_one_text_and_known_options(self):
        for call in (parse, parse_ns):
            for arguments, words in [
                ((), {}),
                (("1s", "2s"), {}),
                ((), {"text": "1s"}),
                (("1s",), {"no_calk": True}),
            ]:
                with self.assertRaises(TypeError):
                    call(*arguments, **words)
            with self.assertRaisesRegex(
                TypeError, rf"^{call.__name__}\(\) got an unexpected keyword argument 'strict'$"
            ):
                call("1s", strict=True)
            self.assertEqual(call("1m", **{"".join(("no_", "calc")): True}), call("1m"))

        with self.assertRaisesRegex(
            TypeError, r"not float: timedelta\(seconds=...\) takes seconds$"
        ):
            format(1.5)

    def test_prints_what_an_int_is(self):
        self.assertEqual(format(Number(SECOND)), "1s")
        self.assertEqual(format(Number(2**64)), format(2**64))
        self.assertEqual(format_many([Number(2**70)]), [format(2**70)])
        self.assertEqual(breakdown(Number(2**70)), breakdown(2**70))
        for call in [format, breakdown]:
            for value in [2**64 * SECOND, 10**400]:
                line = r"^the duration is 2\*\*64 seconds or more$"
                with self.assertRaisesRegex(OverflowError, line):
                    call(value)
            for value in [-1, -(2**64), Number(-1), -(10**400), -(10**5000)]:
                with self.assertRaisesRegex(ValueError, "^the duration is negative: "):
                    call(value)

    def test_hides_no_error_of_a_value(self):
        for error in [MemoryError, ZeroDivisionError]:

            def fail(_, error=error):
                raise error

            value = type("Failing", (), {"__index__": fail, "__bool__": fail})()
            for call in [
                lambda: format(5, parts=value),
                lambda: breakdown(5, parts=value),
                lambda: format_many([5], parts=value),
                lambda: parse("1s", no_calc=value),
            ]:
                self.assertRaises(error, call)

    def test_prints_what_changes_while_it_is_printed(self):
        values = []

        class Clearing(datetime.timedelta):
            @property
            def nanoseconds(self):
                values.clear()
                return 1

        values += [SECOND, Clearing(seconds=1), SECOND]
        texts = []
        duration_str._native.format_list(
            values, duration_str._errors.nanos_of, texts, (0x7FF, 11, 0, 0)
        )
        self.assertEqual((values, texts), ([], ["1s", "1s 1ns"]))
        with self.assertRaisesRegex(TypeError, "^at index 1: .* not Odd$"):
            format_many([SECOND, Odd(), SECOND])

    def test_takes_units_from_any_iterable(self):
        self.assertEqual(format(SECOND, units=[Named("ms")], largest=Named("ms")), "1000ms")
        for units, error in [((1 // 0 for _ in "y"), ZeroDivisionError), ([Odd()], TypeError)]:
            self.assertRaises(error, format, SECOND, units=units)

    def test_reads_what_changes_while_it_is_read(self):
        for change in [list.clear, list.pop]:
            values, nanos = ["1s", Odd(), "1s"], array("Q", bytes(24))

            def keep(value, index):
                change(values)
                return 7

            self.assertEqual(
                duration_str._native.read_list(values, nanos, (0, False), True, 0, keep), []
            )
            self.assertEqual(nanos.tolist(), [SECOND, 7, 0])
        for kept in ["1", 2**63, None]:
            with self.assertRaises((OverflowError, TypeError)):
                duration_str._native.read_list(
                    [Odd()], array("Q", [0]), (0, False), True, 0, lambda value, index: kept
                )
        errors = []

        def change_errors(value, index):
            errors.clear()
            values.clear()
            return ValueError("odd")

        values = ["x", Odd(), "x"]
        nanos = array("Q", bytes(24))
        arguments = (values, nanos, (0, False), False, 0, change_errors)
        self.assertEqual(duration_str._native.read_list(*arguments, errors), [0, 1])
        self.assertEqual([*map(str, errors)], ["odd"])
        # Only errors_of takes an error for an answer.
        values += [Odd()]
        self.assertRaises(TypeError, duration_str._native.read_list, *arguments)

    def test_leaves_the_garbage_collector_on_or_off(self):
        def fail(value, index):
            raise ZeroDivisionError

        self.addCleanup(gc.enable)
        arguments = (["x", Odd()], array("Q", bytes(16)), (0, False), False, 0)
        for switch in (gc.disable, gc.enable):
            switch()
            is_on = gc.isenabled()
            errors_of(["x"])
            self.assertEqual(gc.isenabled(), is_on)
            with self.assertRaises(ZeroDivisionError):
                duration_str._native.read_list(*arguments, fail, [])
            self.assertEqual(gc.isenabled(), is_on)

    @unittest.skipUnless(
        sys.version_info >= (3, 12), "interpreters share a lock before CPython 3.12"
    )
    def test_serves_interpreters_with_locks_of_their_own(self):
        interpreters = importlib.import_module(
            "_interpreters" if sys.version_info >= (3, 13) else "_xxsubinterpreters"
        )
        program = (
            "import duration_str\n"
            "for nanos in range(10_000):\n"
            "    text = duration_str.format(nanos * 10**9)\n"
            "    assert duration_str.parse_ns(text) == nanos * 10**9\n"
            "    assert duration_str.format(duration_str.parse(text)) == text\n"
            # All interpreters share None and small ints.
            "    duration_str.parse_many([0, 1, 2] * 10, default_unit='ns')\n"
            "    duration_str.format_many([0, 1, 2, None] * 10)\n"
            "    try:\n"
            "        duration_str.parse(text + '!')\n"
            "    except duration_str.DurationError as error:\n"
            "        assert error.found == '!'\n"
        )

        def serve(_):
            interpreter = interpreters.create()
            # Before Python 3.13 the error is raised. From 3.13 on it is returned.
            failed = interpreters.run_string(interpreter, program)
            interpreters.destroy(interpreter)
            return failed

        with concurrent.futures.ThreadPoolExecutor(4) as pool:
            self.assertEqual(list(pool.map(serve, range(8))), [None] * 8)

    @unittest.skipIf(os.environ.get("DURATION_STR_SLOW") == "no", "it is slow")
    def test_keeps_no_memory(self):
        def all_calls(rounds):
            for number in range(rounds):
                parse_ns("1m 3s")
                parse("1w 2h 3s")
                duration_str.parse_seconds("1h")
                format(SECOND)
                format(2**64)
                duration_str.breakdown(SECOND + 1)
                duration_str.breakdown(2**93 + 1, rounding="up")
                with self.assertRaises(OverflowError):
                    duration_str.breakdown(2**93 + 1, units=["ms", "ns"])
                # A text whose reference is lost takes memory only if it is another each time.
                for text in ["1x", f"\ud800{number}", "", "600y", None]:
                    try:
                        parse_ns(text)
                    except ValueError:
                        pass
            for _ in range(rounds // 100):
                parse_many(["1s", "x", None, "\ud800"] * 200, errors="coerce")
                mixed = ["1s", 1_500, 1.5, 2e3, None, True, 10**5_000, -1_000]
                parse_many(mixed * 20, errors="coerce", default_unit="ms")
                for error in errors_of(["5 mins", "300y", "\ud800", *mixed] * 20).values():
                    error.mended
                errors_of(mixed * 20, default_unit="ms")
                missing = [b"x" * 10_000, b"y" * 10_000]
                duration_str._native.read_list(
                    missing, array("Q", [0, 0]), (0, False), True, 0, lambda *_: -(2**63)
                )
                # The numbers are above 256, since Python keeps small ints for ever.
                numbers = [*range(1_000, 1_200), *[None] * 200, "x"]
                for call in (
                    lambda: parse_many(["1s", "x"]),
                    lambda: format_many(numbers),
                ):
                    try:
                        call()
                    except (TypeError, ValueError):
                        pass

        def kept(rounds):
            all_calls(rounds)
            gc.collect()
            return tracemalloc.get_traced_memory()[0]

        tracemalloc.start()
        try:
            before = kept(1_000)
            self.assertLess(kept(20_000) - before, 2_000)
        finally:
            tracemalloc.stop()

    def test_frees_what_a_module_has_kept(self):
        spec = importlib.util.find_spec("duration_str._native")

        def kept(rounds):
            for _ in range(rounds):
                module = importlib.util.module_from_spec(spec)
                spec.loader.exec_module(module)
                for count in range(300):
                    module.parse(f"{count}s")
                del module
                gc.collect()
            return tracemalloc.get_traced_memory()[0]

        tracemalloc.start()
        try:
            before = kept(2)
            # CPython keeps some hundred bytes of each loading.
            self.assertLess(kept(10) - before, 50_000)
        finally:
            tracemalloc.stop()
