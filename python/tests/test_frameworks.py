"""Tests how pydantic, argparse and Click read durations, and the recipes of README.md."""

import argparse
import datetime
import importlib.metadata
import importlib.util
import json
import pathlib
import pickle
import re
import subprocess
import sys
import tempfile
import typing
import unittest

import duration_str
from duration_str import parse

MINUTE = datetime.timedelta(minutes=1)
HOUR = 60 * MINUTE
TEXT = {"type": "string", "pattern": duration_str.pattern()}


def has(name):
    return importlib.util.find_spec(name) is not None


def recipe(name):
    """The first line of a recipe is a comment with its name."""
    readme = importlib.metadata.metadata("duration-str")["Description"]
    return re.search(rf"^```python\n(# {name}\n.*?)^```$", readme, re.M | re.S)[1]


def run(name, *words, files=()):
    with tempfile.TemporaryDirectory() as room:
        for file, text in (name, recipe(name)), *files:
            pathlib.Path(room, file).write_text(text, encoding="utf-8")
        ended = subprocess.run(
            [sys.executable, name, *words],
            capture_output=True,
            cwd=room,
            text=True,
            encoding="utf-8",
        )
    return ended.returncode, ended.stdout, ended.stderr.rstrip("\n").rpartition("\n")[2]


class Lines(unittest.TestCase):
    def test_is_a_timedelta_to_who_checks_at_run_time(self):
        self.assertIs(typing.get_args(duration_str.Duration)[0], datetime.timedelta)
        self.assertNotIn("0x", repr(duration_str.Duration))
        self.assertEqual(pickle.loads(pickle.dumps(duration_str.Duration)), duration_str.Duration)

    def test_is_another_type_by_other_options(self):
        field = duration_str.DurationField
        self.assertEqual(field(default_unit="ms"), field(default_unit="ms"))
        self.assertEqual(len({field(), field(), field(default_unit="ms")}), 2)
        self.assertNotEqual(field(), field(default_unit="s"))
        self.assertEqual(field(), field(no_calc=False))
        self.assertNotEqual(field(no_calc=True), field(lowercase=True))
        named = field(default_unit="ms", cn_unit=True, more_names=True)
        for made in [field(), field(default_unit="s"), named]:
            self.assertEqual(pickle.loads(pickle.dumps(made)), made)
            self.assertEqual(eval(repr(made), {"duration_str": duration_str}), made)
        self.assertNotEqual(duration_str.Duration, duration_str.DurationRequireUnit)
        self.assertIn("default_unit='ms'", repr(field(default_unit="ms")))

    def test_argparse(self):
        self.assertEqual(run("job.py", "--timeout", "1m"), (0, "0:01:00\n", ""))
        self.assertEqual(run("job.py"), (0, "0:00:30\n", ""))
        status, output, errors = run("job.py", "--timeout", "5 mins")
        self.assertEqual((status, output), (2, ""))
        self.assertEqual(errors, f"job.py: error: argument --timeout: '5 mins': {LINE}")

    def test_argparse_takes_options(self):
        from duration_str.argparse import DURATION, DurationType

        self.assertEqual(repr(DURATION), "DURATION")
        parser = argparse.ArgumentParser(exit_on_error=False)
        parser.add_argument("--timeout", type=DurationType(cn_unit=True), default=HOUR)
        self.assertEqual(parser.parse_args([]).timeout, HOUR)
        self.assertEqual(parser.parse_args(["--timeout", "1分"]).timeout, MINUTE)
        with self.assertRaisesRegex(
            argparse.ArgumentError, "argument --timeout: '1%x': expected a unit"
        ):
            parser.parse_args(["--timeout", "1%x"])
        for option, text in [("no_calc", "1m+1"), ("lowercase", "1M"), ("require_unit", "90")]:
            self.assertRaises(argparse.ArgumentTypeError, DurationType(**{option: True}), text)
        self.assertEqual(DurationType(default_unit="min")("1"), MINUTE)
        self.assertEqual(DurationType(more_names=True)("60 secs"), MINUTE)

    def test_argparse_keeps_the_error(self):
        from duration_str.argparse import DURATION

        parser = argparse.ArgumentParser(exit_on_error=False)
        parser.add_argument("--timeout", type=DURATION)
        with self.assertRaises(argparse.ArgumentError) as refused:
            parser.parse_args(["--timeout", "5 mins"])
        wrong = refused.exception.__context__
        self.assertIsInstance(wrong, argparse.ArgumentTypeError)
        self.assertIsInstance(wrong.__cause__, duration_str.DurationError)
        self.assertEqual(wrong.__cause__.suggestion, "min")

    @unittest.skipUnless(has("click"), "Click is missing")
    def test_click(self):
        self.assertEqual(run("wait.py", "--timeout", "1m"), (0, "0:01:00\n", ""))
        self.assertEqual(run("wait.py"), (0, "0:00:30\n", ""))
        self.assertIn("--timeout DURATION", run("wait.py", "--help")[1])
        status, output, errors = run("wait.py", "--timeout", "5 mins")
        self.assertEqual((status, output), (2, ""))
        self.assertEqual(errors, f"Error: Invalid value for '--timeout': '5 mins': {LINE}")

    @unittest.skipUnless(has("click"), "Click is missing")
    def test_click_takes_options(self):
        import click
        from duration_str.click import DURATION, DurationParamType

        self.assertEqual(DurationParamType(cn_unit=True)("1分"), MINUTE)
        self.assertEqual(repr(DURATION), "DURATION")
        for option, text in [("no_calc", "1m+1"), ("lowercase", "1M"), ("require_unit", "90")]:
            self.assertRaises(click.BadParameter, DurationParamType(**{option: True}), text)
        self.assertEqual(DurationParamType(default_unit="min")("1"), MINUTE)
        self.assertEqual(DurationParamType(more_names=True)("60 secs"), MINUTE)
        for words in ({"default_unit": "mins"}, {"default_unit": "ms", "require_unit": True}):
            self.assertRaisesRegex(ValueError, "default_unit", DurationParamType, **words)
        with self.assertRaisesRegex(click.BadParameter, "'1分': unknown unit"):
            DURATION("1分")

    @unittest.skipUnless(has("click"), "Click is missing")
    def test_click_keeps_the_error(self):
        import click
        from duration_str.click import DURATION

        command = click.Command("wait", params=[click.Option(["--timeout"], type=DURATION)])
        with self.assertRaises(click.BadParameter) as refused:
            command.main(["--timeout", "5 mins"], standalone_mode=False)
        self.assertEqual(refused.exception.param.name, "timeout")
        self.assertIsInstance(refused.exception.__cause__, duration_str.DurationError)
        self.assertEqual(refused.exception.__cause__.suggestion, "min")

    @unittest.skipUnless(has("click"), "Click is missing")
    def test_click_keeps_timedeltas(self):
        from duration_str.click import DURATION, DurationParamType

        self.assertEqual(DURATION.convert(MINUTE, None, None), MINUTE)
        self.assertEqual(DURATION("1m"), MINUTE)
        with self.assertRaises(duration_str.DurationTypeError):
            DURATION.convert(60, None, None)
        milliseconds = DurationParamType(default_unit="ms")
        self.assertEqual(milliseconds.convert(60_000, None, None), MINUTE)


@unittest.skipUnless(has("distributed") and has("pandas"), "Dask or pandas is missing")
class Cluster(unittest.TestCase):
    def test_reads_files_in_two_processes(self):
        texts = ["1m 30s", "soon", "2 hours", "", "5 mins", "90"]
        files = [(f"jobs-{at}.csv", f"takes,id\n{text},1\n") for at, text in enumerate(texts)]
        # Debian's Dask warns about itself.
        status, output, _ = run("cluster.py", files=files)
        self.assertEqual((status, output), (0, "0 days 02:00:00 ['soon', '5 mins']\n"))


LINE = 'unknown unit "mins" at column 3 (did you mean "min"?)'


@unittest.skipUnless(has("pydantic_core"), "pydantic 2 is missing")
class Models(unittest.TestCase):
    def setUp(self):
        import pydantic

        self.pydantic = pydantic

        class Job(pydantic.BaseModel):
            timeout: duration_str.Duration

        self.model = Job

    def test_reads_texts_and_keeps_timedeltas(self):
        for value in ["1m", type("Name", (str,), {})("1m"), MINUTE]:
            self.assertEqual(self.model(timeout=value).timeout, MINUTE)
        self.assertEqual(self.model(timeout=0 * MINUTE).timeout, 0 * MINUTE)
        self.assertEqual(self.model.model_validate_json('{"timeout": "1m"}').timeout, MINUTE)

    def test_requires_units(self):
        adapter = self.pydantic.TypeAdapter(duration_str.DurationRequireUnit)
        self.assertEqual(adapter.validate_python("1h 30m"), 1.5 * HOUR)
        self.assertEqual(adapter.dump_json(adapter.validate_python(MINUTE)), b'"1min"')
        self.assertEqual(
            pickle.loads(pickle.dumps(duration_str.DurationRequireUnit)),
            duration_str.DurationRequireUnit,
        )
        for text, line in [
            ("90", r"expected a unit at column 3, found the end \(write the number's unit: "),
            ("1h 30 + 5x", 'expected a unit at column 7, found "\\+"'),
            ("", "empty text"),
            ("9" * 99_999, "expected a unit at column 100000, found the end"),
            ("9" * 99_999 + "s", "number of"),
        ]:
            with self.assertRaisesRegex(self.pydantic.ValidationError, line):
                adapter.validate_python(text)

    def test_chooses_how_a_type_reads(self):
        field = duration_str.DurationField(default_unit="ms")
        adapter = self.pydantic.TypeAdapter(typing.Annotated[datetime.timedelta, field])
        self.assertEqual(adapter.validate_python("60000"), MINUTE)
        self.assertEqual(adapter.dump_json(adapter.validate_python("1h 500")), b'"1h 500ms"')
        with self.assertRaisesRegex(self.pydantic.ValidationError, r"at column 4, found \"\*\""):
            adapter.validate_python("90s*2")
        self.assertEqual(adapter.validate_python(60_000), MINUTE)
        self.assertEqual(adapter.validate_json("6e4"), MINUTE)
        self.assertEqual(adapter.validate_json("1500"), MINUTE / 40)
        for value, line in [
            ("1.5", r'found "\." \(fractions are not read: write 1500us\)'),
            ("-5", 'at column 1, found "-"'),
            ("18446744073709551616", "number of 2\\^64 or more"),
            ("true", r"valid string or integer \[type=duration_type"),
            ("[1]", r"valid string or integer \[type=duration_type"),
        ]:
            with self.assertRaisesRegex(self.pydantic.ValidationError, line):
                adapter.validate_json(value)
        text = {"type": "string", "pattern": duration_str.pattern(default_unit="ms")}
        self.assertEqual(adapter.json_schema(), {"anyOf": [{"type": "integer"}, text]})
        self.assertEqual(adapter.json_schema(mode="serialization"), text)
        for plain in [duration_str.Duration, duration_str.DurationRequireUnit]:
            with self.assertRaisesRegex(self.pydantic.ValidationError, "type=string_type"):
                self.pydantic.TypeAdapter(plain).validate_python(60)
        for option, text in [("no_calc", "1m+1"), ("lowercase", "1M"), ("require_unit", "90")]:
            field = duration_str.DurationField(**{option: True})
            adapter = self.pydantic.TypeAdapter(typing.Annotated[datetime.timedelta, field])
            with self.assertRaises(self.pydantic.ValidationError):
                adapter.validate_python(text)
        for option, text in [("cn_unit", "1分"), ("more_names", "60 secs")]:
            field = duration_str.DurationField(**{option: True})
            adapter = self.pydantic.TypeAdapter(typing.Annotated[datetime.timedelta, field])
            self.assertEqual(adapter.validate_python(text), MINUTE)
            self.assertEqual(adapter.dump_json(MINUTE), b'"1min"')
            pattern = duration_str.pattern(**{option: True})
            self.assertEqual(adapter.json_schema(), {"type": "string", "pattern": pattern})

    def test_writes_the_printed_text(self):
        job = self.model(timeout=90 * MINUTE)
        self.assertEqual(job.model_dump_json(), '{"timeout":"1h 30min"}')
        self.assertEqual(job.model_dump(mode="json"), {"timeout": "1h 30min"})
        self.assertEqual(job.model_dump(), {"timeout": 90 * MINUTE})
        self.assertEqual(self.model.model_validate_json(job.model_dump_json()), job)
        self.assertEqual(self.model.model_validate(job.model_dump()), job)

    def test_writes_nothing_that_it_cannot_read_back(self):
        longest = datetime.timedelta(microseconds=2**64 // 1000)
        job = self.model(timeout=longest)
        self.assertEqual(self.model.model_validate_json(job.model_dump_json()), job)
        longer = self.model(timeout=longest + datetime.timedelta(microseconds=1))
        with self.assertRaisesRegex(ValueError, "a duration of over 584 years can't be read back"):
            longer.model_dump_json()

    def test_has_the_schema_of_its_json(self):
        for mode in ["validation", "serialization"]:
            schema = self.model.model_json_schema(mode=mode)
            self.assertEqual(schema["properties"], {"timeout": {"title": "Timeout", **TEXT}})
            strict = self.pydantic.TypeAdapter(duration_str.DurationRequireUnit)
            pattern = duration_str.pattern(require_unit=True)
            self.assertEqual(strict.json_schema(mode=mode)["pattern"], pattern)

    def models_with(self, **words):
        """The first model assigns the limits, and the second has them in `Annotated`."""
        field = self.pydantic.Field(**words)
        for annotation, default in [
            (duration_str.Duration, field),
            (typing.Annotated[duration_str.Duration, field], HOUR),
        ]:
            yield self.pydantic.create_model("Bounded", length=(annotation, default))

    def test_keeps_what_a_field_demands(self):
        accepted = {"gt": ["61min"], "ge": ["1h", "61min"], "lt": ["59min"], "le": ["59min", "1h"]}
        for demand, wanted in accepted.items():
            for model in self.models_with(**{demand: HOUR}):
                for text in ["59min", "1h", "61min"]:
                    for read in [
                        lambda text=text: model(length=text),
                        lambda text=text: model(length=parse(text)),
                        lambda text=text: model.model_validate_json(json.dumps({"length": text})),
                    ]:
                        with self.subTest(demand=demand, text=text):
                            if text in wanted:
                                self.assertEqual(read().length, parse(text))
                            else:
                                self.assertRaisesRegex(
                                    self.pydantic.ValidationError,
                                    " than .*(1 hour|seconds=3600)",
                                    read,
                                )

    def test_writes_no_demand_that_json_schema_lacks(self):
        for demand in ["gt", "ge", "lt", "le"]:
            for mode in ["validation", "serialization"]:
                for model in self.models_with(description="how long", **{demand: HOUR}):
                    schema = model.model_json_schema(mode=mode)["properties"]["length"]
                    schema.pop("default", None)
                    self.assertEqual(schema, {"title": "Length", **TEXT, "description": "how long"})

    def test_shows_a_default_as_a_text(self):
        field = self.pydantic.Field
        for annotation, default in [
            (duration_str.Duration, 120 * HOUR),
            (duration_str.Duration, field(120 * HOUR, gt=HOUR)),
            (typing.Annotated[duration_str.Duration, field(gt=HOUR)], 120 * HOUR),
        ]:
            for config in [{}, {"ser_json_timedelta": "float"}]:
                model = self.pydantic.create_model(
                    "Kept", __config__=config, length=(annotation, default)
                )
                for mode in ["validation", "serialization"]:
                    with self.subTest(annotation=annotation, mode=mode, **config):
                        schema = model.model_json_schema(mode=mode)
                        self.assertEqual(schema["properties"]["length"]["default"], "5d")
                self.assertEqual(model(length="5d"), model())
        model = self.pydantic.create_model(
            "Kept",
            __config__={"ser_json_timedelta": "float"},
            length=(duration_str.Duration, 0 * HOUR),
        )
        self.assertEqual(model.model_json_schema()["properties"]["length"]["default"], "0s")

    def test_takes_a_default_as_a_text(self):
        for annotation, default in [
            (duration_str.Duration, self.pydantic.Field("30s", validate_default=True)),
            (
                typing.Annotated[
                    duration_str.Duration, self.pydantic.Field(validate_default=True, lt=HOUR)
                ],
                "30s",
            ),
        ]:
            model = self.pydantic.create_model("Kept", length=(annotation, default))
            self.assertEqual(model().length, MINUTE / 2)
            self.assertEqual(model().model_dump_json(), '{"length":"30s"}')
            for mode in ["validation", "serialization"]:
                schema = model.model_json_schema(mode=mode)["properties"]["length"]
                self.assertEqual(schema, {"title": "Length", **TEXT, "default": "30s"})
        for value, config in [(-HOUR, {"ser_json_timedelta": "float"}), ("Pst", {})]:
            model = self.pydantic.create_model(
                "Kept", __config__=config, length=(duration_str.Duration, value)
            )
            self.assertIn("default", model.model_json_schema()["properties"]["length"])
        unchecked = self.pydantic.create_model("Kept", length=(duration_str.Duration, "30s"))
        self.assertEqual(unchecked().model_dump_json(), '{"length":"30s"}')

    def test_refuses_what_json_does_not_read_back(self):
        for value in ["1x", "", "PT1M", 60, 1.5, None, b"1m", -MINUTE, datetime.time(1)]:
            with self.subTest(value=value), self.assertRaises(self.pydantic.ValidationError):
                self.model(timeout=value)
            if not isinstance(value, (bytes, datetime.timedelta, datetime.time)):
                with self.subTest(json=value), self.assertRaises(self.pydantic.ValidationError):
                    self.model.model_validate_json(json.dumps({"timeout": value}))

    def test_is_named_in_a_union(self):
        model = self.pydantic.create_model("Either", length=(duration_str.Duration | int, ...))
        with self.assertRaises(self.pydantic.ValidationError) as raised:
            model(length="x")
        self.assertEqual(
            raised.exception.errors()[0]["loc"],
            ("length", "function-before[duration(), timedelta]"),
        )

    def test_refuses_what_is_no_text_as_pydantic_does(self):
        for read in [
            lambda: self.model(timeout=5),
            lambda: self.model.model_validate_json('{"timeout": 5}'),
        ]:
            with self.assertRaises(self.pydantic.ValidationError) as raised:
                read()
            self.assertEqual(
                [error["type"] for error in raised.exception.errors()], ["string_type"]
            )
        with self.assertRaises(self.pydantic.ValidationError) as raised:
            self.model(timeout=-MINUTE)
        self.assertIn("duration_negative", json.dumps(raised.exception.errors()[0]["type"]))

    def test_tells_what_is_wrong_in_one_line(self):
        for read in [
            lambda: self.model(timeout="5 mins"),
            lambda: self.model.model_validate_json('{"timeout": "5 mins"}'),
        ]:
            with self.assertRaises(self.pydantic.ValidationError) as raised:
                read()
            (error,) = raised.exception.errors()
            self.assertEqual(
                (error["type"], error["loc"], error["msg"]), ("duration", ("timeout",), LINE)
            )
            place = {"cause": "SYNTAX", "place": 2, "pos": 2, "found": "mins"}
            place["expected"] = ["unit", "operator", "end"]
            place |= {"help": "DID_YOU_MEAN", "suggestion": "min"}
            place |= {"span": (2, 6), "mended": "5 min"}
            self.assertEqual(error["ctx"], place)
            self.assertEqual(raised.exception.json().count("did you mean"), 1)
        with self.assertRaises(self.pydantic.ValidationError) as raised:
            self.model(timeout="1µs …")
        place = {"cause": "SYNTAX", "place": 5, "pos": 4, "found": "…"}
        place["expected"] = ["number", "operator", "end"]
        self.assertEqual(
            raised.exception.errors()[0]["ctx"],
            place | {"help": None, "suggestion": None, "span": None, "mended": None},
        )
        with self.assertRaises(self.pydantic.ValidationError) as raised:
            self.model(timeout="600y")
        self.assertEqual(raised.exception.errors()[0]["ctx"]["expected"], [])
        with self.assertRaises(self.pydantic.ValidationError) as raised:
            self.model(timeout="600y {cause}")
        self.assertEqual(
            raised.exception.errors()[0]["msg"], 'duration of over 584 years in "600y {cause}"'
        )

    def test_runs_the_recipe(self):
        self.assertEqual(run("model.py"), (0, '{"timeout":"1h 30min"}\n', ""))

    def test_reads_before_other_validators(self):
        adapter = self.pydantic.TypeAdapter(
            typing.Annotated[datetime.timedelta, self.pydantic.BeforeValidator(parse)]
        )
        self.assertEqual(adapter.validate_python("1m"), MINUTE)
        for value in [5, None, b"1m", "1x"]:
            with self.subTest(value=value), self.assertRaises(self.pydantic.ValidationError):
                adapter.validate_python(value)

    def test_is_imported_by_who_uses_it(self):
        program = "import sys, duration_str; print(*{'pydantic', 'click', 'argparse', 'numpy'} & {*sys.modules})"
        ran = subprocess.run(
            [sys.executable, "-c", program], capture_output=True, text=True, check=True
        )
        self.assertEqual(ran.stdout, "\n")
