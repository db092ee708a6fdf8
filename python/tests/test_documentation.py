import doctest
import importlib.metadata
import importlib.util
import inspect
import pydoc
import re
import subprocess
import sys
import unittest

import duration_str
from tests.vectors import VECTORS


def load_tests(loader, tests, pattern):
    names = {"duration_str": duration_str}
    # doctest looks only at the items that are imported.
    exec("from duration_str import *", {})
    tests.addTests(doctest.DocTestSuite(duration_str, globs=names))
    if importlib.util.find_spec("pandas"):
        described = importlib.metadata.metadata("duration-str")["Description"]
        for block in re.findall(r"^```pycon\n(.*?)^```$", described, re.M | re.S):
            example = doctest.DocTestParser().get_doctest(
                block, dict(names), "README.md", None, None
            )
            tests.addTest(doctest.DocTestCase(example))
    return tests


class Documentation(unittest.TestCase):
    def test_names_what_is_public(self):
        for name in duration_str.__all__:
            self.assertEqual(getattr(duration_str, name).__module__, "duration_str")
            # The module's docstring describes public names that have no docstring, such as `Unit`.
            self.assertTrue(
                getattr(duration_str, name).__doc__ or f"`{name}`" in duration_str.__doc__, name
            )

    def test_names_no_module_of_its_own_in_pickles(self):
        for value in [
            "duration_str.Duration",
            "duration_str.errors_of(['1.5h'])[0].help",
        ]:
            program = f"import duration_str, pickle; print(pickle.dumps({value}))"
            run = subprocess.run([sys.executable, "-c", program], capture_output=True, text=True)
            self.assertIn("duration_str", run.stdout)
            self.assertNotIn("duration_str._", run.stdout)

    def test_imports_what_takes_long_when_it_is_used(self):
        def printed(program):
            words = [sys.executable, "-c", f"import sys; before = {{*sys.modules}}; {program}"]
            return subprocess.run(words, capture_output=True, text=True, check=True).stdout.split()

        late = ["typing", "duration_str._arrays", "duration_str._lists", "duration_str._models"]
        loaded = "print(*{*sys.modules} - before)"
        modules = printed(f"import duration_str as d; d.format(d.parse('1h')); {loaded}")
        self.assertEqual(set(), {*late, "duration_str._help"} & {*modules})
        modules = printed(f"import duration_str; duration_str.Duration; {loaded}")
        self.assertLessEqual({*late[1:]}, {*modules})
        public = {"format", *duration_str.__all__}
        named = printed("import duration_str; print(*dir(duration_str))")
        self.assertEqual(public, {name for name in named if not name.startswith("_")})
        shown = "import duration_str, pydoc; print(pydoc.plain(pydoc.render_doc(duration_str)))"
        self.assertLessEqual(public, {word.split("(")[0] for word in printed(shown)})
        with self.assertRaisesRegex(AttributeError, "module 'duration_str' has no attribute 'ms'"):
            duration_str.ms

    def test_leaves_the_builtin_function(self):
        names = {}
        exec("from duration_str import *", names)
        self.assertEqual({*duration_str.__all__, "__builtins__"}, set(names))
        self.assertNotIn("format", names)

    def test_shows_the_units_and_the_options(self):
        self.assertIn("µs, µsec, µsecond", pydoc.render_doc(duration_str))
        for name in ["parse", "parse_ns", "parse_seconds"]:
            names = [*VECTORS["options"], "require_unit", "more_names"]
            options = ", ".join(f"{name}=False" for name in names)
            self.assertEqual(
                f"(text, /, *, {options}, default_unit='s')",
                str(inspect.signature(getattr(duration_str, name))),
            )
        limits = "parts=11, units=None, largest='y', smallest='ns', rounding=None"
        for name, more in ("format", ", style='short'"), ("breakdown", ""):
            signature = inspect.signature(getattr(duration_str, name))
            self.assertEqual(f"(value, /, *, {limits}{more})", str(signature))
        for name in ["parse_many", "to_timedelta", "errors_of", "DurationField"]:
            signature = inspect.signature(getattr(duration_str, name))
            parameters = [*map(str, signature.parameters.values())]
            self.assertEqual(parameters[-6], "no_calc: 'bool' = False")
            self.assertEqual(parameters[-1], "default_unit: 'Unit' = 's'")

    def test_fits_a_terminal(self):
        for documented in [
            duration_str,
            *(getattr(duration_str, name) for name in ["format", *duration_str.__all__]),
        ]:
            for line in (documented.__doc__ or "").splitlines():
                self.assertLessEqual(len(line), 79, line)

    def test_has_its_version_and_its_description(self):
        metadata = importlib.metadata.metadata("duration-str")
        self.assertEqual(metadata["Version"], duration_str.__version__)
        self.assertIn("# duration-str for Python", metadata["Description"])
