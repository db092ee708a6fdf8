"""Tests columns of the types that Python, NumPy, pandas and Arrow list. Two tables below have the
types that are read. A column of such a type must be read as the list of its values is. The error
for a column of another type must name the type."""

import array
import ctypes
import datetime
import re
import unittest

from duration_str import DurationTypeError, errors_of, format_many, parse_many, to_timedelta

try:
    import numpy
    import pandas
except ImportError:
    numpy = pandas = None
try:
    import pyarrow
except ImportError:
    pyarrow = None

# In `object` each value is judged by itself.
READ = {
    "object",
    "null",
    "float64",
    "Float64",
    "double",
    "str",
    "str32",
    "string",
    "StringDType128",
}
READ |= {"large_string", "string_view"}
READ |= {f"{kind}{bits}" for kind in ("int", "uint", "Int", "UInt") for bits in (8, 16, 32, 64)}
READ |= {f"format '{order}{code}'" for order in ("", "<", ">") for code in "bBhHiIlLqQduwOZ"}
READ |= {"format 'n'", "format 'N'"}
# The types that parse_many doesn't read, each with the nanoseconds of a 1
UNITS = {"W": 604_800 * 10**9, "D": 86_400 * 10**9, "h": 3_600 * 10**9, "m": 60 * 10**9}
UNITS |= {"s": 10**9, "ms": 10**6, "us": 10**3, "ns": 1}
LENGTHS = {f"timedelta64[{unit}]": nanos for unit, nanos in UNITS.items()}
LENGTHS |= {f"duration[{unit}]": nanos for unit, nanos in UNITS.items()}
OTHER_UNITS = ("Y", "M", "ps", "fs", "as")
IMPOSSIBLE = (AttributeError, ImportError, KeyError, NotImplementedError, TypeError, ValueError)
IMPOSSIBLE += (Warning,)


def first(make, *choices):
    """Calls `make` with one choice after another until it raises none of IMPOSSIBLE, and returns
    its result. Returns None if there are no more choices."""
    for choice in choices:
        try:
            return make(choice)
        except IMPOSSIBLE:
            pass
    return None


def of_python():
    columns = [first(lambda one: array.array(code, one), [1], "1") for code in array.typecodes]
    columns += [first(lambda code: memoryview(bytes(8)).cast(chr(code))[:1], n) for n in range(128)]
    for kind in ctypes._SimpleCData.__subclasses__():
        for ordered in {kind, getattr(kind, "__ctype_be__", kind)}:
            columns.append(first(lambda value: (ordered * 1)(value), "1", b"1", 1))
    return [column for column in columns if column is not None]


def of_numpy():
    types = [*map(numpy.dtype, [*numpy.typecodes["All"], *numpy.sctypeDict.values(), "i4,f4"])]
    for unit in (*UNITS, *OTHER_UNITS):
        types += [numpy.dtype(f"{kind}8[{unit}]") for kind in "mM"]
    types += [dtype.newbyteorder() for dtype in types]
    for kind in vars(getattr(numpy, "dtypes", array)).values():
        types += filter(None, [first(lambda kind: numpy.dtype(kind()), kind)])
    types = {(dtype.char, dtype.str): dtype for dtype in types}.values()
    return [numpy.zeros(1, kind) if kind.kind in "MV" else numpy.ones(1, kind) for kind in types]


def of_pandas():
    words = {name: [] for name in ("ArrowDtype", "CategoricalDtype", "SparseDtype")}
    words |= {"DatetimeTZDtype": [("ns", "UTC")], "IntervalDtype": [("float64", "right")]}
    words |= {"PeriodDtype": ["D"]}
    words["StringDtype"] = [["python"], ["pyarrow"], ["python", numpy.nan], ["pyarrow", numpy.nan]]
    values = [1, "1", True, pandas.Timestamp(0, tz="UTC"), pandas.Period("2026", "D")]
    values += [pandas.Interval(0, 1)]
    for kind in pandas.core.dtypes.base._registry.dtypes:
        for given in words.get(kind.__name__, [()]):
            # Not every version of pandas has every StringDtype.
            dtype = first(lambda given: kind(*given), given)
            if dtype is not None or kind is not pandas.StringDtype:
                yield first(lambda value: pandas.array([value], dtype=dtype), *values)


def of_arrow():
    int8, float32, field = pyarrow.int8(), pyarrow.float32(), pyarrow.field("a", pyarrow.int8())
    # `pyarrow.array` makes no arrays of these types from a value.
    types = {f"INTERVAL_{name}": [] for name in ("MONTHS", "DAY_TIME")}
    types |= {name: [] for name in ("NA", "SPARSE_UNION", "DENSE_UNION")}

    types |= {"HALF_FLOAT": [pyarrow.float16()], "FIXED_SIZE_BINARY": [pyarrow.binary(1)]}
    types |= {"TIME32": [pyarrow.time32("s")], "TIME64": [pyarrow.time64("ns")]}
    types |= {"LIST": [pyarrow.list_(int8)], "FIXED_SIZE_LIST": [pyarrow.list_(int8, 1)]}
    types |= {"MAP": [pyarrow.map_(int8, int8)]}
    types["DICTIONARY"] = [pyarrow.dictionary(int8, kind) for kind in (pyarrow.string(), float32)]
    types["RUN_END_ENCODED"] = [pyarrow.run_end_encoded(pyarrow.int32(), float32)]
    types["INTERVAL_MONTH_DAY_NANO"] = [pyarrow.month_day_nano_interval()]
    for name, make in [("TIMESTAMP", pyarrow.timestamp), ("DURATION", pyarrow.duration)]:
        types[name] = [make(unit) for unit in ("s", "ms", "us", "ns")]
    values = [1, "1", b"1", True, [1], [(1, 1)], (1, 1, 1), {"a": 1}]
    made = [pyarrow.type_for_alias, lambda alias: getattr(pyarrow, alias)(1)]
    made += [lambda alias, kind=kind: getattr(pyarrow, alias)(kind) for kind in (int8, [field])]
    for number in vars(pyarrow.lib):
        name = number.removeprefix("Type_")
        if name != number:
            others = [] if name in types else [first(lambda make: make(name.lower()), *made)]
            for dtype in types.get(name, others):
                yield first(lambda value: pyarrow.array([value], type=dtype), *values)


def of_memory(values):
    """Returns the name of the format of an array's memory, or of its type if it is not read, and
    the nanoseconds of its value, which is 0 or 1, and counts milliseconds."""
    view = memoryview(values)
    name = f"format {view.format!r}"
    # Texts and objects in a memoryview are not read.
    if name not in READ or (isinstance(values, memoryview) and view.format[-1] in "uwOZ"):
        name = f"{type(values).__name__} (format {view.format!r}, shape {view.shape})"
    return name, 10**6 * any(view.tobytes())


def in_pandas(values):
    for make in (pandas.Series, pandas.Index, pandas.Categorical, pandas.arrays.SparseArray):
        column = first(make, values)
        if column is None:
            continue
        dtype = column.dtype
        if make is pandas.Categorical:
            dtype = dtype.categories.dtype
        elif make is pandas.arrays.SparseArray:
            dtype = dtype.subtype
        # If pandas has no type for the values, it makes objects of them.
        if dtype != object:
            yield dtype.name, column


def answer_of(call, column, **words):
    """Returns the answers as a list, or the type of the error that is raised, and its position,
    which is empty if the column is refused as a whole."""
    try:
        answer = call(column, **words)
    except (TypeError, ValueError, OverflowError) as error:
        return type(error), re.match("(at index [0-9]+)?", str(error))[0]
    if call is to_timedelta:
        answer = numpy.asarray(answer).astype("int64")
    nanos, *refused = answer if isinstance(answer, tuple) else (answer,)
    # None stands for a value that is refused or missing.
    gaps = {*refused[0]} if refused else ()
    return [None if at in gaps or one == -(2**63) else one for at, one in enumerate(nanos)]


def as_columns(kind, values):
    """Yields columns of types of this kind that have these values."""
    types = {"object": [object], "text": ["U9"], "integer": ["i8"], "float": ["f8"]}
    gaps = [one is None for one in values]
    filled = [next(filter(None, values), 1) if one is None else one for one in values]
    for dtype in types.get(kind, ["m8[us]", "m8[10us]"]):
        plain = numpy.array(filled, dtype=dtype)
        yield numpy.ma.array(plain, mask=gaps)
        if not any(gaps):
            yield from (plain, plain[::-1][::-1], pandas.array(plain, dtype=plain.dtype))
    if kind in ("integer", "float") and not any(gaps):
        yield from (array.array(plain.dtype.char, values), memoryview(plain))
    names = {"object": "object", "text": "string", "integer": "int64", "float": "double"}
    of_test = of_its_own(names.get(kind, "duration[ns]"), values)
    yield from (of_test, pandas.Series(of_test), pandas.Index(of_test))
    names = {"object": object, "text": "string", "integer": "Int64", "float": "Float64"}
    series = first(lambda dtype: pandas.Series(values, dtype=dtype), names.get(kind, "m8[ns]"))
    if series is None:  # a timedelta is too long
        return
    yield from (series, pandas.Index(series), series.array, series.astype("category"))
    yield from (pandas.Categorical(series), pandas.CategoricalIndex(series))
    if kind in ("object", "float"):
        yield pandas.arrays.SparseArray(numpy.array(values, dtype=kind))


def of_its_own(name, values):
    """Returns an array of pandas with a type that only a test has. NumPy makes objects of it."""

    class Type(pandas.api.extensions.ExtensionDtype):
        type = object
        # pandas' and Arrow's own types have these, too.
        subtype = ordered = fill_value = None

    class Array(pandas.api.extensions.ExtensionArray):
        dtype = Type()

        def __len__(self):
            return len(values)

        def __getitem__(self, at):
            return values[at]

        def copy(self):
            return self

    Type.name = name
    return Array()


class Column(list):
    """A column of a library that is not installed. Its type has only a name, or is one of NumPy."""

    def __init__(self, dtype):
        super().__init__([1])
        self.dtype = dtype


class Kinds(unittest.TestCase):
    CALLS = (parse_many, to_timedelta, format_many) if numpy else (parse_many, format_many)

    def check(self, name, column, nanos=10**6):
        """The column has one value. If its type is read, the value is `nanos` nanoseconds."""
        for call in self.CALLS:
            with self.subTest(call=call.__name__, name=name, type=type(column)):
                if not (name in READ or (call is not parse_many and name in LENGTHS)):
                    self.check_refused(call, column, name)
                elif call is not format_many:
                    self.check_read(call, column, nanos)

    def check_read(self, call, column, nanos):
        answer = call(column, default_unit="ms")
        if call is to_timedelta:
            answer = numpy.asarray(answer).view("int64")
        self.assertEqual(list(answer), [nanos])

    def check_refused(self, call, column, name):
        words = [{}] if call is format_many else [{}, {"default_unit": "ms"}]
        line = f"^this call reads no column of the type {re.escape(name)}$"
        for options in [*words, *({"errors": "coerce", **one} for one in words)]:
            with self.assertRaisesRegex(DurationTypeError, line):
                call(column, **options)

    def check_missing(self, name, column):
        """The column has one value, which is missing."""
        for call in self.CALLS:
            with self.subTest(call=call.__name__, name=name, type=type(column)):
                if name in READ or (call is not parse_many and name in LENGTHS):
                    self.assertEqual(answer_of(call, column, errors="coerce"), [None])
                else:
                    self.check_refused(call, column, name)

    @unittest.skipUnless(numpy, "NumPy or pandas is missing")
    def test_reads_a_column_as_the_list_of_its_values(self):
        second, long = datetime.timedelta(seconds=1), datetime.timedelta(200_000)
        for kind, *rows in [
            ("object", ["1s", None, "x", 5, 1.5, b"1s", second, True]),
            ("object", ["x", None, second, -second, long], [None, None]),
            ("text", ["1s", "x", "300y"], ["1s", None, "2m"], [None, None]),
            ("integer", [1500, 0, -1, 2**53 + 1], [1500, None, 2**53 + 1], [None, 7]),
            ("float", [1500.0, 1.5, 2.0**53], [1500.0, None, 2.0], [None, None]),
            ("timedelta", [second, -second], [second, None]),
            ("timedelta", [second, long]),
        ]:
            for values in rows:
                for column in as_columns(kind, values):
                    for words in [{}, {"default_unit": "ns"}, {"errors": "coerce"}]:
                        self.check_values(kind, column, values, words)
                    for words in [{}, {"default_unit": "ns"}]:
                        with self.subTest(kind=kind, type=type(column), words=words):
                            self.check_errors(column, values, words)

    def check_errors(self, column, values, words):
        def told(given):
            # The error of a timedelta shows it as the column gives it.
            rows = errors_of(given, **words).items()
            return [(at, type(error), str(error).partition(": ")[0]) for at, error in rows]

        self.assertEqual(told(column), told(values))

    @unittest.skipUnless(numpy, "NumPy or pandas is missing")
    def test_takes_no_value_apart(self):
        values = [["1s", "2s"], ["3s", "4s"]]
        for column in (of_its_own("object", values), pandas.Series(of_its_own("object", values))):
            for words in [{}, {"default_unit": "ns"}, {"errors": "coerce"}]:
                self.check_values("object", column, values, words)
        tuples = pandas.MultiIndex.from_tuples([("1s", "2s")])
        self.check_values("object", tuples, list(tuples), {"errors": "coerce"})

    def check_values(self, kind, column, values, words):
        for call in self.CALLS:
            if call is format_many and "default_unit" in words:
                continue
            wanted = answer_of(call, values, **words)
            # Lists of these values lose them, since each could stand beside others.
            lost = {parse_many: ("integer", "float"), format_many: ("text", "float")}
            there = [at for at, value in enumerate(values) if value is not None]
            if call is parse_many and kind == "timedelta":
                wanted = (DurationTypeError, "")
            elif "errors" in words and kind in lost.get(call, ()) and there:
                error = DurationTypeError if call is parse_many else TypeError
                wanted = (error, f"at index {there[0]}")
            with self.subTest(call=call.__name__, kind=kind, type=type(column), words=words):
                self.assertEqual(answer_of(call, column, **words), wanted)
                singles = [answer_of(call, [value], **words) for value in values]
                if isinstance(wanted, list):
                    self.assertEqual([[one] for one in wanted], singles)

    def test_judges_types_by_their_whole_names(self):
        for name in [
            "double",
            "Int64",
            "float",
            "halffloat",
            "struct<a: int8>",
            "list<item: double>",
        ]:
            self.check(name, Column(name))
        for name in ["bfloat16", "int128", "uint4", "Float", "torch.float32", "decimal64", "sting"]:
            self.check(name, Column(name))

    def test_judges_arrays_of_python(self):
        for column in of_python():
            for values in (column, memoryview(column)):
                name, nanos = of_memory(values)
                self.check(name, values, nanos)

    def test_prints_views_in_any_order_of_bytes(self):
        for kind in (ctypes.c_uint64.__ctype_le__, ctypes.c_uint64.__ctype_be__):
            self.assertEqual(format_many(memoryview((kind * 2)(1, 5))), ["1ns", "5ns"])

    def test_judges_unions_of_c(self):
        fields = [("small", ctypes.c_uint8), ("large", ctypes.c_uint64)]
        union = type("Union", (ctypes.Union,), {"_fields_": fields})
        for values in ((union * 1)(), memoryview((union * 1)())):
            self.check(f"{type(values).__name__} (format 'B', shape (1,))", values)
        self.assertEqual(format_many(memoryview((ctypes.c_int * 2)(5, 0))), ["5ns", "0s"])

    def test_reads_no_table(self):
        rows = (ctypes.c_uint8 * 2 * 2)()
        self.check("memoryview (format 'B', shape (2, 2))", memoryview(bytes(4)).cast("B", [2, 2]))
        self.check(f"{type(rows).__name__} (format '<B', shape (2, 2))", rows)

    @unittest.skipUnless(numpy, "NumPy or pandas is missing")
    def test_judges_arrays_of_numpy(self):
        for values in of_numpy():
            name = values.dtype.name
            nanos = LENGTHS.get(name, 10**6)
            self.check(name, values, nanos)
            self.check(name, numpy.ma.array(values), nanos)
            self.check(name, Column(values.dtype))
            # pandas makes mistakes with records and with the other order of bytes, and gives
            # timedeltas another unit than years.
            is_same = values.dtype.kind != "m" or name in LENGTHS
            if is_same and values.dtype.isnative and values.dtype.kind != "V":
                for name, column in in_pandas(values):
                    self.check(name, column, nanos)
            view = first(memoryview, values)
            if view is not None:
                name, nanos = of_memory(view)
                self.check(name, view, nanos)

    @unittest.skipUnless(numpy, "NumPy or pandas is missing")
    def test_judges_arrays_of_pandas(self):
        for values in of_pandas():
            self.assertIsNotNone(values)
            self.check(values.dtype.name, values)
            for name, column in in_pandas(values):
                self.check(name, column)

    @unittest.skipUnless(numpy and pyarrow, "NumPy, pandas or pyarrow is missing")
    def test_judges_arrays_of_arrow(self):
        for values in of_arrow():
            self.assertIsNotNone(values)
            is_category = isinstance(values.type, pyarrow.DictionaryType)
            name = str(values.type.value_type if is_category else values.type)
            series = pandas.Series(values, dtype=pandas.ArrowDtype(values.type))
            for column in (values, pyarrow.chunked_array(values), series):
                self.check(name, column, LENGTHS.get(name, 10**6))
            # Arrow doesn't know missing values in such an array.
            if not pyarrow.types.is_run_end_encoded(values.type):
                self.check_missing(name, pyarrow.nulls(1, values.type))
        self.check_missing("null", pyarrow.nulls(1))

    @unittest.skipUnless(numpy, "NumPy or pandas is missing")
    def test_keeps_missing_values_of_each_type(self):
        self.check_missing("format 'd'", array.array("d", [float("nan")]))
        for values in of_pandas():
            missing = pandas.array([None], dtype=values.dtype)
            categories = pandas.Categorical(missing)
            for column in (missing, pandas.Series(missing)):
                self.check_missing(values.dtype.name, column)
            self.check_missing(categories.dtype.categories.dtype.name, categories)
        for values in of_numpy():
            dtype = values.dtype
            if dtype.names:
                continue
            self.check_missing(dtype.name, numpy.ma.array(values, mask=True))
            if dtype.kind == "f" or dtype.name.startswith(("datetime64[", "timedelta64[")):
                missing = numpy.full(1, "nan" if dtype.kind == "f" else "NaT", dtype)
                self.check_missing(dtype.name, missing)
                series = first(pandas.Series, missing) if dtype.isnative else None
                if series is not None:
                    self.check_missing(series.dtype.name, series)
