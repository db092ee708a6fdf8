"""duration_model.py PROGRAM [SECONDS [SEED]]: runs the command `duration` with rows of
rust/vectors.json, and then with random options, arguments and lines. It compares what the command
does with a model, which reads and prints by the reference parser. If it has 10 seconds or more, it
first tries words that are nearly those of options.
"""
import collections
import fractions
import itertools
import json
import multiprocessing.pool
import operator
import pathlib
import re
import subprocess
import sys
import threading
import time

sys.dont_write_bytecode = True
sys.path.append(str(pathlib.Path(__file__).resolve().parent.parent / "tools"))
import patterns  # noqa: E402
import reference_parser as reference  # noqa: E402
import vectors  # noqa: E402
from texts import Texts, near  # noqa: E402

LONGEST_LINE = 1_048_576
BLANKS = reference.BLANKS
EDGES = BLANKS.encode() + b'"'
LENGTHS = {name: unit.length for unit in reference.UNITS for name in unit.names.split()}
LENGTHS |= {name.upper(): length for name, length in LENGTHS.items() if name.isascii()}
VALUES = (
    dict.fromkeys(("to", "from", "largest", "smallest"), list(LENGTHS))
    | {
        "style": reference.STYLES,
        "round": reference.ROUNDINGS,
        "decimals": range(10),
        "field": (1, 2, 3, 5),
        "delimiter": tuple(',,;:\t "-^]5'),
        "header": (0, 1, 1, 2, 9),
        "parts": (1, 2, 3, 12, 2**64 - 1),
        "refused": ("keep", "empty", "drop"),
    }
    | dict.fromkeys(
        """json json-errors quiet zero-terminated lowercase cn-unit more-names require-unit pattern
        sum mend count-mended""".split(),
        [""],
    )
)
WITH_PATTERN = {"pattern", "lowercase", "cn-unit", "more-names", "require-unit"}
WITH_PATTERN |= {"from", "zero-terminated"}
WRONG_WORDS = """--to= --to=mins --to=年 --from=secs --largest=mo --round=half --decimals=10 --units=
--units=y,mins --parts=0 --parts=+12 --parts=two --field=0 --field=+1 --field=-1 -dab -dé
--header= --header=x --header=+1 --decimals=+5 --refused= --refused=Keep --none -x""".split()
# These are read only as a whole.
NUMBERS = ("12.5", ".5", "1e-05", "2.5E+3", "0.5e0", "\t3.0 ", "1e-99999999999999999999")
WORDS = """--to=ms --from=Hour --largest=µs --smallest=mon --units=y,d --style=long
--round=up""".split()
Refused = collections.namedtuple(
    "Refused",
    "cause column expected found help suggestion span mended message",
    defaults=[None] * 9,
)
Said = collections.namedtuple("Said", "output errors status mended", defaults=[0])
quoted = json.JSONEncoder(ensure_ascii=False).encode
compact = json.JSONEncoder(ensure_ascii=False, separators=(",", ":")).encode


def number_in(nanos, unit, decimals=None, way="down"):
    """A duration as a number of this unit, with this many decimals. If that is None, it has as many
    as it needs, but at most nine."""
    digits = 9 if decimals is None else decimals
    whole, rest = divmod(
        reference.rounded(fractions.Fraction(nanos * 10**digits, LENGTHS[unit]), way),
        10**digits,
    )
    text = f"{whole}.{rest:0{digits}}" if digits else str(whole)
    return text.rstrip("0").rstrip(".") if decimals is None else text


def printed(nanos, options):
    if "to" in options:
        return number_in(
            nanos, options["to"], options.get("decimals"), options.get("round", "down")
        )
    units, parts = units_of(options), options.get("parts", 11)
    return reference.print_within(
        rounded(nanos, options), units, parts, options.get("style", "short")
    )


def rounded(nanos, options):
    """The duration that is printed. Without rounding it stays as it is, and has a rest."""
    if "round" not in options:
        return nanos
    units, parts = units_of(options), options.get("parts", 11)
    return reference.round_to(nanos, units, parts, options["round"])


def parts_of(nanos, options):
    nanos, units = rounded(nanos, options), units_of(options)
    lengths = tuple(unit.length for unit in units)
    counts = reference.counts_within(nanos, lengths, options.get("parts", 11))
    parts = [(count, unit.printed) for count, unit in zip(counts, units) if count]
    return parts, nanos - sum(map(operator.mul, counts, lengths))


def units_of(options):
    smallest, largest = (
        LENGTHS[options.get(*each)] for each in (("smallest", "ns"), ("largest", "y"))
    )
    names = options.get("units", ",".join(LENGTHS)).lower().split(",")
    chosen = {LENGTHS.get(name) for name in names}
    return [
        unit
        for unit in reference.UNITS
        if smallest <= unit.length <= largest and unit.length in chosen
    ]


def read_number(text, options):
    way = "up" if options.get("round") == "up" else "down"
    nanos = reference.bare_number(text, LENGTHS[options["from"]], way)
    line = f"duration of over 584 years in {reference.quote(text)}"
    return refused("OVERFLOW", line) if nanos is None else nanos


def refused(cause, message):
    """A refusal that is no syntax error"""
    return Refused(cause=cause, expected=[], message=message)


def choice_of(options):
    """Except for the numbers of `read_number`, `--from=s` is the same as no `--from`."""
    names = [name.replace("-", "_") for name in options]
    names.append(f"default_unit={options.get('from', 's').lower()}")
    return reference.as_packages_mean(reference.Choice.named(names))


def read(data, options):
    try:
        text = data.decode()
    except UnicodeDecodeError:
        return refused("NOT_TEXT", "not UTF-8")
    if "from" in options and reference.FRACTION_OR_EXPONENT.fullmatch(text):
        return read_number(text.strip(BLANKS), options)
    # The reference parser takes long for many blanks.
    text = text if len(text) < 10_000 else text.strip(BLANKS)
    answer = choice_of(options).answer(text)
    if answer.cause == "read":
        return answer.value
    found = reference.help_of(text, answer)
    return Refused(
        cause=answer.cause.replace(" ", "_").upper(),
        column=answer.place + 1 if answer.cause == "syntax" else None,
        expected=[kind for kind in vectors.KINDS if kind in answer.expected],
        found=answer.found or None,
        help=found.code() if found else None,
        suggestion=answer.mend.written if answer.mend else None,
        span=[answer.mend.start, answer.mend.end] if answer.mend else None,
        mended=reference.mended(text, choice_of(options)),
        message=reference.one_line(text, answer),
    )


def mended_in_part(text, options):
    """The refusal of a text that has no mended text. If some of its faults have a suggestion, and
    then one has none, it is that fault, with its column in the text."""
    choice, places, now = choice_of(options), [*range(len(text) + 1)], text
    for _ in range(1 + reference.MOST_SUGGESTIONS):
        answer = choice.answer(now)
        if answer.mend is None:
            break
        begin, end, written = answer.mend
        now = now[:begin] + written + now[end:]
        # The characters that a suggestion has written have no place in the text.
        places[begin:end] = [None] * len(written)
    if answer.mend or now == text:
        return read(text.encode(), options)
    place = places[answer.place] if answer.cause == "syntax" else None
    found, line = reference.help_of(now, answer), reference.one_line(now, answer)
    if place is not None:
        line = line.replace(f" at column {answer.place + 1}", f" at column {place + 1}", 1)
    return Refused(
        cause=answer.cause.replace(" ", "_").upper(),
        column=None if place is None else place + 1,
        expected=[kind for kind in vectors.KINDS if kind in answer.expected],
        found=answer.found or None,
        help=found.code() if found else None,
        message=line,
    )


def field_in(line, options):
    """The places where a field begins, its text begins and ends, and the field ends. The text is
    without the blanks and quotation marks at the field's ends."""
    pattern, quoted = "[^{0}]+", r'"(?:[^"]|"")*"(?=\r?\Z|{0})'
    if "delimiter" in options:
        quoted = "" if options["delimiter"] == '"' else quoted + "|"
        pattern = f"(?<![^{{0}}])(?:{quoted}[^{{0}}]*)"
    fields = re.finditer(pattern.format(re.escape(options.get("delimiter", BLANKS))).encode(), line)
    field = dict(enumerate(fields, 1)).get(options["field"])
    if not field:
        return None
    text = field[0].strip(EDGES)
    begin = field.start() + field[0].index(text)
    return field.start(), begin, begin + len(text), field.end()


def json_object(text, answer, options, where, mended=None):
    if isinstance(answer, Refused):
        kind, number = where.split()
        return compact({"text": text, kind: int(number), **answer._asdict()})
    shown = printed(answer, options) if "to" in options else quoted(printed(answer, options))
    parts, rest = parts_of(answer, options)
    listed = ",".join(f'{{"count":{count},"unit":"{name}"}}' for count, name in parts)
    mended = f'"mended":{compact(mended)},' if "mend" in options else ""
    return (
        f'{{"text":{quoted(text)},{mended}"nanoseconds":"{answer}",'
        f'"seconds":{number_in(answer, "s")},'
        f'"printed":{shown},"parts":[{listed}],"rest_ns":"{rest}"}}'
    )


def advice_on(answer, before):
    """The advice to quote, if an argument begins as if it went on with the one before it."""
    goes_on = "[+*A-Za-z\x80-\U0010ffff]" if before[-1:].isdigit() else "[+*]"
    if answer.column != 1 or not re.match(goes_on, answer.found or ""):
        return ""
    return " (put a text with blanks in quotation marks)"


def is_word(answer):
    """Whether a text without help begins with a letter."""
    starts = answer.column == 1 and re.match("[A-Za-z]", answer.found or "")
    return bool(starts) and answer.help is None


def left_of(line, places, options):
    """What is printed for a line whose text is refused. The places are None if the line has no such
    field."""
    of_field = "empty" if "to" in options else "keep"
    what = options.get("refused", of_field if "field" in options else "drop")
    if what == "drop" or "sum" in options:
        return b""
    if what == "empty" and len(line) > LONGEST_LINE:
        line = b""
    elif what == "empty" and places[0] is not None:
        first, begin, end, last = places
        edges = line[first:begin] + line[end:last]
        if "field" in options and "delimiter" not in options:
            edges = b"-"
        elif edges.count(b'"') != 2:
            edges = edges.replace(b'"', b"")
        line = line[:first] + edges + line[last:]
    return line + end_of(options)


def converted(line, places, nanos, options):
    """The line with the duration in place of its text. A number loses quotation marks around it,
    unless it has the delimiter."""
    first, begin, end, last = places
    shown, edges = printed(nanos, options).encode(), (line[first:begin], line[end:last])
    is_bare = "to" in options and options.get("delimiter", '"').encode() not in shown
    if is_bare and [edge.count(b'"') for edge in edges] == [1, 1]:
        edges = [edge.replace(b'"', b"") for edge in edges]
    return line[:first] + edges[0] + shown + edges[1] + line[last:]


def said_of(line, options, where, before=None):
    """`where` is, for example, `line 1`. `before` is the argument before, if there is one."""
    too_long, places, whole = len(line) > LONGEST_LINE, (0, 0, len(line), len(line)), line
    if "field" in options:
        places = field_in(line, options) or [None] * 4
    elif where.startswith("line"):
        ending = b"" if "zero-terminated" in options else b"\r"
        line = b"" if too_long else line.removesuffix(ending)
    _, begin, end, _ = places
    if too_long:
        answer = refused("LINE_TOO_LONG", "line of over 1,048,576 bytes")
    elif begin is None:
        answer = refused("NO_FIELD", "no such field")
    else:
        answer = read(line[begin:end], options)
    text, mended = line.decode(errors="replace"), None
    if "mend" in options and isinstance(answer, Refused):
        mended = answer.mended
        if mended is not None:
            answer = read(mended.encode(), options)
        elif answer.suggestion is not None:
            answer = mended_in_part(line[begin:end].decode(), options)
    count = int(mended is not None)
    if "json" in options:
        output = json_object(text, answer, options, where, mended).encode()
        return Said(output + b"\n", b"", int(isinstance(answer, Refused)), count)
    if "sum" in options and not isinstance(answer, Refused):
        return Said(answer, b"", 0, count)
    if not isinstance(answer, Refused):
        return Said(converted(line, places, answer, options) + end_of(options), b"", 0, count)
    field = f", field {options['field']}" if "field" in options else ""
    left = left_of(whole if too_long else line, places, options)
    if "json-errors" in options:
        text = (b"" if too_long else line[begin:end]).decode(errors="replace")
        return Said(left, json_object(text, answer, options, where).encode() + b"\n", 1)
    advice = "" if before is None else advice_on(answer, before)
    if where == "line 1" and field and "header" not in options and is_word(answer):
        advice = " (for a header, write --header)"
    return Said(
        left,
        f"duration: {where}{field}: {answer.message}{advice}\n".encode(),
        1,
    )


def end_of(options):
    return b"\0" if "zero-terminated" in options else b"\n"


def pattern_of(options):
    choice = choice_of(options)
    is_required = choice.default_unit is None
    return patterns.pattern(**choice.options._asdict(), require_unit=is_required)


def said_of_sum(said, options):
    """`said` has the durations in place of output."""
    errors = b"".join(each.errors for each in said)
    if errors:
        return Said(b"", errors, 1)
    total = sum(each.output for each in said)
    if total >= 2**64:
        return Said(b"", b"duration: sum of over 584 years\n", 1)
    return Said(printed(total, options).encode() + end_of(options), b"", 0)


def wanted(options, texts, data):
    """What the program must write for these texts, or, if there are none, for the lines of these
    bytes."""
    end = end_of(options)
    if "pattern" in options:
        return Said(pattern_of(options).encode() + end, b"", 0)
    lines = texts or (data.removesuffix(end).split(end) if data else [])
    header, kind = options.get("header", 0), "argument" if texts else "line"
    said = [] if "sum" in options else [Said(line + end, b"", 0) for line in lines[:header]]
    befores = itertools.chain([None], texts, itertools.repeat(None))
    said += [
        said_of(line, options, f"{kind} {number}", before)
        for number, line, before in zip(itertools.count(header + 1), lines[header:], befores)
    ]
    count = sum(each.mended for each in said)
    if "sum" in options:
        said = [said_of_sum(said, options)]
    elif {"field", "header"} & set(options) and data and not (texts or data.endswith(end)):
        said[-1] = said[-1]._replace(output=said[-1].output.removesuffix(end))
    output, errors, statuses, _ = zip(*said) if said else ((), (), (), ())
    output, errors = (b"" if "quiet" in options else b"".join(part) for part in (output, errors))
    if "count-mended" in options:
        errors += b"duration: %d text%s mended\n" % (count, b"" if count == 1 else b"s")
    return Said(output, errors, max(statuses, default=0))


def is_wrong(options, texts):
    names = set(options)
    shapes = {"style", "parts", "units", "largest", "smallest"}
    numbers = names & (shapes if "to" in names else {"decimals"})
    fields = (
        "json" in names
        and names & {"field", "header", "sum", "refused", "json-errors"}
        or "sum" in names
        and names & {"refused", "json-errors"}
        or "delimiter" in names
        and "field" not in names
    )
    units = {"from", "require-unit"} <= names
    mends = "count-mended" in names and ("mend" not in names or "json-errors" in names)
    pattern = "pattern" in names and (texts or names - WITH_PATTERN)
    header = "header" in names and texts
    return bool(numbers or fields or units or mends or pattern or header or not units_of(options))


class Commands(Texts):
    def chance(self, percent):
        return self.random.random() * 100 < percent

    def words(self, options):
        words = [f"--{name}" + f"={value}" * (value != "") for name, value in options.items()]
        short = {"--quiet": "-q", "--zero-terminated": "-z", "--header=1": "--header"}
        words = [
            short.get(word, word.replace("--delimiter=", "-d")) if self.chance(50) else word
            for word in words
        ]
        return sum(
            (
                word.split("=", not re.match("--header|.*-$", word) and self.chance(50))
                for word in words
            ),
            [],
        )

    def value(self, name):
        if name == "units":
            return ",".join(self.random.choices(list(LENGTHS), k=self.random.randint(1, 6)))
        return self.choice(VALUES[name])

    def bare_number(self):
        decimals = "0" * self.choice((0, 0, 9, 18)) + str(
            self.random.randrange(10**9)
        ) * self.choice((1, 1, 2))
        size = self.choice((str(self.random.randrange(30)), "9" * 20))
        exponent = self.choice("eE") + self.choice(("", "+", "-", "-0")) + size
        parts = (
            ("", " "),
            ("", "0", self.number()),
            ("", ".", "." + decimals),
            ("", exponent),
            ("", "\t", "s"),
        )
        text = "".join(map(self.choice, parts))
        return (self.choice([*near(text)]) if self.chance(20) else text).encode()

    def single(self, options):
        # A refused text leaves no sum.
        if "sum" in options and self.chance(95):
            return b"%dns" % self.random.randrange(2 ** self.choice((9, 40, 63)))
        if self.chance(5):
            return b"5" + self.choice((b"x", b"0", "é".encode(), b"0 ")) * self.random.randint(
                36, 44
            )
        # The duration is often halfway between two numbers that `--to` can print.
        if "to" in options and self.chance(30):
            return b"%dns" % (
                LENGTHS[options["to"]]
                * self.choice((1, 3))
                // 10 ** options.get("decimals", 9)
                // 2
            )
        if "round" in options and self.chance(50):
            return b"%dns" % self.near_a_unit(units_of(options))
        return self.bare_number() if "from" in options and self.chance(60) else self.text()

    def near_a_unit(self, units):
        """A duration near a half or a whole number of a unit, and perhaps of a longer one, too."""
        lengths = [unit.length for unit in units] or [reference.SECOND]
        halves = sum(
            self.random.randrange(9) * self.choice(lengths) for _ in range(self.choice((1, 2)))
        )
        return max(0, halves // 2 + self.choice((-1, 0, 0, 1)))

    def line(self, options):
        fields = [
            self.single(options) for _ in range(self.random.randint(1, options.get("field", 0) + 1))
        ]
        if "delimiter" not in options and self.chance(70):
            fields = [re.sub(b"[ \t\r\n]", b"", field) for field in fields]
        divider = options.get("delimiter", self.choice(" \t")).encode()
        fields = [self.marked(field, divider) if self.chance(20) else field for field in fields]
        edges = [self.choice((b"", b"", b"", b" ", b'"', b'" ', b"\r")) for _ in range(2)]
        return edges[0] + divider.join(fields) + edges[1]

    def column(self, options):
        """Lines whose durations are read, and whose sum is often near the limit. In their other
        fields, a delimiter can stand within quotation marks."""
        most = self.choice((reference.LIMIT, reference.LIMIT, self.random.randrange(1, 2**64)))
        total = max(0, most + self.random.randint(-2, 2))
        cuts = sorted(self.random.randint(0, total) for _ in range(self.choice((0, 1, 4, 19))))
        lines = [b"name,keep"] * options.get("header", 0)
        for begin, end in zip([0, *cuts], [*cuts, total]):
            text = self.choice((f"{end - begin}ns", reference.print_whole(end - begin)))
            lines.append(self.row(text, options).encode() if "field" in options else text.encode())
        return lines

    def row(self, text, options):
        """A line with the text as the chosen field. Only within quotation marks, a field can
        contain the delimiter."""
        delimiter = options.get("delimiter")
        others = ["x"] if delimiter is None else ["", "x", f'"{delimiter}"', f'"{delimiter}5m"']
        if delimiter in (" ", "\t"):
            text = f'"{text.replace(" ", delimiter)}"'
        elif delimiter is None:
            text = text.replace(" ", "")
        elif self.chance(50):
            text = f'"{text}"'
        fields = self.random.choices(others, k=options["field"] - 1)
        fields += [text, *self.random.choices(others, k=self.choice((0, 0, 2)))]
        return (delimiter or self.choice(" \t")).join(fields)

    def marked(self, field, divider):
        """A field in quotation marks, as CSV has it, or nearly so."""
        inside = (field, b"x" + divider + field, b'""' + divider + field + b'""', field + b'"x')
        return b'"' + self.choice(inside) + self.choice((b'"', b'"', b'"', b'" ', b""))

    def data(self, options):
        if "sum" in options and options.get("delimiter") not in ('"', "5") and self.chance(70):
            lines = self.column(options)
        else:
            lines = [self.line(options) for _ in range(self.choice((0, 1, 2, 5, 20, 40)))]
        if self.chance(5 if {"field", "header"} & set(options) else 0.5):
            lines.insert(
                self.choice((0, 1, 99)),
                b"5m".ljust(LONGEST_LINE + self.choice((-1, 0, 1, 2, LONGEST_LINE))),
            )
        return end_of(options).join(lines) + self.choice((b"", end_of(options)))

    def command(self):
        """A command whose options are wrong is mostly made anew."""
        likely = {
            "to": 60,
            "from": 40,
            "round": 40,
            "decimals": 40,
            "quiet": 4,
            "json": 12,
            "sum": 10,
        }
        likely["pattern"] = 2
        options = {
            name: self.value(name)
            for name in (*VALUES, "units")
            if self.chance(likely.get(name, 20))
        }
        if "sum" in options and self.chance(50):
            options |= {name: self.value(name) for name in ("field", "delimiter")}
        if "pattern" in options and self.chance(80):
            options = {name: value for name, value in options.items() if name in WITH_PATTERN}
        data = self.data(options)
        texts = (
            data.replace(b"\0", b"").split(b"\n") if len(data) < 99_999 and self.chance(30) else []
        )
        return (
            self.command()
            if is_wrong(options, texts) and self.chance(90)
            else (options, texts, data)
        )


def run(words, options, data, cuts):
    """Gives the program bytes in pieces. It must answer the lines of a piece before the next piece
    comes.
    """
    process = subprocess.Popen(
        words, 0, stdin=subprocess.PIPE, stdout=subprocess.PIPE, stderr=subprocess.PIPE
    )
    clock = threading.Timer(10, process.kill)
    clock.start()
    output = b""
    for begin, end in zip(cuts, cuts[1:]):
        try:
            process.stdin.write(data[begin:end])
        except BrokenPipeError:  # It was killed, since it answered too little.
            break
        answers = wanted(options, [], data[: data.rfind(end_of(options), 0, end) + 1]).output
        while len(output) < len(answers) and (
            part := process.stdout.read(len(answers) - len(output))
        ):
            output += part
    rest, errors = process.communicate(data[cuts[-1] :])
    clock.cancel()
    return Said(output + rest, errors, process.returncode)


def untried(program):
    help_text = subprocess.run(
        [program, "--help"], capture_output=True, text=True, check=True
    ).stdout
    names = set(re.findall(r"^ +(?:-., )? *--([a-z-]+)", help_text, re.M))
    return names - {*VALUES, "units", "completions", "help", "version"}


def vector_commands():
    items = collections.defaultdict(list)
    for text, (on, unit), _ in vectors.texts():
        is_other = unit not in (None, reference.Choice().default_unit)
        # The command has no word for `no_calc`, which another unit than the second turns on.
        if on.no_calc == is_other:
            given = [(name.replace("_", "-"), "") for name in on.words() if name != "no_calc"]
            given += [] if unit else [("require-unit", "")]
            given += [("from", unit.printed)] if is_other else []
            items[tuple(given)].append(text)
    for (unit, text, *_), way in itertools.product(vectors.tables()["from"], VALUES["round"]):
        items[("from", unit), ("to", "ns"), ("round", way)].append(text)
    tables = {"style": vectors.durations(), "round": vectors.rounded()}
    for name, table in tables.items():
        for (row, nanos, *_), value in itertools.product(table, VALUES[name]):
            limits = row[1] | {each: ",".join(row[1][each]) for each in row[1].keys() & {"units"}}
            items[*limits.items(), (name, value)].append(f"{nanos}ns")
    items[("from", "s"),] += itertools.chain.from_iterable(map(near, NUMBERS))
    for given, texts in items.items():
        data = "".join(f"{text}\0" for text in texts if "\0" not in text)
        yield {**dict(given), "json": "", "zero-terminated": ""}, data.encode()


def is_option(word):
    name, _, value = word.partition("=")
    units = [each.translate(reference.FOLDED) in reference.PLACES for each in value.split(",")]
    match name:
        case "--style" | "--round":
            return value in VALUES[name[2:]]
        case "--to" | "--from" | "--largest" | "--smallest":
            return units == [True]
    return name == "--units" and all(units)


def check_words(program):
    def is_taken(word):
        ended = subprocess.run([program, word, "90061s"], capture_output=True)
        return ended.returncode == 0

    words = {each for word in WORDS for each in near(word)}
    with multiprocessing.pool.ThreadPool() as pool:
        for word, taken in zip(words, pool.map(is_taken, words)):
            if taken != is_option(word):
                sys.exit(f"duration_model: {word!r} is {'taken' if taken else 'refused'}")
    print(f"duration_model: {len(words)} words, {sum(map(is_option, words))} taken")


def compare(words, must, options, data, cuts=()):
    got = run(words, options, data, [0, *cuts])
    if must.status == 2:
        got = got._replace(errors=got.errors[:7])
    if got != must:
        sys.exit(f"command: {words}\ninput: {data[:9999]}\nwanted: {must}\ngot:    {got}")


def main(program, seconds="20", seed=str(time.time_ns())):
    print(f"duration_model: seed {seed}")
    if names := untried(program):
        sys.exit(f"duration_model: not tried: {' '.join(sorted(names))}")
    if float(seconds) >= 10:
        check_words(program)
    commands, usage, count = Commands(seed), Said(b"", b"error: ", 2), 0
    for options, data in vector_commands():
        is_usage = is_wrong(options, []) or options.get("parts") == 0
        must = usage if is_usage else wanted(options, [], data)
        compare([program, *commands.words(options)], must, options, data)
        count += data.count(b"\0")
    ends = time.monotonic() + float(seconds)
    while time.monotonic() < ends:
        options, texts, data = commands.command()
        wrong = [commands.choice(WRONG_WORDS)] if commands.chance(5) else []
        words = [program, *commands.words(options), *wrong, *(["--"] * bool(texts) + texts)]
        is_usage = bool(wrong) or is_wrong(options, texts)
        is_whole = is_usage or texts or {"pattern", "sum"} & set(options) or len(data) > 9999
        cuts = [] if is_whole else sorted(commands.random.choices(range(len(data) + 1), k=3))
        compare(words, usage if is_usage else wanted(options, texts, data), options, data, cuts)
        count += len(texts or data.split(end_of(options)))
    print(f"duration_model: {count} texts, each as it must be")


main(*sys.argv[1:])
