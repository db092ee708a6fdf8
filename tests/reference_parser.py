"""Computes what a text means, as docs/GRAMMAR.md says it, in a naive way.

It was written from the documents, not from the Rattle code. It looks for all ways to split a text
into a sentence, and fails if it finds two. tests/compare compares the packages with it.
"""
import fractions
import functools
import itertools
import pathlib
import re
import typing
import unicodedata

SECOND = 10**9
DAY = 86_400 * SECOND
LIMIT = 2**64
# All durations are below this many nanoseconds.
TOO_LONG = 2**64 * SECOND


class Unit(typing.NamedTuple):
    """The length is in nanoseconds. The option `cn_unit` adds the Chinese names, and `more_names`
    the further ones.
    """

    length: int
    printed: str
    names: str
    chinese: str = ""
    further: str = ""


# The table of units, in the order in which they are printed.
UNITS = (
    Unit(365 * DAY, "y", "y year years", "年", "yr yrs"),
    Unit(91 * DAY, "q", "q quarter quarters", "", "qtr qtrs"),
    Unit(30 * DAY, "mon", "mon month months", "月", "mons mth mths"),
    Unit(7 * DAY, "w", "w week weeks", "周", "wk wks"),
    Unit(DAY, "d", "d day days", "日 天"),
    Unit(3_600 * SECOND, "h", "h hr hour hours", "时", "hrs"),
    Unit(60 * SECOND, "min", "m min minute minutes", "分", "mins"),
    Unit(SECOND, "s", "s sec second seconds", "秒", "secs"),
    Unit(10**6, "ms", "ms msec millisecond milliseconds", "毫秒", "msecs milli millis"),
    Unit(
        10**3,
        "µs",
        "µs µsec µsecond us usec usecond microsecond microseconds",
        "微秒",
        "µsecs µseconds usecs useconds micro micros",
    ),
    Unit(1, "ns", "ns nsec nanosecond nanoseconds", "纳秒", "nsecs nano nanos"),
)

STYLES = ("short", "compact", "long")
ROUNDINGS = ("down", "nearest", "up")

PLACES = {name: place for place, unit in enumerate(UNITS) for name in unit.names.split()}
FURTHER = re.compile("|".join(name for unit in UNITS for name in unit.further.split()), re.I)

UNIT_LINE = 'expected ["y", "q", "mon", "w", "d", "h", "m", "s", "ms", "µs", "us", "ns"]'
# The most bytes of a duration that is printed in the short style.
LONGEST_PRINTED = 60

LINES = {
    "empty": "Empty input",
    "number too large": "number too large to fit in target type",
    "overflow": "overflow error",
}

BLANKS = " \t\r\n"
DIGITS = "0123456789"
OPERATORS = "+*"
LETTERS = "abcdefghijklmnopqrstuvwxyzABCDEFGHIJKLMNOPQRSTUVWXYZ\u00b5"
CHINESE = "年月周日天时分秒毫微纳"
FOLDED = str.maketrans("ABCDEFGHIJKLMNOPQRSTUVWXYZ", "abcdefghijklmnopqrstuvwxyz")


class Options(typing.NamedTuple):
    """In Rust and Rattle, the options from `more_names` on are no fields of `Options`, but rules of
    `Rules`.
    """

    no_calc: bool = False
    lowercase: bool = False
    cn_unit: bool = False
    more_names: bool = False

    def words(self):
        return [name for name, on in zip(self._fields, self) if on]

    def with_rules(self, rules):
        return Options(*self[: len(SWITCHES)], *rules)


# The options that the program `durstr` has, too, and those that it lacks.
SWITCHES, RULES = Options._fields[:3], Options._fields[3:]
CHOICES = [
    Options(*choice[::-1]) for choice in itertools.product((False, True), repeat=len(SWITCHES))
]


class Choice(typing.NamedTuple):
    """The default unit is None if units are required."""

    options: Options = Options()
    default_unit: typing.Optional[Unit] = UNITS[PLACES["s"]]

    @classmethod
    def named(cls, names):
        options = Options(*(name in names for name in Options._fields))
        if "require_unit" in names:
            return cls(options, None)
        given = dict(name.split("=") for name in names if "=" in name)
        return cls(options, UNITS[PLACES[given.get("default_unit", "s")]])

    def words(self):
        if self.default_unit is None:
            return [*self.options.words(), "require_unit"]
        if self.default_unit.length == SECOND:
            return self.options.words()
        return [*self.options.words(), f"default_unit={self.default_unit.printed}"]

    def answer(self, text):
        answer = answer_of(text, self.options, self.default_unit and self.default_unit.length)
        if answer.cause != "syntax":
            return answer
        return answer._replace(mend=mend_of(text, answer, self))


def as_packages_mean(choice):
    if choice.default_unit is None or choice.default_unit.length == SECOND:
        return choice
    return choice._replace(options=choice.options._replace(no_calc=True))


# The index of a set is its number for C.
SETS = [
    tuple(unit for place, unit in enumerate(UNITS) if bits >> place & 1)
    for bits in range(2 ** len(UNITS))
]


class Terminal(typing.NamedTuple):
    """A number with its digits, a unit with its length, or an operator with its sign."""

    kind: str
    what: object


class Mend(typing.NamedTuple):
    """Something is written in place of the characters from `start` to `end`."""

    start: int
    end: int
    written: str = ""


class Answer(typing.NamedTuple):
    """The place is counted in characters."""

    cause: str
    value: typing.Optional[int] = None
    place: typing.Optional[int] = None
    expected: frozenset = frozenset()
    found: str = ""
    operators: str = ""
    mend: typing.Optional[Mend] = None


# ---- Characters, words and terminals


def is_letter(character, options):
    return character in LETTERS or options.cn_unit and character in CHINESE


@functools.lru_cache(None)
def unit_of(word, options):
    folded = word if options.lowercase else word.translate(FOLDED)
    lengths = [
        unit.length
        for unit in UNITS
        if folded in unit.names.split()
        or options.cn_unit
        and folded in unit.chinese.split()
        or options.more_names
        and folded in unit.further.split()
    ]
    assert len(lengths) <= 1, word
    return lengths[0] if lengths else None


@functools.lru_cache(1 << 16)
def sort_of(token, options):
    if token and all(character in DIGITS for character in token):
        return "digits"
    if token and all(is_letter(character, options) for character in token):
        return "letters"
    if len(token) == 1 and token not in BLANKS:
        return "operator" if token in OPERATORS else "other"
    return None


@functools.lru_cache(1 << 16)
def terminal_of(token, options):
    match sort_of(token, options):
        case "digits":
            return Terminal("number", token)
        case "letters" if unit_of(token, options) is not None:
            return Terminal("unit", unit_of(token, options))
        case "operator":
            return Terminal("operator", token)
    return None


# ---- Sentences


# `default_unit` is the length of a unit, or None if each number needs its unit.


def is_sentence(kinds, options, default_unit=SECOND):
    match kinds:
        case ["number"]:
            return default_unit is not None
        case ["number", "unit"]:
            return True
        case ["number", "operator", *rest] if default_unit is not None and not options.no_calc:
            return is_sentence(rest, options, default_unit)
        case ["number", "unit", "operator", *rest] if not options.no_calc:
            return is_sentence(rest, options, default_unit)
        case ["number", "unit", *rest]:
            return is_sentence(rest, options, default_unit)
    return False


KINDS = ("number", "unit", "operator")


@functools.lru_cache(1 << 20)
def begins_sentence(kinds, options, default_unit):
    # If so, the kinds are a sentence, or become one with one or two more terminals.
    return is_sentence(list(kinds), options, default_unit) or any(
        is_sentence([*kinds, *more], options, default_unit)
        for more in (*((kind,) for kind in KINDS), ("number", "unit"))
    )


@functools.lru_cache(1 << 10)
def terminals_at_each_place(text, options):
    places = []
    for at in range(len(text)):
        terminals = []
        for end in range(at + 1, len(text) + 1):
            token = text[at:end]
            if sort_of(token, options) is None:
                break
            if terminal := terminal_of(token, options):
                terminals.append((terminal, end))
        places.append(terminals)
    return places


def list_of(pairs):
    """The items of a list that is made of nested pairs, such as (1, (2, ()))."""
    items = []
    while pairs:
        item, pairs = pairs
        items.append(item)
    return items


def sentences(text, options, default_unit):
    """All ways to split the text into a sentence.

    The loop goes over the rests of the text, from the shortest on. `whole` has the ways to split a
    rest into a sentence. `after_number` has the ways to split it into what may follow a number in a
    sentence, and `after_unit` into what may follow a number and a unit.
    """
    whole, after_number, after_unit = (
        [()] * len(text) + [[]],
        [()] * len(text) + [[] if default_unit is None else [()]],
        [()] * len(text) + [[()]],
    )
    # `no_calc` changes which sentences there are, but neither terminals nor tokens.
    places = terminals_at_each_place(text, options._replace(no_calc=False))
    for at in reversed(range(len(text))):
        if text[at] in BLANKS:
            whole[at], after_number[at], after_unit[at] = (
                whole[at + 1],
                after_number[at + 1],
                after_unit[at + 1],
            )
            continue
        numbers, units, signs = [], [], []
        for terminal, end in places[at]:
            if terminal.kind == "number":
                numbers += [(terminal, rest) for rest in after_number[end]]
            elif terminal.kind == "unit":
                units += [(terminal, rest) for rest in after_unit[end]]
            elif not options.no_calc:
                signs += [(terminal, rest) for rest in whole[end]]
        whole[at], after_unit[at] = numbers, numbers + signs
        after_number[at] = units if default_unit is None else units + signs
    return [tuple(list_of(pairs)) for pairs in whole[0]]


# ---- Tokens and the place of a syntax fault


@functools.lru_cache(1 << 10)
def token_lists(text, options):
    """All ways to cut the text into blanks and tokens, so that no two tokens of digits, and no two
    tokens of letters, touch each other. Each token comes with its place.
    """
    lists = [()] * len(text) + [[()]]
    for at in reversed(range(len(text))):
        if text[at] in BLANKS:
            lists[at] = lists[at + 1]
            continue
        found = []
        for end in range(at + 1, len(text) + 1):
            token = text[at:end]
            sort = sort_of(token, options)
            if sort is None:
                break
            for rest in lists[end]:
                touches = rest and rest[0][0] == end and sort == sort_of(rest[0][1], options)
                if not (touches and sort in ("digits", "letters")):
                    found.append(((at, token), rest))
        lists[at] = found
    return [list_of(pairs) for pairs in lists[0]]


class Front(typing.NamedTuple):
    """The terminals of the first tokens, as many as begin a sentence, and the token that comes
    next, if there is one.
    """

    terminals: tuple
    next: typing.Optional[tuple]

    def kinds(self):
        return tuple(terminal.kind for terminal in self.terminals)


def front_of(text, options, default_unit):
    (tokens,) = token_lists(text, options._replace(no_calc=False))
    terminals = ()
    for token in tokens:
        terminal = terminal_of(token[1], options)
        kinds = (*(terminal.kind for terminal in terminals), terminal.kind) if terminal else ()
        if terminal is None or not begins_sentence(kinds, options, default_unit):
            return Front(terminals, token)
        terminals = (*terminals, terminal)
    return Front(terminals, None)


def syntax_fault(text, front, options, default_unit):
    ends = is_sentence(list(front.kinds()), options, default_unit)
    if front.next is None and ends:
        return None
    expected = {
        kind for kind in KINDS if begins_sentence((*front.kinds(), kind), options, default_unit)
    }
    place, found = front.next or (len(text), "")
    return Answer(
        "syntax",
        place=place,
        expected=frozenset(expected | ({"end"} if ends else set())),
        found=found,
    )


# ---- Values


class Term(typing.NamedTuple):
    number: int
    length: int
    operator: str

    def value(self):
        return self.number * self.length

    def fault(self):
        if self.number >= LIMIT:
            return "number too large"
        return "overflow" if self.value() >= LIMIT else None


def terms_of(terminals, default_unit):
    terms = []
    operator = "+"
    for at, terminal in enumerate(terminals):
        if terminal.kind == "number":
            unit = terminals[at + 1 : at + 2]
            length = unit[0].what if unit and unit[0].kind == "unit" else default_unit or 0
            terms.append(Term(int(terminal.what), length, operator))
            operator = "+"
        elif terminal.kind == "operator":
            operator = terminal.what
    return terms


def product(values):
    """Each step is rounded down to nanoseconds."""
    result = SECOND
    for value in values:
        result = result * value // SECOND
    return result


def value_of(terms):
    first, *later = terms
    if later and all(term.operator == "*" for term in later):
        return first.value() * product([term.value() for term in later]) // SECOND
    return sum(term.value() for term in terms)


def evaluation_fault(terms):
    later = terms[1:]
    for count, term in enumerate(later, 1):
        if term.operator != later[0].operator:
            return Answer("mixed", operators=later[0].operator + term.operator)
        if term.fault():
            return Answer(term.fault())
        values = [each.value() for each in later[:count]]
        if (product(values) if term.operator == "*" else sum(values)) >= LIMIT:
            return Answer("overflow")
    return Answer("overflow") if value_of(terms) >= LIMIT else None


def first_term_fault(front, default_unit):
    """The fault of the first term, if that term is complete."""
    kinds = front.kinds()
    if (
        kinds[:2] in (("number", "unit"), ("number", "operator"))
        or kinds == ("number",)
        and front.next is None
        and default_unit is not None
    ):
        fault = terms_of(front.terminals, default_unit)[0].fault()
        return Answer(fault, place=0) if fault else None
    return None


def standing_fault(front, default_unit):
    """The first fault of the complete terms, under `no_calc`."""
    kinds = front.kinds()
    terms = terms_of(front.terminals, default_unit)
    if kinds[-1:] == ("number",) and (front.next is not None or default_unit is None):
        terms.pop()
    for count, term in enumerate(terms, 1):
        fault = term.fault()
        if fault is None and sum(each.value() for each in terms[:count]) >= LIMIT:
            fault = "overflow"
        if fault:
            return Answer(fault, place=0 if count == 1 else None)
    return None


# ---- Answers, printed durations, and messages


def answer_of(text, options, default_unit=SECOND):
    """Turns `lowercase` off for a text without capitals, `cn_unit` for one without Chinese letters,
    and `more_names` for one without such a name, so that fewer answers are computed.
    """
    used = options._replace(
        lowercase=options.lowercase and text != text.translate(FOLDED),
        cn_unit=options.cn_unit and any(character in CHINESE for character in text),
        more_names=options.more_names and FURTHER.search(text) is not None,
    )
    return computed_answer(text, used, default_unit)


@functools.lru_cache(1 << 16)
def computed_answer(text, options, default_unit):
    if not text:
        return Answer("empty")
    # Which unit is the default one makes no difference to the grammar.
    front, fault = parsed(text, options, None if default_unit is None else SECOND)
    early_fault = standing_fault if options.no_calc else first_term_fault
    if refusal := early_fault(front, default_unit) or fault:
        return refusal
    terms = terms_of(front.terminals, default_unit)
    return (None if options.no_calc else evaluation_fault(terms)) or Answer(
        "read", value=value_of(terms)
    )


@functools.lru_cache(1 << 16)
def parsed(text, options, default_unit):
    front = front_of(text, options, default_unit)
    spelled = sentences(text, options, default_unit)
    assert len(spelled) <= 1, text
    fault = syntax_fault(text, front, options, default_unit)
    assert (fault is None) == bool(spelled), text
    assert fault or spelled[0] == front.terminals, text
    return front, fault


def prepare(text, choices):
    """Computes a text's answers together, so that they share what is cached."""
    try:
        text = text.decode()
    except UnicodeDecodeError:
        return
    for choice in choices:
        choice.answer(text)


FRACTION_OR_EXPONENT = re.compile(
    rf"[{BLANKS}]*([0-9]*\.[0-9]+([eE][-+]?[0-9]+)?|[0-9]+[eE][-+]?[0-9]+)[{BLANKS}]*"
)


def rounded(number, way):
    """Of two whole numbers that are equally near, `nearest` takes the upper one."""
    return {"up": -(-number // 1), "nearest": (number + fractions.Fraction(1, 2)) // 1}.get(
        way, number // 1
    )


def bare_number(text, length, way):
    """The nanoseconds of this many units of this length, or None if they are too many. The text is
    a number with a fraction or an exponent, as the command `duration` reads it with `--from`.
    `way` says how it is rounded.
    """
    number, _, exponent = text.strip(BLANKS).upper().partition("E")
    # A larger or smaller exponent gives the same result, since the texts are far shorter.
    exponent = min(max(int(exponent or "0"), -99_999), 99_999)
    nanos = rounded(fractions.Fraction(f"{number}e{exponent}") * length, way)
    return nanos if nanos < LIMIT else None


def quotients(nanos, lengths, chosen):
    counts = []
    for length in lengths:
        count, nanos = divmod(nanos, length) if length in chosen else (0, nanos)
        counts.append(count)
    return counts


@functools.lru_cache(1 << 16)
def counts_within(nanos, lengths, parts):
    """The lexicographically greatest counts for these lengths that have at most `parts` counts
    other than 0, and together are at most the duration.
    """
    chosen = itertools.combinations(lengths, min(parts, len(lengths)))
    return max(quotients(nanos, lengths, each) for each in chosen)


def whole_within(nanos, lengths, parts):
    """What the text of a duration stands for, in nanoseconds."""
    counts = counts_within(nanos, lengths, parts)
    return sum(count * length for count, length in zip(counts, lengths))


@functools.lru_cache(1 << 16)
def whole_from(nanos, lengths, parts):
    """The least duration that prints whole and is not below this one, or None if there is none. The
    text of a longer duration never stands for less. So the first duration whose text stands for
    this one or for more prints whole, and can be found by bisection.
    """
    low, high = nanos, TOO_LONG
    while low < high:
        middle = (low + high) // 2
        if whole_within(middle, lengths, parts) < nanos:
            low = middle + 1
        else:
            high = middle
    return low if low < TOO_LONG else None


def search_small_worlds():
    """Fails if `counts_within` is not the greatest of all lists of counts, for some small sets of
    short lengths, or if `whole_from` is not the next duration that prints whole.
    """
    for lengths in ((7, 3, 1), (5, 4, 2), (6, 4), (3,), ()):
        for nanos, parts in itertools.product(range(24), range(len(lengths) + 2)):
            lists = itertools.product(*(range(nanos // length + 1) for length in lengths))
            allowed = [
                list(counts)
                for counts in lists
                if sum(count != 0 for count in counts) <= parts
                and sum(count * length for count, length in zip(counts, lengths)) <= nanos
            ]
            assert counts_within(nanos, lengths, parts) == max(allowed), (lengths, nanos, parts)
            whole = [each for each in range(60) if whole_within(each, lengths, parts) == each]
            later = next((each for each in whole if each >= nanos), None)
            assert whole_from(nanos, lengths, parts) == later, (lengths, nanos, parts)
            earlier = max(each for each in whole if each <= nanos)
            assert whole_within(nanos, lengths, parts) == earlier, (lengths, nanos, parts)


def break_down(nanos, units, parts):
    counts = counts_within(nanos, tuple(unit.length for unit in units), parts)
    of_unit = dict(zip(units, counts))
    rest = nanos - sum(count * unit.length for unit, count in of_unit.items())
    return [of_unit.get(unit, 0) for unit in UNITS], rest


def round_to(nanos, units, parts, way):
    """The nearest duration that prints whole: below this one, above it, or either. The result is
    None if nothing is long enough.
    """
    lengths = tuple(unit.length for unit in units)
    below = whole_within(nanos, lengths, parts)
    if way == "down" or below == nanos:
        return below
    above = whole_from(nanos, lengths, parts)
    is_below = above is None or nanos - below < above - nanos
    return below if way == "nearest" and is_below else above


def print_part(count, unit, style):
    if style != "long":
        return f"{count}{unit.printed}"
    one, many = unit.names.split()[-2:]
    return f"{count} {one if count == 1 else many}"


def print_within(nanos, units, parts, style="short"):
    """The units are in the order of UNITS."""
    counts = counts_within(nanos, tuple(unit.length for unit in units), parts)
    printed_parts = [print_part(count, unit, style) for count, unit in zip(counts, units) if count]
    zero = next(unit for unit in UNITS if unit.length == SECOND)
    if units and units[-1].length > SECOND:
        zero = units[-1]
    return ("" if style == "compact" else " ").join(printed_parts) or print_part(0, zero, style)


def print_whole(nanos):
    return print_within(nanos, UNITS, len(UNITS))


def line_of(answer):
    match answer.cause:
        case "syntax" if "unit" in answer.expected:
            return UNIT_LINE
        case "syntax" if "operator" in answer.expected:
            return "expected ['+', '*']"
        case "syntax":
            return "expected number"
        case "mixed":
            return "not support '{}' with '{}' calculate".format(*answer.operators)
    return LINES[answer.cause]


@functools.lru_cache(1 << 16)
def message(text, answer):
    """The program's message about a refused text, which is like that of `duration-str` 0.19.0."""
    line = line_of(answer)
    if answer.place is None:
        return line
    if "\n" in text:
        return f"byte {len(text[:answer.place].encode())}: {line}"
    return f"{text}\n{' ' * answer.place}^\n{line}"


# ---- A fault in one line

# Words that people write for a unit, by the name to write instead. Those of SMALL_WORDS count
# only in small letters.
SMALL_WORDS = {"mon": "mo mos"}
NEAR_WORDS = {unit.printed.replace("µ", "u"): unit.further for unit in UNITS}
NEAR_WORDS["us"] += " μs μsec μsecs μsecond μseconds"
QUOTED = 40


def listed(words):
    """A class of the characters that GRAMMAR lists as `U+..` in the paragraph with these words."""
    paragraph = GRAMMAR.read_text(encoding="utf-8").split(words)[1].split("\n\n")[0]
    pairs = re.findall(r"U\+(\w+)(?:-(\w+))?", paragraph)
    ends = ((chr(int(first, 16)), chr(int(last or first, 16))) for first, last in pairs)
    return "[" + "".join(f"{first}-{last}" for first, last in ends) + "]"


GRAMMAR = pathlib.Path(__file__).resolve().parent.parent / "docs/GRAMMAR.md"
# Characters that can't be seen, which a quote escapes
HIDDEN = re.compile(r"[\0-\x1f\x7f-\x9f]|" + listed("Of the characters that can't be seen"))
# Signs beyond ASCII, such as arrows, which are not taken for letters
SIGNS = re.compile("[×÷]|(?!µ)" + listed("nor are these signs"))
ESCAPES = {'"': '\\"', "\\": "\\\\", "\t": "\\t", "\n": "\\n", "\r": "\\r"}

# The help for a text that matches a pattern at the place.
LETTER = r"A-Za-z\x80-\U0010ffff"
HELP = {
    rf"(?<=[{LETTER}])\.": "NoPoint",
    r"\.(?=[0-9])": "Fraction",
    r"(?<=[0-9])([,_'](?=[0-9])|[Ee](?=[-+0-9]))": "DigitsOnly",
    r"(?<=[0-9]):(?=[0-9])": "ClockTime",
    "[()]": "Brackets",
    "/": "Division",
}
# Further help, if there are only blanks before the place.
FIRST_HELP = {
    "-(?=[0-9.])": "Negative",
    r"\+(?=[0-9.])": "LeadingPlus",
    "[Pp][Tt]?(?=[0-9])": "Iso8601",
    "[\"']": "QuotationMarks",
}
# The words of each help, from GRAMMAR's table, in its order
HELP_TABLE = GRAMMAR.read_text("utf-8").split("\n| name | words | what stands ")[1].split("\n\n")[0]
HELP_WORDS = {
    name: re.findall("`(.*?)`", words)
    for name, words in re.findall(r"^\| `(\w+)` \| (.*?) \|", HELP_TABLE, re.M)
}


class Help(typing.NamedTuple):
    """A help's name, and for `DidYouMean` the unit's name"""

    name: str
    unit: typing.Optional[str] = None

    def words(self, mend):
        """If there are two kinds of words, the first ones are those with a mend."""
        words = HELP_WORDS[self.name][0 if mend else -1]
        if self.name == "Fraction" and mend:
            return words.replace("90min", mend.written)
        return words.replace('"min"', f'"{self.unit}"')

    def code(self):
        return re.sub("(?<=[a-z])(?=[A-Z0-9])", "_", self.name).upper()

    def number(self):
        return 1 + [*HELP_WORDS].index(self.name)


def escape(character):
    return ESCAPES.get(character) or (
        f"\\u{{{ord(character):x}}}" if HIDDEN.match(character) else character
    )


def quote(text):
    parts = [escape(each) for each in text]
    lengths = itertools.accumulate(map(len, parts))
    fits = sum(length <= QUOTED for length in lengths)
    return f'"{"".join(parts[:fits])}"' + ("..." if fits < len(parts) else "")


def kind_in_line(character):
    if character in DIGITS:
        return "digit"
    if character.isascii():
        return "letter" if character.isalpha() else None
    return None if HIDDEN.match(character) or SIGNS.match(character) else "letter"


def piece_at(text, place):
    kind = kind_in_line(text[place]) if place < len(text) else None
    end = place + 1
    while kind and end < len(text) and kind_in_line(text[end]) == kind:
        end += 1
    return text[place:end]


def near_name(word):
    small = word.translate(FOLDED)
    found = [name for name, words in NEAR_WORDS.items() if small in words.split()]
    return next(
        iter(found + [name for name, words in SMALL_WORDS.items() if word in words.split()]), None
    )


def help_at(text, place, piece, expected):
    if {"number", "end"} <= set(expected) and piece.translate(FOLDED) in {",", "&", "and"}:
        return "OneDuration"
    rows = HELP if text[:place].strip(BLANKS) else HELP | FIRST_HELP
    return next(
        (name for pattern, name in rows.items() if re.compile(pattern).match(text, place)),
        None,
    )


def missing_unit_help(text, expected):
    if expected != {"unit"}:
        return None
    return "MissingUnit" if text.strip(BLANKS + "0") else "Zero"


def first_kind(text):
    """`letter`, `digit`, or None for the end and other characters"""
    return kind_in_line(text[0]) if text else None


def is_unknown_unit(piece, expected):
    return "unit" in expected and first_kind(piece) == "letter"


def help_of(text, answer):
    """The help for a refused text, or None."""
    if answer.cause == "overflow" and text.strip(BLANKS + DIGITS) == "":
        return Help("LargeNumber")
    if answer.cause != "syntax":
        return None
    piece = piece_at(text, answer.place)
    name = help_at(text, answer.place, piece, answer.expected)
    if is_unknown_unit(piece, answer.expected):
        near = near_name(piece)
        return Help("DidYouMean", near) if near else Help(name or "Units")
    name = name or missing_unit_help(text, answer.expected)
    return name and Help(name)


def is_time_of_units(text, piece):
    """Whether a text with `PT` ends with a letter, as it does in ISO 8601."""
    return piece.upper() == "PT" and bool(re.search("[A-Za-z]$", text.rstrip(BLANKS)))


def mend_of(text, answer, choice):
    """What is certain to be written instead, or None. GRAMMAR's table says it for each help."""
    found = help_of(text, answer)
    place, piece = answer.place, piece_at(text, answer.place)
    end = place + len(piece)
    match found and found.name:
        case "DidYouMean":
            return Mend(place, end, found.unit)
        case "Fraction":
            return fraction_mend(text, place, answer.expected, choice)
        case "Zero" if piece == "":
            return Mend(place, place, "s")
        case "LeadingPlus":
            return Mend(place, end)
        case "NoPoint" if first_kind(text[end:]) is None and text[end : end + 1] != ".":
            return Mend(place, end)
        case "DigitsOnly" if piece in ("_", "'") and re.match("[0-9]{3}(?![0-9])", text[end:]):
            return Mend(place, end)
        case "Iso8601" if is_time_of_units(text, piece) and not choice.options.lowercase:
            return Mend(place, end)
    return None


def fraction_mend(text, point, expected, choice):
    digits = re.search(r"[0-9]*\Z", text[:point])[0]
    decimals = re.match("[0-9]*", text[point + 1 :])[0]
    if not digits and "number" not in expected:
        return None
    start, end = point - len(digits), point + 1 + len(decimals)
    unit, end = unit_after(text, end, choice)
    if unit is None:
        return None
    value = fractions.Fraction(f"{digits}.{decimals}") * unit.length
    if value.denominator > 1 or value >= LIMIT:
        return None
    best = next(each for each in UNITS if each.length <= unit.length and value % each.length == 0)
    return Mend(start, end, f"{value // best.length}{best.printed.replace('µ', 'u')}")


def unit_after(text, end, choice):
    """The unit of a number that ends there, or None, and where the word for it ends."""
    rest = text[end:].lstrip(BLANKS)
    word = piece_at(rest, 0) if first_kind(rest) == "letter" else ""
    if word:
        length = unit_of(word, choice.options)
        name = near_name(word)
        if length is None and name is None:
            return None, end
        named = (each for each in UNITS if each.length == length)
        unit = next(named, None) or UNITS[PLACES[name]]
        return unit, len(text) - len(rest) + len(word)
    can_follow = rest == "" or rest[0] in OPERATORS and not choice.options.no_calc
    return choice.default_unit if can_follow else None, end


MOST_SUGGESTIONS = 32


def mended(text, choice):
    """The text with a suggestion for each of its faults, which is read; or None."""
    for _ in range(1 + MOST_SUGGESTIONS):
        answer = choice.answer(text)
        if answer.cause == "read":
            return text
        if answer.mend is None:
            return None
        text = text[: answer.mend.start] + answer.mend.written + text[answer.mend.end :]
    return None


def expected_in_line(expected):
    kinds = [
        ("unit", "a unit"),
        ("number", "a number"),
        ("operator", "'+', '*'"),
        ("end", "the end"),
    ]
    words = ", ".join(word for kind, word in kinds if kind in expected)
    return "expected " + re.sub(", the end", " or the end", words)


@functools.lru_cache(1 << 16)
def report(text, answer):
    line = one_line(text, answer)
    if answer.cause != "syntax" or len(text) > 80 or any(escape(each) != each for each in text):
        return line
    columns = (
        2 if unicodedata.east_asian_width(each) == "W" else 1 for each in text[: answer.place]
    )
    return f"{text}\n{' ' * sum(columns)}^\n{line}"


@functools.lru_cache(1 << 16)
def one_line(text, answer):
    return problem(text, answer) + words_at_the_end(text, answer)


def reason(text, answer):
    """The line without its column"""
    return problem(text, answer, with_column=False) + words_at_the_end(text, answer)


def words_at_the_end(text, answer):
    found = help_of(text, answer)
    return f" ({found.words(answer.mend)})" if found else ""


def problem(text, answer, with_column=True):
    match answer.cause:
        case "empty":
            return "empty text"
        case "mixed":
            return f"sum and product mixed in {quote(text)}"
        case "overflow" if "*" in text:
            return f"step of over 584 years in {quote(text)}"
        case "overflow":
            return f"duration of over 584 years in {quote(text)}"
        case "number too large":
            return f"number of 2^64 or more in {quote(text)}"
    piece = piece_at(text, answer.place)
    column = f" at column {answer.place + 1}" if with_column else ""
    if is_unknown_unit(piece, answer.expected):
        return f"unknown unit {quote(piece)}{column}"
    found = f", found {quote(piece) if piece else 'the end'}"
    return expected_in_line(answer.expected) + column + found


def output_of(line, choice, text_of_refusal=message):
    """What the program writes for a line of bytes, and whether the line is accepted."""
    try:
        text = line.decode()
    except UnicodeDecodeError:
        return b"not UTF-8", False
    answer = choice.answer(text)
    if answer.cause != "read":
        return text_of_refusal(text, answer).encode(), False
    human = print_whole(answer.value)
    assert len(human.encode()) <= LONGEST_PRINTED
    return f"{answer.value} {human}".encode(), True
