"""Lists for several languages, such as of units, styles and regular expressions. tools/facts
compares them with what stands in their places, and writes them.
"""
import json
import re
import textwrap

import patterns
import units
from files import ROOT

CRATES = ROOT / "crates"
UNITS = list(units.table())
FURTHER = list(units.more())
PRINTED = [unit.printed for unit in UNITS]
# An index into a list of regular expressions is a sum: 1 for `no_calc` and 2 for `require_unit`, or
# 1 for `lowercase`, 2 for `cn_unit` and 4 for `more_names`.
INDEXES = [(first, second) for second in (False, True) for first in (False, True)]
SENTENCES = [patterns.SENTENCES[each] for each in INDEXES]
UNIT_PATTERNS = [patterns.units_by(*each, more) for more in (False, True) for each in INDEXES]


def found(pattern, name):
    return re.findall(pattern, (CRATES / name).read_text(encoding="utf-8"), re.M)


def variants(name, source):
    (body,) = found(rf"^pub enum {name} \{{([^}}]*)\}}", source)
    return re.findall(r"^    (\w+),$", body.lower(), re.M)


# The styles and the ways of rounding are in the order of the source's enumerations, and the causes
# in that of their numbers.
STYLES = variants("Style", "duration_str_printing/src/format.rt")
ROUNDINGS = variants("Rounding", "duration_str_printing/src/rounding.rt")
(helps,) = found(r"^pub enum Help \{([^}]*)\}", "duration_str_help/src/help.rt")
# Each help has its comment.
HELPS = {
    re.sub(r"(?<=[a-z])(?=[A-Z0-9])", "_", name).upper(): comment.replace("\n    /// ", " ")
    for comment, name in re.findall(r"^    /// (.*(?:\n    /// .*)*)\n    (\w+)\S*,$", helps, re.M)
}
constants = found(r"^const (\w+): u32 = \d+;$", "duration_str_c/src/answer.rt")
CAUSES = ["READ", *constants[: constants.index("UNKNOWN_OPTION") + 1]]
# The options of reading, in the order of their bits. Those before REQUIRE_UNIT are the fields of
# `Options` in Rust and Rattle, and the words of the program `durstr`.
constants = found(r"^const (\w+): u32 = \d+;$", "duration_str_js/src/reading.rt")
OPTIONS = constants[: constants.index("DEFAULT_UNIT_SHIFT")]
SWITCHES = OPTIONS[: OPTIONS.index("REQUIRE_UNIT")]


def quoted(words, between=", "):
    return between.join(f'"{word}"' for word in words)


def rows(texts):
    return "\n".join(f"    {json.dumps(text, ensure_ascii=False)}," for text in texts)


def camel(name):
    return re.sub("_(.)", lambda found: found[1].upper(), name.lower())


def describing_patterns(first, further, names):
    """The comment above the patterns of units, without its beginning `first`."""
    lowercase, cn_unit, more_names = names
    text = f"{first}without options, with `{lowercase}`, with `{cn_unit}`, and with both. "
    text += f"The last four are the same with `{more_names}`."
    text += " */" if first.startswith("/**") else ""
    return textwrap.fill(text, 100, subsequent_indent=further).removeprefix(first)


def with_all_options(text):
    """Two or more lines that each begin with an option of reading, such as the parameters of a
    function in Python, are a list of all options in their order. The line of an option that is
    missing is like the line before it.
    """
    line = rf"[ \t]*\"?(?:{'|'.join(OPTIONS)})\b.*\n"
    return re.sub(rf"(?im)^(?:{line}){{2,}}", lambda found: with_missing_lines(found[0]), text)


def with_missing_lines(listed):
    lines = {re.search(r"\w+", line)[0].upper(): line for line in listed.splitlines(keepends=True)}
    last, last_line = next(iter(lines.items()))
    for option in OPTIONS:
        if option not in lines:
            line = last_line.replace(last, option)
            lines[option] = line.replace(last.lower(), option.lower())
        last, last_line = option, lines[option]
    return "".join(lines[option] for option in OPTIONS)


def in_javascript():
    name = "js/src/lists.js"
    yield name, "const UNITS = [", "];", quoted(PRINTED)
    yield name, "const NAMES = [\n", "\n];", rows(" ".join(unit.names) for unit in UNITS)
    yield name, "const STYLES = [", "];", quoted(STYLES)
    yield name, "const ROUNDINGS = [", "];", quoted(ROUNDINGS)
    # JavaScript sets no bit of an unknown option, so it lacks the last cause.
    yield name, "const CODES = [", "];", quoted(CAUSES[:-1])
    yield name, "const HELPS = [\n", "\n];", "\n".join(f"    {each}" for each in divided_helps())
    yield name, "const OPTIONS = [", "];", quoted(map(camel, OPTIONS))
    yield name, "const SENTENCES = [\n", "\n];", rows(SENTENCES)
    before, names = "/** Patterns of units: ", ("lowercase", "cnUnit", "moreNames")
    lines = describing_patterns(before, " * ", names)
    yield name, before, "\nexport const UNIT_PATTERNS", lines
    yield name, "const UNIT_PATTERNS = [\n", "\n];", rows(UNIT_PATTERNS)
    described = (f'    // {comment}\n    | "{help_code}"' for help_code, comment in HELPS.items())
    yield "js/index.d.ts", "type Help =\n", ";", "\n".join(described)


def divided_helps():
    return textwrap.wrap(quoted([*HELPS]) + ",", 92, break_on_hyphens=False)


def in_c():
    yield "tests/durstr.c", "names[] = {", "}", quoted(map(str.lower, OPTIONS))
    rows = ["    /* no help applies */", "    DURATION_STR_HELP_NONE = 0,"]
    for number, (name, comment) in enumerate(HELPS.items(), 1):
        # The words ` */` stay on the comment's last line.
        lines = textwrap.wrap(comment, 70)
        rows += (
            "    /* " + "\n     * ".join(lines) + " */",
            f"    DURATION_STR_HELP_{name} = {number},",
        )
    name = "c/include/duration_str.h"
    yield name, "enum duration_str_help_kind {\n", "\n};", "\n".join(rows).rstrip(",")


def in_the_manual():
    rows = [
        f".TP\n.B {name}\n{textwrap.fill(comment.replace('`', chr(34)), 79)}"
        for name, comment in HELPS.items()
    ]
    before = ".PP\nThese are the values of\n.BR help :\n"
    yield "shell/duration.h2m", before, "\n\n[ROUNDING]", "\n".join(rows)


def on_the_page():
    pairs = zip(UNITS, units.more())
    lists = [(unit.names, more.names, unit.chinese) for unit, more in pairs]
    lines = rows([" ".join(words) for words in each] for each in lists).splitlines()
    # A line that is too long is divided after the names.
    divided = [each if len(each) < 100 else each.replace(", ", ",\n     ", 1) for each in lines]
    yield "web/units.js", "const ROWS = [\n", "\n];", "\n".join(divided)


def in_python():
    name = "python/src/duration_str/_lists.py"
    yield name, "\nUnit = Literal[", "]", quoted(name for unit in UNITS for name in unit.names)
    yield name, "\nPrintedUnit = Literal[", "]", quoted(PRINTED)
    yield name, "\nStyle = Literal[", "]", quoted(STYLES)
    yield name, "\nRounding = Literal[", "]", quoted(ROUNDINGS)
    lines = [f'    {each} = {at}\n    """{HELPS[each]}"""' for at, each in enumerate(HELPS, 1)]
    before = '"""What a user may have meant by a refused text, or should write instead."""\n\n'
    yield "python/src/duration_str/_help.py", before, "\n\n\n", "\n".join(lines)
    yield name, "\nSENTENCES = [\n", "\n]", rows(SENTENCES)
    before, names = "#: Patterns of units: ", ("lowercase", "cn_unit", "more_names")
    yield name, before, "\nUNIT_PATTERNS", describing_patterns(before, "#: ", names)
    yield name, "\nUNIT_PATTERNS = [\n", "\n]", rows(UNIT_PATTERNS)


def in_c_for_python():
    name = "python/src/native/lists.h"
    names = [*map(str.lower, OPTIONS)]
    defaults = ", ".join(f"{option}=False" for option in names)
    yield name, "OPTION_NAMES ", "\n", quoted(names)
    yield name, "OPTION_DEFAULTS ", "\n", f"\"{defaults}, default_unit='s'\""
    latin, utf_8 = (quoted(PRINTED).replace("µ", code) for code in (r"\xb5", r"\xc2\xb5"))
    listed = utf_8.replace('"', "").replace(r"\xc2\xb5s", r"\xc2\xb5s or us")
    yield name, "unit_names[] = {", "}", latin
    yield name, 'listed_units[] = "', '"', listed
    yield name, "style_names[] = {", "}", quoted(STYLES)
    yield name, 'listed_styles[] = "', '"', ", ".join(STYLES)
    yield name, "rounding_names[] = {", "}", quoted(ROUNDINGS)
    yield name, 'listed_roundings[] = "', '"', ", ".join(ROUNDINGS)


def in_rust():
    name = "shell/src/lists.rs"
    ascii_names = [name.replace("µ", "u") for name in PRINTED]
    for constant, items in ("UNITS", ascii_names), ("STYLES", STYLES):
        before = f"const {constant}: [&str; "
        yield name, before, "];", f"{len(items)}] = [{quoted(items)}"
    helps = "\n".join(f'    "{each}",' for each in HELPS)
    for place in (name, "rust/tests/all/faults.rs"):
        yield place, "const HELPS: [&str; ", "\n];", f"{len(HELPS)}] = [\n{helps}"
    yield name, "const SENTENCES: [&str; 4] = [\n", "\n];", rows(SENTENCES)
    before, names = "/// Patterns of units: ", ("--lowercase", "--cn-unit", "--more-names")
    lines = describing_patterns(before, "/// ", names)
    yield name, before, "\npub const UNIT_PATTERNS", lines
    listed = f"{len(UNIT_PATTERNS)}] = [\n{rows(UNIT_PATTERNS)}"
    yield name, "const UNIT_PATTERNS: [&str; ", "\n];", listed


def in_the_schema():
    """The schema has no patterns for `lowercase`, `cn_unit` and `more_names`."""
    for no_calc, required in patterns.SENTENCES:
        name = "duration" + "_no_calc" * no_calc + "_require_unit" * required
        pattern = patterns.pattern(no_calc=no_calc, require_unit=required)
        described = "A duration" + " without + and *" * no_calc
        described += " whose numbers have units" * required + ", such as 1h 30m"
        values = {"description": described, "type": "string", "pattern": pattern}
        lines = json.dumps(values, ensure_ascii=False, indent=12).strip("{}\n ")
        yield "docs/duration.schema.json", f'"{name}": {{\n            ', "\n        }", lines


def places():
    yield from in_javascript()
    yield from in_c()
    yield from on_the_page()
    yield from in_python()
    yield from in_c_for_python()
    yield from in_rust()
    yield from in_the_manual()
    yield from in_the_schema()
