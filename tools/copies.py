"""Lays out words of docs/GRAMMAR.md for the packages' documentation, and callers in Rattle for
documents. tools/facts compares the result with what stands there, and writes it.
"""
import re
import textwrap

from files import HEADER, layer_of, read, section
from lists import OPTIONS, SWITCHES, camel, found

TYPES = "js/index.d.ts"
PYTHON = "python/src/duration_str"
NATIVE_DOCS = "python/src/native/docs.h"
RUST = "rust/src/formatted.rs"


def filled(text, width, first, further=None):
    further = first if further is None else further
    return textwrap.fill(text, width, initial_indent=first, subsequent_indent=further)


def in_c_strings(text):
    return text.replace("\n", '\\n"\n    "')


def paragraphs():
    """The places of the marked paragraphs. C's manual page takes them from the header."""
    copied = r"<!-- tools/facts --write copies this paragraph .*? -->\n(.*?)\n\n"
    marked = re.findall(copied, read("docs/GRAMMAR.md"), re.S)
    meaning, printing, parts = (paragraph.replace("\n", " ") for paragraph in marked)
    for paragraph, name, before, after, prefix, width in (
        (meaning, HEADER, " * what you trust.\n *\n", "\n *\n", " * ", 79),
        (meaning, TYPES, "it also says where.\n *\n", "\n *\n", " * ", 100),
        (meaning, f"{PYTHON}/__init__.py", "'3min 13s 29ms'\n\n", "\n\n", "", 79),
        (meaning, "rust/src/lib.rs", "# What a text means\n//!\n", "\n//!\n", "//! ", 100),
        (printing, HEADER, " of `enum duration_str_style`.\n *\n", "\n *\n", " * ", 79),
        (printing, TYPES, " from `y` to `ns`.\n *\n", "\n */", " * ", 100),
        (printing, RUST, "# What is printed\n///\n", "\n///\n", "/// ", 100),
        (printing, layer_of("src/printing.rt"), "do not matter.\n///\n", "\n///\n", "/// ", 100),
        (parts, HEADER, " if you don't want\n * the rest.\n *\n", "\n *\n", " * ", 79),
        (parts, TYPES, " or a bigint\n * of nanoseconds.\n *\n", "\n *\n", " * ", 100),
        (parts, RUST, " of its magnitude.\n    ///\n", "\n    ///\n", "    /// ", 100),
    ):
        yield name, before, after, filled(paragraph, width, prefix)
    end = '\\n\\n"'
    for paragraph, before in (printing, "(`1 hour 30 minutes`)"), (parts, "in the short style."):
        lines = in_c_strings(filled(paragraph, 79, ""))
        yield NATIVE_DOCS, f'{before}{end}\n    "', end, lines


def option_descriptions():
    """What the options of reading do, in the order of their bits, and then the default unit."""
    page = section("docs/GRAMMAR.md", "## Options")
    rows = dict(re.findall(r"^\| `(\w+)` \| (.*) \|$", page, re.M))
    choices = dict(re.findall(r"^\| (no|another) unit \| (.*?) \|", page, re.M))
    rows["require_unit"] = f"a number without a unit {choices['no']}"
    descriptions = {name: rows[name] for name in map(str.lower, OPTIONS)}
    return descriptions | {"default_unit": f"a number without a unit {choices['another']}"}


def in_mdoc(text):
    return re.sub(" ?`(.*?)` ?", r"\n.Ql \1\n", text).strip()


def as_list(descriptions):
    return "\n".join(
        filled(f"- `{name}`: {what}.", 100, "", "  ") for name, what in descriptions.items()
    )


def options(descriptions, sentences):
    bits = dict(found(r"^const (\w+): u32 = (\d+);$", "duration_str_c/src/lib.rt"))
    rows = []
    for option in OPTIONS:
        comment = filled(f"{descriptions[option.lower()]} */", 79, "    /* ", "     * ")
        rows.append(f"{comment}\n    DURATION_STR_OPTION_{option} = {bits[option]}")
    yield HEADER, "enum duration_str_option {\n", "\n};", ",\n".join(rows)
    switches = [option.lower() for option in SWITCHES]
    fields = [
        filled(sentences[name], 100, "    /// ") + f"\n    pub {name}: bool," for name in switches
    ]
    yield layer_of("src/options.rt"), "pub struct Options {\n", "\n}", "\n".join(fields)
    rows = [f".It Cm {name}\n{in_mdoc(sentences[name])}" for name in switches]
    yield "program/durstr.1.in", "-width lowercase\n", "\n.El", "\n".join(rows)
    rows = [filled(what, 79, f"  {name:14}", " " * 16) for name, what in descriptions.items()]
    before = 'and the default unit is the second:\\n\\n"\n    "'
    yield NATIVE_DOCS, before, '\\n\\n"', in_c_strings("\n".join(rows))
    yield "python/README.md", "these options, by name:\n\n", "\n\n", as_list(descriptions)


def options_in_javascript(descriptions, sentences):
    fields = {
        option: filled(f"{sentences[option.lower()]} */", 100, "    /** ", "     * ")
        + f"\n    {camel(option)}?: boolean"
        for option in OPTIONS
    }
    required = fields.pop("REQUIRE_UNIT")
    end = " | undefined;\n"
    yield TYPES, "interface Switches {\n", f"{end}}}", end.join(fields.values())
    yield TYPES, "interface RequiringOptions extends Switches {\n", end, required
    before = "interface CountingOptions extends Switches {\n    /**\n"
    yield TYPES, before, "\n     *\n", filled(sentences["default_unit"], 100, "     * ")
    descriptions = {camel(name): what for name, what in descriptions.items()}
    yield "js/README.md", "the options for reading:\n\n", "\n\n", as_list(descriptions)


def callers():
    library, crate, answers = "crates/duration_str", "crates/service", "proofs/timeout/Answers.antt"
    caller = read(f"{crate}/src/lib.rt").partition("\npub mod ")[0]
    yield f"{library}/CALLING.md", "and is not refused.\n\n```rust\n", "```", caller
    yield f"{library}/CALLING.md", f"-- {answers}\n", "```", read(f"{crate}/{answers}")
    for before, module in (("## Call it\n", "call"), ("there is none:\n", "configuration")):
        block = read(f"{crate}/src/{module}.rt")
        yield f"{library}/README.md", f"{before}\n```rust rattle\n", "```", block


def places():
    descriptions = option_descriptions()
    sentences = {name: f"{what[0].upper()}{what[1:]}." for name, what in descriptions.items()}
    yield from paragraphs()
    yield from options(descriptions, sentences)
    yield from options_in_javascript(descriptions, sentences)
    yield from callers()
