"""Checks what the documents say, for tests/repository: links, names, tables of texts, promises,
quotes, versions that are needed, and spelling.
"""
import itertools
import json
import pathlib
import re
import shutil
import subprocess
import sys

import reference_parser
from reference_parser import HELP_WORDS

sys.path.append(str(pathlib.Path(__file__).resolve().parent.parent / "tools"))
import lists  # noqa: E402
from files import HEADER, LAYERS, ROOT, read, section, tracked_files  # noqa: E402

VECTORS = "rust/vectors.json"


# ---- Links, paths and names

LINK = re.compile(r"\]\(([^)\s]+)\)|(?:src|srcset)=\"([^\"]+)\"")
NAMED = re.compile(r"`(?:\w+::)*([A-Za-z][\w-]{3,})`")
# Names that documents take from Rust and from Debian's lintian.
FOREIGN = {"Cursor", "VecDeque", "x86_64-unknown-none"}
FOREIGN |= {"hardening-no-fortify-functions", "no-symbols-control-file"}
# These documents name other libraries and earlier versions.
ABOUT_OTHERS = {"CHANGELOG.md", "docs/MIGRATING.md"}


def prose(name):
    return re.sub(r"^```.*?^```$", "", read(name), flags=re.M | re.S)


def anchors(path):
    found = re.findall(r"^#+ (.*)$", prose(path.relative_to(ROOT)), re.M)
    return {re.sub(r"[^\w\- ]", "", heading.lower()).strip().replace(" ", "-") for heading in found}


def wrong_links(name):
    for target in (first or second for first, second in LINK.findall(prose(name))):
        file, _, anchor = target.partition("#")
        path = ((ROOT / name).parent / file).resolve() if file else ROOT / name
        if "://" not in target and (not path.exists() or anchor and anchor not in anchors(path)):
            yield f"{name}: leads nowhere: {target}"


def wrong_paths(name, folders):
    near = (ROOT, (ROOT / name).parent, *(ROOT / "crates" / each for each in LAYERS))
    for path in re.findall(rf"`((?:{'|'.join(folders)})/[\w./-]*)[` ]", prose(name)):
        if not any((folder / path).exists() for folder in near):
            yield f"{name}: names a path that is not there: {path}"


def sentences_of(text):
    text = re.sub(r"^```.*?^```$", "", text, flags=re.M | re.S)
    text = re.sub(r"^#.*", "", text, flags=re.M)
    for block in re.split(r"\n\n|\n(?=[-|#]|\d+\. )", text):
        for part in block.split("|") if block.startswith("|") else [block]:
            ends = r"(?:(?<=[.:!?])|(?<=[.:!?]\*\*)) +(?=[A-Z`\[(*])"
            for sentence in filter(None, re.split(ends, " ".join(part.split()))):
                yield re.sub(r"^[-*\d. ]+", "", sentence)


def texts_of_vectors():
    left = [json.loads(read(VECTORS))]
    while left:
        here = left.pop()
        if isinstance(here, str):
            yield here
        elif isinstance(here, (list, dict)):
            left.extend(here.values() if isinstance(here, dict) else here)


def other_helps():
    codes = [reference_parser.Help(name).code() for name in HELP_WORDS]
    if codes != [*lists.HELPS]:
        yield f"docs/GRAMMAR.md: the helps are {codes}, and those of the source {[*lists.HELPS]}"
    lines = set(texts_of_vectors())
    for words in itertools.chain(*HELP_WORDS.values()):
        if not any(line.endswith(f" ({words})") for line in lines):
            yield f"docs/GRAMMAR.md: no error in the vectors has the help `{words}`"


def other_lines():
    lines = set(texts_of_vectors())
    for row in rows_of_tables("docs/GRAMMAR.md"):
        # The vectors have no refusals by these causes.
        if "line" in row and not re.match("`(OutOfRange|NotText)`", row["cause"]):
            for wanted in re.findall("`(.*?)`", row["line"]):
                if not any(wanted.split(' "')[0] in line for line in lines):
                    yield f"docs/GRAMMAR.md: no error in the vectors has the line `{wanted}`"


# ---- Tables of texts

# The columns that say what the reference parser answers, each with its options.
ANSWERED = {
    "here": [],
    "means here": [],
    "value or error": [],
    "fault": [],
    "with `no_calc`": ["no_calc"],
    "with `more_names`": ["more_names"],
    "if units are required": ["require_unit"],
}


def cells_of(line):
    return [cell.strip() for cell in re.split(r" \|(?= )", line.strip("|"))]


def rows_of_tables(name):
    for table in re.findall(r"(?m)(?:^\|.*\n)+", prose(name)):
        head, _, *rows = map(cells_of, table.splitlines())
        yield from (dict(zip(head, row)) for row in rows)


def is_answered(claim, text, names):
    answer = reference_parser.Choice.named(names).answer(text)
    if line := re.fullmatch(r"`(.* .*)`", claim):
        return answer.cause != "read" and reference_parser.one_line(text, answer) == line[1]
    if claim in ("refused", "read"):
        return (answer.cause == "read") == (claim == "read")
    if place := re.fullmatch(r"a syntax fault at the (?:`(.*)`|end)", claim):
        return answer.cause == "syntax" and answer.found == (place[1] or "")
    if cause := re.fullmatch(r"`(\w+)`", claim):
        return answer.cause == re.sub(r"(?<=.)([A-Z])", r" \1", cause[1]).lower()
    meant = reference_parser.Choice().answer(re.sub(r"^an? ", "1 ", claim).replace(",", ""))
    return answer.cause == "read" and meant.cause == "read" and answer.value == meant.value


def answers_in(cell):
    """The answers in a cell, without what explains them."""
    if re.fullmatch("`[^`]*`", cell):
        return [cell]
    return re.sub(r" \(.*|: .*|, as .*", "", cell).split(", ")


def claims_of(row, column):
    # In a cell, `\f` stands for a form feed.
    texts = re.findall(r"`([^`]+)`", row.get("text", "").replace(r"\f", "\f"))
    claims = answers_in(row[column])
    return zip(texts, claims * (len(texts) if len(claims) == 1 else 1))


def claimed_answers():
    """What the tables say of texts: the document, a text, its options, and the answer."""
    for name in ("README.md", "docs/GRAMMAR.md", "docs/MIGRATING.md"):
        for row in rows_of_tables(name):
            for column in row.keys() & ANSWERED.keys():
                for text, each in claims_of(row, column):
                    yield name, text, ANSWERED[column], each
    for text, names, claim in cases("answer"):
        yield PROMISES, text, names, answers_in(claim)[0]


def other_answers():
    for name, text, names, claim in claimed_answers():
        if not is_answered(claim, text, names):
            yield f"{name}: the reference parser answers otherwise: `{text}`: {claim}"


def other_mended_texts():
    for row in rows_of_tables("docs/GRAMMAR.md"):
        for text, claim in claims_of(row, "mended text") if "mended text" in row else ():
            mended = reference_parser.mended(text, reference_parser.Choice())
            if (f"`{mended}`" if mended else "none") != claim:
                yield f"docs/GRAMMAR.md: for `{text}` the reference parser has {mended}, not {claim}"


# The columns of MIGRATING that say what an error says to write, each with options
ADVISING = {"here": [], "the module `humantime` here": ["lowercase", "require_unit"]}


def other_advice():
    for row in rows_of_tables("docs/MIGRATING.md"):
        for column in row.keys() & ADVISING.keys():
            _, says, told = row[column].partition("the error says to write ")
            texts = re.findall("`(.*?)`", row.get("text", "")) if says else []
            advised = re.findall("`(.*?)`", told.partition(";")[0])
            if len(texts) != len(advised):
                yield f"docs/MIGRATING.md: not one advice for each text: {row[column]}"
            for text, wanted in zip(texts, advised):
                choice = reference_parser.Choice.named(ADVISING[column])
                if (mended := reference_parser.mended(text, choice)) != wanted:
                    yield f"docs/MIGRATING.md: for `{text}` the reference parser has {mended}"


PRINTED_IN = "printed in these units"


def claimed_printed():
    """What the tables say of printed durations: the document, the duration's text and nanoseconds,
    the units and the number of parts, the printed text, and how the duration is rounded.
    """
    printed = [unit.printed for unit in reference_parser.UNITS]

    def claim(name, length, names, parts, text, way="down"):
        units = tuple(unit for unit in reference_parser.UNITS if unit.printed in names)
        nanos = reference_parser.Choice().answer(length).value
        return name, length, nanos, units, parts, text, way

    for row in rows_of_tables("docs/GRAMMAR.md"):
        if PRINTED_IN not in row:
            continue
        (length,), names = [re.findall(r"`(.*?)`", row[key]) for key in ("duration", PRINTED_IN)]
        if row[PRINTED_IN].startswith("all"):
            names = [name for name in printed if name not in names]
        elif " to " in row[PRINTED_IN]:
            names = printed[printed.index(names[0]) : printed.index(names[1]) + 1]
        parts = len(printed) if row["parts"] == "all" else int(row["parts"])
        texts = {way: row[way] for way in reference_parser.ROUNDINGS if way in row}
        for way, text in (texts or {"down": row["text"]}).items():
            yield claim("docs/GRAMMAR.md", length, names, parts, text, way)
    for length, names, text in cases("printed"):
        given = dict(name.split("=") for name in names)
        units = given.get("units", ",".join(printed)).split(",")
        yield claim(PROMISES, length, units, int(given.get("parts", len(printed))), text)


def other_printed():
    for name, length, nanos, units, parts, claim, way in claimed_printed():
        rounded = reference_parser.round_to(nanos, units, parts, way)
        text = reference_parser.print_within(rounded, units, parts)
        if f"`{text}`" != re.match("`.*?`|$", claim)[0]:
            yield f"{name}: {length}, rounded {way}, prints as `{text}`, and not as {claim}"


def untested_examples():
    code = read("rust/tests/printers.rs")
    for row in rows_of_tables("docs/MIGRATING.md"):
        how = row["how to print it here"] if "printer" in row else ""
        if not how.startswith("function"):
            continue
        function = how.removeprefix("function ").strip("`")
        for wanted in (f"fn {function}(", *re.findall("`(.*?)`", row["prints"])):
            if f"\n{wanted}" not in code and f'"{wanted}"' not in code:
                yield f"docs/MIGRATING.md: rust/tests/printers.rs does not have {wanted}"


KINDS = {"number": "a number", "unit": "a unit", "operator": "an operator", "end": "the end"}
# Texts that end as the first column of GRAMMAR's table of kinds says, each with its options
ENDS = {
    "the start": ("", []),
    "a number": ("1", []),
    "a number, without a default unit": ("1", ["require_unit"]),
    "a unit": ("1m", []),
    "an operator": ("1+", []),
}


def other_kinds():
    rows = {row["after"]: row for row in rows_of_tables("docs/GRAMMAR.md") if "after" in row}
    for (after, (text, names)), no_calc in itertools.product(ENDS.items(), ([], ["no_calc"])):
        column = "can follow with `no_calc`" if no_calc else "can follow"
        expected = reference_parser.Choice.named(names + no_calc).answer(f"{text}-").expected
        wanted = ", ".join(words for kind, words in KINDS.items() if kind in expected)
        if no_calc and after == "an operator":
            wanted = "(no operators)"
        if rows.get(after, {}).get(column) != wanted:
            yield f"docs/GRAMMAR.md: the cell for {after}, {column}, should be: {wanted}"


# ---- What is proved

PROMISES = "docs/PROMISES.md"
LEADS_THERE = " says what is proved, what is tested, and what you trust."
OF_PROOFS = re.compile(r"\b(dis)?(prov(e[dns]?|ing)|prover|proofs?|verif\w+|guarantee\w*)\b", re.I)
LEADING_TO_PROMISES = (
    "c/README.md",
    HEADER,
    "js/README.md",
    "js/index.d.ts",
    "python/README.md",
    "python/src/duration_str/__init__.py",
    "rust/README.md",
    "rust/core/README.md",
    "rust/src/lib.rs",
    "shell/README.md",
    "web/page.html",
)
NOT_LEADING_TO_PROMISES = ("docs/GRAMMAR.md", "docs/MIGRATING.md", "docs/SPEED.md")


def plain(text):
    return re.sub(r"\[([^]]*)\]\([^)]*\)", r"\1", text).replace("`", "")


NAMES = "`([^`]+)`(?:, `[^`]+`)*"
# A case of a promise is a text, perhaps with options, or names tests, rows or a wrong body.
TEXT_CASE = re.compile(rf"`([^`]+)`(?: with ({NAMES}))?")
NAMED_CASE = re.compile(f"(?:test|rows?|wrong body) {NAMES}")


def cases(column):
    for row in rows_of_tables(PROMISES):
        case = TEXT_CASE.fullmatch(row.get("hardest case", ""))
        if case and column in row:
            yield case[1], re.findall("`([^`]+)`", case[2] or ""), row[column]


def wrong_promises():
    heads = [["promise", "shown by", "hardest case", each] for each in ("answer", "printed")]
    for line in section(PROMISES, "## What is proved").splitlines():
        if re.match(r"$|### |\|-", line):
            continue
        cells = cells_of(line)
        if cells in heads:
            continue
        if not line.startswith("| ") or len(cells) != 4 or not all(cells[2:]):
            yield f"{PROMISES}: is no promise with what shows it and a hardest case: {line}"
        elif len(list(sentences_of(cells[0]))) != bool(cells[1]):
            yield f"{PROMISES}: has not one sentence and what shows it: {line}"
        elif not TEXT_CASE.fullmatch(cells[2]) and not NAMED_CASE.fullmatch(cells[2]):
            yield f"{PROMISES}: has no text, test, row or wrong body: {cells[2]}"


def other_sentences_on_proofs():
    there = {plain(each) for each in sentences_of(read(PROMISES))}
    for sentence in sentences_of(section("README.md", "## What is proved")):
        if plain(sentence) not in there | {f"PROMISES{LEADS_THERE}"}:
            yield f"README.md: says what {PROMISES} doesn't: {sentence}"
    for name in (*LEADING_TO_PROMISES, *NOT_LEADING_TO_PROMISES):
        # Marks of comments and of a web page are no part of a sentence.
        text = re.sub(r"(?m)^ *(//[/!]?|\*|/\*+)( |$)", "", read(name).replace("<code>", "`"))
        text = re.sub(r"</?\w+[^>]*>", "", text.replace("</code>", "`"))
        said = [plain(each) for each in sentences_of(text) if OF_PROOFS.search(each)]
        wanted = f"{PROMISES} in the repository{LEADS_THERE}"
        if said.count(wanted) != (name in LEADING_TO_PROMISES):
            yield f"{name}: has not once the sentence: {wanted}"
        for sentence in said:
            if sentence != wanted:
                yield f"{name}: says something of its own about proofs: {sentence}"


def other_quotes():
    parts = ("src/*.rt", "specs/*.antt")
    names = tracked_files(*(f"crates/{each}/{part}" for each in LAYERS for part in parts))
    lines = "\n".join(map(read, names)).splitlines()
    known = {" ".join(re.sub("pub |const ", "", line).split()) for line in lines}
    quoted = section("crates/duration_str/CALLING.md", "## The main contracts")
    for block in re.findall(r"^```text\n(.*?)^```$", quoted, re.M | re.S):
        for line in filter(None, block.splitlines()):
            if " ".join(line.replace("Fault::", "").split()) not in known:
                yield f"crates/duration_str/CALLING.md: quotes what is in no source: {line}"


def wrong_names():
    sources = (
        f"{name} {(ROOT / name).read_text(encoding='utf-8', errors='replace')}"
        for name in tracked_files()
    )
    texts = (text for text in sources if not text.split()[0].endswith((".md", ".svg")))
    forms = (r"\w+", r"\w+(?:-\w+)+")
    words = {word for text in texts for form in forms for word in re.findall(form, text)}
    for name in set(tracked_files("*.md")) - ABOUT_OTHERS:
        for word in sorted(set(NAMED.findall(prose(name))) - words - FOREIGN):
            yield f"{name}: names what stands in no source: {word}"


# A definition that moves to another file still stands in a source, so `wrong_names` misses it.
def other_rules():
    page = section("docs/ARCHITECTURE.md", "## Where a rule is stated")
    for names, path in re.findall("((?:`[^`/]+`(?:, )?)+) in `([^`]+/[^`]+)`", page):
        places = [ROOT / path, *(ROOT / "crates" / each / path for each in LAYERS)]
        files = [file for place in places for file in (place, *place.rglob("*")) if file.is_file()]
        words = set(re.findall(r"\w+", " ".join(file.read_text("utf-8") for file in files)))
        for name in sorted(set(re.findall(r"\w+(?=`)", names)) - words):
            yield f"docs/ARCHITECTURE.md: {path} doesn't have {name}"


# ---- What the packages need


# Users choose by these versions, and nothing else notices a document that has another one.
def other_requirements():
    oldest = {
        "Rust": re.findall(r'^rust-version = "(.*)"', read("rust/Cargo.toml"), re.M),
        "Python": re.findall(r'^requires-python = ">= (.*)"', read("python/pyproject.toml"), re.M),
        "Node": re.findall(r'"node": ">=(.*)"', read("js/package.json")),
    }
    for name in tracked_files("*.md"):
        needed = re.findall(r"(Rust|Python|Node)\s+([\d.]+) or\s+later", read(name))
        for language, version in needed:
            if [version] != oldest[language]:
                yield f"{name}: says {language} {version} or later, and not {oldest[language]}"


# ---- Spelling


def misspelt():
    if not shutil.which("codespell"):
        print("repository: spelling skipped, codespell is missing (make setup)")
        return []
    files = tracked_files("*.md", "program/*.in", "c/*.in", "c/include/*.h")
    # Codespell takes a word of Rust, two macros of manual pages and German words for mistakes.
    words = ["codespell", "--ignore-words-list", "als,crate,fo,nd,oder,vor", *files]
    return subprocess.run(words, cwd=ROOT, capture_output=True, text=True).stdout.splitlines()


def problems():
    # Those of the last commit, if there is one, too: documents may still name a removed folder.
    words = ["git", "ls-tree", "-d", "--name-only", "HEAD"]
    listed = subprocess.run(words, cwd=ROOT, capture_output=True, text=True)
    folders = {*listed.stdout.split(), "proofs", "specs", "src"}
    folders |= {name.split("/")[0] for name in tracked_files("*/**")}
    for name in tracked_files("*.md"):
        yield from wrong_links(name)
        yield from wrong_paths(name, folders)
    for each in (
        wrong_promises,
        other_sentences_on_proofs,
        other_quotes,
        other_requirements,
        other_helps,
        other_lines,
        other_answers,
        other_mended_texts,
        other_advice,
        other_printed,
        other_kinds,
        untested_examples,
        wrong_names,
        other_rules,
        misspelt,
    ):
        yield from each()
