"""The rows of the file `cases`, the texts that they read, and the programs that are measured."""
import functools
import os
import pathlib
import platform
import random
import re
import shutil
import subprocess
import sys
import tempfile
from typing import NamedTuple

HERE = pathlib.Path(__file__).resolve().parent
TOP = HERE.parent
PYTHON = "/usr/bin/python3"
# In one thread, without V8's quick compiler for WebAssembly, each run compiles the same calls.
NODE = ["node", "--predictable", "--single-threaded", "--hash-seed=1", "--no-liftoff"]
# Links of a virtual environment must not be in the clone, since the gate refuses them.
TEMPORARY = tempfile.TemporaryDirectory()
ROOM = pathlib.Path(TEMPORARY.name)
# These name the tools that a kind of program lacks.
MISSING = {
    "javascript": [TOP / "js/build", "--missing"],
    "bundle": [TOP / "js/build", "--missing"],
    "python": [TOP / "python/environment", "--missing"],
    "shell": [TOP / "tools/cargo-debian", "--missing", "clap", "clap_complete", "serde_json"],
}
# A check needs these versions, since others count other instructions.
COUNTED_WITH = {
    "javascript": (["node", "--version"], r"v20\.", "Node 20"),
    "python": ([PYTHON, "--version"], r"Python 3\.11\.", "Python 3.11"),
    "rust": (["rustc", "-vV"], r"(?s)rustc 1\.95\..*host: x86_64", "Rust 1.95 for x86-64"),
}
# The lines that name the crates in Cargo.toml
CRATES = {
    "duration_str": f'duration-str = {{ path = "{TOP}/rust", default-features = false }}\n',
    "humantime": 'humantime = "2"\n',
    "jiff": 'jiff = { version = ">=0.1, <0.3", default-features = false, features = ["std"] }\n',
}
PACKAGE = """[package]
name = "bench"
version = "0.1.0"
edition = "2024"
[profile.release]
strip = true
[dependencies]
"""


# ---- The rows


class Case(NamedTuple):
    label: str
    kind: str
    file: str
    package: str
    code: str
    options: tuple

    @property
    def is_ours(self):
        return not self.package

    @property
    def item(self):
        """What the code is called with: `text`, or the `length` that the text stands for."""
        return "length" if "length" in self.code else "text"


def read_cases():
    """The groups of each table. The first case of a group is this library's, and the others are
    compared with it."""
    tables = {}
    for block in (HERE / "cases").read_text(encoding="utf-8").split("\n\n")[1:]:
        head, *lines = block.splitlines()
        tables[head] = groups = []
        for line in lines:
            label, kind, file, package, code = (part.strip() for part in line.split("|", 4))
            kind, *options = kind.split()
            if line[0] != " ":
                groups.append([])
            groups[-1].append(Case(label, kind, file, package, code, tuple(options)))
    return tables


TABLES = read_cases()


def calls_of(kind, is_ours):
    """The cases whose calls are made by one program. Those of packages that aren't installed are
    left out."""
    cases = (case for groups in TABLES.values() for group in groups for case in group if case.file)
    return [
        case
        for case in cases
        if (case.kind, case.is_ours) == (kind, is_ours) and (is_ours or version(case.package))
    ]


# ---- Tools


def output(*words, **options):
    ran = subprocess.run(list(map(str, words)), cwd=HERE, capture_output=True, text=True, **options)
    if ran.returncode:
        sys.exit(f"bench: {' '.join(map(str, words))}\n{ran.stderr[-2000:]}")
    return ran.stdout


@functools.cache
def version(package):
    """The version of one of Debian's packages, or nothing if it is not installed."""
    words = ["dpkg-query", "--show", "--showformat", "${db:Status-Abbrev}${Version}", package]
    said = subprocess.run(words, capture_output=True, text=True).stdout if package else ""
    found = re.match(r"ii (?:\d+:)?(\d+(?:\.\d+)*)", said)
    return found[1] if found else ""


@functools.cache
def lacking(kind, package, is_checked):
    """What is missing to measure a case. A check also needs versions that count alike."""
    if package and not version(package):
        return package
    tools = ["cargo", "rustc", "valgrind", *(["g++"] if kind == "c" else [])]
    lacks = [tool for tool in tools if not shutil.which(tool)]
    if kind in MISSING:
        words = list(map(str, MISSING[kind]))
        said = subprocess.run(words, capture_output=True, text=True).stdout
        lacks += [word for word in said.split() if word not in lacks]
    words, wanted, name = COUNTED_WITH.get(kind, COUNTED_WITH["rust"])
    if is_checked and not lacks and not re.match(wanted, output(*words)):
        lacks.append(name)
    return " ".join(lacks)


# ---- The texts


@functools.cache
def texts(name):
    """The lines of a file, and how many terms each has, if the name has a number."""
    sort, _, terms = name.partition("-")
    if terms.isdigit():
        line = "1m" * int(terms) + ("-" if sort == "wrong" else "")
        return [line] * max(1, 1000 // int(terms)), int(terms)
    lines, chance = [], random.Random(19)
    for _ in range(1000):
        hours, minutes, seconds, shape = map(chance.randrange, (24, 60, 60, 7))
        terms = [f"{hours}h", f"{minutes}m", f"{seconds}s"]
        some = "".join(term for place, term in enumerate(terms) if (shape + 1) >> place & 1)
        wrong = (f"m{minutes}", f"{minutes}mints", f"{minutes}-{seconds}")[shape % 3]
        lines.append(
            {
                "texts": some,
                "chinese": some.translate(str.maketrans("hms", "时分秒")),
                "refused": f"{hours}h{wrong}",
                "one-term": terms[shape % 3],
                "numbers": f"{seconds}{'KMG'[shape % 3]}",
                "seconds": str(3600 * hours + 60 * minutes + seconds),
            }[name]
        )
    return lines, 1


@functools.cache
def file(name):
    path = ROOM / name
    path.write_text("".join(f"{line}\n" for line in texts(name)[0]), encoding="utf-8")
    return path


# ---- Programs. Those that make calls take ROUNDS MILLISECONDS [CALL FILE]..: for each pair, they
# make the call for each line of the file, in at least this many rounds, and until the time is over.
# They print the nanoseconds for a line, in the quickest round. Before and after the rounds they ask
# for the parent's process id, so that callgrind knows where the rounds begin and end.


@functools.cache
def build(what):
    return TOP / output("make", "--silent", "--directory", TOP, what).strip()


def crates_in(code):
    """The crates that the code names. This library's crate has a module `humantime`."""
    return [name for name in CRATES if re.search(rf"(?<!::)\b{name}::", code)]


def cargo(programs, flags="", **profile):
    """Builds programs in a release build, and returns their folder."""
    folder = pathlib.Path(tempfile.mkdtemp(dir=ROOM))
    (folder / "src/bin").mkdir(parents=True)
    crates = crates_in("\n".join(programs.values()))
    (folder / "Cargo.toml").write_text(PACKAGE + "".join(CRATES[name] for name in crates))
    for name, program in programs.items():
        (folder / f"src/bin/{name}.rs").write_text(program)
    is_debian = set(crates) - {"duration_str"}
    tool = [TOP / "tools/cargo-debian", "build"] if is_debian else ["cargo", "build", "--offline"]
    # A panic names its source's path, whose length would differ from clone to clone.
    flags += f" --remap-path-prefix={TOP}/rust=/usr/share/cargo/registry/duration-str"
    known = {f"CARGO_PROFILE_RELEASE_{name.upper()}": value for name, value in profile.items()}
    words = ["--release", "--quiet", "--manifest-path", folder / "Cargo.toml"]
    output(*tool, *words, env={**os.environ, "RUSTFLAGS": flags, **known})
    return folder / "target/release"


def with_calls(template, cases, arm):
    """The template with an arm for each call that the cases make."""
    arms = {arm.format(code=case.code, item=case.item): None for case in cases}
    return (HERE / template).read_text().replace("// CALLS", "\n".join(arms))


@functools.cache
def rust_program(is_ours):
    arm = 'r##"{code}"## => rounds.nanos(&{item}s, |{item}| {code}),'
    program = with_calls("calls.rs", calls_of("rust", is_ours), arm)
    is_intel = platform.machine() == "x86_64"
    flags = "-C llvm-args=-x86-branches-within-32B-boundaries" if is_intel else ""
    return cargo({"calls": program}, flags, lto="fat", codegen_units="1") / "calls"


@functools.cache
def c_program(is_ours):
    arm = 'if (call == R"~({code})~") rounds({item}s, [](auto &{item}) {{ {code}; }});'
    path = ROOM / ("ours.cc" if is_ours else "others.cc")
    path.write_text(with_calls("calls.cc", calls_of("c", is_ours), arm))
    library = build("library") / "libduration_str.a"
    words = ["-std=c++17", "-O2", f"-I{TOP}/c/include", path, library]
    if version("libabsl-dev"):
        words += output("pkg-config", "--libs", "absl_time", "absl_strings").split()
    output("g++", *words, "-o", path.with_suffix(""))
    return path.with_suffix("")


@functools.cache
def environment():
    known = {**os.environ, "DURATION_STR_LIB": str(build("library") / "libduration_str.a")}
    folder = ROOM / "venv"
    output(TOP / "python/environment", folder, PYTHON, "--system-site-packages", env=known)
    return folder / "bin/python"


@functools.cache
def build_javascript():
    output(TOP / "js/build")


def command(case):
    """The words of a case of the shell."""
    name, *words = case.code.split()
    return [build("duration") if name == "duration" else name, *words]


def words_of(kind, is_ours, is_counted):
    """The words that run the program of a kind, with the calls of this library or of others."""
    if kind == "python":
        return [environment(), "calls.py"]
    if kind == "javascript":
        build_javascript()
        return [*(NODE if is_counted else ["node"]), "calls.mjs"]
    return [{"rust": rust_program, "c": c_program}[kind](is_ours)]
