"""The figures of the rows. Each function that stands in COLUMNS measures cases, and returns their
figures."""
import functools
import gzip
import os
import pathlib
import re
import resource
import subprocess
import sys
import tempfile
from concurrent.futures import ThreadPoolExecutor

import programs
from programs import HERE, NODE, ROOM, TOP, build, calls_of, cargo, command, file, output, texts

# In fewer rounds, V8's garbage collector would count for a tenth of some call in one run, and for
# nothing in another.
LEAST_ROUNDS = 10
PASSES, MILLISECONDS = 3, 100
PROGRAM = """#[allow(dead_code)]
fn show<E: std::fmt::Display>(answer: Result<std::time::Duration, E>) {
    match answer {
        Ok(duration) => println!("{}", duration.as_secs()),
        Err(error) => println!("{error}"),
    }
}

fn main() {
    let text = std::env::args().nth(1).unwrap();
    #[allow(unused)]
    let length = std::time::Duration::from_secs(text.len() as u64);
    %s
}
"""
IN_C = """#include <duration_str.h>
#include <stdio.h>
int main(int count, char **words)
{
    uint64_t nanos = 0;
    return printf("%%d %%d", (int)(%s), (int)nanos);
}
"""


# ---- Instructions


def callgrind(*words, **options):
    # Hashes of Python's texts would differ from run to run.
    given = {**os.environ, "PYTHONHASHSEED": "0"}
    words = ["valgrind", "--tool=callgrind", *map(str, words)]
    ran = subprocess.run(words, cwd=HERE, env=given, capture_output=True, text=True, **options)
    if ran.returncode:
        sys.exit(f"bench: {' '.join(words)}\n{ran.stderr[-2000:]}")
    return ran.stderr


@functools.cache
def collected(*words, **options):
    said = callgrind("--callgrind-out-file=/dev/null", *words, **options)
    return int(re.search(r"Collected *: *(\d+)", said)[1])


def is_counted(case):
    """Returns whether callgrind counts a case. It would take minutes to count pandas' import, or
    the stacks that V8 makes for errors."""
    is_stack = (case.kind, case.file) == ("javascript", "refused")
    return not is_stack and "series" not in case.code


@functools.cache
def counts_of(kind, is_ours):
    """The instructions of all calls of a program. Some programs start slowly in callgrind, so there
    is one run."""
    cases = list(filter(is_counted, calls_of(kind, is_ours)))
    given = [word for case in cases for word in (case.code, file(case.file))]
    mark = "uv_os_getppid" if kind == "javascript" else "getppid"
    counts = {}
    with tempfile.TemporaryDirectory() as room:
        words = [f"--dump-before={mark}", f"--callgrind-out-file={room}/out"]
        words += programs.words_of(kind, is_ours, True)
        callgrind(*words, LEAST_ROUNDS, 0, *given)
        for place, case in enumerate(cases):
            # Every second file has the instructions between the two marks of a call.
            said = pathlib.Path(room, f"out.{2 * place + 2}").read_text()
            total = int(re.search(r"^totals: (\d+)", said, re.M)[1])
            lines, terms = texts(case.file)
            counts[case] = round(total / (LEAST_ROUNDS * len(lines) * terms))
    return counts


def for_a_line(case):
    """The instructions of a command for one more line."""
    few, many = (lines_given(case, times) for times in (1, 6))
    more = collected(*command(case), input=many) - collected(*command(case), input=few)
    return round(more / 5 / few.count("\n"))


def instructions(cases):
    """The instructions of each case of this library, and of other libraries in Rust and C. Those of
    others take minutes to count."""
    kinds = dict.fromkeys((case.kind, case.is_ours) for case in cases if case.kind != "shell")
    kinds = [(kind, is_ours) for kind, is_ours in kinds if is_ours or kind in ("rust", "c")]
    build("library")
    found = {case: for_a_line(case) for case in cases if case.kind == "shell"}
    with ThreadPoolExecutor(2) as pool:
        for counts in pool.map(lambda kind: counts_of(*kind), kinds):
            found |= counts
    return {case: found[case] for case in cases if case in found}


def starts(cases):
    """Millions of instructions beyond those of a program that does nothing."""
    counts = {}
    for name, folder in ("duration-str", TOP / "js"), ("ms", "/usr/share/nodejs/ms"):
        link = ROOM / "node_modules" / name
        link.parent.mkdir(exist_ok=True)
        link.unlink(missing_ok=True)
        link.symlink_to(folder)
    for place, case in enumerate(cases):
        if case.kind == "javascript":
            both = ROOM / "empty.mjs", ROOM / f"{place}.mjs"
            for path, code in zip(both, ("", case.code)):
                path.write_text(code)
            programs.build_javascript()
            both = [(*NODE, path) for path in both]
        elif case.kind == "python":
            both = [(programs.environment(), "-c", code) for code in ("pass", case.code)]
        else:
            both = ["true"], command(case)
        without, whole = (collected(*words) for words in both)
        counts[case] = f"{(whole - without) / 10**6:.2f}"
    return counts


# ---- Times


def lines_given(case, times):
    return "\n".join(texts(case.file)[0] * times) + "\n"


def seconds_of(call):
    """The processor's seconds of the programs that the call runs."""
    before = resource.getrusage(resource.RUSAGE_CHILDREN)
    call()
    after = resource.getrusage(resource.RUSAGE_CHILDREN)
    return after.ru_utime + after.ru_stime - before.ru_utime - before.ru_stime


def nanos(case):
    if case.kind == "shell":
        lines, words = lines_given(case, 300), command(case)
        seconds = seconds_of(lambda: output(*words, input=lines))
        return seconds * 1e9 / lines.count("\n")
    words = programs.words_of(case.kind, case.is_ours, False)
    said = output(*words, LEAST_ROUNDS, MILLISECONDS, case.code, file(case.file))
    return float(said) / texts(case.file)[1]


def nanoseconds(cases):
    """The least of several passes, in which the sides of each comparison take turns."""
    passes = [{case: nanos(case) for case in cases} for _ in range(PASSES)]
    least = {case: min(known[case] for known in passes) for case in cases}
    return {case: f"{known:.{0 if known >= 100 else 1}f}" for case, known in least.items()}


def build_seconds(cases):
    """The least of four builds, which take turns, beyond those of a program without a library."""
    codes = {case: case.code for case in cases} | {None: empty("")}
    passes = [
        {case: seconds_of(lambda: cargo({"p": PROGRAM % code})) for case, code in codes.items()}
        for _ in range(4)
    ]
    least = {case: min(known[case] for known in passes) for case in codes}
    return {case: f"{least[case] - least[None]:.2f}" for case in cases}


# ---- Sizes


def size(path):
    return sum(map(int, output("size", path).splitlines()[1].split()[:2]))


def empty(code):
    """A program that has what the code needs, and neither reads nor prints it."""
    return 'println!("{}", length.as_nanos());' if "length" in code else 'println!("{text}");'


def rust_sizes(codes):
    """Bytes of code and data, in a plain release build."""
    lines = list(dict.fromkeys(line for code in codes for line in (code, empty(code))))
    folder = cargo({f"p{place}": PROGRAM % line for place, line in enumerate(lines)})
    of = {line: size(folder / f"p{place}") for place, line in enumerate(lines)}
    return {code: of[code] - of[empty(code)] for code in codes}


def c_size(case):
    path, found = ROOM / "sized.c", []
    for code, words in (("0", []), (case.code, [build("library") / "libduration_str.a"])):
        path.write_text(IN_C % code)
        words = ["-O2", "-s", f"-I{TOP}/c/include", *case.options, path, *words]
        output("cc", *words, "-o", path.with_suffix(""))
        found.append(size(path.with_suffix("")))
    return found[1] - found[0]


def bundle_size(case):
    programs.build_javascript()
    program = f'{case.code}; console.log(call("1h"));'
    said = output("esbuild", "--bundle", "--minify", "--format=esm", input=program)
    return len(gzip.compress(said.encode()))


def sizes(cases):
    codes = [case.code for case in cases if case.kind == "crate"]
    of_rust = rust_sizes(codes) if codes else {}
    others = {"archive": c_size, "bundle": bundle_size}
    return {
        case: of_rust[case.code] if case.kind == "crate" else others[case.kind](case)
        for case in cases
    }


# The columns of each table, and those of the tables that aren't named
COLUMNS = {
    "starting": {"millions of instructions": starts},
    "what a program adds": {"bytes": sizes},
    "compiling": {"seconds": build_seconds},
}
CALLED = {"nanoseconds": nanoseconds, "instructions": instructions}
# The machine's load doesn't change these.
CHECKED = (instructions, starts, sizes)
