"""The files of the repository, as tools/facts and tests/repository read them."""
import pathlib
import subprocess

ROOT = pathlib.Path(__file__).resolve().parent.parent
# The library and the crates below it
LAYERS = (
    "duration_str_base",
    "duration_str_printing",
    "duration_str_reading",
    "duration_str_help",
    "duration_str_refusals",
    "duration_str_laws",
    "duration_str",
)
HEADER = "c/include/duration_str.h"


def read(name):
    return (ROOT / name).read_text(encoding="utf-8")


def layer_of(name):
    """The path of a file of the library, such as specs/Text.antt, in the crate that has it."""
    names = [f"crates/{each}/{name}" for each in LAYERS]
    return next(each for each in names if (ROOT / each).exists())


def tracked_files(*patterns):
    words = ["git", "ls-files", "--cached", "--others", "--exclude-standard", *patterns]
    listed = subprocess.run(words, cwd=ROOT, capture_output=True, text=True, check=True)
    return [name for name in listed.stdout.splitlines() if (ROOT / name).is_file()]


def section(name, heading):
    return read(name).split(f"\n{heading}\n")[1].split(f"\n{heading.split()[0]} ")[0]
