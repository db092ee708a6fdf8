"""Builds the extension module with the library for C. The library is the archive that
DURATION_STR_LIB names, or otherwise one that cargo builds. The build runs in a temporary folder. In
a clone, the licences are copied beside this file if that folder can be written to."""

import atexit
import contextlib
import importlib.util
import os
import pathlib
import shutil
import subprocess
import sys
import sysconfig
import tempfile

from setuptools import Extension, setup
from setuptools.command.build_ext import build_ext
from setuptools.command.install import install
from setuptools.command.sdist import sdist

HERE = pathlib.Path(__file__).resolve().parent
CHECKOUT = HERE.parent
IS_CHECKOUT = (CHECKOUT / "crates/duration_str_c").is_dir()
CRATES = CHECKOUT if IS_CHECKOUT else HERE
INCLUDE = CHECKOUT / "c/include" if IS_CHECKOUT else HERE / "include"
SOURCES = HERE / "src/native"


def demand(is_there, what):
    if not is_there:
        raise SystemExit(f"to build duration-str, install {what}")


def copy_crates(folder):
    files = [
        "Cargo.toml",
        "c/Cargo.toml",
        "c/build.rs",
        "program/Cargo.toml",
        "rust/Cargo.toml",
        "rust/core/Cargo.toml",
    ]
    for pattern in [*files, "c/src/**/*", "program/src/**/*", "rust/core/src/**/*"]:
        for file in filter(pathlib.Path.is_file, CRATES.glob(pattern)):
            copy = pathlib.Path(folder, file.relative_to(CRATES))
            copy.parent.mkdir(parents=True, exist_ok=True)
            # Modes are not copied, since a copied folder that can't be written to could not be
            # deleted.
            shutil.copyfile(file, copy)


def by_cargo(room):
    """cargo builds a copy of the sources, since it writes beside them."""
    demand(
        shutil.which("cargo"),
        "Rust 1.85 or later, with cargo on the path; or name the library in DURATION_STR_LIB",
    )
    copy_crates(room / "crates")
    words = [
        "cargo",
        "build",
        "--quiet",
        "--release",
        "-p",
        "duration-str-c",
        "--manifest-path",
        room / "crates/Cargo.toml",
        "--target-dir",
        room / "target",
    ]
    demand(
        not subprocess.run(words).returncode,
        "Rust 1.85 or later: cargo could not build the library for C",
    )
    # If CARGO_BUILD_TARGET is set, cargo puts the archive one folder deeper.
    name = "duration_str.lib" if sys.platform == "win32" else "libduration_str.a"
    return next((room / "target").glob(f"**/release/{name}"))


def archive(room):
    named = os.environ.get("DURATION_STR_LIB")
    if named:
        demand(
            os.path.isfile(named), f"the library: DURATION_STR_LIB names {named}, which is no file"
        )
        return pathlib.Path(named)
    return by_cargo(room)


class Linked(build_ext):
    def build_extension(self, extension):
        header = pathlib.Path(sysconfig.get_path("include"), "Python.h")
        demand(header.exists(), f"Python's headers (Debian's python3-dev): {header} is missing")
        compiler = getattr(self.compiler, "compiler_so", [sys.executable])[0]
        demand(shutil.which(compiler), f"a C compiler: {compiler} is missing")
        file = archive(pathlib.Path(self.build_temp, "cargo").resolve()).resolve()
        extension.extra_objects = [str(file)]
        if sys.platform == "linux":
            extension.extra_link_args = ["-s", "-Wl,-z,now,--exclude-libs,ALL,--gc-sections"]
        super().build_extension(extension)


class Sources(sdist):
    """The sdist also has the sources of the library and the tests' files."""

    def make_release_tree(self, base_dir, files):
        super().make_release_tree(base_dir, files)
        copy_crates(base_dir)
        shutil.copyfile(CRATES / "rust/vectors.json", pathlib.Path(base_dir, "rust/vectors.json"))
        for header in SOURCES.glob("*.h"):
            shutil.copyfile(header, pathlib.Path(base_dir, header.relative_to(HERE)))
        for name in ["tests", "examples"]:
            # Later versions of setuptools have copied some of the tests already.
            shutil.copytree(
                HERE / name,
                pathlib.Path(base_dir, name),
                ignore=shutil.ignore_patterns("__pycache__"),
                dirs_exist_ok=True,
            )
        shutil.copytree(INCLUDE, pathlib.Path(base_dir, "include"))


# Debian's setuptools uses these attributes even if the interpreter is not Debian's.
install.install_layout = install.prefix_option = None
# Earlier versions of setuptools get the command bdist_wheel from the package wheel.
if {"bdist_wheel", "dist_info"} & set(sys.argv):
    demand(
        any(map(importlib.util.find_spec, ["wheel", "setuptools.command.bdist_wheel"])),
        "wheel, beside setuptools",
    )
# Up to CPython 3.14, interpreters without a global lock have no limited API.
limited = not sysconfig.get_config_var("Py_GIL_DISABLED")
if IS_CHECKOUT:
    for name in ["LICENSE", "NOTICE"]:
        with contextlib.suppress(OSError):
            shutil.copyfile(CHECKOUT / name, HERE / name)
room = tempfile.mkdtemp()
atexit.register(shutil.rmtree, room, True)
setup(
    cmdclass={"build_ext": Linked, "sdist": Sources},
    ext_modules=[
        Extension(
            "duration_str._native",
            sorted(str(file.relative_to(HERE)) for file in SOURCES.glob("*.c")),
            include_dirs=[INCLUDE],
            py_limited_api=limited,
        )
    ],
    license="Apache-2.0",
    options={
        "bdist_wheel": {"py_limited_api": "cp311" if limited else False},
        "build": {"build_base": room},
        "egg_info": {"egg_base": room},
    },
)
