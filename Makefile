# make                 builds the program, the library for C and, if its crates are installed, the
#                      command duration, and says where they are
# make program         builds only the program
# make library         builds only the library: an archive and a shared library, or a WebAssembly
#                      module, or for a machine without an operating system only an archive
# make duration        builds the command duration, if Debian's packages of the crates that it uses
#                      are installed
# make setup           installs what most tests need, on Debian, as root or by sudo without a
#                      password; with all=yes also the many packages that few tests need
# make prove           proves everything, by the Rattle toolchain's command rt, and writes what was
#                      proved into proved.txt
# make check           proves everything, if there is rt, and runs the tests, several at the same
#                      time; README says how long that takes
# make quick           runs the short checks, and names the longer ones that the changed files need;
#                      this takes a minute, or two if all packages have changed
# make format          lays out Rust, Python, C, Go and shell scripts, by the usual tool of each
#                      language
# make install         installs the programs, the library, its header, manual pages and completions
#                      below prefix=/usr/local, or into bindir=, libdir=, includedir=, mandir=,
#                      docdir= and datarootdir=, all below DESTDIR= if that is set
# make install-library installs only what belongs to the library for C
# make uninstall       removes what was installed, given the same variables
# make release         fills dist/, or dist=FOLDER, with the files of a release
# make page            writes out/duration_str.html, a page to try texts on
# make clean           removes what was built and proved here, except dist/
#
# cargo, from Rust 1.85 on, builds the programs and the library. It needs no network. For another
# machine, set target=TARGET to rustc's name of it, such as aarch64-unknown-linux-gnu. That also
# needs a linker, and Rust's library for the target: by `rustup target add TARGET`, or from Debian's
# package rust-web-src beside cargo-web 1.96 or later, or in Debian sid from rust-src. With
# static=yes the program needs no shared library. If there is rt but no cargo, rt builds the program
# for this machine.
SHELL := bash
.SHELLFLAGS := -euo pipefail -c
.ONESHELL:
.NOTPARALLEL:
.PHONY: all program library duration setup prove check quick format install \
    install-library uninstall release page clean help installable
unexport MAKEFLAGS CDPATH
MAKEFLAGS += --no-builtin-rules --no-print-directory

quoted = '$(subst ','\'',$(1))'
header := c/include/duration_str.h
version = $(shell tools/version)
soname = $(shell sed -n 's/.*-soname,\(libduration_str\.so\.[0-9]*\).*/\1/p' c/build.rs)

all: program library
	@tools/cargo-debian --missing $(crates) >/dev/null || $(MAKE) --silent duration

help:
	@sed -n '/^[^#]/q; s/^# \{0,1\}//p' Makefile

# ---- What is built

# ./durstr builds the program with the profile `quick`. Files that are installed or released are
# built with the profile `release`.
profile = release
host := $(or $(shell rustc -vV 2>/dev/null | sed -n 's/^host: //p'),\
    $(notdir $(firstword $(wildcard out/cargo/$(shell uname -m)-*))))
target = $(host)
built = out/cargo/$(target)/$(profile)
cargo = tools/cargo-for $(call quoted,$(target)) $(1) --quiet --profile $(profile) \
    --target-dir out/cargo
static =
comma := ,

# $(call serves,FILE,FOLDERS): succeeds if the file is up to date, and can't be built here: nothing
# can be written, or make installs without cargo, as it may under sudo
installing =
serves = { { [ ! -w . ] $(if $(installing),|| ! type -P cargo >/dev/null); } && [ -e $(1) ] && \
    [ -z "$$(find Cargo.toml $(2) rust/core -newer $(1) -print -quit)" ]; }

program:
	@program="$(built)/durstr"
	if $(call serves,"$$program",program); then
	    :
	elif type -P cargo >/dev/null; then
	    [ -x "$$program" ] || echo 'durstr: cargo builds it, in seconds' >&2
	    $(call cargo,std$(comma)panic_abort rustc) -p durstr --bin durstr -- \
	        $(if $(static),-C target-feature=+crt-static)
	elif type -P rt >/dev/null && [ '$(origin target)' = file ]; then
	    program=crates/durstr/out/durstr
	    [ -x $$program ] ||
	        echo 'durstr: there is no cargo, so rt proves and builds it, which takes minutes' >&2
	    said=$$(cd crates/durstr && rt run </dev/null 2>&1) || { tail <<<"$$said" >&2; exit 1; }
	else
	    echo 'durstr: needs cargo, with Rust 1.85 or later, or else the Rattle toolchain (see README.md)' >&2
	    exit 1
	fi
	echo $$program

# The archive that rustc writes also has helpers that nothing calls. So the archive is written again
# from rustc's object.
library:
	@archive="$(built)/libduration_str.a"
	if ! $(call serves,"$$archive",c); then
	    object="$(built)/duration_str.o"
	    $(call cargo,core rustc) -p duration-str-c \
	        $(if $(findstring -none,$(target)),--crate-type staticlib) -- \
	        $(if $(filter wasm%,$(target)),,--emit "obj=$$object")
	    [ ! -e "$$object" ] || { rm -f "$$archive" && ar rcs "$$archive" "$$object"; }
	fi
	echo $(built)

# cargo hashes the absolute path of a crate outside of the workspace, and so makes other bytes in
# each folder. So out/command is a workspace around the command and the crate for Rust. It has
# copies of both, since the gate refuses links. The Cargo.lock of an earlier build is removed, since
# Debian may have other versions of the crates by now.
command = out/cargo/$(host)/release/duration
crates = clap clap_complete clap_derive serde_json
commanded = shell/Cargo.toml shell/src rust/Cargo.toml rust/macros rust/src
duration:
	@if $(call serves,$(command),$(commanded)); then
	    echo $(command)
	    exit
	fi
	! missing=$$(tools/cargo-debian --missing $(crates)) || {
	    echo "duration: missing: $$missing (see shell/README.md)" >&2
	    exit 1
	}
	[ -x $(command) ] ||
	    echo 'duration: cargo builds it and the crates that it uses, in a minute or more' >&2
	mkdir -p out/command
	rm -rf out/command/{Cargo.lock,rust,shell}
	cp -a --parents rust/{Cargo.toml,core,macros,src} shell/{Cargo.toml,src} out/command
	{
	    printf '[workspace]\nmembers = ["shell"]\nexclude = ["rust"]\n'
	    sed -n '/^\[profile/,$$p' shell/Cargo.toml
	} >out/command/Cargo.toml
	tools/cargo-debian rustc --quiet --release --manifest-path out/command/shell/Cargo.toml \
	    --target $(host) --target-dir out/cargo \
	    -- $(if $(static),-C target-feature=+crt-static)
	echo $(command)

page:
	@type -P python3 >/dev/null || { echo 'page: needs Python 3' >&2; exit 1; }
	web/build

# ---- Installing, by the conventions of GNU

prefix = /usr/local
exec_prefix = $(prefix)
bindir = $(exec_prefix)/bin
libdir = $(exec_prefix)/lib
includedir = $(prefix)/include
datarootdir = $(prefix)/share
mandir = $(datarootdir)/man
docdir = $(datarootdir)/doc/duration_str
INSTALL = install
INSTALL_PROGRAM = $(INSTALL)
INSTALL_DATA = $(INSTALL) -m 644
# A DESTDIR that is the folder / itself, also as // or as a link to /, is the same as none.
ifeq ($(shell realpath $(call quoted,$(DESTDIR)) 2>/dev/null),/)
override DESTDIR :=
endif
export DESTDIR

open := (
calls = $(shell export LC_ALL=C; sed '/^static /d' $(header) | \
    grep -o '\<duration_str_[a-z_]*$(open)' | tr -d '$(open)' | sort -u)
cmake_files = $(addprefix cmake/duration_str/duration_str-config,.cmake -version.cmake)
completions = $(addprefix $(datarootdir)/,bash-completion/completions/duration zsh/site-functions/_duration \
    fish/vendor_completions.d/duration.fish)
installed = $(addprefix $(bindir)/,durstr duration) \
    $(addprefix $(mandir)/man1/,durstr.1 duration.1) $(completions) \
    $(includedir)/duration_str.h \
    $(addprefix $(libdir)/,libduration_str.a libduration_str.so $(soname)) \
    $(addprefix $(libdir)/,pkgconfig/duration_str.pc $(cmake_files)) \
    $(patsubst %,$(mandir)/man3/%.3,duration_str $(calls)) $(addprefix $(docdir)/,LICENSE NOTICE)

# `put_text` writes its input to a file first, since without /proc there is no /dev/stdin. $$said
# has the output of `install`, which names the folders that were made. Except below DESTDIR,
# $(folders) keeps them for uninstalling. $(owned) gives what root has built to the owner of the
# checkout, who could otherwise not build here again.
owned = [ -O . ] || [ ! -e out ] || [ "$$(id -u)" != 0 ] || chown -hR --reference=. out
put = said=$$(mktemp) && trap 'rm -f "$$said"*; $(owned)' EXIT; \
    put() { LC_ALL=C $(INSTALL_DATA) -v -D "$$1" "$$DESTDIR$$2" >>"$$said"; }; \
    put_text() { cat >"$$said.text" && put "$$said.text" "$$1"; }; \
    put_program() { LC_ALL=C $(INSTALL_PROGRAM) -v -D "$$1" "$$DESTDIR$$2" >>"$$said"; }
folders = $(docdir)/folders

description = LC_ALL=C awk $(1) -f c/manual-page.awk $(header)
page = sed -e 's/^@CALLS@$$/.Nm $(subst $(space), $(comma)\n.Nm ,$(calls))/' \
    -e '/^@SYNOPSIS@$$/{e $(call description,-v synopsis=1)' -e 'd}' -e '/^@HEADER@$$/{e $(call description)' -e 'd}' \
    -e '/^@GRAMMAR@$$/{e $(call description) | sed -n "/^A text is one term/,/^A year has/p"' \
    -e 'd}' -e 's/@VERSION@/$(version)/' $(1)

# $(call up,FOLDER,FROM): the way from an installed folder, for which FROM stands, up to the prefix,
# so that the prefix can be moved with all that is in it. If the folder is not below the prefix, the
# call gives the prefix
space := $() $()
up = $(if $(filter $(prefix)/%,$(1)),$(2)$(subst $(space),,$(patsubst %,/..,$(subst /, ,$(1:$(prefix)/%=%)))),$(prefix))

# $(call filled,FILE,VARIABLE,PREFIX): fills the template. In the folders, ${VARIABLE} is written in
# place of the prefix. $$pointer is the size of a pointer in bytes
filled = sed 's|@PREFIX@|$(3)|; s|@VERSION@|$(version)|; s|@LIBDIR@|$(call below,$(libdir),$(2))|; \
    s|@INCLUDEDIR@|$(call below,$(includedir),$(2))|; s|@POINTER@|'"$$pointer|" c/$(1).in
below = $(patsubst $(prefix)/%,$${$(2)}/%,$(1))
cmake_up = $(call up,$(libdir)/cmake/duration_str,$${CMAKE_CURRENT_LIST_DIR})

variables = prefix bindir libdir includedir datarootdir mandir docdir
# pkg-config takes some characters of a folder for something else, and quotes others so that
# compilers misread them.
installable:
	@export LC_ALL=C
	for folder in $(foreach name,$(variables),$(call quoted,$($(name)))); do
	    if [[ -n $$DESTDIR && $$folder/ == */../* ]]; then
	        echo "install: $$folder has .., which can lead out of DESTDIR" >&2
	        exit 1
	    fi
	    [[ $$folder =~ ^/[A-Za-z0-9/._+,@=~-]*$$ ]] && continue
	    echo "install: $$folder can't be told to pkg-config: a folder has to begin with / and may" \
	        'have ASCII letters, digits and . _ + , @ = ~ -' >&2
	    exit 1
	done
	case "$(target)" in wasm*)
	    echo 'install: WebAssembly modules are not installed' >&2
	    exit 1
	    ;;
	*-none | *-none-*)
	    echo 'install: needs an operating system; make library makes an archive for $(target)' >&2
	    exit 1
	    ;;
	*-apple-* | *-windows-*)
	    echo 'install: nothing is installed for $(target) (see docs/PROMISES.md)' >&2
	    exit 1
	    ;;
	esac

# BusyBox's sed and install lack what is needed.
install install-library: installing = yes
install install-library: installable
	@sed 'e :' </dev/null 2>/dev/null || { echo 'install: needs GNU sed' >&2; exit 1; }
	$(INSTALL) --help 2>/dev/null | grep -- --verbose >/dev/null || {
	    echo "install: needs GNU's command install, of coreutils" >&2
	    exit 1
	}
	$(put)
	programs=
	if [ $@ = install ]; then
	    program=$$($(MAKE) --silent program installing=yes target=$(target) static=$(static))
	    programs=durstr
	    put_program "$$program" $(bindir)/durstr
	    $(call page,program/durstr.1.in) | put_text $(mandir)/man1/durstr.1
	fi
	libraries=$$($(MAKE) --silent library installing=yes target=$(target))
	put $(header) $(includedir)/duration_str.h
	put "$$libraries/libduration_str.a" $(libdir)/libduration_str.a
	put "$$libraries/libduration_str.so" $(libdir)/$(soname)
	ln -sf $(soname) "$$DESTDIR$(libdir)/libduration_str.so"
	# The fifth byte of an ELF file is 1 if its pointers have four bytes, and 2 if they have eight.
	pointer=$$((4 * $$(od -An -tu1 -j4 -N1 "$$libraries/libduration_str.so")))
	$(call filled,duration_str.pc,prefix,$(call up,$(libdir)/pkgconfig,$${pcfiledir})) |
	    put_text $(libdir)/pkgconfig/duration_str.pc
	$(foreach file,$(cmake_files),$(call filled,$(notdir $(file)),duration_str_prefix,$(cmake_up)) | \
	    put_text $(libdir)/$(file);)
	# An earlier commit can have had calls with other names.
	rm -f "$$DESTDIR$(mandir)"/man3/duration_str_*.3
	$(call page,c/duration_str.3.in) | put_text $(mandir)/man3/duration_str.3
	for call in $(calls); do echo '.so man3/duration_str.3' | put_text "$(mandir)/man3/$$call.3"; done
	for file in LICENSE NOTICE; do put "$$file" "$(docdir)/$$file"; done
	missing=$$(tools/cargo-debian --missing $(crates)) || true
	! $(call serves,$(command),$(commanded)) || missing=
	type -P help2man >/dev/null || missing="help2man$${missing:+ $$missing}"
	[ "$(target)" = "$(host)" ] || missing='crates for $(target)'
	if [ -z "$$programs" ]; then
	    :
	elif [ -n "$$missing" ]; then
	    echo "install: the command duration is left out, missing: $$missing (see shell/README.md)"
	else
	    command=$$($(MAKE) --silent duration installing=yes static=$(static))
	    programs='durstr and duration'
	    put_program "$$command" $(bindir)/duration
	    for file in $(completions); do
	        case $$file in *.fish) shell=fish ;; */_*) shell=zsh ;; *) shell=bash ;; esac
	        "$$command" --completions $$shell | put_text "$$file"
	    done
	    help2man --no-info --include shell/duration.h2m \
	        --name 'read durations such as 1h 30m, and print them' "$$command" |
	        put_text $(mandir)/man1/duration.1
	fi
	[ -z "$$DESTDIR" ] || exit 0
	case :$$PATH: in *:$(bindir):*) where= ;; *) where=', which is not on the PATH' ;; esac
	[ -z "$$programs" ] || echo "install: $$programs: in $(bindir)$$where"
	echo 'install: the library for C: in $(libdir), with its header in $(includedir)' \
	    'and manual pages in $(mandir)'
	echo 'install: programs find the shared library once ldconfig knows $(libdir)'
	sed -n "s/^[^:]*: creating directory '\(.*\)'$$/\1/p" "$$said" |
	    xargs -r realpath -m --relative-to=$(prefix) >>$(folders)

# Folders with other files are kept.
uninstall: installable
	@made=$$(cat "$$DESTDIR$(folders)" 2>/dev/null || true)
	for file in $(installed) $(folders); do rm -fv "$$DESTDIR$$file"; done
	# The manual pages of older versions are removed too.
	rm -fv "$$DESTDIR$(mandir)"/man3/duration_str_*.3
	for library in "$$DESTDIR$(libdir)"/libduration_str.so.[0-9]*; do
	    [ ! -e "$$library" ] ||
	        echo "uninstall: left for programs that were linked with it: $$library"
	done
	# A folder that can't be removed stays, such as a mount point. Below DESTDIR nothing says which
	# folders were made.
	if [ -n "$$DESTDIR" ]; then
	    [ -d "$$DESTDIR" ] || exit 0
	    cd -P "$$DESTDIR"
	    # A name with a slash before it would be that of a folder outside of DESTDIR. With
	    # prefix=/ each name has two.
	    for folder in $$(realpath -ms --relative-to=/ $(sort $(dir $(installed)))); do
	        # A link to a folder stays, such as /lib, and so do the folders outside of DESTDIR to which
	        # a link leads.
	        while [ "$$folder" != . ] && [ -d "$$folder" ] && [ ! -L "$$folder" ] &&
	            [[ $$(realpath "$$folder") == "$$PWD"/* ]]; do
	            rmdir --ignore-fail-on-non-empty "$$folder" || break
	            folder=$$(dirname "$$folder")
	        done
	    done
	    exit 0
	fi
	made=$$(for folder in $$made; do realpath -m "$(prefix)/$$folder"; done | sort -ru)
	for folder in $(docdir) $(libdir)/cmake/duration_str $$made; do
	    [ ! -d "$$folder" ] || rmdir --ignore-fail-on-non-empty "$$folder" || :
	done

# ---- The rest

dist = dist
prove:
	@type -P rt >/dev/null || {
	    echo 'prove: needs the Rattle toolchain: its command rt is not on the path' >&2
	    exit 1
	}
	tools/proved --write

all =
setup:
	@tools/setup-debian $(if $(filter yes,$(all)),all)

check:
	@tests/check

quick:
	@tests/check --quick

format:
	@tools/format

release:
	@tools/release $(call quoted,$(dist))

clean:
	rm -rf out crates/*/out tests/fuzz/out target */target js/dist
	rm -rf python/build python/src/{*.egg-info,duration_str/*.so} */{LICENSE,NOTICE}
	find . -name __pycache__ -prune -exec rm -r {} +
	rm -f {js/module,rust,rust/{core,macros,examples/*,tests/*},shell}/Cargo.lock
