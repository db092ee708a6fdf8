# shellcheck shell=bash disable=SC2034 # the scripts read what is set here
#
# The functions that the checks in shell share. `. tests/steps.sh NAME` sets $room, a temporary
# folder that is removed when the script ends, and $status, which is 1 once a step has failed.
steps=$1
status=0
rows=0
room=$(mktemp -d)
log=$room/log
clears() { chmod -R u+w "$room" && rm -rf "$room"; }
trap clears EXIT
# Incremental builds and debug symbols would only take time here.
export CARGO_INCREMENTAL=0 CARGO_PROFILE_DEV_DEBUG=0

# usage WORDS: ends the script, since it takes no other words than these
usage() {
    echo "usage: $steps/check $1" >&2
    exit 2
}

# runs WHAT WORDS..: runs the words as a step, whose output is in $log
runs() {
    local started=$SECONDS
    if "${@:2}" >"$log" 2>&1 </dev/null; then
        echo "$steps: $1: as expected ($((SECONDS - started)) s)"
    else
        tail -n 40 "$log"
        echo "$steps: $1: FAILED"
        status=1
        return 1
    fi
}

# quietly WORDS..: runs the words, and says something only if they fail
quietly() {
    local said
    said=$(runs "$*" "$@") || {
        echo "$said"
        status=1
        return 1
    }
}

# same WHAT WANTED GOT: returns whether both texts are the same. If not, it shows the difference
same() {
    rows=$((rows + 1))
    [ "$2" = "$3" ] && return
    echo "$steps: $1: $(diff <(echo "$2") <(echo "$3"))"
    status=1
    return 1
}

# skips WHAT WHY..: says that WHAT is skipped, or the whole script if WHAT is empty, and returns 1
skips() {
    echo "$steps: ${1:+$1 }skipped, ${*:2}"
    return 1
}

brings() {
    case ${1##*/} in
        make) echo tools/setup-debian ;;
        ar | cargo | cc | esbuild | gcc | git | help2man | man | nm) echo make setup ;;
        node | pkg-config | python3 | readelf | wasm-opt) echo make setup ;;
        *) echo make setup all=yes ;;
    esac
}

# has WHAT TOOL..: returns whether the commands are there. If one is missing, WHAT is skipped
has() {
    local tool
    for tool in "${@:2}"; do
        command -v "$tool" >/dev/null || skips "$1" "$tool is missing ($(brings "$tool"))" || return
    done
}

# finds WHAT COMMAND WORDS..: returns whether `COMMAND --missing WORDS..` names nothing
finds() {
    local missing
    ! missing=$("$2" --missing "${@:3}") || skips "$1" "missing: ${missing% } (make setup)"
}

# can WHAT NEED WORDS..: returns whether the words succeed. If they fail, NEED says what is missing
can() { "${@:3}" >/dev/null 2>&1 || skips "$1" "missing: $2"; }

# lints WHAT WORDS..: runs these words, which run clippy, as a step. The step is skipped if clippy
# is missing, or if it is another compiler's: then it can't use the crates that rustc has compiled
lints() {
    can "$1" 'clippy (make setup all=yes; or rustup component add clippy)' cargo clippy --version ||
        return
    if ! "${@:2}" >"$log" 2>&1 </dev/null && grep -q 'error\[E0514\]' "$log"; then
        skips "$1" "$(cargo clippy --version) is not that of $("${RUSTC-rustc}" --version)"
        return
    fi
    runs "$@"
}

# is_rust WHAT MINOR: returns whether rustc is of Rust 1.MINOR or later. If not, WHAT is skipped
is_rust() {
    can "$1" "Rust 1.$2 or later" awk -F '[ .]' "{ exit \$2 == 1 && \$3 < $2 }" \
        <<<"$(rustc --version)"
}

# copies FOLDER: copies the files into the folder as they are here, except .git and folders such as
# out. If root copies the files of another user, the copy is root's, since git refuses a clone of
# another user
copies() {
    mkdir "$1" && tar -c --exclude={.git,dist,out,target,__pycache__} . |
        tar -x --no-same-owner -C "$1"
}

# base: prints the commit with which the files here are compared: the last one that is also on the
# upstream branch, or the one before the last if no branch is known
base() {
    git merge-base HEAD '@{upstream}' 2>/dev/null || git merge-base HEAD origin/HEAD 2>/dev/null ||
        git rev-parse --verify --quiet HEAD~ || git rev-parse --verify --quiet HEAD
}

# path_without NAME..: prints the path without these commands
path_without() {
    local folder made path=
    while read -r -d : folder; do
        if [ -n "$(ls -d "${@/#/$folder/}" 2>/dev/null)" ]; then
            made=$(mktemp -d -p "$room")
            ln -s -t "$made" "$folder"/* && rm -f "${@/#/$made/}"
            folder=$made
        fi
        path+=$folder:
    done <<<"$PATH:"
    echo "${path%:}"
}

# newest_python: prints the interpreter of the newest Python that is there, if it is newer than
# python3. pyenv's shims on the path run only the chosen ones, so its folders are searched too
newest_python() {
    local python pyenv=${PYENV_ROOT:-$HOME/.pyenv}
    for python in python3{,.1{2..9}} "$pyenv"/versions/3.1[2-9].*/bin/python; do
        "$python" -c 'import pip, sys, venv
print(sys.version_info[1], sys.argv[1])' "$python" 2>/dev/null
    done | sort --stable --reverse --numeric-sort --key 1,1 | sed -n '1s/^[0-9]* //p' |
        grep -vx python3
}

calls() (
    export LC_ALL=C
    sed '/^static /d' "$1" | grep -o '\<duration_str_[a-z_]*(' | tr -d '(' | sort -u
)
exports() { nm -D --defined-only "$1" | awk '{print $3}' | sort; }

# writeless FOLDER WORDS..: runs the words so that they can't write in the folder, even if root runs
# them
writeless() {
    local words=("${@:2}") ended
    [ "$(id -u)" != 0 ] ||
        words=(setpriv --bounding-set=-dac_override --inh-caps=-dac_override "${words[@]}")
    chmod -R a-w "$1"
    "${words[@]}"
    ended=$?
    chmod -R u+w "$1"
    return "$ended"
}
