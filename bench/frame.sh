# What the scripts that measure share; each of them sources this file. Not a script by itself.
#
# `$top` is this repository, and `$work` a folder that is there until the script ends.
set -euo pipefail

top=$(cd "$(dirname "${BASH_SOURCE[0]}")/.." && pwd)
work=$(mktemp -d)
trap 'rm -rf "$work"' EXIT

# Makes a repository in `$work`: copies of these crates, and a place for the source of a program that uses some of them.
# Its standard input is that source.
repository() { # program, the libraries that it uses, all crates
    local crate
    mkdir -p "$work/crates/$1/src"
    for crate in $3; do
        cp -r "$top/crates/$crate" "$work/crates/$crate"
        rm -rf "$work/crates/$crate/out" "$work/crates/$crate/must-fail"
        grep "^$crate:" "$top/crates.txt" >>"$work/crates.txt"
    done
    echo "$1: $2" >>"$work/crates.txt"
    cat >"$work/crates/$1/src/main.rt"
}

# Builds that program, whose path is then `$program`, and runs it once.
build() { # program, the arguments of the run
    cd "$work/crates/$1"
    rt run -- "${@:2}" >"$work/build.log" 2>&1 || { cat "$work/build.log" >&2; exit 1; }
    program=$work/crates/$1/out/$1
}

# How many instructions a command executes, by callgrind.
instructions() { # command
    { valgrind --tool=callgrind --callgrind-out-file=/dev/null "$@" 2>&1 >/dev/null || true; } |
        sed -n 's/.*Collected : \([0-9]*\).*/\1/p'
}
