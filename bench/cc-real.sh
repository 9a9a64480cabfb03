#!/usr/bin/env bash
# Libraries of others, unchanged, from Debian's source packages, each with a driver of cc/tests/real: what the driver prints natively (clang -O0) is
# what `msan run` and `msan check` of the text of `msan-cc` print, and the check is clean; of ten with one initialisation removed the first report is at
# the place of the use, which stands in bench/cc_real.py beside it. Told beside: what `msan` says of the text that the manual's commands write by hand. Last
# stands one of them by its own `configure` and makefile, with its own tests.
#
# Usage: cc-real.sh [LIBRARY]..., by default all. The status is 1 if anything is wrong. Takes the program by MSAN=, by default crates/msan/out/msan as
# `rt ci` builds it, and the folder for the sources by SOURCES=, by default out/cc-real, which it fills from Debian's mirror of this release by
# `apt-get source` with lists of its own; what can't be fetched is told and left out. Needs python3, clang and llvm-link of release 19 and `make -C cc`.
# Outside the gate.
source "$(dirname "$0")/frame.sh"

export MSAN=${MSAN:-$top/crates/msan/out/msan}
[ -x "$MSAN" ] || { echo "build it first: rt ci" >&2; exit 1; }
sources=$(realpath -m "${SOURCES:-$top/out/cc-real}")
mkdir -p "$sources"/lists/partial "$sources"/tars

suite=$(. /etc/os-release && echo "${VERSION_CODENAME:-stable}")
mirror=${MIRROR:-http://deb.debian.org/debian}
echo "deb-src $mirror $suite main" >"$sources/sources.list"
options=(-q -o "Dir::Etc::sourcelist=$sources/sources.list" -o Dir::Etc::sourceparts=- -o "Dir::State::lists=$sources/lists" -o "Dir::Cache=$sources"
    -o APT::Sandbox::User=root)

fetch() { # package
    [ -d "$sources/$1" ] && return
    mkdir -p "$sources/tars/$1"
    (cd "$sources/tars/$1" && apt-get "${options[@]}" source --download-only --tar-only --only-source "$1") >>"$sources/log" 2>&1 || true # one of several tars may be gone
    local tar
    tar=$(find "$sources/tars/$1" -name '*.orig.tar.*' ! -name '*.asc' ! -name '*.FAILED' | head -1)
    [ -n "$tar" ] || return 1
    mkdir "$sources/$1.new"
    tar xf "$tar" -C "$sources/$1.new" --strip-components 1 && mv "$sources/$1.new" "$sources/$1"
}

update() {
    [ -e "$sources/updated" ] || { apt-get "${options[@]}" update --error-on=any >"$sources/log" 2>&1 && touch "$sources/updated"; }
}

cd "$top"
if ! update; then
    echo "no list of sources from $mirror ($sources/log): is there a network?" >&2
    [ -n "$(find "$sources" -mindepth 1 -maxdepth 1 -type d ! -name lists ! -name tars ! -name archives)" ] || exit 1
fi
for package in $(python3 bench/cc_real.py --packages "$@"); do
    fetch "$package" || echo "not fetched: $package" >&2
done
python3 bench/cc_real.py "$sources" "$work" "$@"
