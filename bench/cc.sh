#!/usr/bin/env bash
# Checks `msan-cc`, in this order:
#
# - what it is besides a lowering (cc_driver.py): `--check`, a compiler for a makefile, its options
# - what it refuses (cc/tests/errors): all errors at once, each with its place, status 1, nothing written
# - each construct that it lowers (cc/tests/constructs), the library (cc/tests/library), and 45 programs as courses, interview books and small tools have
#   them (cc/tests/programs): what clang -O0 prints natively is what the text prints, compiled, run and checked, and the check is clean; with a planted
#   use the first report is of that kind, at that place and from that root. Told beside: where clang -fsanitize=memory stops
#
# Usage: cc.sh [FOLDER OR FILE]... of cc/tests, by default all of it. The status is 1 if anything is wrong. Takes the program by MSAN=, by default
# crates/msan/out/msan as `rt ci` builds it, and JOBS=, by default 2. Needs python3, make, clang and llvm of release 19 with its runtimes (libclang-rt-19-dev)
# and `make -C cc`. Outside the gate.
source "$(dirname "$0")/frame.sh"

export MSAN=${MSAN:-$top/crates/msan/out/msan} TZ=UTC
[ -x "$MSAN" ] || { echo "build it first: rt ci" >&2; exit 1; }
[ -x "$top/cc/msan-lower" ] || { echo "build it first: make -C cc" >&2; exit 1; }

cd "$top"
failed=0
mkdir "$work/programs"
if [ $# -gt 0 ]; then
    files=()
    for one in "$@"; do
        if [ -d "$one" ]; then files+=("$one"/*.c); else files+=("$one"); fi
    done
    python3 bench/cc_tests.py "$work/programs" "${files[@]}" || failed=1
    exit $failed
fi
python3 bench/cc_driver.py "$work" | tee "$work/said" || failed=1
python3 bench/cc_errors.py "$work/programs" cc/tests/errors/*.c | tee -a "$work/said" || failed=1
for folder in cc/tests/*/; do
    case $folder in */errors/ | */real/ | */schedules/) continue ;; esac
    echo
    python3 bench/cc_tests.py "$work/programs" "$folder"*.c | tee -a "$work/said" || failed=1
done
awk '/ passed, .* failed$/ {passed += $1; failed += $3} END {print passed " passed, " failed " failed"}' "$work/said"
exit $failed
