#!/usr/bin/env bash
# Checks the functions of library/ against the rows of library/rows, whose comments say what each prints or reports:
#
# - `msan check` of each clean row, linked with library/libc.ll, prints that, and ends with `verdict: clean`
# - clang and the C library of this machine print the same
# - `msan check` of each poisoned row reports that use, with those stores and that root
# - each function of library/libc.ll has a clean row, and each row a function; and libc.ll is what library/make.sh makes
#
# Usage: library.sh [PROGRAM], by default crates/msan/out/msan as `rt ci` builds it. The status is 1 if anything is wrong.
# Needs python3, and clang and llvm-link of release 19, or of $RELEASE. Outside the gate.
source "$(dirname "$0")/frame.sh"

program=$(realpath -m "${1:-$top/crates/msan/out/msan}")
[ -x "$program" ] || { echo "build it first: rt ci" >&2; exit 1; }

cd "$top"
bash library/make.sh "$work/libc.ll"
cmp "$work/libc.ll" library/libc.ll || { echo "make it again: bash library/make.sh; bash examples/make.sh" >&2; exit 1; }
python3 bench/library.py "$program" "${RELEASE:-19}" "$work"
