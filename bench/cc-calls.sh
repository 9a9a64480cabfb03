#!/usr/bin/env bash
# Checks `msan check --calls` on twelve programs with a use in a function that is called (cc/tests/calls), lowered by `msan-cc`: the calls that stand at the
# report are those of the program's comment, and those that clang's MemorySanitizer and valgrind's Memcheck print of the same use, by name and in order.
#
# Usage: cc-calls.sh [FILE]..., by default all of them. The status is 1 if anything differs. Takes the program by MSAN=, by default
# crates/msan/out/msan as `rt ci` builds it. Needs python3, valgrind, clang and llvm of release 19, and `make -C cc`. Outside the gate.
source "$(dirname "$0")/frame.sh"

export MSAN=${MSAN:-$top/crates/msan/out/msan}
[ -x "$MSAN" ] || { echo "build it first: rt ci" >&2; exit 1; }
[ -x "$top/cc/msan-lower" ] || { echo "build it first: make -C cc" >&2; exit 1; }

cd "$top"
if [ $# -eq 0 ]; then set -- cc/tests/calls/*.c; fi
status=0
python3 bench/cc_calls.py "$work" "$@" || status=1
exit $status
