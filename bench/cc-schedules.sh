#!/usr/bin/env bash
# Checks `msan check --schedules` on twenty programs with threads (cc/tests/schedules), lowered by `msan-cc`: without a plant no schedule that is tried has a
# report, and these are all or there are more, as the program's comments say; with a planted race one is found, of that kind and at that place, and the
# schedule that is told repeats it, byte for byte. Four workers say the same as one.
#
# Usage: cc-schedules.sh [FILE]..., by default all of them. The status is 1 if anything is wrong. Takes the program by MSAN=, by default
# crates/msan/out/msan as `rt ci` builds it. Needs python3, clang and llvm of release 19, and `make -C cc`. Outside the gate.
source "$(dirname "$0")/frame.sh"

export MSAN=${MSAN:-$top/crates/msan/out/msan}
[ -x "$MSAN" ] || { echo "build it first: rt ci" >&2; exit 1; }
[ -x "$top/cc/msan-lower" ] || { echo "build it first: make -C cc" >&2; exit 1; }

cd "$top"
if [ $# -eq 0 ]; then set -- cc/tests/schedules/*.c; fi
status=0
python3 bench/cc_schedules.py "$work" "$@" || status=1
exit $status
