#!/usr/bin/env bash
# That the tests of `msan-cc` refuse wrong lowerings: each of bench/cc_wrong.py, an edit of one file of cc/lower, is built and fails on the tests that it
# names, which pass without it. Usage: cc-wrong.sh [WORD OF A NAME]..., by default all. The status is 1 if one isn't refused. Takes the program by MSAN=, by default
# crates/msan/out/msan as `rt ci` builds it. Needs what bench/cc.sh needs, and a minute for each. Outside the gate.
source "$(dirname "$0")/frame.sh"

export MSAN=${MSAN:-$top/crates/msan/out/msan}
[ -x "$MSAN" ] || { echo "build it first: rt ci" >&2; exit 1; }
[ -x "$top/cc/msan-lower" ] || { echo "build it first: make -C cc" >&2; exit 1; }
cd "$top"
status=0
python3 bench/cc_wrong.py "$work" "$@" || status=1
exit $status
