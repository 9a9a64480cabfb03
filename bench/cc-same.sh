#!/usr/bin/env bash
# That `msan-cc` changes nothing of what `msan` takes by hand: programs in C (examples, the rows of the library, those of bench/, and GENERATED ones of
# bench/random_c.py in its plain form) as a text of the manual's commands and as one of `msan-cc`. Both give the same output, status, end and up to 20 reports, with
# kind, part, bits, place in C and origins. Told: how many bytes the lowered texts have for one of the others, and which programs `msan` takes only lowered.
#
# Usage: cc-same.sh [GENERATED [FILE]...], by default 200 and all. The status is 1 if anything differs. Takes the program by MSAN=, by default crates/msan/out/msan
# as `rt ci` builds it. Needs python3, clang and llvm-link of release 19, and `make -C cc`. Outside the gate.
source "$(dirname "$0")/frame.sh"

export MSAN=${MSAN:-$top/crates/msan/out/msan}
[ -x "$MSAN" ] || { echo "build it first: rt ci" >&2; exit 1; }
cd "$top"
status=0
generated=${1:-200}
shift || true
python3 bench/cc_same.py "$work" "$generated" "$@" || status=1
exit $status
