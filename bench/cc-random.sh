#!/usr/bin/env bash
# Random C programs: what they print natively (clang -O0 -fwrapv) is what `msan run` and `msan check` print of the text of `msan-cc`, and the check is clean;
# and with one initialiser of a local variable taken away, the check hides no use. Half are csmith's (Debian's, without floats), half of bench/random_c.py,
# which has what csmith lacks. What bench/cc_random.py says at its head is told apart: programs that are undefined in C, over 64 bits or over a limit.
#
# Usage: cc-random.sh [COUNT [FIRST [RESULTS]]]: COUNT seeds (by default 20) from FIRST (by default 1), four programs each; the file RESULTS keeps a line for
# each program, so that a campaign can be stopped and goes on. A program that failed stays in RESULTS.kept. The status is 1 if anything failed. Takes the
# program by MSAN=, by default crates/msan/out/msan as `rt ci` builds it, JOBS=, by default 2, and KINDS=. Needs python3, valgrind, csmith, libcsmith-dev, clang
# of release 19 with its runtimes, and `make -C cc`. 500 seeds take some three hours on one processor. Outside the gate.
source "$(dirname "$0")/frame.sh"

export MSAN=${MSAN:-$top/crates/msan/out/msan}
[ -x "$MSAN" ] || { echo "build it first: rt ci" >&2; exit 1; }
results=$(realpath -m "${3:-$work/results}")
cd "$top"
status=0
python3 bench/cc_random.py "$results" "${2:-1}" "${1:-20}" ${KINDS:-csmith own csmith-deleted own-deleted} || status=1
exit $status
