#!/usr/bin/env bash
# Checks the examples in C: that `msan check --where --calls` of each text, and of those of -O0, reports what the table of examples/README.md
# says, and that the texts are those that examples/make.sh makes.
#
# Usage: examples.sh [PROGRAM], by default crates/msan/out/msan as `rt ci` builds it. The status is 1 if anything is wrong.
# Needs python3, and clang and llvm-link of release 19, or of $RELEASE. Outside the gate.
source "$(dirname "$0")/frame.sh"

program=$(realpath -m "${1:-$top/crates/msan/out/msan}")
[ -x "$program" ] || { echo "build it first: rt ci" >&2; exit 1; }

cd "$top"
mkdir "$work/unoptimised"
bash examples/make.sh "$work"
bash examples/make.sh "$work/unoptimised" -O0
for text in "$work"/*.ll; do
    cmp "$text" "examples/$(basename "$text")" || { echo "make it again: bash examples/make.sh" >&2; exit 1; }
done
python3 bench/examples.py "$program" examples "$work/unoptimised"
