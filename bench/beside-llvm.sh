#!/usr/bin/env bash
# Compares `msan` with LLVM's tools, clang's MemorySanitizer and valgrind. Prints each difference that has no reason below, and counts.
#
# - Texts: the examples, the clean rows of library/rows linked with library/libc.ll, and modules of bench/random_module.py and of
#   `msan gen`. `lli` prints what `msan run` and `msan check` print, and ends with the low byte of their exit code; each verdict is clean;
#   `llvm-as` and `opt -passes=verify` take what `msan instrument` writes, which runs as the text does.
# - Programs: clang's -fsanitize=memory and valgrind report on the examples in C and the rows of library/rows where `msan check` does.
# - Forms: texts as `opt`, `llvm-dis` and `llvm-link` print them, each of which runs as before or is refused as docs/MANUAL.md says.
#
# Usage: beside-llvm.sh [PROGRAM [MODULES]], by default crates/msan/out/msan as `rt ci` builds it, and 2000. The status is 1 after a
# difference. Needs python3, valgrind, and clang, its runtime library and LLVM's tools of release 19, or of $RELEASE. Outside the gate.
source "$(dirname "$0")/frame.sh"

program=$(realpath -m "${1:-$top/crates/msan/out/msan}")
[ -x "$program" ] || { echo "build it first: rt ci" >&2; exit 1; }
release=${RELEASE:-19}

cd "$top"
"lli-$release" --version | sed -n 's/.*LLVM version/LLVM/p'
valgrind --version
status=0
for part in texts programs forms; do
    python3 "bench/beside_$part.py" "$program" "$release" "$work" "${2:-2000}" || status=1
done
exit "$status"
