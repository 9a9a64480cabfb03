#!/usr/bin/env bash
# Makes libc.ll from the C files of this folder. Needs clang and llvm-link of release 19, or of $RELEASE.
#
# Usage: make.sh [FILE], by default libc.ll in this folder.
set -euo pipefail

result=$(realpath -m "${1:-$(dirname "$0")/libc.ll}")
release=${RELEASE:-19}
work=$(mktemp -d)
trap 'rm -rf "$work"' EXIT
cd "$(dirname "$0")/.."

texts=()
for source in library/*.c; do
    text=$work/$(basename "$source" .c).ll
    # -fno-builtin: a loop of `strlen` isn't turned into a call of `strlen`; -fwrapv: sums without a flag that may trap.
    "clang-$release" -O0 -g -fwrapv -fno-builtin -fno-pie -fno-discard-value-names -fdebug-compilation-dir=. -Wall -Wextra -Werror \
        -S -emit-llvm "$source" -o "$text"
    texts+=("$text")
done
"llvm-link-$release" -S "${texts[@]}" -o "$result"
