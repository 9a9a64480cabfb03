#!/usr/bin/env bash
# Makes the texts of the examples in C, with the commands of docs/MANUAL.md. Needs clang and llvm-link of release 19, or of $RELEASE.
#
# Usage: make.sh [FOLDER [FLAG..]], by default this folder and the manual's flags, those of optimisation.
set -euo pipefail

folder=$(realpath -m "${1:-$(dirname "$0")}")
flags=("${@:2}")
[ "${#flags[@]}" -gt 0 ] || flags=(-O1 -Xclang -disable-llvm-passes)
release=${RELEASE:-19}
work=$(mktemp -d)
trap 'rm -rf "$work"' EXIT
cd "$(dirname "$0")"

for source in *.c; do
    "clang-$release" "${flags[@]}" -g -U__OPTIMIZE__ -fwrapv -fno-discard-value-names -fno-pie -fdebug-compilation-dir=. \
        -S -emit-llvm "$source" -o "$work/${source%.c}.ll"
done
link=("llvm-link-$release" -S)
"${link[@]}" "$work"/total{,_read,_sum}.ll -o "$work/linked"
rm "$work"/total_*.ll
mv "$work/linked" "$work/total.ll"
"${link[@]}" --only-needed "$work/names.ll" ../library/libc.ll -o "$work/linked"
mv "$work/linked" "$work/names.ll"
cp "$work"/*.ll "$folder"
