#!/usr/bin/env bash
# Runs calls of LLVM's functions of whole words, and constant addresses within one another, by `msan run`, by `msan check`, by `run` of
# what `instrument` wrote, and by LLVM's interpreter; output and exit status must be the same. The texts are bench/intrinsics.c and
# bench/addresses.c as clang writes them at -O0, at -O1 without its passes, and at -O1; and one with each of the 67 names, as it is and
# at -O1.
#
# Usage: intrinsics.sh [PROGRAM], by default crates/msan/out/msan as `rt ci` builds it. The status is 1 if anything is wrong.
# Needs python3, and clang and lli of release 19, or of $RELEASE. Outside the gate.
source "$(dirname "$0")/frame.sh"

program=$(realpath -m "${1:-$top/crates/msan/out/msan}")
[ -x "$program" ] || { echo "build it first: rt ci" >&2; exit 1; }
release=${RELEASE:-19}

compare() { # name, the text
    local status=0 command text end
    "lli-$release" "$2" >"$work/wanted" || status=$?
    "$program" instrument "$2" >"$work/inserted.ll"
    for command in run check inserted; do
        text=$2
        [ "$command" != inserted ] || text=$work/inserted.ll
        "$program" "${command/inserted/run}" "$text" >"$work/got" 2>"$work/said" || true
        end=$(sed -n 's/^end: exit //p' "$work/said")
        cmp "$work/wanted" "$work/got" && [ "$((${end:-999} % 256))" = "$status" ] && grep -qx 'reports: 0' "$work/said" ||
            { echo "$1, $command:" >&2; cat "$work/said" >&2; exit 1; }
    done
    echo "$1: $(sed -n 's/.* call [^@]*@\(llvm\.[a-z0-9.]*\).*/\1/p' "$2" | sort -u | wc -l) names," \
        "$(grep -c 'getelementptr.*getelementptr' "$2" || true) addresses within others, $(wc -w <"$work/wanted") words and exit $status"
}

python3 - >"$work/names.ll" <<'PYTHON'
OPERANDS = {"ctpop": "%a", "bswap": "%a", "bitreverse": "%a", "ctlz": "%a, i1 false", "cttz": "%a, i1 false", "abs": "%a, i1 false",
            "fshl": "%a, %b, %c", "fshr": "%a, %b, %c"}
NAMES = [*OPERANDS, "smax", "smin", "umax", "umin", "uadd.sat", "usub.sat", "sadd.sat", "ssub.sat", "expect"]
WORDS = [0, 5, -3, 0x7f807f807f807f80, -0x7f807f807f807f81, 8, 0x123456789abcdef0]
calls = []
for name in NAMES:
    for width in 8, 16, 32, 64:
        if (name, width) == ("bswap", 8):
            continue
        operands = OPERANDS.get(name, "%a, %b").replace("%", f"i{width} %")
        parts = "".join(f"  %{p} = {f'trunc i64 %{q} to i{width}' if width < 64 else f'add i64 %{q}, 0'}\n" for p, q in zip("abc", "xyz"))
        result = f"zext i{width} %r to i64" if width < 64 else "add i64 %r, 0"
        print(f"define void @{name}.{width}(i64 %x, i64 %y, i64 %z) {{\n{parts}  %r = call i{width} @llvm.{name}.i{width}({operands})\n"
              f"  %s = {result}\n  %n = call i32 (ptr, ...) @printf(ptr @f, i64 %s)\n  ret void\n}}")
        types = ", ".join(operand.split()[0] for operand in operands.split(", "))
        print(f"declare i{width} @llvm.{name}.i{width}({types})")
        calls.append(f"  call void @{name}.{width}(i64 %x, i64 %y, i64 %z)\n")
print(f"define void @all(i64 %x, i64 %y, i64 %z) {{\n{''.join(calls)}  ret void\n}}")
loads = [f"  %p{k} = getelementptr i64, ptr @w, i64 {k}\n  %w{k} = load i64, ptr %p{k}\n" for k in range(len(WORDS))]
uses = [f"  call void @all(i64 %w{k}, i64 %w{k + 1}, i64 %w{k + 2})\n" for k in range(len(WORDS) - 2)]
print(f"define i32 @main() {{\n{''.join(loads + uses)}  ret i32 3\n}}\ndeclare i32 @printf(ptr, ...)")
print('@f = constant [5 x i8] c"%lx\\0A\\00"')
print(f"@w = global [{len(WORDS)} x i64] [{', '.join(f'i64 {word}' for word in WORDS)}]")
PYTHON
compare 'each name' "$work/names.ll"
"clang-$release" -O1 -S -emit-llvm -x ir -Wno-override-module -o "$work/names-O1.ll" "$work/names.ll"
compare 'each name, -O1' "$work/names-O1.ll"
for source in intrinsics addresses; do
    for flags in -O0 '-O1 -Xclang -disable-llvm-passes' -O1; do
        # shellcheck disable=SC2086
        "clang-$release" $flags -fno-pie -S -emit-llvm -o "$work/$source.ll" "$top/bench/$source.c"
        compare "$source.c, $flags" "$work/$source.ll"
    done
done
