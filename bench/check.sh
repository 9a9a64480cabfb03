#!/usr/bin/env bash
# Instructions that reading, the check of validity and compiling take for each item of a module, by callgrind: for many
# functions (their values numbered; with eighteen names in letters; small, with three), one function of many blocks, one `phi` of
# many edges, one `switch` of many cases, and many globals, each at two sizes. Where they are near to linear, the numbers at the
# two sizes are close. Last stands what reading and checking take beside `llvm-as-19`, where it is at hand.
#
# They are the counts of the functions of `msan run` that do this, with all that these call; the run itself is in none of them.
# Wants `valgrind`, and `crates/msan/out/msan`, which `rt run` makes in `crates/msan`. Outside the gate.
source "$(dirname "$0")/frame.sh"

program=$top/crates/msan/out/msan

text() { # kind, count
    awk -v kind="$1" -v count="$2" 'BEGIN {
        if (kind == "functions") {
            for (k = 0; k < count / 16; k++) {
                printf "define i32 @f%d(i32 %%0) {\n  %%2 = add i32 %%0, 1\n", k
                for (j = 3; j < 17; j++) printf "  %%%d = xor i32 %%%d, %%0\n", j, j - 1
                printf "  ret i32 %%16\n}\n"
            }
        } else if (kind == "named") {
            for (k = 0; k < count / 16; k++) {
                printf "define i32 @f%d(i32 %%value) {\nentry:\n  %%sum = add i32 %%value, 1\n  %%bits0 = xor i32 %%sum, %%value\n", k
                for (j = 1; j < 14; j++) printf "  %%bits%d = xor i32 %%bits%d, %%value\n", j, j - 1
                printf "  ret i32 %%bits13\n}\n"
            }
        } else if (kind == "small") {
            for (k = 0; k < count / 2; k++)
                printf "define i32 @f%d(i32 %%value) {\nentry:\n  %%sum = add i32 %%value, 1\n  ret i32 %%sum\n}\n", k
        } else if (kind == "blocks") {
            printf "define i32 @f(i32 %%0) {\n  br label %%2\n"
            for (k = 2; k < 2 * count; k += 2)
                printf "%d:\n  %%%d = xor i32 %%0, %d\n  br label %%%d\n", k, k + 1, k, k + 2
            printf "%d:\n  ret i32 %%3\n}\n", k
        } else if (kind == "phi") {
            printf "define i32 @f(i32 %%0) {\n  switch i32 %%0, label %%2 [\n"
            for (k = 1; k < count; k++) printf "    i32 %d, label %%2\n", k
            printf "  ]\n2:\n  %%3 = phi i32 [ 7, %%1 ]"
            for (k = 1; k < count; k++) printf ", [ 7, %%1 ]"
            printf "\n  ret i32 %%3\n}\n"
        } else if (kind == "switch") {
            printf "define i32 @f(i32 %%0) {\n  switch i32 %%0, label %%2 [\n"
            for (k = 1; k < count; k++) printf "    i32 %d, label %%2\n", k
            printf "  ]\n2:\n  ret i32 0\n}\n"
        } else {
            for (k = 0; k < count; k++) printf "@g%d = global [4 x i8] zeroinitializer\n", k
        }
        printf "define i32 @main() {\n  ret i32 0\n}\n"
    }'
}

touch "$work/empty.ll"
has_llvm=
if command -v llvm-as-19 >/dev/null; then
    has_llvm=yes
    nothing=$(instructions llvm-as-19 -o /dev/null "$work/empty.ll")
fi

measure() { # kind, count
    local said theirs=0
    text "$1" "$2" >"$work/text.ll"
    said=$("$program" run "$work/text.ll" 2>&1 || true)
    [ "$said" = $'end: exit 0\nreports: 0\nblind: 0' ] || { echo "of $1 it says: $said" >&2; exit 1; }
    valgrind --tool=callgrind --callgrind-out-file="$work/counts" "$program" run "$work/text.ll" >"$work/said" 2>&1
    [ -z "$has_llvm" ] || theirs=$(($(instructions llvm-as-19 -o /dev/null "$work/text.ll") - nothing))
    callgrind_annotate --inclusive=yes --threshold=100 "$work/counts" | awk -v kind="$1" -v count="$2" -v theirs="$theirs" '
        { gsub(",", "", $1) }
        /:ms_top::jobs::Job::run_file::/ && !whole { whole = $1 }
        /:ms_top::jobs::Job::locate_sites::/ && !after { after = $1 }
        /:ms_top::jobs::checked / && !checked { checked = $1 }
        /:ms_machine_compile::compiler::compile / && !compiled { compiled = $1 }
        END {
            if (!whole || !after || !checked || !compiled) { print "a function is missing in the counts"; exit 1 }
            printf "%-10s %7d items: read %9.1f each, check %9.1f, compile %9.1f",
                kind, count, (whole - after) / count, (checked - compiled) / count, compiled / count
            if (theirs) printf ", %.2f of llvm-as-19", (whole - after + checked - compiled) / theirs
            printf "\n"
        }'
}

measure small $((1 << 12))
measure small $((1 << 14))
for kind in functions named blocks; do
    measure "$kind" $((1 << 12))
    measure "$kind" $((1 << 17))
done
for kind in phi switch; do
    measure "$kind" $((1 << 14))
    measure "$kind" $((1 << 19))
done
measure globals $((1 << 10))
measure globals $(((1 << 14) - 1))
