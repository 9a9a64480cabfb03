#!/usr/bin/env bash
# What `printf` prints: bench/printf.c as clang writes it at -O0, and at -O1 without its passes, by `msan run`, by `msan check` and by LLVM's
# interpreter; output and exit status must be the same. Then formats and strings that are long: time and memory.
# Needs clang 19 and lli 19, and the program as `rt run` built it (crates/msan/out/msan). Outside the gate.
source "$(dirname "$0")/frame.sh"

program=${1:-$top/crates/msan/out/msan}
[ -x "$program" ] || { echo "build it first: (cd crates/msan && rt run -- run ../../examples/unset.ll)" >&2; exit 1; }

compare() { # name, the text
  local status=0 wanted command
  lli-19 "$2" >"$work/wanted" || status=$?
  for command in run check; do
    "$program" "$command" --steps 1000000000 "$2" >"$work/got" 2>"$work/said" || true
    cmp "$work/wanted" "$work/got"
    wanted=$(sed -n 's/^end: exit //p' "$work/said")
    [ -n "$wanted" ] && [ $((wanted % 256)) = "$status" ] || { cat "$work/said" >&2; exit 1; }
    grep -qx 'reports: 0' "$work/said" || { cat "$work/said" >&2; exit 1; }
    echo "$1, $command: $(wc -c <"$work/got") bytes and exit $wanted, as lli says ($(sed -n 's/^blind/blind/p' "$work/said"))"
  done
}

clang-19 -O0 -fno-pie -S -emit-llvm -o "$work/O0.ll" "$top/bench/printf.c"
compare O0 "$work/O0.ll"
clang-19 -O1 -Xclang -disable-llvm-passes -fno-pie -S -emit-llvm -o "$work/O1.ll" "$top/bench/printf.c"
compare 'O1 without passes' "$work/O1.ll"

filled() { # bytes, the byte: a block of that many bytes and a zero byte as %1
  cat <<END
declare ptr @malloc(i64)
declare ptr @memset(ptr, i32, i64)
declare i32 @printf(ptr, ...)
define i32 @main() {
  %1 = call ptr @malloc(i64 $(($1 + 1)))
  %2 = call ptr @memset(ptr %1, i32 $2, i64 $1)
  %3 = getelementptr i8, ptr %1, i64 $1
  store i8 0, ptr %3
END
}

timed() { # what it is, how it has to end, the file
  local command
  for command in run check; do
    timeout 600 /usr/bin/time -f '%U s of processor, %M KiB' -o "$work/time" "$program" "$command" "$3" >"$work/got" 2>"$work/said" || true
    [ "$(head -n 1 "$work/said")" = "end: $2" ] || { cat "$work/said" >&2; exit 1; }
    echo "$1, $command: $2, $(wc -c <"$work/got") bytes; $(tail -n 1 "$work/time")"
  done
}

# 524288 directives, and one too many for what a run may print.
for count in 524288 1048576 1048577; do
  { filled $((2 * count)) 37; printf '  %%4 = call i32 (ptr, ...) @printf(ptr %%1)\n  ret i32 %%4\n}\n'; } >"$work/percent.ll"
  end="exit $count"
  [ "$count" -le 1048576 ] || end='trap output at site 5 in @main'
  timed "a format of $count times %%" "$end" "$work/percent.ll"
done

# The longest block, as a format without a directive, and as a string: more than a run may print.
{ filled 67108863 97; printf '  %%4 = call i32 (ptr, ...) @printf(ptr %%1)\n  ret i32 %%4\n}\n'; } >"$work/text.ll"
timed 'a format of 64 MiB' 'trap output at site 5 in @main' "$work/text.ll"
{ printf '@f = constant [3 x i8] c"%%s\\00"\n'; filled 67108863 97; printf '  %%4 = call i32 (ptr, ...) @printf(ptr @f, ptr %%1)\n  ret i32 %%4\n}\n'; } >"$work/string.ll"
timed 'a string of 64 MiB' 'trap output at site 5 in @main' "$work/string.ll"

# Each further pointer reads the format anew: a format of two lengths, with 99 strings.
for bytes in 65536 524288; do
  {
    printf '@e = constant [1 x i8] zeroinitializer\n'
    filled "$bytes" 97
    for ((k = 0; k < 99; k++)); do
      at=$((bytes - 198 + 2 * k))
      printf '  %%%d = getelementptr i8, ptr %%1, i64 %d\n  store i16 29477, ptr %%%d\n' $((k + 4)) "$at" $((k + 4))
    done
    printf '  %%103 = call i32 (ptr, ...) @printf(ptr %%1'
    for ((k = 0; k < 99; k++)); do printf ', ptr @e'; done
    printf ')\n  ret i32 %%103\n}\n'
  } >"$work/many.ll"
  timed "99 strings by a format of $bytes bytes" "exit $((bytes - 198))" "$work/many.ll"
done
