#!/usr/bin/env bash
# Instructions per byte of `msan run` and `msan check` on a text of the first form, at 256 KiB and at 2 MiB: at 4 MiB it would have
# more instructions than `check` reads.
# Needs valgrind, and the program as `rt run` built it (crates/msan/out/msan). Outside the gate.
source "$(dirname "$0")/frame.sh"

program=$top/crates/msan/out/msan
[ -x "$program" ] || { echo "build it first: (cd crates/msan && rt run -- run ../../examples/stored.ll)" >&2; exit 1; }

text() { # a text of at most $1 bytes: one cell that is stored to, loaded and combined, over and over
  awk -v most="$1" 'BEGIN {
    printf "define i32 @main() {\n  %%1 = alloca i32\n  store i32 1, ptr %%1\n"
    size = 80; k = 2
    while (size < most - 200) {
      line = sprintf("  %%%d = load i32, ptr %%1\n  %%%d = xor i32 %%%d, 3\n  store i32 %%%d, ptr %%1\n", k, k + 1, k, k + 1)
      printf "%s", line
      size += length(line); k += 2
    }
    printf "  ret i32 %%%d\n}\n", k - 1
  }'
}

measure() { # command, name, bytes
  text "$3" > "$work/$2.ll"
  local bytes
  bytes=$(wc -c < "$work/$2.ll")
  { "$program" "$1" "$work/$2.ll" 2>&1 || true; } | grep '^end:'
  awk -v n="$(instructions "$program" "$1" "$work/$2.ll")" -v b="$bytes" -v name="$1 $2" 'BEGIN {printf "%s: %d bytes, %.0f instructions, %.2f a byte\n", name, b, n, n / b}'
}

for command in run check; do
  measure "$command" small 262144
  measure "$command" large 2097152
done
