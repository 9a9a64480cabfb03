#!/usr/bin/env bash
# What instrumenting takes. `msan instrument` on texts of two sizes, in instructions a byte by callgrind; beside
# `opt -passes=msan -S` on the larger text and on two others of that size, in processor time, in turn; and what a step of `check` takes beside one of `run`,
# in a loop as -O0 writes it, at two lengths, so that all but the steps falls out.
# Needs valgrind and opt (LLVM 14 or later), and the program as `rt run` built it (crates/msan/out/msan). Outside the gate.
source "$(dirname "$0")/frame.sh"

program=$top/crates/msan/out/msan
[ -x "$program" ] || { echo "build it first: (cd crates/msan && rt run -- run ../../examples/stored.ll)" >&2; exit 1; }

functions() { # $1 functions of ten instructions, as -O0 writes them
  for ((k = 0; k < $1; k++)); do
    cat <<END
define i32 @f$k(i32 %0, ptr %1) sanitize_memory {
  %3 = alloca i32
  %4 = alloca ptr
  store i32 %0, ptr %3
  store ptr %1, ptr %4
  %5 = load i32, ptr %3
  %6 = load ptr, ptr %4
  %7 = load i32, ptr %6
  %8 = add i32 %5, %7
  store i32 %8, ptr %6
  ret i32 %8
}
END
  done
  printf 'define i32 @main() {\n  ret i32 0\n}\n'
}

branches() { # $1 functions that branch, with a `phi`
  for ((k = 0; k < $1; k++)); do
    cat <<END
define i32 @f$k(i32 %0, ptr %1) sanitize_memory {
  %3 = load i32, ptr %1
  %4 = icmp slt i32 %3, %0
  br i1 %4, label %5, label %7
5:
  %6 = add nsw i32 %3, 17
  br label %7
7:
  %8 = phi i32 [ %6, %5 ], [ 12, %2 ]
  ret i32 %8
}
END
  done
  printf 'define i32 @main() {\n  ret i32 0\n}\n'
}

words() { # $1 functions of fifteen instructions on words
  for ((k = 0; k < $1; k++)); do
    printf 'define i32 @f%d(i32 %%0) sanitize_memory {\n  %%2 = add i32 %%0, 1\n' "$k"
    for ((j = 3; j < 17; j++)); do printf '  %%%d = xor i32 %%%d, %%0\n' "$j" "$((j - 1))"; done
    printf '  ret i32 %%16\n}\n'
  done
  printf 'define i32 @main() {\n  ret i32 0\n}\n'
}

memory_loop() { # $1 rounds of eleven steps, which load and store
  cat <<END
define i32 @main() {
  %i = alloca i32
  %s = alloca i32
  store i32 0, ptr %i
  store i32 0, ptr %s
  br label %head
head:
  %1 = load i32, ptr %i
  %2 = icmp ult i32 %1, $1
  br i1 %2, label %body, label %done
body:
  %3 = load i32, ptr %s
  %4 = load i32, ptr %i
  %5 = add i32 %3, %4
  store i32 %5, ptr %s
  %6 = load i32, ptr %i
  %7 = add i32 %6, 1
  store i32 %7, ptr %i
  br label %head
done:
  %8 = load i32, ptr %s
  ret i32 %8
}
END
}

call_loop() { # $1 rounds of fourteen steps, of which one calls a function of five
  cat <<END
define i32 @next(i32 %0) {
  %2 = alloca i32
  store i32 %0, ptr %2
  %3 = load i32, ptr %2
  %4 = add i32 %3, 1
  ret i32 %4
}
define i32 @main() {
  %i = alloca i32
  %s = alloca i32
  store i32 0, ptr %i
  store i32 0, ptr %s
  br label %head
head:
  %1 = load i32, ptr %i
  %2 = icmp ult i32 %1, $1
  br i1 %2, label %body, label %done
body:
  %3 = call i32 @next(i32 %1)
  store i32 %3, ptr %i
  %4 = load i32, ptr %s
  %5 = add i32 %4, %3
  store i32 %5, ptr %s
  br label %head
done:
  %6 = load i32, ptr %s
  ret i32 %6
}
END
}

for count in 300 3000; do
  functions "$count" > "$work/functions.ll"
  awk -v n="$(instructions "$program" instrument "$work/functions.ll")" -v b="$(stat -c %s "$work/functions.ll")" -v c="$count" \
    'BEGIN {printf "instrument, %d functions, %d bytes: %.1f instructions a byte\n", c, b, n / b}'
done

opaque=
if opt --version | grep -q 'version 14'; then opaque=-opaque-pointers; fi
beside() { # the text's name, its maker, how many functions
  "$2" "$3" > "$work/functions.ll"
  for turn in 1 2 3; do
    for tool in msan opt; do
      TIMEFORMAT="$1, turn $turn, $tool: %U s of processor"
      if [ "$tool" = msan ]; then
        time "$program" instrument "$work/functions.ll" > "$work/out.ll"
      else
        time opt $opaque -mtriple=x86_64-unknown-linux-gnu -passes=msan -S "$work/functions.ll" -o "$work/out.ll"
      fi
    done
  done
}

beside 'functions of ten instructions' functions 3000
beside 'functions that branch' branches 3500
beside 'functions on words' words 2000

per_step() { # the loop, the steps of a round, what it is
  "$1" 1000 > "$work/short.ll"
  "$1" 11000 > "$work/long.ll"
  for command in run check; do
    awk -v a="$(instructions "$program" "$command" "$work/short.ll")" -v b="$(instructions "$program" "$command" "$work/long.ll")" -v name="$command" -v steps="$2" -v what="$3" \
      'BEGIN {printf "%s, %s: %.1f instructions a step\n", name, what, (b - a) / (10000 * steps)}'
  done
}

per_step memory_loop 11 'loads and stores'
per_step call_loop 14 'a call every fourteen steps'
