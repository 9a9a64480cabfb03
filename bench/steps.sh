#!/usr/bin/env bash
# Instructions a step of `msan run`: a loop as -O0 writes it, the same in a heap block among many, one with phis as -O1 does, and recursive calls, each at two lengths,
# so that what reading, checking and compiling take falls out; and the second again among ten thousand functions. Then, where there is `lli` (LLVM 14),
# the processor time of longer ones beside its interpreter, in turn.
# Needs valgrind, and the program as `rt run` built it (crates/msan/out/msan). Outside the gate.
source "$(dirname "$0")/frame.sh"

program=$top/crates/msan/out/msan
[ -x "$program" ] || { echo "build it first: (cd crates/msan && rt run -- run ../../examples/stored.ll)" >&2; exit 1; }

memory_loop() { # $1 rounds of eleven steps, which load and store
  cat <<END
define i32 @main() {
  %i = alloca i32
  %s = alloca i32
  store i32 0, ptr %i
  store i32 0, ptr %s
  br label %head
head:
  %1 = load i32, ptr %i
  %2 = icmp ult i32 %1, $1
  br i1 %2, label %body, label %done
body:
  %3 = load i32, ptr %s
  %4 = load i32, ptr %i
  %5 = add i32 %3, %4
  store i32 %5, ptr %s
  %6 = load i32, ptr %i
  %7 = add i32 %6, 1
  store i32 %7, ptr %i
  br label %head
done:
  %8 = load i32, ptr %s
  ret i32 %8
}
END
}

heap_loop() { # $1 rounds of eleven steps, which load and store in a heap block, after $2 live blocks
  cat <<END
declare ptr @malloc(i64)
define i32 @main() {
  br label %make
make:
  %n = phi i32 [ 0, %0 ], [ %m, %make ]
  %p = call ptr @malloc(i64 8)
  %m = add i32 %n, 1
  %e = icmp ult i32 %m, $2
  br i1 %e, label %make, label %start
start:
  %s = getelementptr i32, ptr %p, i64 1
  store i32 0, ptr %p
  store i32 0, ptr %s
  br label %head
head:
  %1 = load i32, ptr %p
  %2 = icmp ult i32 %1, $1
  br i1 %2, label %body, label %done
body:
  %3 = load i32, ptr %s
  %4 = load i32, ptr %p
  %5 = add i32 %3, %4
  store i32 %5, ptr %s
  %6 = load i32, ptr %p
  %7 = add i32 %6, 1
  store i32 %7, ptr %p
  br label %head
done:
  %8 = load i32, ptr %s
  ret i32 %8
}
END
}
ten_blocks() { heap_loop "$1" 10; }
million_blocks() { heap_loop "$1" 1000000; }

phi_loop() { # $1 rounds of four steps, each with two phis
  cat <<END
define i32 @main() {
  br label %head
head:
  %i = phi i32 [ 0, %0 ], [ %j, %head ]
  %s = phi i32 [ 0, %0 ], [ %t, %head ]
  %t = add i32 %s, %i
  %j = add i32 %i, 1
  %c = icmp ult i32 %j, $1
  br i1 %c, label %head, label %done
done:
  ret i32 %t
}
END
}

calls() { # the Fibonacci number of $1, by recursive calls
  cat <<END
define i32 @fib(i32 %n) {
  %c = icmp ult i32 %n, 2
  br i1 %c, label %low, label %more
low:
  ret i32 %n
more:
  %a = sub i32 %n, 1
  %b = sub i32 %n, 2
  %x = call i32 @fib(i32 %a)
  %y = call i32 @fib(i32 %b)
  %s = add i32 %x, %y
  ret i32 %s
}
define i32 @main() {
  %r = call i32 @fib(i32 $1)
  ret i32 %r
}
END
}

many() { # the loop with phis, after ten thousand functions
  for ((k = 0; k < 10000; k++)); do printf 'define i32 @f%d() {\n  ret i32 %d\n}\n' "$k" "$k"; done
  phi_loop "$1"
}

steps_of_calls() { # the steps of `calls $1`: 3 where the number is below 2, else 8 and those of the two calls
  awk -v n="$1" 'BEGIN { a = 3; b = 3; for (k = 2; k <= n; k++) { c = a + b + 8; a = b; b = c }; print b }'
}

measure() { # name, the maker, two lengths, the steps between them
  "$2" "$3" > "$work/short.ll"
  "$2" "$4" > "$work/long.ll"
  awk -v a="$(instructions "$program" run "$work/short.ll")" -v b="$(instructions "$program" run "$work/long.ll")" -v s="$5" -v name="$1" \
    'BEGIN {printf "%s: %.1f instructions a step\n", name, (b - a) / s}'
}

measure "a loop of loads and stores" memory_loop 1000 11000 110000
measure "the same in the last of 10 heap blocks" ten_blocks 1000 11000 110000
measure "the same in the last of 1000000 heap blocks" million_blocks 1000 11000 110000
measure "a loop with phis" phi_loop 1000 26000 100000
measure "recursive calls" calls 10 20 $(($(steps_of_calls 20) - $(steps_of_calls 10)))
measure "the loop with phis among 10000 functions" many 1000 26000 100000

seconds() { # command
  local TIMEFORMAT='%U'
  { time "$@" >/dev/null 2>&1 || true; } 2>&1
}

beside() { # name, the maker, the length
  "$2" "$3" > "$work/beside.ll"
  for turn in 1 2 3; do
    echo "$1, turn $turn: msan run $(seconds "$program" run "$work/beside.ll") s, lli $(seconds lli -opaque-pointers --jit-kind=mcjit -force-interpreter "$work/beside.ll") s"
  done
}

command -v lli >/dev/null || { echo "no lli: nothing is compared"; exit 0; }
beside "9900000 steps of loads and stores" memory_loop 900000
beside "9600000 steps with phis" phi_loop 2400000
beside "the 26th Fibonacci number" calls 26
