#!/usr/bin/env bash
# What several threads save, in seconds of wall clock, in turn: `msan corpus` on 16 inputs of equal work with 1, 2 and 4 workers, beside 16 runs of
# `msan check`; and the time from the first thread's beginning to the last one's end in `msan instrument` of 8,000 functions on one processor, on two and on four.
# Each figure is the least of five. Figures mean little where other work runs beside.
# Needs strace and taskset, and the program as `rt run` built it (crates/msan/out/msan). Outside the gate.
source "$(dirname "$0")/frame.sh"

program=$top/crates/msan/out/msan
[ -x "$program" ] || { echo "build it first: (cd crates/msan && rt run -- run ../../examples/stored.ll)" >&2; exit 1; }

cat >"$work/sum.ll" <<'END'
declare i32 @getchar()
define i32 @main() {
  %i = alloca i32
  %s = alloca i32
  %c = call i32 @getchar()
  store i32 0, ptr %i
  store i32 %c, ptr %s
  br label %head
head:
  %1 = load i32, ptr %i
  %2 = icmp ult i32 %1, 30000
  br i1 %2, label %body, label %done
body:
  %3 = load i32, ptr %s
  %4 = load i32, ptr %i
  %5 = add i32 %3, %4
  store i32 %5, ptr %s
  %6 = load i32, ptr %i
  %7 = add i32 %6, 1
  store i32 %7, ptr %i
  br label %head
done:
  ret i32 0
}
END

functions() { # $1 functions of ten instructions, as -O0 writes them
    for ((k = 0; k < $1; k++)); do
        cat <<END
define i32 @f$k(i32 %0, ptr %1) sanitize_memory {
  %3 = alloca i32
  %4 = alloca ptr
  store i32 %0, ptr %3
  store ptr %1, ptr %4
  %5 = load i32, ptr %3
  %6 = load ptr, ptr %4
  %7 = load i32, ptr %6
  %8 = add i32 %5, %7
  store i32 %8, ptr %6
  ret i32 %8
}
END
    done
    printf 'define i32 @main() {\n  ret i32 0\n}\n'
}

inputs=()
for ((k = 0; k < 16; k++)); do
    printf A >"$work/$k"
    inputs+=("$work/$k")
done
functions 8000 >"$work/functions.ll"

seconds() { # command
    local begin=$EPOCHREALTIME
    "$@" >/dev/null 2>&1 || true
    python3 -c "print($EPOCHREALTIME - $begin)"
}

by_one() { for input in "${inputs[@]}"; do "$program" check --input "$input" "$work/sum.ll" || true; done; }

corpus() { seconds "$program" corpus --workers "$1" "$work/sum.ll" "${inputs[@]}"; }

threads() { # the processors
    taskset -c "$1" strace -f -ttt -e trace=clone,clone3 -o "$work/trace" "$program" instrument "$work/functions.ll" >/dev/null
    python3 - "$work/trace" <<'END'
import sys
begun, ended = [], []
for line in open(sys.argv[1]):
    time = float(line.split()[1])
    if "clone" in line:
        begun.append(time)
    elif "exited" in line:
        ended.append(time)
print(sorted(ended)[-2] - min(begun) if len(begun) > 0 else 0)
END
}

for ((round = 0; round < 5; round++)); do
    echo "check $(seconds by_one)"
    for workers in 1 2 4; do echo "workers $workers $(corpus $workers)"; done
    for processors in 0 0,1 0-3; do echo "instrument $processors $(threads $processors)"; done
done | python3 -c "
import sys
least = {}
for line in sys.stdin:
    *name, time = line.split()
    name = ' '.join(name)
    least[name] = min(float(time), least.get(name, 1e9))
for name, time in least.items():
    print(f'{name}: {time:.3f} s')
one = least['workers 1']
print(f\"corpus on 2 workers {one / least['workers 2']:.2f} times as fast as on 1, on 4 {one / least['workers 4']:.2f}; on 1 in {one / least['check']:.2f} of the time of 16 checks\")
one = least['instrument 0']
print(f\"instrumenting on 2 processors {one / least['instrument 0,1']:.2f} times as fast as on 1, on 4 {one / least['instrument 0-3']:.2f}\")
"
