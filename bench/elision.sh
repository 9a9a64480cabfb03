#!/usr/bin/env bash
# What `check` takes beside `run` on C programs as clang writes them at -O0: a tally in an array, recursive calls, products of matrices, a list on
# the heap, and text that is set, copied and walked; each at two sizes, so that all but the steps falls out, in instructions by callgrind.
# Then, where there is `lli`, the processor time of `check` on larger sizes beside its interpreter on the same module, in turn.
# Needs clang (14 or later), valgrind, and the program as `rt run` built it (crates/msan/out/msan). Outside the gate.
source "$(dirname "$0")/frame.sh"

program=${1:-$top/crates/msan/out/msan}
[ -x "$program" ] || { echo "build it first: (cd crates/msan && rt run -- run ../../examples/unset.ll)" >&2; exit 1; }

pointers=()
clang --version | grep -q 'version 14' && pointers=(-mllvm -opaque-pointers)

cat >"$work/tally.c" <<'END'
#include <stdlib.h>
int main(void) {
  int most = 0;
  char *tally = malloc(N + 1);
  for (int i = 0; i <= N; i++)
    tally[i] = 0;
  for (int i = 1; i <= N; i++) {
    for (int k = i; k <= N; k += i)
      tally[k]++;
    if (tally[i] > most)
      most = tally[i];
  }
  free(tally);
  return most;
}
END
cat >"$work/calls.c" <<'END'
static int fib(int n) { return n < 2 ? n : fib(n - 1) + fib(n - 2); }
int main(void) { return fib(N); }
END
cat >"$work/matrix.c" <<'END'
int main(void) {
  int a[12][12], b[12][12], c[12][12];
  for (int i = 0; i < 12; i++)
    for (int k = 0; k < 12; k++) {
      a[i][k] = i + k;
      b[i][k] = i - k;
    }
  for (int r = 0; r < N; r++)
    for (int i = 0; i < 12; i++)
      for (int k = 0; k < 12; k++) {
        int sum = 0;
        for (int l = 0; l < 12; l++)
          sum += a[i][l] * b[l][k];
        c[i][k] = sum;
      }
  return c[3][4];
}
END
cat >"$work/list.c" <<'END'
#include <stdlib.h>
struct node { int value; struct node *next; };
static struct node *push(struct node *rest, int value) {
  struct node *n = malloc(sizeof *n);
  n->value = value;
  n->next = rest;
  return n;
}
int main(void) {
  struct node *list = 0;
  for (int i = 0; i < N; i++)
    list = push(list, i);
  int sum = 0;
  for (struct node *n = list; n; n = n->next)
    sum += n->value;
  while (list) {
    struct node *next = list->next;
    free(list);
    list = next;
  }
  return sum;
}
END
cat >"$work/text.c" <<'END'
#include <string.h>
int main(void) {
  char text[64], copy[64];
  int words = 0;
  for (int i = 0; i < N; i++) {
    memset(text, ' ', 63);
    text[63] = 0;
    for (int k = 0; k < 60; k += 3)
      text[k] = 'a' + k % 26;
    memcpy(copy, text, 64);
    for (int k = 0; copy[k]; k++)
      if (copy[k] != ' ' && (k == 0 || copy[k - 1] == ' '))
        words++;
  }
  return words;
}
END

module() { # program, size
    clang -O0 -fno-pie "${pointers[@]}" -S -emit-llvm "-DN=$2" -o "$work/$1.ll" "$work/$1.c" 2>/dev/null
}

cost() { # command, program, size
    module "$2" "$3"
    instructions "$program" "$1" --steps 1000000000 --reports 1000 "$work/$2.ll"
}

for case in tally:500:1000 calls:14:17 matrix:4:8 list:600:1200 text:20:40; do
    IFS=: read -r name small large <<<"$case"
    run=$(($(cost run "$name" "$large") - $(cost run "$name" "$small")))
    check=$(($(cost check "$name" "$large") - $(cost check "$name" "$small")))
    echo "$name: run $run, check $check, $(python3 -c "print(f'{$check / $run:.2f}')") times as much"
done

seconds() { # command
    local TIMEFORMAT='%U'
    { time "$@" >/dev/null 2>&1 || true; } 2>&1
}

command -v lli >/dev/null || { echo "no lli: nothing is compared"; exit 0; }
opaque=()
lli --version | grep -q 'version 14' && opaque=(-opaque-pointers)
for case in tally:60000 calls:23 matrix:200 list:40000 text:1500; do
    IFS=: read -r name size <<<"$case"
    module "$name" "$size"
    for turn in 1 2 3; do
        echo "$name, turn $turn: check $(seconds "$program" check --steps 1000000000 --reports 1000 "$work/$name.ll") s," \
            "lli $(seconds lli "${opaque[@]}" --jit-kind=mcjit -force-interpreter "$work/$name.ll") s"
    done
done
