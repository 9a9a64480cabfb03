#!/usr/bin/env bash
# Refuses each request for memory in turn, of `msan check` on three modules, of `msan corpus` on one with three inputs and one, two
# and eight workers, and of a call of each other command. The program must then end with status 8, nothing on the output and
# `out of memory` on the standard error, or say what it says where nothing is refused, as where a list grows by less than it asked for
# first, or a thread can't be made and its piece is run by the thread that asked. Where the words themselves can't be had, which comes
# before all else, it must end with status 8 and write nothing.
#
# A request is refused by functions that stand before those of the C library and count down.
# Needs python3, as and ld, and the program as `rt run` built it (crates/msan/out/msan). Outside the gate.
source "$(dirname "$0")/frame.sh"

program=${MSAN:-$top/crates/msan/out/msan}
[ -x "$program" ] || { echo "build it first: (cd crates/msan && rt run -- run ../../examples/stored.ll)" >&2; exit 1; }

cat >"$work/branch.ll" <<'END'
define i32 @main() {
  %1 = alloca i32
  %2 = load i32, ptr %1
  %3 = icmp eq i32 %2, 0
  br i1 %3, label %4, label %5
4:
  ret i32 0
5:
  ret i32 1
}
END

cat >"$work/gap.ll" <<'END'
define i32 @main() {
  %1 = alloca [4 x i8]
  %2 = call i32 @putchar(i32 62)
  %3 = call ptr @memset(ptr %1, i32 65, i64 2)
  %4 = getelementptr i8, ptr %1, i64 3
  store i8 66, ptr %4
  %5 = call i64 @write(i32 1, ptr %1, i64 4)
  ret i32 0
}
declare i32 @putchar(i32)
declare ptr @memset(ptr, i32, i64)
declare i64 @write(i32, ptr, i64)
END

{ # An undefined byte that is stored and loaded again seventeen times.
  printf 'define i32 @main() {\n  %%1 = alloca i8\n  store i8 undef, ptr %%1\n'
  for k in {2..17}; do printf '  %%%d = load i8, ptr %%1\n  store i8 %%%d, ptr %%1\n' "$k" "$k"; done
  printf '  %%18 = load i8, ptr %%1\n  %%19 = zext i8 %%18 to i32\n  ret i32 %%19\n}\n'
} >"$work/chain.ll"

: >"$work/none"
printf 'abc' >"$work/letters"
printf '\0' >"$work/zero"

cat >"$work/refuse.s" <<'END'
    .text
    .globl malloc, calloc, realloc
    .type malloc, @function
    .type calloc, @function
    .type realloc, @function
malloc:
    lock decq left(%rip)
    jz refused
    jmp __libc_malloc@PLT
calloc:
    lock decq left(%rip)
    jz refused
    jmp __libc_calloc@PLT
realloc:
    lock decq left(%rip)
    jz refused
    jmp __libc_realloc@PLT
refused: # A byte on the standard input, which the program doesn't read, tells that it came to this.
    subq $8, %rsp
    call __errno_location@PLT
    movl $12, (%rax)
    addq $8, %rsp
    movl $1, %eax
    xorl %edi, %edi
    leaq name(%rip), %rsi
    movl $1, %edx
    syscall
    xorl %eax, %eax
    ret
begin:
    subq $8, %rsp
    leaq name(%rip), %rdi
    call getenv@PLT
    movq %rax, %rdi
    xorl %esi, %esi
    movl $10, %edx
    call strtoul@PLT
    movq %rax, left(%rip)
    addq $8, %rsp
    ret
    .section .init_array, "aw"
    .quad begin
    .data
left:
    .quad 0
name:
    .asciz "REFUSED_REQUEST"
    .section .note.GNU-stack, "", @progbits
END
as -o "$work/refuse.o" "$work/refuse.s"
ld -shared -o "$work/refuse.so" "$work/refuse.o"

cd "$work"
python3 - "$program" "$work/refuse.so" <<'PYTHON'
import itertools, os, subprocess, sys

program, refusing = sys.argv[1:]
LINE = b"out of memory\n"


def answer(words, number):
    """The status, the output and the standard error where this request is refused, and whether it was made."""
    with open("refused", "w+b") as told:
        env = {"LD_PRELOAD": refusing, "REFUSED_REQUEST": str(number)}
        done = subprocess.run([program] + words.split(), stdin=told, capture_output=True, env=env, timeout=60)
        return (done.returncode, done.stdout, done.stderr), os.fstat(told.fileno()).st_size > 0


def try_row(name, words):
    whole = answer(words, 0)[0]
    wants, silent, same, faults = 0, 0, 0, 0
    for number in itertools.count(1):
        said, made = answer(words, number)
        if not made:
            break
        if said == (8, b"", LINE):
            wants += 1
        elif said == (8, b"", b"") and wants + same == 0:
            silent += 1
        elif said == whole:
            same += 1
        else:
            faults += 1
            print("%s, request %d refused: %r" % (name, number, said))
    counts = [number - 1, wants, silent, same, faults]
    print("%s: status %d, %s" % (name, whole[0], SUMMARY % tuple(counts)), flush=True)
    return counts


SUMMARY = "%d requests: %d times out of memory, %d times before the words, %d times the same answer, %d faults"
rows = [("check of a branch", "check branch.ll"), ("check of a gap", "check gap.ll"), ("check of a chain", "check chain.ll")]
rows += [("corpus by %d" % n, "corpus --workers %d gap.ll none letters zero" % n) for n in (1, 2, 8)]
rows += [("run of a gap", "run --input letters gap.ll"), ("instrument of a branch", "instrument branch.ll")]
rows += [("gen", "gen --seed 7 --functions 2"), ("gen and run", "gen --seed 7 --functions 8 --run")]
sums = [sum(column) for column in zip(*(try_row(*row) for row in rows))]
print(SUMMARY % tuple(sums))
sys.exit(sums[4] > 0)
PYTHON
