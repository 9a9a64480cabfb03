#!/usr/bin/env bash
# What following a run takes beside the run: instructions a step of `explain` without those of `check`, and of `run`, in a loop that loads and stores
# set words up to the report, in the same over an unset one, in one with an unset phi, and in recursive calls that pass an unset word on, each at
# two lengths; of a byte of an unset block that is copied; and of a move on the way, which is printed. Then the time and the greatest memory at
# 4194304 moves before a report, all on the way or none, and with two moves more.
# Needs python3, valgrind, and the program as `rt run` built it (crates/msan/out/msan). Outside the gate.
source "$(dirname "$0")/frame.sh"

program=${MSAN:-$top/crates/msan/out/msan}
[ -x "$program" ] || { echo "build it first: (cd crates/msan && rt run -- run ../../examples/stored.ll)" >&2; exit 1; }

cd "$work"
python3 - "$program" <<'PYTHON'
import os, re, subprocess, sys, time

program = sys.argv[1]


def memory_loop(rounds, sets="  store i32 0, ptr %s\n", left="%u"):
    """Rounds of eleven steps, which load and store; what is loaded last is unset."""
    return ("define i32 @main() {\n  %%i = alloca i32\n  %%s = alloca i32\n  %%u = alloca i32\n  store i32 0, ptr %%i\n%s  br label %%head\n"
            "head:\n  %%1 = load i32, ptr %%i\n  %%2 = icmp ult i32 %%1, %d\n  br i1 %%2, label %%body, label %%done\n"
            "body:\n  %%3 = load i32, ptr %%s\n  %%4 = load i32, ptr %%i\n  %%5 = add i32 %%3, %%4\n  store i32 %%5, ptr %%s\n"
            "  %%6 = load i32, ptr %%i\n  %%7 = add i32 %%6, 1\n  store i32 %%7, ptr %%i\n  br label %%head\n"
            "done:\n  %%8 = load i32, ptr %s\n  ret i32 %%8\n}\n" % (sets, rounds, left))


def unset_loop(rounds):
    """The same over an unset word: three moves a round."""
    return memory_loop(rounds, "")


def phi_loop(rounds, left="undef"):
    """Rounds of four steps with two moves."""
    return ("define i32 @main() {\n  br label %%head\nhead:\n  %%i = phi i32 [ 0, %%0 ], [ %%j, %%head ]\n  %%s = phi i32 [ undef, %%0 ], [ %%t, %%head ]\n"
            "  %%t = add i32 %%s, %%i\n  %%j = add i32 %%i, 1\n  %%c = icmp ult i32 %%j, %d\n  br i1 %%c, label %%head, label %%done\n"
            "done:\n  ret i32 %s\n}\n" % (rounds, left))


def calls(number):
    """Recursive calls as those of a Fibonacci number, which pass an unset word on and give it back."""
    return ("define i32 @f(i32 %%n, i32 %%u) {\n  %%c = icmp ult i32 %%n, 2\n  br i1 %%c, label %%low, label %%more\nlow:\n  ret i32 %%u\n"
            "more:\n  %%a = sub i32 %%n, 1\n  %%b = sub i32 %%n, 2\n  %%x = call i32 @f(i32 %%a, i32 %%u)\n  %%y = call i32 @f(i32 %%b, i32 %%u)\n"
            "  %%s = or i32 %%x, %%y\n  ret i32 %%s\n}\ndefine i32 @main() {\n  %%r = call i32 @f(i32 %d, i32 undef)\n  ret i32 undef\n}\n" % number)


def copies(count):
    """Copies of an unset block of 64 KiB."""
    return ("declare ptr @malloc(i64)\ndeclare ptr @memcpy(ptr, ptr, i64)\ndefine i32 @main() {\n  %a = call ptr @malloc(i64 65536)\n"
            "  %b = call ptr @malloc(i64 65536)\n" + "".join("  %%c%d = call ptr @memcpy(ptr %%b, ptr %%a, i64 65536)\n" % k for k in range(count)) +
            "  %w = load i32, ptr %b\n  ret i32 %w\n}\n")


def steps_of_calls(number):
    low, high = 3, 3
    for _ in range(2, number + 1):
        low, high = high, low + high + 8
    return high


def instructions(word, text):
    with open("f", "w") as file:
        file.write(text)
    said = subprocess.run(["valgrind", "--tool=callgrind", "--callgrind-out-file=/dev/null", program, word, "f"],
                          stdout=subprocess.DEVNULL, stderr=subprocess.PIPE, check=False).stderr
    return int(re.search(rb"Collected : (\d+)", said)[1])


def followed(make, short, long):
    """What following takes between two lengths: what explaining takes without checking."""
    words = {word: instructions(word, make(long)) - instructions(word, make(short)) for word in ("check", "explain")}
    return words["explain"] - words["check"]


def measure(name, make, short, long, units):
    run = instructions("run", make(long)) - instructions("run", make(short))
    print("%s: %.1f followed, %.1f run" % (name, followed(make, short, long) / units, run / units), flush=True)


# Starts a call from a process that is small itself, since a process counts the memory of the one that started it.
START = """import os, sys
child = os.spawnv(os.P_NOWAIT, sys.argv[1], sys.argv[1:])
_, status, used = os.wait4(child, 0)
print(os.waitstatus_to_exitcode(status), used.ru_maxrss >> 10, "%.2f" % used.ru_utime, file=open("used", "w"))
"""


def at_limit(name, text):
    with open("f", "w") as file:
        file.write(text)
    for word in "check", "explain":
        with open("out", "w+b") as out:
            subprocess.run([sys.executable, "-c", START, program, word, "f"], stdout=out, stderr=subprocess.DEVNULL, check=True)
            out.seek(0)
            lines = sum(line.startswith(b"  move ") or line == b"  trail: too long\n" for line in out)
        status, memory, seconds = open("used").read().split()
        print("%s, %s: status %s, %s MiB, %s s, %d lines of a trail" % (name, word, status, memory, seconds, lines), flush=True)


measure("a step of a loop of loads and stores", memory_loop, 100, 1100, 11000)
measure("the same over an unset word", unset_loop, 100, 1100, 11000)
measure("a step of a loop with phis", phi_loop, 100, 2600, 10000)
measure("a step of recursive calls", calls, 8, 15, steps_of_calls(15) - steps_of_calls(8))
measure("a byte that is copied", copies, 2, 6, 4 * 65536)
way = followed(lambda rounds: phi_loop(rounds, "%t"), 100, 2600) - followed(phi_loop, 100, 2600)
print("a move on the way: %.1f" % (way / 5000))
at_limit("4194304 moves, all on the way", phi_loop(2097152, "%t"))
at_limit("4194304 moves, none on the way", phi_loop(2097152))
at_limit("4194306 moves", phi_loop(2097153))
PYTHON
