#!/usr/bin/env bash
# Instructions and greatest memory of `msan check` and `msan run` at their limits: 4 MiB of each kind of token, 32 types within each
# other, 2^17 instructions in one block and in as many blocks, 16384 functions, 100 parameters in 1024 frames, 64 MiB of the heap in
# blocks of one byte, 1048576 pairs of origins, and a corpus of 256 inputs of 1 MiB that are printed again.
#
# Each is printed beside a bound: so many instructions and so many bytes of memory for each byte of text, for each step and operand,
# and for each byte that the module takes of memory, reads or prints. The script fails where a bound is passed.
# `limits.sh WORD` does the lines with that word in their names.
# Needs python3 and valgrind, and the program as `rt run` built it (crates/msan/out/msan). Outside the gate.
source "$(dirname "$0")/frame.sh"

program=${MSAN:-$top/crates/msan/out/msan}
[ -x "$program" ] || { echo "build it first: (cd crates/msan && rt run -- run ../../examples/stored.ll)" >&2; exit 1; }

cd "$work"
python3 - "$program" "${1:-}" <<'PYTHON'
import os, re, subprocess, sys

program, chosen = sys.argv[1:]
MAIN = "define i32 @main() {\n  ret i32 0\n}\n"
MOST = 1 << 22
# So many instructions for a byte of text, for a step and each operand of it, and for a byte of memory, of input or of output.
INSTRUCTIONS = (3000, 2000, 100)
# So many bytes of memory for each of these, and for a call that does nothing.
MEMORY = (300, 0, 10)
NOTHING = 16 << 20


def tokens_of(piece):
    """A text of 4 MiB with as many of these pieces as a plain text has tokens, in an attribute group, which is read over."""
    head, tail = "attributes #0 = { ", " }\n" + MAIN
    return head + piece * ((MOST - len(head) - len(tail)) // len(piece) - 16) + tail


def block_of(count):
    """One block with so many instructions."""
    lines = ["define i32 @main() {\n  %1 = add i32 3, 4\n"]
    lines += ["  %%%d = xor i32 %%%d, 3\n" % (k, k - 1) for k in range(2, count)]
    return "".join(lines) + "  ret i32 %%%d\n}\n" % (count - 1)


def blocks_of(count):
    lines = ["define i32 @main() {\n"] + ["  br label %%%d\n%d:\n" % (k, k) for k in range(1, count)]
    return "".join(lines) + "  ret i32 0\n}\n"


def functions_of(count):
    body = "(i32 %0) {\n  %2 = alloca i32\n  store i32 %0, ptr %2\n  %3 = load i32, ptr %2\n  %4 = add i32 %3, 1\n  %5 = mul i32 %4, 3\n  ret i32 %5\n}\n"
    return "".join("define i32 @f%d%s" % (k, body) for k in range(1, count)) + MAIN


def nested_types(count):
    ty, init = "i8", "7"
    for k in range(32):
        ty, init = ("[1 x %s]" % ty, "[%s %s]" % (ty, init)) if k % 2 else ("{ %s }" % ty, "{ %s %s }" % (ty, init))
    zero = "".join("@g%d = global %s zeroinitializer\n" % (k, ty) for k in range(count))
    return zero + "@h = global %s %s\n" % (ty, init) + MAIN


def recursion():
    params, args = ", ".join(["i32"] * 100), ", ".join("i32 %%%d" % k for k in range(1, 100))
    return ("define i32 @f(%s) {\n  %%101 = icmp eq i32 %%0, 1\n  br i1 %%101, label %%102, label %%103\n102:\n  ret i32 %%99\n103:\n"
            "  %%104 = sub i32 %%0, 1\n  %%105 = call i32 @f(i32 %%104, %s)\n  ret i32 %%105\n}\n"
            "define i32 @main() {\n  %%1 = call i32 @f(i32 1023, %s)\n  ret i32 %%1\n}\n"
            % (params, args, ", ".join(["i32 7"] * 99)))


def heap_of(count):
    return ("declare ptr @malloc(i64)\ndefine i32 @main() {\n  br label %%1\n1:\n  %%2 = phi i32 [ 0, %%0 ], [ %%4, %%1 ]\n"
            "  %%3 = call ptr @malloc(i64 1)\n  %%4 = add i32 %%2, 1\n  %%5 = icmp ult i32 %%4, %d\n  br i1 %%5, label %%1, label %%6\n6:\n"
            "  %%7 = icmp ne ptr %%3, null\n  %%8 = zext i1 %%7 to i32\n  ret i32 %%8\n}\n" % count)


def pairs_of(cells, stores):
    """Stores of undefined words to so many cells; then each of these words is stored by so many other stores, which is as many pairs."""
    lines = ["define i32 @main() {\n  %%a = alloca [%d x i32]\n  %%b = alloca i32\n" % cells]
    lines += ["  %%p%d = getelementptr i32, ptr %%a, i64 %d\n  store i32 undef, ptr %%p%d\n" % (k, k, k) for k in range(cells)]
    lines += ["  br label %l\nl:\n  %i = phi i64 [ 0, %0 ], [ %j, %l ]\n  %p = getelementptr i32, ptr %a, i64 %i\n  %v = load i32, ptr %p\n"]
    lines += ["  store i32 %v, ptr %b\n"] * stores
    lines += ["  %%j = add i64 %%i, 1\n  %%c = icmp ult i64 %%j, %d\n  br i1 %%c, label %%l, label %%e\ne:\n" % cells]
    return "".join(lines) + "  %w = load i32, ptr %b\n  ret i32 %w\n}\n"


ECHO = """@g = global [1048576 x i8] zeroinitializer
declare i64 @read(i32, ptr, i64)
declare i64 @write(i32, ptr, i64)
define i32 @main() {
  %1 = call i64 @read(i32 0, ptr @g, i64 1048576)
  %2 = call i64 @write(i32 1, ptr @g, i64 %1)
  ret i32 0
}
"""


def instructions(words):
    said = subprocess.run(["valgrind", "--tool=callgrind", "--callgrind-out-file=/dev/null", program] + words,
                          stdout=subprocess.DEVNULL, stderr=subprocess.PIPE, check=False).stderr
    return int(re.search(rb"Collected : (\d+)", said)[1])


# Starts a call from a process that is small itself, since a process counts the memory of the one that started it.
START = """import os, sys
child = os.spawnv(os.P_NOWAIT, sys.argv[1], sys.argv[1:])
_, status, used = os.wait4(child, 0)
with open("used", "w") as file:
    print(os.waitstatus_to_exitcode(status), used.ru_maxrss << 10, file=file)
"""


def native(words):
    """The status of a call, its greatest memory, and the first line of how it ended."""
    with open("out", "w+b") as out, open("err", "w+b") as err:
        subprocess.run([sys.executable, "-c", START, program] + words, stdin=subprocess.DEVNULL, stdout=out, stderr=err, check=True)
        err.seek(0), out.seek(0)
        line = re.search(rb"^(?:end: |refused |report |input |out of).*$", err.read(1 << 16) or out.read(200), re.M)
    with open("used") as file:
        return [int(word) for word in file.read().split()] + [line[0].decode() if line else ""]


def bound(multiples, counts):
    return sum(a * b for a, b in zip(multiples, counts))


def measure(name, words, text, steps=0, taken=0):
    """Prints what a call takes whose module runs so many steps and operands, and takes, reads and prints so many bytes."""
    if chosen not in name:
        return
    with open("f", "w") as file:
        file.write(text)
    counts = (len(text), steps, taken)
    status, memory, line = native(words)
    executed = instructions(words)
    most, room = bound(INSTRUCTIONS, counts), NOTHING + bound(MEMORY, counts)
    print("%s, %s: %d bytes, %d steps, %d bytes beside; status %d, %s\n    %d instructions of %d, %d MiB of %d"
          % (name, words[0], len(text), steps, taken, status, line, executed, most, memory >> 20, room >> 20), flush=True)
    KEPT.append(executed <= most and memory <= room)


KEPT = []


def main():
    kinds = {"labels": "ab: ", "strings": '"a" ', "texts": 'c"" ', "numbers": "123 ", "words": "abc ", "other runs": "$ab ",
             "globals": "@ab ", "locals": "%ab ", "metas": "!ab ", "groups": "#ab ", "marks": ",   ", "brackets": "[   ]   "}
    for kind, piece in kinds.items():
        measure("tokens: " + kind, ["check", "f"], tokens_of(piece), 1)
    measure("tokens: one string", ["check", "f"], 'source_filename = "%s"\n' % ("a" * (MOST - 60)) + MAIN, 1)
    measure("tokens: a comment", ["check", "f"], ";" + "a" * (MOST - 60) + "\n" + MAIN, 1)
    measure("tokens: blanks", ["check", "f"], " " * (MOST - 60) + MAIN, 1)
    measure("tokens: too many", ["check", "f"], "," * MOST)
    measure("tokens: most of all", ["run", "f"], "attributes #0 = {" + "," * (MOST - 60) + "}" + MAIN, 1)
    for command in ("check", "run", "instrument"):
        measure("types within each other", [command, "f"], nested_types(8000), 1, 8000 * 16)
        measure("instructions of one block", [command, "f"], block_of(1 << 17), 1 << 17)
        measure("blocks", [command, "f"], blocks_of(1 << 17), 1 << 17)
        measure("functions", [command, "f"], functions_of(1 << 14), 1)
    for command in ("check", "run"):
        measure("frames with parameters", [command, "f"], recursion(), 1024 * 105)
        measure("heap of blocks", [command, "--steps", "100000000", "f"], heap_of(1 << 22), (1 << 22) * 4, 1 << 26)
        measure("pairs", [command, "f"], pairs_of(1024, 1023), 1024 * 1028, 1024 * 4)
    with open("a", "wb") as file:
        file.write(b"x" * (1 << 20))
    measure("corpus", ["corpus", "--workers", "8", "f"] + ["a"] * 256, ECHO, 256 * 3, 3 * 256 << 20)
    print("%d of %d within their bounds" % (sum(KEPT), len(KEPT)))
    sys.exit(not all(KEPT))


main()
PYTHON
