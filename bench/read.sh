#!/usr/bin/env bash
# Instructions per byte that `ms_read_top::read` takes, by callgrind, on texts of 256 KiB and of 4 MiB: of many functions, of
# one function with many blocks, of one long balanced text, of one `switch` and of one `phi`; and on 4 MiB of opened
# brackets, braces, parentheses, percent signs and commas, which are refused. Where `llvm-as-19` is at hand (Debian's llvm-19),
# an ordinary text is read by both, side by side.
#
# The program that reads is made in a temporary repository, beside copies of this repository's crates. It reads a file so
# many times: what one more time costs is counted.
# Wants `rt`, `valgrind` and, for the comparison, `llvm-as-19`. Outside the gate.
source "$(dirname "$0")/frame.sh"

repository read_bench 'ms_bits ms_io ms_lex ms_ir ms_text_grammar ms_read_body ms_read_top' \
    'ms_bits ms_io ms_lex ms_ir ms_text_grammar ms_read_cursor ms_read_values ms_read_insts ms_read_top ms_read_body' <<'PROGRAM'
//! Reads the module of a file so many times.
#![tactic(auto)]

ghost use Rattle.std.specs.Prelude.{◌≤◌, ◌^◌, length};

use ms_io::{Files, RealFiles};
use ms_ir::Form;
use ms_read_body::ReadError;
use ms_read_top::read;
use std::alloc::Global;
use std::env;
use std::io;

/// 0 where the text reads as a module, and else the number of its refusal.
#[tactic(auto, unfolding(ms_text_grammar::specs::Texts::max_bytes))]
fn number_of(alloc: Global, text: &[u8]) -> u8
    requires { length text.now ≤ 2 ^ 27 }
{
    match read(alloc, text, Form::Instrumented) {
        Ok(_) => 0,
        Err(ReadError::Refused { number, .. }) => number,
        Err(ReadError::Lex(_)) => 1,
        Err(ReadError::NoMemory) => 100,
    }
}

fn main(rt: HostRuntime) -> io::Result<()> {
    let mut words = env::args(&rt)?;
    let _name = words.next();
    let file = words.next();
    let times = words.next().and_then(|word| word.parse::<u32>().ok()).unwrap_or(0);
    let Some(file) = file else {
        return Ok(());
    };
    let mut files = RealFiles::new(&rt);
    let Ok(text) = files.read_whole(rt.alloc(), file.as_str(), 1 << 27) else {
        return Ok(());
    };
    if text.len() > 1 << 27 {
        return Ok(());
    }
    for _ in 0..times {
        println!(rt; "{}", number_of(rt.alloc(), &text))?;
    }
    Ok(())
}
PROGRAM

text() { # kind, bytes at most
    awk -v kind="$1" -v most="$2" 'BEGIN {
        if (kind == "functions") {
            size = 0
            for (k = 0; size < most - 400; k++) {
                f = sprintf("define dso_local i32 @function_%d(i32 noundef %%0, ptr noundef %%1) #0 {\n", k)
                f = f "  %3 = alloca i32, align 4\n  store i32 %0, ptr %3, align 4\n  %4 = load i32, ptr %3, align 4\n"
                f = f "  %5 = add nsw i32 %4, 17\n  %6 = icmp slt i32 %5, 100\n  br i1 %6, label %7, label %9\n\n7:\n"
                f = f "  %8 = getelementptr inbounds i8, ptr %1, i64 3\n  store i8 7, ptr %8, align 1\n  br label %9\n\n9:\n"
                f = f "  %10 = phi i32 [ %5, %2 ], [ 12, %7 ]\n  ret i32 %10\n}\n\n"
                printf "%s", f; size += length(f)
            }
        } else if (kind == "blocks") {
            printf "define i32 @main() {\n  br label %%1\n"; size = 40
            for (k = 1; size < most - 200; k += 2) {
                f = sprintf("\n%d:\n  %%%d = xor i32 %d, 255\n  br label %%%d\n", k, k + 1, k, k + 2)
                printf "%s", f; size += length(f)
            }
            printf "\n%d:\n  ret i32 0\n}\n", k
        } else if (kind == "balanced") {
            printf "attributes #0 = { "; size = 20
            for (k = 0; size < most - 100; k++) {
                f = sprintf("nounwind memory(none) \"key-%d\"=\"value\" [ %d { a , b } ] ", k, k)
                printf "%s", f; size += length(f)
            }
            printf "}\n"
        } else if (kind == "switch") {
            printf "define i32 @main() {\n  switch i32 7, label %%1 [\n"; size = 60
            for (k = 0; size < most - 100; k++) {
                f = sprintf("    i32 %d, label %%1\n", k)
                printf "%s", f; size += length(f)
            }
            printf "  ]\n\n1:\n  ret i32 0\n}\n"
        } else if (kind == "phi") {
            printf "define i32 @main() {\n  br label %%1\n\n1:\n  %%2 = phi i32 [ 0, %%0 ]"; size = 60
            for (k = 0; size < most - 100; k++) {
                f = sprintf(", [ %d, %%1 ]", k)
                printf "%s", f; size += length(f)
            }
            printf "\n  ret i32 0\n}\n"
        } else {
            for (size = 0; size < most; size++) printf "%s", kind
        }
    }'
}

text functions 4096 >"$work/small.ll"
build read_bench "$work/small.ll" 1

measure() { # name, file
    local once twice bytes answer
    bytes=$(wc -c <"$2")
    answer=$("$program" "$2" 1)
    once=$(instructions "$program" "$2" 1)
    twice=$(instructions "$program" "$2" 2)
    awk -v name="$1" -v bytes="$bytes" -v answer="$answer" -v spent="$((twice - once))" \
        'BEGIN { printf "%-10s answer %3d %8d bytes %12d instructions %8.3f a byte\n", name, answer, bytes, spent, spent / bytes }'
}

for kind in functions blocks balanced switch phi; do
    for size in $((256 * 1024)) $((4 * 1024 * 1024)); do
        text "$kind" "$size" >"$work/text.ll"
        measure "$kind" "$work/text.ll"
    done
done
for kind in '[' '{' '(' '%' ','; do
    text "$kind" $((4 * 1024 * 1024)) >"$work/text.ll"
    measure "$kind" "$work/text.ll"
done

if command -v llvm-as-19 >/dev/null; then
    { text functions $((1024 * 1024)); echo 'attributes #0 = { nounwind }'; } >"$work/text.ll"
    measure ordinary "$work/text.ll"
    empty=$(mktemp "$work/emptyXXX.ll")
    whole=$(instructions llvm-as-19 -o /dev/null "$work/text.ll")
    nothing=$(instructions llvm-as-19 -o /dev/null "$empty")
    parsed=$(instructions llvm-as-19 -disable-output -disable-verify "$work/text.ll")
    bytes=$(wc -c <"$work/text.ll")
    awk -v whole="$((whole - nothing))" -v parsed="$((parsed - nothing))" -v bytes="$bytes" \
        'BEGIN { printf "llvm-as-19: %.3f a byte, of which %.3f without writing and verifying\n", whole / bytes, parsed / bytes }'
    for turn in 1 2 3; do
        python3 - "$program" "$work/text.ll" <<'PAIR'
import subprocess, sys, time
program, text = sys.argv[1:]
def spent(*command):
    start = time.perf_counter()
    subprocess.run(command, stdout=subprocess.DEVNULL, check=True)
    return time.perf_counter() - start
ours = spent(program, text, "11") - spent(program, text, "1")
theirs = sum(spent("llvm-as-19", "-o", "/dev/null", text) for _ in range(10))
print(f"ten times in turn: read {ours:.2f} s, llvm-as-19 {theirs:.2f} s, {ours / theirs:.2f} times")
PAIR
    done
fi
