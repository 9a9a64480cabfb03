#!/usr/bin/env bash
# Instructions per byte that `ms_lex::tokens` takes, by callgrind: an ordinary text at 256 KiB and at 4 MiB,
# and 4 MiB of quotes, of `@`, of digits and of comments.
#
# The program that calls it is made in a temporary repository, beside copies of this repository's crates.
# It makes a text in memory and cuts it into tokens so many times: what one more time costs is counted.
# Wants `rt` and `valgrind`.
source "$(dirname "$0")/frame.sh"

repository lex_bench 'ms_lex' 'ms_lex' <<'PROGRAM'
//! Makes a text in memory and cuts it into tokens so many times.
#![tactic(auto)]

ghost use Rattle.std.specs.Prelude.{◌<◌, length};

use ms_lex::tokens;
use std::alloc::{AllocError, Global};
use std::env;
use std::io;

fn pattern(kind: &str) -> &'static [u8]
    ensures { 0 < length result.now }
{
    match kind {
        "quotes" => b"\"",
        "ats" => b"@",
        "digits" => b"7",
        "comments" => b"; nothing\n",
        _ => b"  %5 = add nsw i32 %3, 14 ; a sum\n  store i32 %5, ptr @cell, align 4\n",
    }
}

fn repeated(alloc: Global, pattern: &[u8], size: usize) -> Result<Vec<u8>, AllocError>
    requires { 0 < length pattern.now }
{
    let mut text: Vec<u8> = Vec::new(alloc);
    for i in 0..size {
        text.push(pattern[i % pattern.len()])?;
    }
    Ok(text)
}

fn main(rt: HostRuntime) -> io::Result<()> {
    let mut words = env::args(&rt)?;
    let _name = words.next();
    let kind = words.next();
    let size = words.next().and_then(|word| word.parse::<usize>().ok()).unwrap_or(0);
    let times = words.next().and_then(|word| word.parse::<u32>().ok()).unwrap_or(0);
    let kind = match &kind {
        Some(kind) => kind.as_str(),
        None => "",
    };
    let text = repeated(rt.alloc(), pattern(kind), size)?;
    if text.len() > 1 << 27 {
        return Ok(());
    }
    for _ in 0..times {
        match tokens(rt.alloc(), &text, u32::MAX) {
            Ok(found) => println!(rt; "{} tokens", found.len())?,
            Err(error) => println!(rt; "{error}")?,
        }
    }
    Ok(())
}
PROGRAM

build lex_bench ordinary 64 1

measure() {
    local once twice
    once=$(instructions "$program" "$1" "$2" 1)
    twice=$(instructions "$program" "$1" "$2" 2)
    awk -v kind="$1" -v size="$2" -v spent="$((twice - once))" \
        'BEGIN { printf "%-10s %8d bytes %12d instructions %8.3f a byte\n", kind, size, spent, spent / size }'
}

measure ordinary $((256 * 1024))
measure ordinary $((4 * 1024 * 1024))
for kind in quotes ats digits comments; do
    measure "$kind" $((4 * 1024 * 1024))
done
