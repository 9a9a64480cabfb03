#!/usr/bin/env bash
# Instructions that `ms_ir` takes, by callgrind, on modules of 5,000, 10,000 and 20,000 functions of seven instructions:
# for a walk of the module (`has_small_numbers`), for `site_of` of the last instruction, for `place_of` of the last site, and
# for `size_of` of a struct of as many fields. Where a call is linear, its numbers a function are equal.
#
# The program that calls them is made in a temporary repository, beside copies of this repository's crates.
# It makes a module in memory and calls so many times: what one more time costs is counted.
# Wants `rt` and `valgrind`. Outside the gate.
source "$(dirname "$0")/frame.sh"

repository layout_bench 'ms_bits ms_ir' 'ms_bits ms_ir' <<'PROGRAM'
//! Makes a module in memory and asks so many times about it.
#![tactic(auto)]

use ms_bits::{List, NoMemory};
use ms_ir::{Block, Func, Inst, Module, Name, Op, Ty};
use ms_ir::{has_small_numbers, place_of, site_of, size_of};
use std::alloc::Global;
use std::env;
use std::io;

/// A function of seven instructions, of which one is marked.
fn func(alloc: Global, number: u32) -> Result<Func, NoMemory> {
    let mut insts = Vec::new(alloc);
    for k in 0..7u32 {
        let op = Op::Ret { value: None };
        insts.push(Inst { op, result: None, marked: k == 3 })?;
    }
    let block = Block { name: Name::Number(0), insts: List::from_vec(insts) };
    let blocks = List::from_vec(vec![in alloc; block]?);
    Ok(Func { name: Name::Number(number), ret: None, params: List::from_vec(Vec::new(alloc)), blocks })
}

/// So many functions, and two types: `%0` is a word, and `%1` a struct of so many `i24` and a `%0`.
fn module(alloc: Global, count: u32) -> Result<Module, NoMemory> {
    let mut funcs = Vec::new(alloc);
    let mut fields = Vec::new(alloc);
    for number in 0..count {
        fields.push(Ty::Int(24))?;
        funcs.push(func(alloc, number)?)?;
    }
    fields.push(Ty::Named(Name::Number(0)))?;
    let mut types = Vec::new(alloc);
    types.push((Name::Number(0), Ty::Int(64)))?;
    types.push((Name::Number(1), Ty::Struct(false, List::from_vec(fields))))?;
    Ok(Module {
        types: List::from_vec(types),
        globals: List::from_vec(Vec::new(alloc)),
        decls: List::from_vec(Vec::new(alloc)),
        funcs: List::from_vec(funcs),
    })
}

/// What a call answers: a size, a site, the number of a function, or 1 for small numbers.
fn ask(kind: &str, m: &Module, last: u32) -> u64 {
    if kind == "size_of" {
        return size_of(m, &Ty::Named(Name::Number(1))).unwrap_or(0);
    }
    if !has_small_numbers(m) {
        return 0;
    }
    if kind == "walk" {
        return 1;
    }
    match place_of(m, last) {
        None => 0,
        Some(place) => {
            if kind == "place_of" {
                u64::from(place.func)
            } else {
                u64::from(site_of(m, place))
            }
        }
    }
}

fn main(rt: HostRuntime) -> io::Result<()> {
    let mut words = env::args(&rt)?;
    let _name = words.next();
    let kind = words.next();
    let count = words.next().and_then(|word| word.parse::<u32>().ok()).unwrap_or(0);
    let times = words.next().and_then(|word| word.parse::<u32>().ok()).unwrap_or(0);
    let kind = match &kind {
        Some(kind) => kind.as_str(),
        None => "",
    };
    let m = module(rt.alloc(), count)?;
    for _ in 0..times {
        let answer = ask(kind, &m, count.saturating_mul(6));
        println!(rt; "{answer}")?;
    }
    Ok(())
}
PROGRAM

build layout_bench walk 4 1

# `place_of` comes after a walk, and `site_of` after both, so each has what stands before it taken off.
measure() {
    local once twice
    once=$(instructions "$program" "$1" "$2" 1)
    twice=$(instructions "$program" "$1" "$2" 2)
    echo "$((twice - once))"
}

say() {
    awk -v kind="$1" -v count="$2" -v spent="$3" \
        'BEGIN { printf "%-8s %6d functions %10d instructions %8.2f a function\n", kind, count, spent, spent / count }'
}

for count in 5000 10000 20000; do
    walk=$(measure walk "$count")
    place=$(measure place_of "$count")
    site=$(measure site_of "$count")
    say walk "$count" "$walk"
    say place_of "$count" "$((place - walk))"
    say site_of "$count" "$((site - place))"
    say size_of "$count" "$(measure size_of "$count")"
done
