#!/usr/bin/env bash
# Time and memory that `ms_flow::missing` takes on a chain, a ladder of diamonds and nested loops, each of 2^12, 2^14
# and 2^17 blocks. Each block defines a value, and each value has about three uses outside its block.
#
# The program that calls it is made in a temporary repository, beside copies of this repository's crates. Its
# time is printed with and without the call, since most of the memory is the graph's own.
# Wants `rt` and `python3`. Outside the gate.
source "$(dirname "$0")/frame.sh"

repository flow_bench 'ms_bits ms_flow' 'ms_bits ms_flow' <<'PROGRAM'
//! Makes a graph in memory and asks so many times about its uses.
#![tactic(auto)]

ghost use Rattle.std.specs.Prelude.{◌≡◌, ◌<◌, ◌^◌, length, IsTrue, All};

use ms_bits::List;
use ms_flow::{Graph, Use, missing};
use std::alloc::{AllocError, Global};
use std::env;
use std::io;

fn in_range(g: &Graph, uses: &[Use]) -> bool
    ensures lengths { IsTrue result → length g.now.next ≡ length g.now.defs }
    ensures successors { IsTrue result → All (All (λ b. b < length g.now.next)) g.now.next }
    ensures blocks { IsTrue result → All (λ u. u.block < length g.now.next) uses.now }
    ensures few { IsTrue result → length uses.now < 2 ^ 32 }
{
    g.next.as_slice().len() == g.defs.as_slice().len()
        && uses.len() < 1 << 32
        && stay_below(g.next.as_slice().len(), g.next.as_slice())
        && uses_below(g.next.as_slice().len(), uses)
}

fn stay_below(len: usize, lists: &[List<u32>]) -> bool
    ensures { IsTrue result → All (All (λ b. b < len)) lists.now }
{
    for list in lists {
        if !below(len, list.as_slice()) {
            return false;
        }
    }
    true
}

fn below(len: usize, blocks: &[u32]) -> bool
    ensures { IsTrue result → All (λ b. b < len) blocks.now }
{
    for block in blocks {
        if *block as usize >= len {
            return false;
        }
    }
    true
}

fn uses_below(len: usize, uses: &[Use]) -> bool
    ensures { IsTrue result → All (λ u. u.block < len) uses.now }
{
    for u in uses {
        if u.block as usize >= len {
            return false;
        }
    }
    true
}

/// One or two successors, left out from `len` on.
fn one_or_two(alloc: Global, len: u32, first: u32, second: u32) -> Result<List<u32>, AllocError> {
    let mut list = Vec::new(alloc);
    if first < len {
        list.push(first)?;
    }
    if second < len && second != first {
        list.push(second)?;
    }
    Ok(List::from_vec(list))
}

/// A diamond is a head, two sides and a join.
fn ladder_next(alloc: Global, len: u32, block: u32) -> Result<List<u32>, AllocError> {
    match block % 4 {
        0 => one_or_two(alloc, len, block.saturating_add(1), block.saturating_add(2)),
        1 => one_or_two(alloc, len, block.saturating_add(2), len),
        _ => one_or_two(alloc, len, block.saturating_add(1), len),
    }
}

/// A nest is eight headers, and then eight latches, the innermost first, each of which goes back to its header.
fn loops_next(alloc: Global, len: u32, block: u32) -> Result<List<u32>, AllocError> {
    let back = 15 - (block % 16).min(15);
    let nest = block.saturating_sub(block % 16);
    let header = nest.saturating_add(back);
    if block % 16 < 8 {
        one_or_two(alloc, len, block.saturating_add(1), len)
    } else {
        one_or_two(alloc, len, block.saturating_add(1), header)
    }
}

fn successors(alloc: Global, kind: &str, len: u32, block: u32) -> Result<List<u32>, AllocError> {
    match kind {
        "chain" => one_or_two(alloc, len, block.saturating_add(1), len),
        "ladder" => ladder_next(alloc, len, block),
        _ => loops_next(alloc, len, block),
    }
}

fn graph(alloc: Global, kind: &str, len: u32) -> Result<Graph, AllocError> {
    let mut next = Vec::new(alloc);
    let mut defs = Vec::new(alloc);
    for block in 0..len {
        next.push(successors(alloc, kind, len, block)?)?;
        defs.push(one_or_two(alloc, len, block, block)?)?;
    }
    Ok(Graph {
        next: List::from_vec(next),
        defs: List::from_vec(defs),
    })
}

/// The blocks of one diamond, one nest or one step of the chain.
fn step(kind: &str) -> u32
    ensures { 0 < result }
{
    match kind {
        "chain" => 1,
        "ladder" => 4,
        _ => 16,
    }
}

/// Three uses of each value, in blocks that every path reaches after the definition: those of the next three steps.
fn uses(alloc: Global, kind: &str, len: u32) -> Result<Vec<Use>, AllocError> {
    let step = step(kind);
    let mut uses = Vec::new(alloc);
    for value in 0..len {
        let first = value - value % step;
        for ahead in 1..4u32 {
            let block = first.saturating_add(step.saturating_mul(ahead));
            if block < len && (value % step == 0 || value % step == step - 1) {
                uses.push(Use {
                    block,
                    value,
                    after: false,
                })?;
            }
        }
    }
    Ok(uses)
}

fn main(rt: HostRuntime) -> io::Result<()> {
    let mut words = env::args(&rt)?;
    let _name = words.next();
    let kind = words.next();
    let len = words.next().and_then(|word| word.parse::<u32>().ok()).unwrap_or(0);
    let times = words.next().and_then(|word| word.parse::<u32>().ok()).unwrap_or(0);
    let kind = match &kind {
        Some(kind) => kind.as_str(),
        None => "",
    };
    let g = graph(rt.alloc(), kind, len)?;
    let uses = uses(rt.alloc(), kind, len)?;
    if !in_range(&g, &uses) {
        return Ok(());
    }
    for _ in 0..times {
        match missing(rt.alloc(), &g, &uses)? {
            Some(answer) => println!(rt; "use {} is undefined", answer.which)?,
            None => println!(rt; "all defined")?,
        }
    }
    Ok(())
}
PROGRAM

# The program's tests of the ranges are those of ms_flow's tests, and so are their invariants.
for helper in below uses_below stay_below; do
    mkdir -p "$work/crates/flow_bench/proofs/$helper"
    sed 's/ms_flow\.proofs\.tests/flow_bench.proofs/' "$top/crates/ms_flow/proofs/tests/$helper/Invariants.antt" \
        >"$work/crates/flow_bench/proofs/$helper/Invariants.antt"
done

build flow_bench chain 4 1

for kind in chain ladder loops; do
    for blocks in 4096 16384 131072; do
        python3 - "$program" "$kind" "$blocks" <<'MEASURE'
import os, subprocess, sys, time

def run(times):
    begin = time.monotonic()
    child = subprocess.Popen([sys.argv[1], sys.argv[2], sys.argv[3], str(times)], stdout=subprocess.PIPE)
    said = child.stdout.read().decode().strip()
    _, _, used = os.wait4(child.pid, 0)
    return said, time.monotonic() - begin, used.ru_utime, used.ru_maxrss // 1024

_, _, empty, held = run(0)
said, wall, spent, most = run(1)
print(f"{sys.argv[2]:7} {sys.argv[3]:>7} blocks: {said}, {spent - empty:7.3f} s, {most} MiB, of which the graph and the uses {held} MiB")
MEASURE
    done
done
