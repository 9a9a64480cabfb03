#!/usr/bin/env bash
# Instructions that `ms_depot::Depot` takes to chain an origin, for a thousand pairs and for a million, where each pair is new and
# where each stands already; and to follow the way of an origin of sixteen stores.
#
# The program that calls it is made in a temporary repository, beside copies of this repository's crates.
# Wants `rt`, `python3` and `valgrind`. Outside the gate.
source "$(dirname "$0")/frame.sh"

repository depot_bench 'ms_depot' 'ms_bits ms_ir ms_runs ms_depot' <<'PROGRAM'
//! Chains one root at so many sites, so many times over, and follows a way so many times.
#![tactic(auto)]

use ms_depot::Depot;
use std::{env, io};

/// Chains the root at sites from 1 on. Answers the sum of the numbers.
fn chain_all(depot: &mut Depot, sites: u32) -> u64 {
    let mut sum = 0u64;
    for site in 0..sites {
        if let Ok(id) = depot.chain(1, site) {
            sum = sum.wrapping_add(id as u64);
        }
    }
    sum
}

/// Chains the root at the same sites again and again.
fn chain_again(depot: &mut Depot, sites: u32, times: u32) -> u64 {
    let mut sum = 0u64;
    for _ in 0..times {
        sum = sum.wrapping_add(chain_all(depot, sites));
    }
    sum
}

/// The number of an origin of sixteen stores.
fn deep(depot: &mut Depot) -> u32 {
    let mut id = 1;
    for _ in 0..16 {
        if let Ok(next) = depot.chain(id, 0) {
            id = next;
        }
    }
    id
}

/// Follows a way so many times. Answers the sum of the lengths.
fn follow(depot: &Depot, id: u32, times: u32) -> u64 {
    let mut sum = 0u64;
    for _ in 0..times {
        if let Ok(way) = depot.trail(id) {
            sum = sum.wrapping_add(way.as_slice().len() as u64);
        }
    }
    sum
}

fn main(rt: HostRuntime) -> io::Result<()> {
    let mut words = env::args(&rt)?;
    let _name = words.next();
    let sites = words
        .next()
        .and_then(|word| word.parse::<u32>().ok())
        .unwrap_or(0);
    let times = words
        .next()
        .and_then(|word| word.parse::<u32>().ok())
        .unwrap_or(0);
    let ways = words
        .next()
        .and_then(|word| word.parse::<u32>().ok())
        .unwrap_or(0);
    let mut depot = Depot::new(rt.alloc(), 1);
    let end = deep(&mut depot);
    let chained = chain_again(&mut depot, sites, times);
    println!(rt; "{} {}", chained, follow(&depot, end, ways))?;
    Ok(())
}
PROGRAM

build depot_bench 10 1 1

spent() { instructions "$program" "$@"; }

base=$(spent 0 0 0)
for sites in 1000 1000000; do
    once=$(spent "$sites" 1 0)
    twice=$(spent "$sites" 2 0)
    awk -v n="$sites" -v base="$base" -v once="$once" -v twice="$twice" \
        'BEGIN { printf "%7d pairs: a new pair %7.1f, one that stands %7.1f\n", n, (once - base) / n, (twice - once) / n }'
done
awk -v base="$base" -v ways="$(spent 0 0 1000)" 'BEGIN { printf "a way of sixteen stores: %7.1f\n", (ways - base) / 1000 }'
