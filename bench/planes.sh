#!/usr/bin/env bash
# Instructions that `ms_planes::Planes` takes to read a word of 8 bytes and its shadow and to write it, where the access is good or not, with 10, 10,000 and 1,000,000
# live allocations, and what poisoning, setting and copying take for each byte.
#
# The program that calls it is made in a temporary repository, beside copies of this repository's crates.
# Wants `rt`, `python3` and `valgrind`. Outside the gate.
source "$(dirname "$0")/frame.sh"

repository planes_bench 'ms_alloc ms_planes' 'ms_bits ms_alloc ms_raw ms_planes' <<'PROGRAM'
//! Makes so many heap blocks of 16 bytes, and then reads, writes, poisons or copies.
#![tactic(auto)]

use ms_alloc::AllocKind;
use ms_planes::Planes;
use std::env;
use std::io;

const HEAP: u64 = 0x7100_0000_0000;

/// So many blocks of so many bytes.
fn fill(planes: &mut Planes, count: u64, size: u64) -> bool {
    for _ in 0..count {
        if planes.make(AllocKind::Heap, size).is_err() {
            return false;
        }
    }
    true
}

/// An address of a block, chosen by a number.
fn chosen(place: u64, count: u64) -> u64 {
    HEAP + 16 * ((place >> 33) % count.max(1)) % 0x10000000
}

/// Reads words all over the blocks, then so many times their shadow, writes them so many times, and sums what is read.
fn access(planes: &mut Planes, count: u64, times: u64, shadows: u64, writes: u64) -> u64 {
    let mut sum = 0u64;
    let mut place = 0u64;
    for _ in 0..times {
        place = place.wrapping_mul(6364136223846793005).wrapping_add(1442695040888963407);
        let addr = chosen(place, count);
        sum = sum.wrapping_add(planes.read(addr, 8).unwrap_or(0));
        for _ in 0..shadows {
            sum = sum.wrapping_add(planes.read_shadow(addr, 8).unwrap_or(0));
        }
        for _ in 0..writes {
            if planes.write(addr, 8, sum) {
                sum = sum.wrapping_add(1);
            }
        }
    }
    sum
}

/// Poisons, and then copies, all but the last bytes of the first block.
fn sweep(planes: &mut Planes, size: u64, times: u64) -> bool {
    for _ in 0..times {
        if planes.covers(HEAP, size) {
            planes.poison(HEAP, size, 255, 7);
        }
        if planes.covers(HEAP, size / 2) && planes.covers(HEAP + 4, size / 2) {
            if planes.copy_shadow(HEAP + 4, HEAP, size / 2).is_err() {
                return false;
            }
        }
    }
    true
}

/// Sets all bytes of the first block with their shadow, as `memset` does.
fn set(planes: &mut Planes, size: u64, times: u64) {
    for _ in 0..times {
        if planes.covers(HEAP, size) {
            planes.fill_bytes(HEAP, size, 7);
            planes.unpoison(HEAP, size);
        }
    }
}

/// Copies all bytes of the first block, a multiple of 16, with their shadow to the second, as `memcpy` does.
fn copy(planes: &mut Planes, size: u64, times: u64) -> bool {
    let second = HEAP.wrapping_add(size);
    for _ in 0..times {
        if planes.covers(HEAP, size) && planes.covers(second, size) {
            if planes.copy_bytes(second, HEAP, size).is_err() || planes.copy_shadow(second, HEAP, size).is_err() {
                return false;
            }
        }
    }
    true
}

fn main(rt: HostRuntime) -> io::Result<()> {
    let mut words = env::args(&rt)?;
    let _name = words.next();
    let count = words.next().and_then(|word| word.parse::<u64>().ok()).unwrap_or(0);
    let size = words.next().and_then(|word| word.parse::<u64>().ok()).unwrap_or(0);
    let reads = words.next().and_then(|word| word.parse::<u64>().ok()).unwrap_or(0);
    let shadows = words.next().and_then(|word| word.parse::<u64>().ok()).unwrap_or(0);
    let sweeps = words.next().and_then(|word| word.parse::<u64>().ok()).unwrap_or(0);
    let sets = words.next().and_then(|word| word.parse::<u64>().ok()).unwrap_or(0);
    let copies = words.next().and_then(|word| word.parse::<u64>().ok()).unwrap_or(0);
    let writes = words.next().and_then(|word| word.parse::<u64>().ok()).unwrap_or(0);
    let mut planes = Planes::new(rt.alloc());
    let size = size % 0x10000000;
    let made = fill(&mut planes, count, size);
    let sum = access(&mut planes, count, reads, shadows, writes);
    let swept = sweep(&mut planes, size, sweeps);
    set(&mut planes, size, sets);
    let copied = copy(&mut planes, size, copies);
    println!(rt; "{made} {sum} {swept} {copied}")?;
    Ok(())
}
PROGRAM

build planes_bench 1 16 1 1 1

for blocks in 10 10000 1000000; do
    none=$(instructions "$program" "$blocks" 16 0 0 0)
    read=$(instructions "$program" "$blocks" 16 100000 0 0)
    both=$(instructions "$program" "$blocks" 16 100000 1 0)
    written=$(instructions "$program" "$blocks" 16 100000 0 0 0 0 1)
    echo "$blocks blocks: $(python3 -c "print(f'{($read - $none) / 100000:.1f} instructions to read a word, with the loop that asks, {($both - $read) / 100000:.1f} more to read its shadow, {($written - $read) / 100000:.1f} more to write it')")"
done
none=$(instructions "$program" 1 1048576 0 0 0)
some=$(instructions "$program" 1 1048576 0 0 16)
echo "poison of 1 MiB and copy of the shadow of half of it: $(python3 -c "print(f'{($some - $none) / 16 / 1048576:.2f}')") instructions a byte"
none=$(instructions "$program" 2 1048576 0 0 0 0 0)
set=$(instructions "$program" 2 1048576 0 0 0 16 0)
copy=$(instructions "$program" 2 1048576 0 0 0 0 16)
marked=$(instructions "$program" 2 1048576 0 0 1 0 0)
both=$(instructions "$program" 2 1048576 0 0 1 0 16)
echo "1 MiB set with its shadow: $(python3 -c "print(f'{($set - $none) / 16 / 1048576:.2f}')") instructions a byte; copied with its shadow to another block: $(python3 -c "print(f'{($copy - $none) / 16 / 1048576:.2f}')") where it is clean, $(python3 -c "print(f'{($both - $marked) / 16 / 1048576:.2f}')") where it is poisoned"
