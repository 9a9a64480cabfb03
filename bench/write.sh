#!/usr/bin/env bash
# Instructions per byte that `ms_write::write` takes, by callgrind, on texts of 256 KiB, 1 MiB, 4 MiB and 16 MiB.
#
# The program that calls it is made in a temporary repository, beside copies of this repository's crates.
# It makes a module in memory and writes it so many times: what one more time costs is counted.
# Wants `rt` and `valgrind`. Outside the gate.
source "$(dirname "$0")/frame.sh"

repository write_bench 'ms_bits ms_ir ms_write' 'ms_bits ms_lex ms_ir ms_text_grammar ms_write_values ms_write' <<'PROGRAM'
//! Makes a module in memory and writes it so many times.
#![tactic(auto)]

use ms_bits::{BinOp, Bytes, Flags, List, NoMemory};
use ms_ir::{Block, Func, GlobalVar, Init, Inst, Module, Name, Op, Operand, Ty};
use ms_write::write;
use std::alloc::Global;
use std::env;
use std::io;

fn text(alloc: Global, bytes: &[u8]) -> Result<Name, NoMemory> {
    Ok(Name::Text(Bytes::from_vec(Vec::from_slice(alloc, bytes)?)))
}

/// `%7 = add nsw i32 %5, -2`, which may be marked.
fn sum(number: u32, marked: bool) -> Inst {
    let flags = Flags { nuw: false, nsw: true, exact: false, disjoint: false, nneg: false, samesign: false };
    let op = Op::Binary {
        op: BinOp::Add,
        flags,
        ty: Ty::Int(32),
        a: Operand::Local(Name::Number(number)),
        b: Operand::Int(4294967294),
    };
    Inst { op, result: Some(Name::Number(number.saturating_add(1))), marked }
}

/// `store ptr @.str, ptr %"a b"`.
fn store(alloc: Global) -> Result<Inst, NoMemory> {
    let op = Op::Store {
        ty: Ty::Ptr,
        value: Operand::Global(text(alloc, b".str")?),
        addr: Operand::Local(text(alloc, b"a b")?),
    };
    Ok(Inst { op, result: None, marked: false })
}

/// A function of seven instructions.
fn func(alloc: Global, number: u32) -> Result<Func, NoMemory> {
    let mut insts = Vec::new(alloc);
    for k in 1..6u32 {
        insts.push(sum(k, k == 3))?;
    }
    insts.push(store(alloc)?)?;
    insts.push(Inst { op: Op::Ret { value: None }, result: None, marked: false })?;
    let block = Block { name: Name::Number(0), insts: List::from_vec(insts) };
    let mut params = Vec::new(alloc);
    params.push((Ty::Ptr, text(alloc, b"a b")?))?;
    Ok(Func {
        name: Name::Number(number),
        ret: None,
        params: List::from_vec(params),
        blocks: List::from_vec(vec![in alloc; block]?),
    })
}

/// So many functions, and as many bytes of a string.
fn module(alloc: Global, count: u32) -> Result<Module, NoMemory> {
    let mut funcs = Vec::new(alloc);
    let mut bytes = Vec::new(alloc);
    for number in 0..count {
        bytes.push((number % 256) as u8)?;
        funcs.push(func(alloc, number)?)?;
    }
    let global = GlobalVar {
        name: text(alloc, b".str")?,
        constant: true,
        ty: Ty::Ptr,
        init: Init::Text(Bytes::from_vec(bytes)),
    };
    Ok(Module {
        types: List::from_vec(Vec::new(alloc)),
        globals: List::from_vec(vec![in alloc; global]?),
        decls: List::from_vec(Vec::new(alloc)),
        funcs: List::from_vec(funcs),
    })
}

fn main(rt: HostRuntime) -> io::Result<()> {
    let mut words = env::args(&rt)?;
    let _name = words.next();
    let count = words.next().and_then(|word| word.parse::<u32>().ok()).unwrap_or(0);
    let times = words.next().and_then(|word| word.parse::<u32>().ok()).unwrap_or(0);
    let m = module(rt.alloc(), count)?;
    for _ in 0..times {
        let written = write(rt.alloc(), &m)?;
        println!(rt; "{}", written.len())?;
    }
    Ok(())
}
PROGRAM

build write_bench 4 1

for count in 1180 4700 18800 75200; do
    size=$("$program" "$count" 1)
    once=$(instructions "$program" "$count" 1)
    twice=$(instructions "$program" "$count" 2)
    awk -v size="$size" -v spent="$((twice - once))" \
        'BEGIN { printf "%9d bytes %12d instructions %8.3f a byte\n", size, spent, spent / size }'
done
