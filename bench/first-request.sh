#!/usr/bin/env bash
# Shows that a block asks for memory once: where the first request is refused `ms_raw::Block::new(8)` answers `NoMemory`, and where only
# a second one would be refused it answers a block, so that it never makes a second one.
#
# The test that calls it is made in a temporary repository, beside a copy of this repository's crate.
# Wants `rt`. Outside the gate.
source "$(dirname "$0")/frame.sh"

mkdir -p "$work/crates/one_block/src"
cp -r "$top/crates/ms_raw" "$work/crates/ms_raw"
rm -rf "$work/crates/ms_raw/out" "$work/crates/ms_raw/must-fail"
grep "^ms_raw:" "$top/crates.txt" >"$work/crates.txt"
echo "one_block: ms_raw" >>"$work/crates.txt"
cat >"$work/crates/one_block/src/lib.rt" <<'TESTS'
//! A block of 8 bytes, made once.
#![tactic(auto)]

#[cfg(test)]
mod tests {
    use ms_raw::Block;
    use std::test::Fail;

    #[test]
    fn a_block_is_made(rt: HostRuntime) -> Result<(), Fail> {
        assert!(rt; Block::new(rt.alloc(), 8).is_ok());
        Ok(())
    }

    #[test]
    fn a_block_is_refused(rt: HostRuntime) -> Result<(), Fail> {
        assert!(rt; Block::new(rt.alloc(), 8).is_err());
        Ok(())
    }
}
TESTS

cd "$work/crates/one_block"

# Runs the tests where the n-th request for memory is refused, and wants one to pass and the other to fail.
wants() { # n, the test that passes, the test that fails
    rt try --test --fail-alloc "$1" >"$work/log" 2>&1 || true
    if grep -q "^test .*$2 \.\.\. ok" "$work/log" && grep -q "^test .*$3 \.\.\. FAILED" "$work/log"; then
        echo "request $1 refused: $2"
    else
        cat "$work/log" >&2
        exit 1
    fi
}

wants 1 a_block_is_refused a_block_is_made
wants 2 a_block_is_made a_block_is_refused
