#!/usr/bin/env bash
# Runs each test that meets at a gate a hundred times, on two processors with a busy loop on each of them, and counts those that pass.
# Needs taskset, and the tests as `rt test` built them: (cd crates/ms_top_tests && rt test). Outside the gate.
source "$(dirname "$0")/frame.sh"

tests=$top/crates/ms_top_tests/out/ms_top_tests_tests
[ -x "$tests" ] || { echo "build them first: (cd crates/ms_top_tests && rt test)" >&2; exit 1; }

loops=()
for processor in 0 1; do
    taskset -c "$processor" sh -c 'while :; do :; done' &
    loops+=($!)
done
trap 'kill "${loops[@]}"; rm -rf "$work"' EXIT

for name in $("$tests" --list | grep -o 'meetings::two_[a-z_]*'); do
    passed=0
    for ((run = 0; run < 100; run++)); do
        if taskset -c 0,1 "$tests" "$name" >/dev/null 2>&1; then passed=$((passed + 1)); fi
    done
    echo "$name: $passed of 100"
done
