#!/bin/sh
# Runs the tests of the top call with threads over and over, while a loop keeps each processor busy, and says how often they passed.
# usage: bench/busy.sh [TIMES], by default 1,000. It builds and proves the tests first where that was not done, which takes minutes.
set -eu
times=${1:-1000}
root=$(cd "$(dirname "$0")/.." && pwd)
runner=$(dirname "$(rt doc)")/bin/rattle-test
program=$root/crates/dcpi_run_tests/out/dcpi_run_tests_tests
scratch=$(mktemp -d)
loops=
trap 'kill $loops 2>/dev/null || true; rm -rf "$scratch"' EXIT

if ! [ -x "$program" ]; then (cd "$root/crates/dcpi_run_tests" && rt test >"$scratch/build" 2>&1) || { cat "$scratch/build" >&2; exit 1; }; fi

for _ in $(seq "$(nproc)"); do
    while :; do :; done &
    loops="$loops $!"
done

passed=0
for round in $(seq "$times"); do
    if "$runner" --seconds 60 "$program" >"$scratch/last" 2>&1; then
        passed=$((passed + 1))
    else
        echo "round $round:"
        cat "$scratch/last"
    fi
done
echo "$(grep -c . "$scratch/last") lines in the last round, $passed of $times rounds passed beside $(nproc) busy loops"
[ "$passed" -eq "$times" ]
