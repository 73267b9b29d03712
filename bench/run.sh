#!/bin/sh
# Runs a recording into a new folder by threads, with `dcpi run` at both paces, and replays it, five times each in turn. Prints the best
# time of each, how many times as fast as the replay each pace was, and in how many runs at the free pace how many samples were lost.
# usage: bench/run.sh [RECORDING [COPIES] | made], by default the recording of a shell script on four processors in examples/, its samples
# repeated up to 2,000,000. With COPIES the samples of a recording are repeated so many times, each processor's in their order, up to
# 2,000,000 of them. `made` is the made trace of 2,000,000 samples on four processors (`dcpi make 7 2000000 --trace`), of which nearly all go
# past the tables.
set -eu
scratch=$(mktemp -d)
trap 'rm -rf "$scratch"' EXIT
. "$(dirname "$0")/beside.sh"
build_dcpi

if [ "${1:-}" = made ]; then
    recording=$scratch/made.trace
    "$dcpi" make 7 2000000 --trace >"$recording"
else
    given=${1:-$root/examples/shell-script.trace}
    recording=$(cd "$(dirname "$given")" && pwd)/$(basename "$given")
    copies=${2:-1}
    if [ $# -eq 0 ]; then copies=$((2000000 / $(grep -c '^s ' "$recording") + 1)); fi
    if [ "$copies" -gt 1 ]; then repeat_samples "$copies"; fi
fi
samples=$(awk '$1 == "s" { n++ } END { print n + 0 }' "$recording")

replay=999999999
free=999999999
exact=999999999
for round in 1 2 3 4 5; do
    rm -rf "$scratch/replay" "$scratch/free" "$scratch/exact"
    mkdir "$scratch/replay" "$scratch/free" "$scratch/exact"
    run_once "$scratch/replay.out" "$dcpi" replay "$scratch/replay"
    replay=$(smaller "$replay" "$took")
    run_once "$scratch/free.$round" "$dcpi" run "$scratch/free" --pace free
    free=$(smaller "$free" "$took")
    run_once "$scratch/exact.$round" "$dcpi" run "$scratch/exact" --pace exact
    exact=$(smaller "$exact" "$took")
done

echo "samples  $samples; load $(uptime | sed 's/.*average: *//')"
awk -v replay="$replay" -v free="$free" -v exact="$exact" 'BEGIN {
    printf "replay   %.1f ms\n", replay / 1000
    printf "free     %.1f ms, %.2f times as fast\n", free / 1000, replay / free
    printf "exact    %.1f ms, %.2f times as fast\n", exact / 1000, replay / exact
}'
tail -q -n 1 "$scratch"/free.? | awk '{ lost += $NF; runs += $NF > 0 } END { printf "free     lost %d samples in %d of %d runs\n", lost, runs, NR }'
tail -q -n 1 "$scratch"/exact.? | awk '{ lost += $NF } END { printf "exact    lost %d samples in %d runs\n", lost, NR; exit lost > 0 }'
"$dcpi" plain <"$recording" >"$scratch/plain"
"$dcpi" cat "$scratch/exact" | cmp - "$scratch/plain" && echo "exact    counts as plain does, byte for byte"
